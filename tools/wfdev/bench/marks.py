"""Pages that people write and in which a script writes a part, between two marks."""


class NoMarks(Exception):
    """A page lacks its two marks."""


def begin(name: str) -> str:
    """Returns the line before the part."""
    return f"<!-- begin {name} -->\n"


def end(name: str) -> str:
    """Returns the line after the part."""
    return f"<!-- end {name} -->\n"


def into(page: str, name: str, text: str) -> str:
    """Returns the page with this text between its marks."""
    before, opened, rest = page.partition(begin(name))
    _, closed, after = rest.partition(end(name))
    if not opened or not closed:
        raise NoMarks(f"the page lacks the two lines {begin(name).strip()} and {end(name).strip()}")
    return f"{before}{begin(name)}\n{text}{end(name)}{after}"

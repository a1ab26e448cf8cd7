"""Damages texts of lines, so that most of them have a fault."""
import random
from collections.abc import Callable, Sequence

NUMBERS = "0 1 -1 +1 00 01 255 256 4095 4096 65535 65536 4294967295 4294967296".split()
NUMBERS += "9999999999 10000000000 1e3 0x1 1.0".split()
LINES = (b"", b" ", b"#", b"  # a comment", b"cell", b"end", b"@5", b"@", b"@5 end", b"@7 cell", b"@x tick 5")
OCTETS = (0, 9, 10, 13, 31, 32, 35, 61, 64, 126, 127, 128, 255)
LENGTHS = (158, 159, 160, 161, 162, 400)
Lines = list[bytes]


def edit_words(draw: random.Random, lines: Lines, words_of: Sequence[str]) -> None:
    """Replaces, adds, doubles or removes a word of a line."""
    at = draw.randrange(len(lines))
    words = lines[at].decode("latin-1").split(" ")
    place = draw.randrange(len(words))
    old = words[place]
    new = draw.choice((draw.choice(NUMBERS), draw.choice(words_of), old.upper(), old[:-1], old + "x"))
    how = draw.randrange(5)
    if how == 0:
        del words[place]
    elif how == 1:
        words.insert(place, words[place])
    elif how == 2:
        words.insert(draw.randrange(len(words) + 1), new)
    else:
        words[place] = new
    lines[at] = " ".join(words).encode("latin-1")


def edit_octets(draw: random.Random, lines: Lines) -> None:
    """Changes, adds or removes an octet of a line."""
    at = draw.randrange(len(lines))
    line = bytearray(lines[at])
    place = draw.randrange(len(line) + 1)
    octet = draw.choice((*OCTETS, draw.randrange(256)))
    line[place : place + draw.randrange(2)] = bytes([octet]) * draw.randrange(2)
    lines[at] = bytes(line)


def lengthen(draw: random.Random, lines: Lines) -> None:
    """Brings a line near the greatest length, by spaces or as a comment."""
    at = draw.randrange(len(lines))
    begin = draw.choice((lines[at], b"#", b" # x", b""))
    lines[at] = begin.ljust(draw.choice(LENGTHS), draw.choice((b" ", b"x")))


def edit_lines(draw: random.Random, lines: Lines) -> None:
    """Removes, doubles, moves or adds a line, or joins two."""
    at, other = draw.randrange(len(lines)), draw.randrange(len(lines))
    how = draw.randrange(6)
    if how == 0 and len(lines) > 1:
        del lines[at]
    elif how == 1:
        lines.insert(other, lines[at])
    elif how == 2:
        lines[at], lines[other] = lines[other], lines[at]
    elif how == 3:
        lines.insert(at, draw.choice(LINES))
    elif how == 4:
        lines[at : at + 2] = [b" ".join(lines[at : at + 2])]
    else:
        lines[at] = b"  " + lines[at].replace(b" ", b"   ") + b" "


def damaged(draw: random.Random, octets: bytes) -> bytes:
    """Returns a text with a few changes, which may be cut."""
    lines = octets.removesuffix(b"\n").split(b"\n")
    words = sorted({word.decode("latin-1") for line in lines for word in line.split(b" ") if word})
    edits: list[Callable[[], None]] = [
        lambda: edit_words(draw, lines, words),
        lambda: edit_words(draw, lines, words),
        lambda: edit_octets(draw, lines),
        lambda: lengthen(draw, lines),
        lambda: edit_lines(draw, lines),
    ]
    for _ in range(draw.choice((1, 1, 2, 3))):
        draw.choice(edits)()
    text = b"\n".join(lines) + draw.choice((b"\n", b"\n", b"", b"\n\n", b"\nx\xff"))
    return text[: draw.randrange(len(text) + 1)] if draw.random() < 0.15 else text

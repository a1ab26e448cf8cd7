"""Delta debugging: finds a short text that still has a difference, by leaving out lines."""
import time
from collections.abc import Callable, Sequence

SECONDS = 120
Differs = Callable[[bytes], bool]


def joined(lines: Sequence[bytes]) -> bytes:
    """Returns a text of these lines."""
    return b"\n".join(lines)


def shortest_front(lines: list[bytes], differs: Differs) -> list[bytes]:
    """Returns a short front of the lines that differs."""
    least, most = 0, len(lines)
    while least < most:
        middle = (least + most) // 2
        if differs(joined([*lines[:middle], b""])):
            most = middle
        else:
            least = middle + 1
    front = [*lines[:most], b""]
    return front if differs(joined(front)) else lines


def without_parts(lines: list[bytes], differs: Differs, until: float) -> list[bytes]:
    """Leaves out parts of the lines, from halves to single lines, as long as there is time."""
    size = len(lines) // 2
    while size and time.monotonic() < until:
        at, before = 0, len(lines)
        while at < len(lines) and time.monotonic() < until:
            less = lines[:at] + lines[at + size :]
            if differs(joined(less)):
                lines = less
            else:
                at += size
        if size > 1 or len(lines) == before:
            size //= 2
    return lines


def shortest(octets: bytes, differs: Differs, seconds: float = SECONDS) -> bytes:
    """Returns the shortest text that it finds within these seconds."""
    lines = shortest_front(octets.split(b"\n"), differs)
    return joined(without_parts(lines, differs, time.monotonic() + seconds))

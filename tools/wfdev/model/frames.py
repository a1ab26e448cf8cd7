"""Frames, their fates, the access classes and their TIDs: MACHINE.md, The parts."""
import enum
from dataclasses import dataclass

TIDS = 8
NUMBERS = 4096


class Class(enum.StrEnum):
    """An access class, in the order of the summary."""

    BK = "bk"
    BE = "be"
    VI = "vi"
    VO = "vo"


class Fate(enum.StrEnum):
    """The fate of a frame."""

    HELD = "held"
    ACKED = "acked"
    OVERLIMIT = "overlimit"
    CODEL = "codel"
    RETRIES = "retries"
    LEFT = "left"
    FLUSHED = "flushed"
    ENDED = "ended"


CLASS_TIDS = {Class.BK: (1, 2), Class.BE: (0, 3), Class.VI: (4, 5), Class.VO: (6, 7)}
CLASS_OF = {tid: one for one, tids in CLASS_TIDS.items() for tid in tids}


@dataclass
class Frame:
    """An accepted frame: the octets of its body, the clock when it was accepted, and its flow."""

    id: int
    length: int
    stamp: int
    flow: int
    fate: Fate = Fate.HELD

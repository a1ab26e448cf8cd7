"""The TIM element (IEEE 802.11-2012, 8.4.2.7): MACHINE.md, Power save."""
from collections.abc import Collection

ELEMENT = 5


def tim(aids: Collection[int], count: int = 0, period: int = 1, announced: bool = False) -> bytes:
    """Returns the element with the bits of these AIDs, without the octets of zeros at both ends.

    An even number of octets is left out in front, and one octet is always there. `announced` is the bit of group
    frames.
    """
    bits = sum(1 << aid for aid in aids)
    octets = bits.to_bytes(max(1, (bits.bit_length() + 7) // 8), "little")
    front = next((at for at, octet in enumerate(octets) if octet), 0) // 2 * 2
    shown = octets[front:]
    return bytes([ELEMENT, 3 + len(shown), count, period, front + announced]) + shown

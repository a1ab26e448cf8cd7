"""The quality of a voice call, by the E-model of ITU-T G.107 in its simplified form: a rating R, and the mean opinion score (MOS).

R is STANDARD_RATING less an impairment by delay and one by loss. The constants are written down from memory of their sources, which this
repository has no copy of; no script compares them:
- 93.2, R with all parameters of G.107 at their default values: ITU-T G.107, table 3 and its note.
- 0.024, 0.11 and 177.3 ms: the impairment by delay, fitted to that of G.107 by R. G. Cole and J. H. Rosenbluth, "Voice over IP performance
  monitoring", ACM SIGCOMM CCR 31(2), 2001, section 2.
- 95: the effective equipment impairment, Ie + (95 - Ie) Ppl / (Ppl + Bpl): ITU-T G.107, section 7.5, with bursts left out.
- Ie 0 and Bpl 25.1: G.711 with the packet-loss concealment of its appendix I, at random losses: ITU-T G.113, appendix I.
- MOS of R: ITU-T G.107, annex B.
"""
from __future__ import annotations

from bisect import bisect_right
from collections.abc import Sequence

STANDARD_RATING = 93.2
LONG_DELAY = 177.3  # ms
ROBUSTNESS = 25.1  # packet-loss robustness of G.711 with concealment
PACKET = 20.0  # ms of voice in a packet, which the sender collects first
CANDIDATES = range(50, 101)  # percentiles of the delay that the playout delay is chosen from


def rating(delay: float, loss: float) -> float:
    """The rating for a delay in ms from mouth to ear, and a share of packets that are lost at random."""
    by_delay = 0.024 * delay + (0.11 * (delay - LONG_DELAY) if delay > LONG_DELAY else 0.0)
    by_loss = 95 * 100 * loss / (100 * loss + ROBUSTNESS)
    return STANDARD_RATING - by_delay - by_loss


def mos(value: float) -> float:
    """The mean opinion score of a rating (G.107, annex B)."""
    if value <= 0:
        return 1.0
    if value >= 100:
        return 4.5
    return max(1.0, 1 + 0.035 * value + value * (value - 60) * (100 - value) * 7e-6)


def score(delays: Sequence[int], dropped: int, rest: int) -> float:
    """The best score of a call for any playout delay.

    `delays` are sorted microseconds of the packets that arrived, `dropped` is the number of the others, and `rest` the microseconds of
    the path that are not simulated. A packet that arrives after its playout is lost.
    """
    total = len(delays) + dropped
    if not delays:
        return 1.0
    best = 0.0
    for percent in CANDIDATES:
        wait = delays[max(0, -(-len(delays) * percent // 100) - 1)]
        lost = 1 - bisect_right(delays, wait) / total
        best = max(best, rating(PACKET + (rest + wait) / 1000, lost))
    return mos(best)

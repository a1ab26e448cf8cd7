"""Means of repeated runs with their 95 % confidence intervals, by Student's t distribution."""
from __future__ import annotations

import math
from collections.abc import Iterable
from dataclasses import dataclass

# The 0.975 quantiles of Student's t distribution for 1 to 30 degrees of freedom.
QUANTILES = (
    *(12.706, 4.303, 3.182, 2.776, 2.571, 2.447, 2.365, 2.306, 2.262, 2.228),
    *(2.201, 2.179, 2.160, 2.145, 2.131, 2.120, 2.110, 2.101, 2.093, 2.086),
    *(2.080, 2.074, 2.069, 2.064, 2.060, 2.056, 2.052, 2.048, 2.045, 2.042),
)
MORE_QUANTILES = ((120, 1.980), (60, 2.000), (40, 2.021))  # from this many degrees of freedom


@dataclass(frozen=True)
class Interval:
    """A mean, half the width of its interval (NaN for fewer than two values), and the number of values."""

    mean: float
    half: float
    count: int

    def text(self, digits: int, factor: float = 1.0) -> str:
        """The mean and the half width after multiplication; `-` if there is no value."""
        if math.isnan(self.mean):
            return "-"
        mean = f"{factor * self.mean:.{digits}f}"
        return mean if math.isnan(self.half) else f"{mean} ±{factor * self.half:.{digits}f}"


def quantile(freedom: int) -> float:
    """The 0.975 quantile. Between two entries of the table it is the greater one, so that no interval is too narrow."""
    if freedom <= len(QUANTILES):
        return QUANTILES[freedom - 1]
    return next((value for least, value in MORE_QUANTILES if freedom >= least), QUANTILES[-1])


def interval(values: Iterable[float | None]) -> Interval:
    """The interval of some values. None and NaN are left out."""
    found = [value for value in values if value is not None and not math.isnan(value)]
    count = len(found)
    if not count:
        return Interval(math.nan, math.nan, 0)
    mean = math.fsum(found) / count
    if count == 1:
        return Interval(mean, math.nan, 1)
    variance = math.fsum((value - mean) ** 2 for value in found) / (count - 1)
    return Interval(mean, quantile(count - 1) * math.sqrt(variance / count), count)

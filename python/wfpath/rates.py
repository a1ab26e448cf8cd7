"""The rates of data to a station."""
from __future__ import annotations

from typing import NamedTuple

from ._tables import Form


class Rate(NamedTuple):
    """A rate: `ht`, `vht`, `he`, `ofdm` and `dsss` make one. The machine checks it when it is set (BadRate)."""

    form: Form
    mcs: int
    mhz: int
    short_guard: bool = False
    streams: int = 1
    guard: int = 800
    speed: int = 0

    @classmethod
    def ht(cls, mcs: int, mhz: int = 20, short_guard: bool = False) -> Rate:
        """A rate of HT: MCS 0 to 15, on 20 or 40 MHz. The MCS says the streams."""
        return cls(Form.HT, mcs, mhz, short_guard)

    @classmethod
    def vht(cls, mcs: int, mhz: int = 80, streams: int = 1, short_guard: bool = False) -> Rate:
        """A rate of VHT: MCS 0 to 9, on 20, 40, 80 or 160 MHz, with 1 to 8 streams."""
        return cls(Form.VHT, mcs, mhz, short_guard, streams)

    @classmethod
    def he(cls, mcs: int, mhz: int = 80, streams: int = 1, guard: int = 800) -> Rate:
        """A rate of HE: MCS 0 to 11, on 20, 40, 80 or 160 MHz, with 1 to 8 streams; a guard interval of 800,
        1600 or 3200 ns."""
        return cls(Form.HE, mcs, mhz, False, streams, guard)

    @classmethod
    def ofdm(cls, mbps: int) -> Rate:
        """A rate of OFDM: 6, 9, 12, 18, 24, 36, 48 or 54 Mbit/s. The setting `legacy` has to be 1 or 2."""
        return cls(Form.OFDM, 0, 0, speed=mbps)

    @classmethod
    def dsss(cls, half_mbps: int) -> Rate:
        """A rate of DSSS: 2, 4, 11 or 22 half Mbit/s. The setting `legacy` has to be 2."""
        return cls(Form.DSSS, 0, 0, speed=half_mbps)

    def __str__(self) -> str:
        """The rate as the words of a trace."""
        guard = "short" if self.short_guard else "long"
        if self.form == Form.HT:
            return f"{self.mcs} {self.mhz} {guard}"
        if self.form == Form.VHT:
            return f"vht {self.mcs} {self.mhz} {guard} {self.streams}"
        if self.form == Form.HE:
            return f"he {self.mcs} {self.mhz} {self.guard} {self.streams}"
        return f"{self.form.name.lower()} {self.speed}"

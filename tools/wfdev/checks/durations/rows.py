"""The rows of durations.d, and how they compare with the model of sim/rates.py."""
import csv
from collections.abc import Iterator
from dataclasses import dataclass

from sim.rates import TRAINING_FIELDS, MimoRate
from wfdev.harness.script import Script

SCRIPT = Script("durations")
GREATEST_HT_MCS = 15  # the machine has no HT rate above it
CAUSES = {"sig-b", "short", "training", "whole", "bits"}


@dataclass(frozen=True)
class Row:
    """A row: its file and line, the rate, the octets, kbit/s, the time in microseconds, ns-3's in nanoseconds, and the difference.

    `why` has the causes of the difference.
    """

    place: str
    rate: MimoRate
    octets: int
    kbps: int
    us: int
    ns3_ns: int
    more_ns: int
    why: frozenset[str]

    @property
    def words(self) -> str:
        """The row as the small program reads it."""
        rate = self.rate
        return f"{rate.format} {rate.mcs} {rate.mhz} {rate.guard} {rate.streams} {self.octets}\n"

    @property
    def is_of_machine(self) -> bool:
        """Whether the machine has the rate."""
        return self.rate.format != "ht" or self.rate.mcs <= GREATEST_HT_MCS

    @property
    def wanted(self) -> str:
        """The answer that the small program has to give."""
        return f"{self.kbps} {self.us}" if self.is_of_machine else "none"


def row_of(place: str, cells: dict[str, str]) -> Row:
    """Returns a row of a file."""
    number = {name: int(text) for name, text in cells.items() if text.isdecimal()}
    return Row(
        place=place,
        rate=MimoRate(cells["format"], number["mcs"], number["mhz"], number["guard_ns"], number["streams"]),
        octets=number["octets"],
        kbps=number["kbps"],
        us=number["us"],
        ns3_ns=number["ns3_ns"],
        more_ns=int(cells["more_ns"]),
        why=frozenset(filter(None, cells["why"].split("+"))),
    )


def read() -> Iterator[Row]:
    """Yields the rows of all files."""
    for path in sorted(SCRIPT.folder.glob("*.csv")):
        with open(path, encoding="utf-8", newline="") as file:
            for number, cells in enumerate(csv.DictReader(file), 2):
                yield row_of(f"{path.name}:{number}", cells)


def symbols_with_fractions(rate: MimoRate, octets: int) -> int:
    """Returns how many symbols there are if a fraction of a bit is kept."""
    symbols: int = -(-rate.payload(octets) * 12 // rate.bits_of_all_twelves)
    return symbols


def causes(rate: MimoRate, octets: int) -> dict[str, int]:
    """Returns by how many nanoseconds each cause makes the time longer than ns-3's."""
    found: dict[str, int] = {}
    payload = rate.symbol * rate.symbols(octets)
    if rate.format == "vht":
        found["sig-b"] = 4000
    if rate.format != "he":
        found["short"] = 100 * (-(-payload // 40) * 40 - payload)
    else:
        found["training"] = 100 * (rate.training - 80) * TRAINING_FIELDS[rate.streams - 1]
        found["whole"] = 1000 * rate.data_time(octets) - 100 * rate.tenths(octets)
        found["bits"] = 100 * rate.symbol * (rate.symbols(octets) - symbols_with_fractions(rate, octets))
    return {cause: more for cause, more in found.items() if more}


def faults(row: Row) -> Iterator[str]:
    """Yields what of a row differs from the model."""
    time, why = row.rate.data_time(row.octets), causes(row.rate, row.octets)
    compared = {
        "kbps": (row.rate.kbit, row.kbps),
        "us": (time, row.us),
        "more_ns": (1000 * time - row.ns3_ns, row.more_ns),
        "the sum of the causes": (sum(why.values()), row.more_ns),
    }
    for name, (worked_out, said) in compared.items():
        if worked_out != said:
            yield f"{row.place}: by the model {name} is {worked_out}; the row has {said}"
    if not row.why <= CAUSES:
        yield f"{row.place}: there is no cause {' '.join(sorted(row.why - CAUSES))}"

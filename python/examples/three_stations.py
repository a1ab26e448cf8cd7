"""Drives three stations over a lossy link through a path, and prints their shares of the airtime.

Station 0 is fast, station 1 is slow, and station 2 has weight 2. Each always has frames waiting, so they
share the airtime by weight.
"""
from __future__ import annotations

import random

from wfpath import AccessClass, Exchange, Path, Rate

BE = AccessClass.BE
QUEUED, EXCHANGES, OCTETS = 64, 2000, 1500
STATIONS = [("fast", Rate.ht(7), 1), ("slow", Rate.ht(0), 1), ("heavy", Rate.ht(7), 2)]


def send(path: Path, exchange: Exchange, numbers: random.Random) -> None:
    """Sends an exchange: one of 16 frames is lost, and one of 16 BlockAcks."""
    start = exchange.start if exchange.request else exchange.numbers[0]
    bits = 0
    for number in exchange.numbers:
        if numbers.randrange(16):
            bits |= 1 << (number - start) % 4096
    path.tick(exchange.air)
    if numbers.randrange(16):
        path.done_bits(exchange.number, start, bits)
    else:
        path.done_lost(exchange.number)


def main() -> None:
    """Runs the stations, and prints their shares."""
    numbers = random.Random(1)
    octets = [0] * len(STATIONS)
    with Path(stations=len(STATIONS), inflight=1) as path:
        for station, (_, rate, weight) in enumerate(STATIONS):
            path.join(station, weight=weight)
            path.set_rate(station, rate)
        for _ in range(EXCHANGES):
            for station in range(len(STATIONS)):
                while path.queued(station, 0) < QUEUED:
                    path.enqueue(station, OCTETS)
            send(path, path.pull(BE), numbers)
            for frame in path.reap_all():
                octets[frame.station] += frame.length if frame.fate.word == "acked" else 0
        shares = [path.share(station, BE).charged for station in range(len(STATIONS))]
        for (name, rate, weight), share, count in zip(STATIONS, shares, octets):
            airtime, speed = 100 * share / sum(shares), 8 * count / path.now
            print(f"{name}: weight {weight}, MCS {rate.mcs}: {airtime:.1f} % of the airtime, {speed:.2f} Mbit/s")


if __name__ == "__main__":
    main()

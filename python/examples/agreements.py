"""Sends the frames of a station without agreements one at a time, and begins an agreement under traffic."""
from __future__ import annotations

from wfpath import AccessClass, Path

with Path(stations=1, inflight=1) as path:
    path.plain(0)
    for _ in range(4):
        path.enqueue(0, 400)

    exchange = path.pull(AccessClass.BE)
    print(exchange)
    start = path.hold(0, tid=0)
    print(path.done_ack(exchange.number, acked=False))
    while not path.drained(0, tid=0):
        exchange = path.pull(AccessClass.BE)
        print(exchange)
        print(path.done_ack(exchange.number, acked=True))

    print("ADDBA request with start", start)
    path.begin(0, tid=0, window=64)
    print(path.pull(AccessClass.BE))

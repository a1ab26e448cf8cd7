"""Makes some calls of a cell, and writes the trace of its history: `python3 cell_trace.py >calls && ./wf
replay calls`."""
from __future__ import annotations

from wfpath import AccessClass, Cell, Rate, Refused


def main() -> None:
    """Sends five frames to a station. The second transmission is lost the first time."""
    with Cell(stations=1, calls=100) as cell:
        cell.join(0, window=8)
        cell.set_rate(0, Rate.vht(9, mhz=80))
        for flow in range(5):
            cell.enqueue(0, b"a packet", flow=flow)
        for lost in (1, None):
            exchange = cell.pull(AccessClass.BE)
            for index in range(exchange.transmissions):
                if index != lost:
                    cell.arrive(exchange.number, index)
            cell.answer(exchange.number)
            cell.done(exchange.number, heard=True)
            cell.tick(exchange.air)
        while cell.try_reap():
            pass
        try:
            cell.pull(AccessClass.BE)
        except Refused as refusal:
            print(f"# the last call: {refusal}")
        print("\n".join(cell.trace()))


if __name__ == "__main__":
    main()

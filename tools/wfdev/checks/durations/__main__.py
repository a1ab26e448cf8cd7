"""Compares rates and durations of HT, VHT and HE with an independent model (sim/rates.py) and with what ns-3 says, row by row.

The rows of durations.d (FORMAT.csv, made by a program over ns-3 3.37) have a rate, a number of octets, the data rate in kbit/s and
the time in microseconds by the standards' rules, ns-3's time in nanoseconds, the difference, and its causes. The model works out rate,
time and causes of each row, and a small program over wf_air, run by `rt try`, is asked for rate and time. HT with three and four
streams is in the rows and is no rate of wf_air: there the program has to say so. The built program, if there is one, is asked too,
by traces: each row whose octets a pull can send is charged its time; and of all combinations of MCS, width, guard interval and streams
it has to take those that are a rate, and refuse the others. The rows of durations.d/legacy have rates of OFDM and DSSS, and were
made by legacy.cc there: ns-3 and the machine give each of them the same time.
"""
import sys
from collections.abc import Sequence

from wfdev.checks.durations import legacy, machine, rows
from wfdev.checks.durations.rows import SCRIPT


def main(words: Sequence[str] | None = None) -> int:
    """Compares all rows and returns the exit status."""
    SCRIPT.parser(__doc__).parse_args(words)
    SCRIPT.require("rt")
    known = list(rows.read())
    found = [fault for row in known for fault in rows.faults(row)]
    without_ht = list(legacy.read())
    found += [fault for row in without_ht for fault in legacy.faults(row)]
    found += machine.unlike_small_program([*known, *without_ht])
    program = SCRIPT.program_or_none()
    if program:
        pulled = [(row, bodies) for row in known if (bodies := machine.bodies_to_pull(row)) is not None]
        found += [*machine.unlike_charges(program.path, pulled), *machine.unlike_refusals(program.path)]
        found += [*legacy.unlike_charges(program.path, without_ht), *legacy.unlike_refusals(program.path)]
        SCRIPT.say(f"{len(pulled)} rows given to the program, which charges their time")
    else:
        SCRIPT.say("no program is built, so none is asked")
    for fault in found:
        SCRIPT.say(fault)
    equal = sum(row.more_ns == 0 for row in known)
    SCRIPT.say(f"{len(known)} rows, {equal} equal to ns-3's, the others different by their causes")
    SCRIPT.say(f"{len(without_ht)} rows of OFDM and DSSS, all equal to ns-3's")
    return SCRIPT.ended(len(found), "facts of rows")


if __name__ == "__main__":
    sys.exit(main())

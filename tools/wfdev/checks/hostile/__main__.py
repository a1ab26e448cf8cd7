"""Runs the built program against a hostile outside, and prints a table.

Each command runs with standard output full, closed early, a terminal, a full pipe and a small one that do not block; with standard input
closed, a directory, given octet by octet, by a pipe that does not block, cut after each octet, without an end, and open after the
line `end`; with a signal in mid-run; and with limits of memory (`ulimit -v`), in steps of 2 kB around the least that is enough, and of stack
(`ulimit -s`): 128 kB and more are enough, and with at most 96 kB the system ends the program before it reads. A run is good if its status and its line on
standard error are those that docs/TRACE.md gives, and the output is a prefix of the whole text.
"""
import sys
from collections.abc import Sequence

from wfdev.checks.hostile import limits, outside
from wfdev.checks.hostile.case import subject_of
from wfdev.harness import commands
from wfdev.harness.script import Script

SCRIPT = Script("hostile")
SIZES = {"soak": ["1", "2000"], "live": ["7", "4", "50"]}


def main(words: Sequence[str] | None = None) -> int:
    """Runs all cases and returns the exit status."""
    parser = SCRIPT.parser(__doc__)
    parser.add_argument("names", nargs="*", metavar="COMMAND", help="the commands to run (default: all)")
    parser.add_argument("--limits", action="store_true", help="only those with limits of memory and stack")
    asked = parser.parse_args(words)
    program, bad = SCRIPT.program().path, 0
    print("| Command | Against | Runs | Status (runs) | Result |\n|---|---|---|---|---|")
    for command in commands.all_of(program, SIZES):
        if asked.names and command.name not in asked.names:
            continue
        subject = subject_of(program, command)
        kinds = [*outside.ALWAYS, *(outside.WITH_INPUT if subject.reads else [])]
        if command.name in outside.WITH_END:
            kinds.append(outside.input_open_after_its_end)
        if command.name in outside.WITH_ANSWERS:
            kinds.append(outside.output_in_pieces)
        for kind in [*([] if asked.limits else kinds), *limits.ALL]:
            case = kind(subject)
            bad += case.bad
            print(case.row(), flush=True)
    return SCRIPT.ended(bad)


if __name__ == "__main__":
    sys.exit(main())

"""Little memory and little stack, in fine steps: the program has to end with its status, and never by a signal."""
import signal
from collections.abc import Callable, Sequence

from wfdev.checks.hostile.case import Case, Ended, Subject, run
from wfdev.harness.commands import Status

STEP = 2  # kilobytes
LEAST, MOST = 512, 65536  # kilobytes of memory: too few for any program, enough for each of the small inputs
BEFORE, AFTER = 512, 64  # kilobytes around the least memory that is enough, which are tried in steps
COARSE = (4, 5, 6, 8, 10, 12, 16, 24, 32, 48, 64)  # megabytes
TOO_FEW = (64, 80, 96)  # kilobytes of stack, below those that the program needs
STACKS = (128, 132, 136, 144, 152, 160, 176, 192, 224, 256, 512, 1024, 8192)  # kilobytes
STARTED = {Status.DONE, Status.NO_MEMORY}


def limited(option: str, kilobytes: int, words: Sequence[str]) -> list[str]:
    """Returns a command line that runs these words with a limit of the shell's `ulimit`."""
    return ["sh", "-c", f'ulimit {option} {kilobytes} && exec "$@"', "sh", *words]


def in_memory(subject: Subject, kilobytes: int) -> Ended:
    """Runs a command in this much memory."""
    return run(limited("-v", kilobytes, subject.words), subject.given)


def least(is_enough: Callable[[int], bool]) -> int:
    """Returns by bisection a number of kilobytes that is enough while a step less is not."""
    low, high = LEAST, MOST
    while high - low > STEP:
        middle = (low + high) // (2 * STEP) * STEP
        low, high = (low, middle) if is_enough(middle) else (middle, high)
    return high


def first_start(subject: Subject) -> int:
    """Returns the least memory in which the loader of the system starts the program at all."""
    words = [subject.words[0], "--version"]
    return least(lambda kilobytes: run(limited("-v", kilobytes, words)).status in STARTED)


def little_memory(subject: Subject) -> Case:
    """The memory is limited, in steps of megabytes."""
    case = Case(subject, "4 to 64 MB of memory")
    for megabytes in COARSE:
        case.see(in_memory(subject, megabytes << 10), STARTED, note=f"ulimit -v {megabytes << 10}")
    return case


def memory_at_the_edge(subject: Subject) -> Case:
    """The memory is limited, in steps of 2 kB around the least that is enough."""
    edge = least(lambda kilobytes: in_memory(subject, kilobytes).status == Status.DONE)
    begin = max(first_start(subject), edge - BEFORE)
    case = Case(subject, f"{begin} to {edge + AFTER} kB of memory, by {STEP}")
    for kilobytes in range(begin, edge + AFTER, STEP):
        case.see(in_memory(subject, kilobytes), STARTED, note=f"ulimit -v {kilobytes}")
    return case


def little_stack(subject: Subject) -> Case:
    """The stack is limited."""
    case = Case(subject, f"{STACKS[0]} kB of stack and more")
    for kilobytes in STACKS:
        case.see(run(limited("-s", kilobytes, subject.words), subject.given), STARTED, note=f"ulimit -s {kilobytes}")
    return case


def too_little_stack(subject: Subject) -> Case:
    """The stack is too small: the system ends the program before it reads or writes."""
    case = Case(subject, f"{TOO_FEW[0]} to {TOO_FEW[-1]} kB of stack")
    for kilobytes in TOO_FEW:
        ended = run(limited("-s", kilobytes, subject.words), subject.given)
        case.see(ended, {-signal.SIGSEGV}, b"", note=f"ulimit -s {kilobytes}")
    return case


ALL: list[Callable[[Subject], Case]] = [little_memory, memory_at_the_edge, little_stack, too_little_stack]

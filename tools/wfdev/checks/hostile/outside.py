"""Outputs and inputs that fail, are slow or have no end, and signals."""
import contextlib
import fcntl
import os
import pty
import signal
import subprocess
import threading
import time
from collections.abc import Callable

from wfdev.checks.hostile.case import SECONDS, Case, Ended, Subject, begin, end, give, run
from wfdev.harness.commands import Status
from wfdev.repo import paths

PAUSE = 0.05
CUT_OFF = 2  # seconds
TERMINAL_PIECE = 65536
PIECE = 512
PIPE = 4096
MANY_REAPS = b"cell\n" + 4 * PIPE * b"reap\n" + b"end\n"


def output_full(subject: Subject) -> Case:
    """Standard output is a full device."""
    case = Case(subject, "standard output full")
    with open("/dev/full", "wb") as full:
        case.see(run(subject.words, subject.given, stdout=full), {Status.WRITE_FAULT})
    return case


def output_closed_early(subject: Subject) -> Case:
    """Standard output is closed before anything is written."""
    case = Case(subject, "standard output closed early")
    child = begin(subject.words)
    assert child.stdout is not None
    child.stdout.close()
    child.stdout = None
    give(child, subject.given)
    case.see(end(child), {Status.WRITE_FAULT})
    return case


def output_is_a_terminal(subject: Subject) -> Case:
    """Standard output is a terminal."""
    case = Case(subject, "standard output a terminal")
    ours, theirs = pty.openpty()
    child = begin(subject.words, theirs)
    os.close(theirs)
    give(child, subject.given)
    assert child.stdin is not None
    child.stdin.close()
    written = b""
    try:
        while part := os.read(ours, TERMINAL_PIECE):
            written += part
    except OSError:
        pass  # a terminal whose other side is closed gives an error
    os.close(ours)
    ended = end(child)
    # (a terminal changes line ends, so a capture cannot be compared)
    text = subject.whole if "pcap" in subject.command.name else written.replace(b"\r\n", b"\n")
    case.see(Ended(ended.status, ended.errors, text), {Status.DONE})
    return case


def input_closed(subject: Subject) -> Case:
    """Standard input is closed."""
    case = Case(subject, "standard input closed")
    ended = run(["bash", "-c", '"$@" <&-', "-", *subject.words])
    if subject.reads:
        case.see(ended, {Status.READ_FAULT, Status.BAD_INPUT}, ended.written)
    else:
        case.see(ended, {Status.DONE})
    return case


def input_is_a_directory(subject: Subject) -> Case:
    """Standard input is a directory."""
    case = Case(subject, "standard input a directory")
    folder = os.open(paths.TOP, os.O_RDONLY)
    done = subprocess.run(subject.words, stdin=folder, capture_output=True, check=False, timeout=SECONDS)
    os.close(folder)
    case.see(Ended(done.returncode, done.stderr, done.stdout), {Status.READ_FAULT if subject.reads else Status.DONE})
    return case


def input_octet_by_octet(subject: Subject) -> Case:
    """The input comes octet by octet."""
    case = Case(subject, "input octet by octet")
    child = begin(subject.words)
    for octet in subject.given:
        give(child, bytes([octet]))
    case.see(end(child), {Status.DONE})
    return case


def input_open_after_its_end(subject: Subject) -> Case:
    """The input stays open after the line `end`, and the command ends anyway."""
    case = Case(subject, "standard input open after `end`")
    child = begin(subject.words)
    give(child, subject.given)
    assert child.stdout is not None and child.stderr is not None
    limit = threading.Timer(SECONDS, child.kill)
    limit.start()
    written, errors = child.stdout.read(), child.stderr.read()
    case.see(Ended(child.wait(timeout=SECONDS), errors, written), {Status.DONE})
    limit.cancel()
    return case


def input_that_does_not_block(subject: Subject) -> Case:
    """Standard input is a pipe whose reads fail while it is empty (EAGAIN), and comes in two pieces."""
    case = Case(subject, "standard input that does not block")
    ours, theirs = os.pipe()
    os.set_blocking(ours, False)
    child = subprocess.Popen(subject.words, stdin=ours, stdout=subprocess.PIPE, stderr=subprocess.PIPE)
    os.close(ours)
    half = len(subject.given) // 2
    for piece in (subject.given[:half], subject.given[half:]):
        time.sleep(PAUSE)
        with contextlib.suppress(BrokenPipeError):
            os.write(theirs, piece)
    os.close(theirs)
    written, errors = child.communicate(timeout=SECONDS)
    case.see(Ended(child.returncode, errors, written), {Status.DONE})
    return case


def output_that_does_not_block(subject: Subject) -> Case:
    """Standard output is a full pipe whose writes fail (EAGAIN), and is read after a while."""
    case = Case(subject, "standard output that does not block")
    theirs, ours = os.pipe()
    os.set_blocking(ours, False)
    filled = 0
    with contextlib.suppress(BlockingIOError):
        while True:
            filled += os.write(ours, bytes(PIECE))
    child = subprocess.Popen(subject.words, stdin=subprocess.PIPE, stdout=ours, stderr=subprocess.PIPE)
    os.close(ours)
    give(child, subject.given)
    assert child.stdin is not None and child.stderr is not None
    child.stdin.close()
    time.sleep(PAUSE)
    with open(theirs, "rb") as file:
        written = file.read()[filled:]
    errors = child.stderr.read()
    case.see(Ended(child.wait(timeout=SECONDS), errors, written), {Status.DONE})
    return case


def output_in_pieces(subject: Subject) -> Case:
    """Standard output is a small pipe that does not block, so a long text is written in pieces."""
    case = Case(subject, "standard output that takes pieces")
    whole = run(subject.words, MANY_REAPS).written
    theirs, ours = os.pipe()
    fcntl.fcntl(ours, fcntl.F_SETPIPE_SZ, PIPE)
    os.set_blocking(ours, False)
    child = subprocess.Popen(subject.words, stdin=subprocess.PIPE, stdout=ours, stderr=subprocess.PIPE, bufsize=0)
    os.close(ours)
    assert child.stdin is not None and child.stderr is not None
    giver = threading.Thread(target=give, args=(child, MANY_REAPS))
    giver.start()
    with open(theirs, "rb") as file:
        written = file.read()
    giver.join()
    child.stdin.close()
    errors = child.stderr.read()
    case.see(Ended(child.wait(timeout=SECONDS), errors, written), {Status.DONE}, whole)
    return case


def unsure_lines(subject: Subject) -> int:
    """Returns how many lines at the end of an output may differ after a cut of the input.

    The last reports the fault; in a text, the line before it answers the line that was cut, which may mean something else.
    """
    return {"replay --pcap": 0, "frames": 1}.get(subject.command.name, 2)


def input_cut(subject: Subject) -> Case:
    """The input is cut after each octet."""
    case = Case(subject, "input cut after each octet")
    for length in range(len(subject.given)):
        ended = run(subject.words, subject.given[:length])
        lines = ended.written.splitlines(keepends=True)
        note = f"cut after {length} octets"
        if subject.command.name == "frames" and ended.status == Status.DONE:
            # cut after a packet: those before it are listed and counted
            listed = len(lines) - 1
            whole = b"".join(subject.whole.splitlines(keepends=True)[:listed]) + b"packets %d\n" % listed
            case.see(ended, {Status.DONE}, whole, note)
            continue
        before = b"".join(lines[: len(lines) - unsure_lines(subject)])
        sure = before if ended.status == Status.BAD_INPUT else ended.written
        case.see(Ended(ended.status, ended.errors, sure), {Status.DONE, Status.BAD_INPUT}, note=note)
    return case


def endless(name: str) -> tuple[str, set[int]]:
    """Returns a shell script that writes an input without an end, and the statuses with which the command may end.

    A trace and a session have a limit of lines. The inputs of other commands have one of 2^40 octets only, which takes too long: they
    are cut off after two seconds, somewhere.
    """
    if name.startswith("replay"):
        return "(echo cell; yes 'enq 0 0 0 1500')", {Status.BAD_INPUT}
    if name == "session":
        return "yes 'close a'", {Status.BAD_INPUT}
    if name == "uplink":
        return f"timeout {CUT_OFF} yes 'tick 0'", {Status.BAD_INPUT}
    capture = paths.EXAMPLES / "five.pcap"
    packets = f"head -c 24 '{capture}'; while tail -c +25 '{capture}'; do :; done"
    return f'timeout {CUT_OFF} sh -c "{packets}"', {Status.DONE, Status.BAD_INPUT}


def input_without_end(subject: Subject) -> Case:
    """The input has no end."""
    case = Case(subject, "input without an end")
    script, allowed = endless(subject.command.name)
    ended = run(["bash", "-c", f'{script} | "$@" | tail -n 1; exit "${{PIPESTATUS[1]}}"', "-", *subject.words])
    case.see(ended, allowed, ended.written)
    return case


def long_words(subject: Subject) -> list[str]:
    """Returns the words of a run that lasts long enough for a signal, of a command without input."""
    more = ["1", "1000000"] if subject.command.name == "soak" else ["1", "8", "10000"]
    return subject.words if subject.reads else [*subject.words[:2], *more]


def signal_in_mid_run(subject: Subject) -> Case:
    """A signal ends the run before it has all input."""
    case = Case(subject, "a signal in mid-run")
    for sent in (signal.SIGINT, signal.SIGTERM, signal.SIGKILL):
        child = begin(long_words(subject))
        give(child, subject.given[: len(subject.given) // 2])
        time.sleep(PAUSE)
        child.send_signal(sent)
        assert child.stdout is not None
        written = child.stdout.read()
        ended = end(child)
        case.see(Ended(ended.status, ended.errors, written if subject.reads else b""), {-sent, Status.DONE}, note=sent.name)
    return case


def stopped_and_continued(subject: Subject) -> Case:
    """The run is stopped and continued."""
    case = Case(subject, "stopped and continued")
    child = begin(subject.words)
    half = len(subject.given) // 2
    give(child, subject.given[:half])
    child.send_signal(signal.SIGSTOP)
    time.sleep(PAUSE)
    child.send_signal(signal.SIGCONT)
    give(child, subject.given[half:])
    case.see(end(child), {Status.DONE})
    return case


ALWAYS: list[Callable[[Subject], Case]] = [
    output_full,
    output_closed_early,
    output_is_a_terminal,
    output_that_does_not_block,
    input_closed,
    input_is_a_directory,
    signal_in_mid_run,
    stopped_and_continued,
]
# The commands whose answers are written together.
WITH_ANSWERS = frozenset({"replay"})
# The commands whose input has a line that is the last.
WITH_END = frozenset({"replay", "replay --pcap", "session", "uplink"})
WITH_INPUT: list[Callable[[Subject], Case]] = [
    input_octet_by_octet,
    input_that_does_not_block,
    input_cut,
    input_without_end,
]

"""Carries out the words of the script ./wf that its launcher passes on, and returns the status."""
# ruff: noqa: PTH
from __future__ import annotations

import os
import pathlib
import signal
import subprocess
import sys
import tempfile
from typing import NoReturn

from . import builds, converting, dist, fresh, install, reading, refuse, texts
from .children import ENDING, Stopped, end_with_parent
from .files import reason
from .report import FAILED, Failure, Notes, Refusal, WriteFault, complain, complain_of, show, write
from .words import BY_NAME, QUIET

REFUSED = 1
WRITE_FAULT = 4
HELP_WORDS = ("--help", "-h")
# The simulator runs `./wf build`: this variable names the file that such a build makes if it fails.
MARK = "WF_SIM_MARK"
NOT_PROVED = "by a program that nothing is proved of ('./wf build' builds a proved one)"


def find_program() -> tuple[str, str] | None:
    """Returns which program answers and its path, or None if none is built from these sources."""
    named = os.environ.get("WF_PROGRAM")
    return ("named", named) if named else fresh.find_program(fresh.Sources())


def resolved(path: str) -> str:
    """Returns the path of the program that a name leads to; it has to be there and may be run."""
    program = path if "/" in path else fresh.find_on_path(path)
    if program is None or not (os.path.isfile(program) and os.access(program, os.X_OK)):
        raise Failure(f"WF_PROGRAM = {path}: expected a program that can be run")
    return program


def become(path: str, words: list[str]) -> NoReturn:
    """Replaces this process by the program. Python ignores two signals, so they get their default effect again."""
    signal.signal(signal.SIGPIPE, signal.SIG_DFL)
    signal.signal(signal.SIGXFSZ, signal.SIG_DFL)
    program = resolved(path)
    try:
        os.execv(program, [program, *words])
    except OSError as fault:
        raise Failure(f"{program}: this file cannot be run as a program: {fault.strerror}") from None


def program_to_ask(found: tuple[str, str] | None) -> str:
    """Returns the path of the program that answers. If none is built, an earlier proved build of the same sources is taken, or the unproved
    program is built first."""
    found = found or builds.program_to_answer()
    if found[0] == "unproved":
        Notes.say(NOT_PROVED)
    return found[1]


def answer(words: list[str]) -> int:
    """Has the program answer."""
    found = find_program()
    near = refuse.nearest(words[0]) if words and words[0] not in texts.program_words() else None
    if found is None or near in BY_NAME:
        if not words:
            raise Refusal("")
        why = refuse.why_refused(words)
        if why:
            raise Refusal(why)
    become(program_to_ask(found), words)


def read_file(words: list[str]) -> int:
    """Carries out words after which a file may be named."""
    request = reading.read(words)
    reading.open_input(request)
    path = program_to_ask(find_program())
    if request.is_for_program:
        become(path, request.program_words)
    return reading.answer(request, resolved(path))


def print_help(words: list[str]) -> int:
    """Prints the help on the first of these words that has one, or the overview."""
    show(texts.help_on(next((word for word in words if word in texts.topics()), None)))
    return 0


def print_version() -> int:
    """Prints the version, and a line more if the program that answers is not proved."""
    found = find_program()
    show(texts.text("VERSION") + ("unproved build\n" if found and found[0] == "unproved" else ""))
    return 0


def print_which(of_library: bool) -> int:
    """Prints which program answers, or which library is built; status 1 if none is."""
    found = fresh.find_library(fresh.Sources()) if of_library else find_program()
    if found is None:
        what, word = ("library", "lib") if of_library else ("program", "build")
        complain(
            f"no {what} is built from these sources: './wf {word}' builds a proved one, './wf {word} --unproved' takes about a minute"
        )
        return 1
    show(f"{found[0]} {found[1]}\n")
    return 0


def run_sim(words: list[str]) -> int:
    """Runs a scenario. If no program is built from these sources and no earlier build can be taken, the simulator has one built by this
    script."""
    command = [sys.executable, "-P", "-m", "sim", *words]
    variables = {**os.environ, "PYTHONPATH": os.pathsep.join([fresh.TOP, os.path.join(fresh.TOP, "python")])}
    if any(word in HELP_WORDS for word in words) or find_program() or builds.takes_earlier(builds.PROGRAM):
        signal.signal(signal.SIGPIPE, signal.SIG_DFL)
        signal.signal(signal.SIGXFSZ, signal.SIG_DFL)
        os.execve(sys.executable, command, variables)
    with tempfile.TemporaryDirectory(prefix="wf-sim-") as folder:
        mark = pathlib.Path(folder) / "failed"
        child = subprocess.Popen(command, env={**variables, MARK: str(mark)})
        for number in (signal.SIGINT, signal.SIGTERM, signal.SIGHUP):
            signal.signal(number, lambda got, _: child.send_signal(got))
        status = child.wait()
        return FAILED if status and mark.exists() else status if status >= 0 else ENDING - status


def run_script_word(name: str, words: list[str]) -> int:
    """Carries out a word of the script itself."""
    if name == "sim":
        return run_sim(words)
    if name in reading.READS:
        return read_file([name, *words])
    if name == "convert":
        return converting.convert(words)
    flags = [word for word in words if word.startswith("-")]
    rest = [word for word in words if not word.startswith("-")]
    word = BY_NAME[name]
    wanted = (0, 1) if name == "dist" else (1,) if word.argument == "folder" else (0,)
    is_known = len(flags) == len(set(flags)) and set(flags) <= set(word.options)
    if len(rest) not in wanted or "" in rest or not is_known:
        raise Refusal(f"usage: ./wf {word.usage}")
    if name == "which":
        return print_which("--library" in flags)
    if name == "uninstall":
        return install.uninstall(rest[0])
    is_proved = "--unproved" not in flags
    if name == "dist":
        return dist.dist(rest[0] if rest else None, takes_unproved=not is_proved)
    if name == "install":
        return install.install(rest[0], takes_unproved=not is_proved, only_library="--library" in flags)
    if MARK in os.environ:
        end_with_parent()
    make = builds.program if name == "build" else builds.kernel_library if "--kernel" in flags else builds.library
    make(is_proved)
    return 0


def asks_help(words: list[str]) -> bool:
    """Returns whether these words ask for help; the simulator has its own help."""
    if words[:1] == ["sim"]:
        return False
    if any(word in HELP_WORDS for word in words):
        return True
    return words[:1] == ["help"] and (len(words) == 1 or len(words) == 2 and words[1] in texts.topics())


def carry_out(words: list[str]) -> int:
    """Carries out words, and returns the status."""
    if asks_help(words):
        return print_help(words)
    if words == ["--version"]:
        return print_version()
    if words and words[0] in BY_NAME:
        return run_script_word(words[0], words[1:])
    if words and words[0] in reading.OPTIONS:
        return read_file(words)
    return answer(words)


def refused(refusal: Refusal) -> int:
    """Reports words that are wrong."""
    why = str(refusal)
    if why.startswith("usage: "):
        write(why)
        return REFUSED
    if why:
        complain(why)
    write(f"'./wf help {refusal.command}' says more" if refusal.command else texts.usage())
    return REFUSED


def failed(failure: Failure) -> int:
    """Reports that the script could not do its part."""
    complain_of(failure)
    if MARK in os.environ:
        pathlib.Path(os.environ[MARK]).touch()
    return FAILED


def main(words: list[str]) -> int:
    """Carries out the words of the script, and returns its status."""
    is_script_word = words and (words[0] in BY_NAME and words[0] != "sim" or words[0] == QUIET)
    Notes.quiet = bool(is_script_word) and QUIET in words
    words = [word for word in words if word != QUIET or not Notes.quiet]
    try:
        return carry_out(words)
    except Refusal as why:
        return refused(why)
    except Failure as failure:
        return failed(failure)
    except Stopped as stopped:
        return stopped.status
    except BrokenPipeError:
        return ENDING + signal.SIGPIPE
    except WriteFault:
        complain("write fault")
        return WRITE_FAULT
    except OSError as fault:
        return failed(Failure(reason(fault)))

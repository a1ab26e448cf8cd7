"""A stand-in for the program: its answers are the lines of a file, one for each call, and the rest after the
line `end`.

The environment steers it: WF_TEST_ANSWERS names the file. If an answer is a fault, it writes the line on
standard error that the program writes, and ends with status 2. If nobody reads its output, it ends with status
4. As `frames` it writes the whole file after it has read its input. """
from __future__ import annotations

import sys

from wfdev.harness.commands import LINES, Status

TEXT = '''#!{python}
import os, sys
with open(os.environ["WF_TEST_ANSWERS"]) as file:
    answers = file.read().splitlines(True)

def write(text):
    try:
        sys.stdout.write(text)
        sys.stdout.flush()
    except BrokenPipeError:
        os._exit(4)
    if text.startswith("fault"):
        sys.stderr.write("{fault}")
        sys.exit(2)

if sys.argv[1] == "frames":
    sys.stdin.buffer.read()
    for answer in answers:
        write(answer)
    sys.exit(0)
has_head = False
while line := sys.stdin.buffer.readline():
    words = line.split()
    if not words or words[0].startswith(b"#"):
        continue
    if words[0] == b"end":
        break
    if has_head or answers[0].startswith("fault"):
        write(answers.pop(0))
    has_head = True
for answer in answers:
    write(answer)
'''


def text() -> str:
    """Returns the program."""
    line = LINES[Status.BAD_INPUT].decode().replace("\n", "\\n")
    return TEXT.replace("{python}", sys.executable).replace("{fault}", line)

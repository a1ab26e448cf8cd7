"""Tests of checks/fuzz: what it draws, how it shortens an input, and that it finds a difference."""
import contextlib
import io
import itertools
import random
import tempfile
import time
import unittest
from collections import Counter
from pathlib import Path
from unittest import mock

from wfdev.checks.fuzz import __main__ as fuzz
from wfdev.checks.fuzz import damage, shrink, subjects, traces
from wfdev.model.text import WELL, replay

SEEDS, MORE_SEEDS = range(5), range(12)


def trace(seed: int) -> bytes:
    """Returns a short trace."""
    return traces.made(random.Random(seed), 60)


class Drawn(unittest.TestCase):
    def test_traces_have_no_fault(self) -> None:
        for seed in SEEDS:
            written, status = replay(trace(seed))
            self.assertEqual(status, WELL, written)

    def test_a_seed_repeats_a_trace(self) -> None:
        self.assertEqual(trace(1), trace(1))
        self.assertNotEqual(trace(1), trace(2))

    def test_most_damaged_traces_have_a_fault(self) -> None:
        draw = random.Random(1)
        statuses = [replay(damage.damaged(draw, trace(seed)))[1] for seed in SEEDS for _ in range(10)]
        self.assertGreater(sum(status != WELL for status in statuses), len(statuses) / 2)

    def test_each_subject_has_its_turns(self) -> None:
        turns = Counter(one.name for one in fuzz.order())
        self.assertEqual(turns, {one.name: one.share for one in subjects.ALL})
        self.assertEqual({one.name for one in fuzz.order("traces")}, {"traces"})

    def test_frames_come_back_and_meet_other_calls(self) -> None:
        words: set[str] = set()
        for seed in MORE_SEEDS:
            maker = traces.Maker(random.Random(seed))
            for _ in range(100):
                for line in itertools.chain(maker.make_join(), maker.make_start(), maker.make_burst(), maker.make_back()):
                    maker.write(line)
            words |= {line.split()[0] for line in maker.lines}
        self.assertLessEqual({"unsent", "giveup", "arrive", "done", "flush", "leave", "weight", "stop"}, words)

    def test_agreements_begin_and_end(self) -> None:
        answers: set[str] = set()
        for seed in SEEDS:
            maker = traces.Maker(random.Random(seed))
            for _ in range(100):
                for line in itertools.chain(maker.make_join(), maker.make_burst(), maker.make_pull(), maker.make_agree()):
                    answers.add(" ".join(maker.write(line).split()[:2]))
        self.assertLessEqual({"begun", "freed", "refused waits", "refused open", "refused offloaded"}, answers)
        self.assertLessEqual({"held", "ceased"}, {answer.split()[0] for answer in answers})

    def test_numbers_go_far_above_the_last_acknowledged_one(self) -> None:
        maker = traces.Maker(random.Random(1), goes_far=True)
        maker.write(f"join {maker.stations[0]} 256 0 3")
        for line in maker.make_far():
            maker.write(line)
        held = maker.machine.stations[maker.stations[0]]
        self.assertTrue(any(session.is_far(session.next) for session in held.sessions))


class Shortened(unittest.TestCase):
    def test_only_the_needed_lines_are_left(self) -> None:
        lines = [b"line %d" % number for number in range(100)]
        needed = {b"line 7", b"line 60"}
        short = shrink.shortest(b"\n".join(lines), lambda text: needed <= set(text.split(b"\n")))
        self.assertEqual(short.strip().split(b"\n"), sorted(needed, reverse=True))

    def test_a_text_that_cannot_be_shorter_stays(self) -> None:
        text = b"a\nb\nc\n"
        self.assertEqual(shrink.shortest(text, lambda one: one == text), text)


class Compared(unittest.TestCase):
    def compared(self, folder: Path, script: str) -> tuple[int, str]:
        """Returns how many subjects differ if this shell script is the program, and the output."""
        program, said = folder / "program", io.StringIO()
        program.write_text(f"#!/bin/sh\n{script}\n", encoding="ascii")
        program.chmod(0o755)
        trial = subjects.Subject("traces", ("replay",), lambda draw: traces.made(draw, 5), subjects.replay, 1)
        with (
            mock.patch.object(subjects, "ALL", [trial]),
            mock.patch.object(fuzz, "OUT", folder / "out"),
            contextlib.redirect_stdout(said),
        ):
            tally = fuzz.compare(program, 1, time.monotonic() + 1)
        return len(tally.bad), said.getvalue()

    def test_a_difference_is_written_and_shortened(self) -> None:
        with tempfile.TemporaryDirectory() as name:
            bad, said = self.compared(Path(name), "cat > /dev/null; echo joined; exit 2")
            (path,) = (Path(name) / "out").iterdir()
            self.assertEqual(path.read_bytes(), b"")
        self.assertEqual(bad, 1)
        self.assertIn("fault line 1 no-head", said)
        self.assertIn("    joined", said)


if __name__ == "__main__":
    unittest.main()

"""Tests of the check session-calls."""
import random
import unittest
from collections.abc import Mapping

from wfdev.checks.session_calls import Exchange, PathSide, Spoken
from wfdev.harness.script import Difference
from wfdev.model.agreement import Agreement


class Answering(Spoken):
    """A command that answers each line by its first word; the last answer to a word repeats."""

    def __init__(self, answers: Mapping[str, list[str]]) -> None:
        self.answers = {word: list(given) for word, given in answers.items()}

    def ask(self, line: str) -> str:
        """Returns the next answer to the line's word."""
        given = self.answers[line.split()[0]]
        return given.pop(0) if len(given) > 1 else given[0]


def path_of(**answers: list[str]) -> PathSide:
    """Returns a path that answers so."""
    given = {"enq": ["accepted 0"], "begin": ["begun"], "arrive": ["released"], "done": ["done acked 1 waiting 1 failed 0"]}
    return PathSide(Answering({**given, **answers}), random.Random(1))


WINDOW_OF_TWO = Agreement(token=1, window=2, start=4095)


class PathSides(unittest.TestCase):
    def test_a_call_of_an_agreement_is_not_refused(self) -> None:
        path = path_of(free=["freed", "refused not-held"])
        path.change("free 0 0")
        self.assertRaises(Difference, path.change, "free 0 0")

    def test_a_pull_sends_frames_or_a_request_or_is_refused(self) -> None:
        parts = ["data 7:4095 8:0", "plain 9:1", "bar 2"]
        sends = [f"send {number} sta 0 tid 0 air 40 {part}" for number, part in enumerate(parts, 3)]
        path = path_of(pull=[*sends, "refused idle"])
        wanted = [Exchange(3, [4095, 0]), Exchange(4, [1]), Exchange(5, []), None]
        self.assertEqual([path.pull() for _ in wanted], wanted)

    def test_a_window_sends_its_numbers(self) -> None:
        path = path_of(pull=["send 0 sta 0 tid 0 air 9 data 0:4095 1:0", "refused idle"], answer=["ba 4095 0000000000000002"])
        path.begin(WINDOW_OF_TWO)
        self.assertEqual(path.calls, {"begin": 1})

    def test_a_window_of_another_size_is_a_difference(self) -> None:
        for numbers in ("0:4095", "0:4095 1:0 2:1", "0:0 1:1"):
            path = path_of(pull=[f"send 0 sta 0 tid 0 air 9 data {numbers}", "refused idle"], answer=["ba 4095 0000000000000002"])
            self.assertRaises(Difference, path.begin, WINDOW_OF_TWO)

    def test_a_receiver_that_moves_on_is_a_difference(self) -> None:
        path = path_of(pull=["send 0 sta 0 tid 0 air 9 data 0:4095 1:0", "refused idle"], answer=["ba 0 0000000000000001"])
        self.assertRaises(Difference, path.begin, WINDOW_OF_TWO)

    def test_the_first_number_that_a_blockack_does_not_show(self) -> None:
        self.assertEqual(PathSide.first_missing(["ba", "4094", "0000000000000007"]), 1)


if __name__ == "__main__":
    unittest.main()

"""Tests of checks/c-library: which answers count as equal, and that each function of the header is called."""
import unittest

from wfdev.checks import c_library


class Answers(unittest.TestCase):
    def test_answers_are_equal_or_not(self) -> None:
        self.assertTrue(c_library.is_same("ceased 2", "ceased 2"))
        self.assertFalse(c_library.is_same("ceased 2", "ceased 2 7"))
        self.assertFalse(c_library.is_same("held 1", "held 10"))

    def test_an_answer_of_a_receiver_is_any(self) -> None:
        for other in ("released", "released 4 5", "ack", "refused marked"):
            self.assertTrue(c_library.is_same("?", other))

    def test_the_rest_of_an_answer_is_any(self) -> None:
        for other in ("ceased 2", "ceased 2 7", "ceased 2 7 8"):
            self.assertTrue(c_library.is_same("ceased 2 ?", other))
        for other in ("ceased 25", "ceased 3 7", "ceased", "freed"):
            self.assertFalse(c_library.is_same("ceased 2 ?", other))


class Header(unittest.TestCase):
    def test_each_function_is_called(self) -> None:
        self.assertEqual((c_library.uncalled(), c_library.unread()), ([], []))


if __name__ == "__main__":
    unittest.main()

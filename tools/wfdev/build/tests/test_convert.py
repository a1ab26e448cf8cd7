"""The word `convert`: files and standard input and output, what is refused, and that a capture is replaced whole."""
from __future__ import annotations

import subprocess

from .support import TOP, Checkout

CAPTURE = TOP / "examples/five.pcap"
TOLD = "wf: {} packets; radiotap fields removed from 0, frame check sequences from {}\n"


class Convert(Checkout):
    def test_a_capture_that_is_plain_stays_as_it_is(self) -> None:
        target = self.room / "made"
        self.assertEqual(self.asked("convert", str(CAPTURE), str(target)), ("", TOLD.format(5, 0), 0))
        self.assertEqual(target.read_bytes(), CAPTURE.read_bytes())
        self.assertEqual(self.asked("convert", "--quiet", str(CAPTURE), str(target)), ("", "", 0))

    def test_standard_input_and_output(self) -> None:
        line = f"'{self.top}/wf' convert - - <'{CAPTURE}' | cmp - '{CAPTURE}'"
        done = subprocess.run(["bash", "-c", line], env=self.variables(), capture_output=True, text=True, check=False)
        self.assertEqual((done.stdout, done.stderr, done.returncode), ("", TOLD.format(5, 0), 0))

    def test_check_sequences_are_removed_if_asked(self) -> None:
        target = self.room / "made"
        self.assertEqual(self.asked("convert", "--fcs", str(CAPTURE), str(target))[1:], (TOLD.format(5, 5), 0))
        self.assertEqual(target.stat().st_size, CAPTURE.stat().st_size - 5 * 4)

    def test_after_a_fault_the_target_is_as_before(self) -> None:
        target, cut = self.room / "made", self.room / "cut"
        cut.write_bytes(CAPTURE.read_bytes()[:100])
        target.write_text("before", encoding="utf-8")
        self.assertEqual(
            self.asked("convert", str(cut), str(target)), ("", f"wf: {cut}: it ends inside packet 2: the capture is cut off\n", 2)
        )
        self.assertEqual(target.read_text(encoding="utf-8"), "before")
        self.assertEqual(sorted(path.name for path in self.room.iterdir() if path.name.startswith(".wf")), [])

    def test_wrong_words(self) -> None:
        for words in ((), ("a",), ("a", "b", "c"), ("--fcs", "a"), ("--other", "a", "b"), ("", "b")):
            _, why, status = self.asked("convert", *words)
            self.assertEqual((why, status), ("usage: ./wf convert [--fcs] IN OUT\n", 1), words)

    def test_files_that_cannot_be_opened(self) -> None:
        missing = self.room / "missing"
        _, why, status = self.asked("convert", str(missing), str(self.room / "made"))
        self.assertEqual((why, status), (f"wf: {missing}: No such file or directory; expected the name of a capture\n", 125))
        for target in (missing / "made", self.room):
            _, why, status = self.asked("convert", str(CAPTURE), str(target))
            self.assertEqual(status, 125)
            self.assertIn(f"wf: {target}: no capture can be written there", why)

    def test_output_that_is_full_or_closed(self) -> None:
        for output in (">/dev/full", ">&-"):
            line = f"'{self.top}/wf' convert '{CAPTURE}' - {output}"
            done = subprocess.run(["bash", "-c", line], env=self.variables(), capture_output=True, text=True, check=False)
            self.assertEqual((done.stderr, done.returncode), ("wf: write fault\n", 4), output)

"""The words that read a file: the file, the additions to the program's output, and the status. The program is
a stand-in."""
from __future__ import annotations

import json
import os
import pathlib
import select
import shutil
import subprocess
import xml.etree.ElementTree

from wfdev.build import fresh, reading
from wfdev.harness.commands import LINES, Status

from . import stand_in_program
from .support import TOP, Checkout

NAME = "lost-acknowledgement"
CAT = '#!/bin/sh\necho "$@"\ncat\n'
SECONDS = 60


class Reading(Checkout):
    """A stand-in for the program that answers a trace of examples/ as the program did."""

    def setUp(self) -> None:
        super().setUp()
        self.is_built(fresh.PROGRAM, stand_in_program.text())
        self.examples = TOP / "examples"
        self.trace = self.examples / f"{NAME}.trace"
        self.answers = self.examples / f"{NAME}.out"

    def replayed(self, *words: str, name: str = NAME, given: bytes = b"") -> tuple[str, str, int]:
        """Returns what the script writes for these words if the program answers as it did to this example."""
        return self.asked(*words, given=given, WF_TEST_ANSWERS=str(self.examples / f"{name}.out"))

    def calls(self) -> list[str]:
        """Returns the calls of the trace."""
        lines = [
            line for line in self.trace.read_text(encoding="utf-8").splitlines() if not line.startswith("#")
        ]
        return lines[1:-1]


class Files(Reading):
    def test_a_file_is_opened_as_standard_input(self) -> None:
        self.is_built(fresh.PROGRAM, CAT)
        octets = b"cell\n\xff\0no newline at the end"
        file = self.room / "a file"
        file.write_bytes(octets)
        for given in ("replay", "replay --pcap", "session", "uplink", "frames"):
            words = given.split()
            wanted = f"{given}\n{octets.decode(errors='surrogateescape')}"
            self.assertEqual(self.asked(*words, str(file)), (wanted, "", 0))
            self.assertEqual(self.asked(*words, given=octets), (wanted, "", 0))
            self.assertEqual(self.asked(*words, "-", given=octets), (wanted, "", 0))

    def test_a_file_that_cannot_be_read(self) -> None:
        missing, folder = self.room / "missing", self.room
        for word, what in reading.READS.items():
            hint = f"expected the name of {what}, or {what} on standard input: ./wf {word} < FILE\n"
            self.assertEqual(
                self.asked(word, str(missing)), ("", f"wf: {missing}: No such file or directory; {hint}", 125)
            )
            self.assertEqual(
                self.asked(word, str(folder)), ("", f"wf: {folder}: this is a folder; {hint}", 125)
            )

    def test_words_that_are_wrong(self) -> None:
        replay = (
            "replay takes the name of one file, and the options --pcap, --echo, --json: ./wf replay [FILE]"
        )
        for words, why in (
            (["replay", "a", "b"], replay),
            (["replay", "--ecko"], replay),
            (["replay", "--echo", "--echo"], replay),
            (
                ["replay", "--echo", "--pcap"],
                "--pcap writes a capture: it goes with neither --echo nor --json",
            ),
            (["frames", "--echo"], "frames takes the name of one file: ./wf frames [FILE]"),
            (["timeline", "-o"], "timeline: after -o the name of the picture is missing"),
        ):
            told, said, status = self.asked(*words)
            self.assertEqual((told, status), ("", 1), words)
            self.assertTrue(said.startswith(f"wf: {why}"), said)
            self.assertTrue(said.endswith(f"\n'./wf help {words[0]}' says more\n"), said)


class Echo(Reading):
    def test_each_call_is_before_its_answer_and_the_rest_is_the_plain_output(self) -> None:
        plain = self.answers.read_text(encoding="utf-8")
        ways: list[tuple[list[str], bytes]] = [([str(self.trace)], b""), ([], self.trace.read_bytes())]
        for names, given in ways:
            told, said, status = self.replayed("replay", "--echo", *names, given=given)
            lines = told.splitlines(True)
            self.assertEqual((said, status), ("", 0))
            self.assertEqual("".join(line for line in lines if not line.startswith("> ")), plain)
            self.assertEqual([line[2:-1] for line in lines if line.startswith("> ")], self.calls())
            self.assertTrue(
                told.startswith("> join 0 64 100 3\njoined\n> enq 0 0 7 1500\naccepted 0\n"), told
            )

    def test_the_faulty_line_is_shown(self) -> None:
        told, said, status = self.replayed(
            "replay", "--echo", str(self.examples / "fault.trace"), name="fault"
        )
        self.assertEqual((told, status), ("> join 0 64 0 3\njoined\n> enq 0 0 7 0\nfault line 4 range\n", 2))
        self.assertEqual(said, LINES[Status.BAD_INPUT].decode())

    def test_answers_appear_before_the_next_call_is_written(self) -> None:
        for words, first in (
            (["--echo"], b"> join 0 64 100 3\njoined\n"), (["--json"], b'{"kind": "joined", "line": 2}\n')
        ):
            child = subprocess.Popen(
                [self.top / "wf", "replay", *words],
                env=self.variables(WF_TEST_ANSWERS=str(self.answers)),
                stdin=subprocess.PIPE,
                stdout=subprocess.PIPE,
            )
            with child:
                assert child.stdin and child.stdout
                child.stdin.write(b"cell\njoin 0 64 100 3\n")
                child.stdin.flush()
                self.assertTrue(select.select([child.stdout], [], [], SECONDS)[0], words)
                self.assertEqual(os.read(child.stdout.fileno(), 1000), first)
                child.stdin.close()
                child.stdout.read()

    def test_statuses_and_a_reader_that_leaves_early(self) -> None:
        self.is_built(fresh.PROGRAM, "#!/bin/sh\nread line\nkill -TERM $$\n")
        self.assertEqual(self.asked("replay", "--echo", given=b"cell\n")[2], 128 + 15)
        self.is_built(fresh.PROGRAM, "#!/bin/sh\nexit 5\n")
        self.assertEqual(self.asked("replay", "--echo", given=b"cell\n" * 100_000), ("", "", 5))
        self.is_built(fresh.PROGRAM, stand_in_program.text())
        with open("/dev/full", "w", encoding="utf-8") as full:
            done = subprocess.run(
                [self.top / "wf", "replay", "--echo", self.trace], env=self.variables(
                    WF_TEST_ANSWERS=str(self.answers)
                ), stdout=full,
                stderr=subprocess.PIPE, check=False,
            )
        self.assertEqual((done.stderr, done.returncode), (b"wf: write fault\n", 4))

    def test_a_read_that_fails(self) -> None:
        folder = os.open(self.room, os.O_RDONLY)
        self.addCleanup(os.close, folder)
        command = [str(self.top / "wf"), "replay", "--echo"]
        variables = self.variables(WF_TEST_ANSWERS=str(self.answers))
        done = subprocess.run(command, env=variables, stdin=folder, capture_output=True, check=False)
        self.assertEqual((done.stdout, done.stderr, done.returncode), (b"", b"wf: read fault\n", 3))


class Json(Reading):
    def test_an_object_for_each_answer_and_one_for_the_summary(self) -> None:
        told, said, status = self.replayed("replay", "--json", str(self.trace))
        objects = [json.loads(line) for line in told.splitlines()]
        self.assertEqual((said, status, len(objects)), ("", 0, len(self.calls()) + 1))
        self.assertEqual(objects[0], {"kind": "joined", "line": 4})
        self.assertEqual(objects[2]["frames"], {"ids": [0], "numbers": [100], "count": 1})
        self.assertEqual(objects[-1]["kind"], "summary")
        self.assertEqual(
            objects[-1]["shares"],
            [{"station": 0, "class_": "be", "charged": 3952, "rx": 0, "deficit": -1852}],
        )

    def test_with_echo_each_object_has_its_call(self) -> None:
        for words in (["--json", "--echo"], ["--echo", "--json"]):
            told = self.replayed("replay", *words, str(self.trace))[0]
            first = json.loads(told.splitlines()[1])
            call = {"kind": "enq", "caller": 0, "station": 0, "tid": 0, "flow": 7, "length": 1500}
            self.assertEqual(
                first, {"kind": "accepted", "line": 5, "id": 0, "has_dropped": False, "call": call}
            )

    def test_a_fault_is_an_object(self) -> None:
        told, _, status = self.replayed("replay", "--json", str(self.examples / "fault.trace"), name="fault")
        self.assertEqual(
            (json.loads(told.splitlines()[-1]), status), ({"kind": "fault", "line": 4, "fault": "range"}, 2)
        )


class Explained(Reading):
    def test_a_paragraph_for_each_call_and_the_status_of_the_program(self) -> None:
        told, said, status = self.replayed("explain", str(self.trace))
        self.assertEqual((said, status), ("", 0))
        self.assertIn("not proved", told)
        self.assertEqual([line for line in told.splitlines() if line.startswith("line ")],
                         [f"line {number}: {call}" for number, call in enumerate(self.calls(), 4)])
        self.assertEqual(self.replayed("explain", str(self.examples / "fault.trace"), name="fault")[2], 2)

    def test_without_the_page_of_rules_refusals_are_still_named(self) -> None:
        (self.top / "docs/MACHINE.md").unlink()
        told = self.replayed(
            "explain", str(self.examples / "leaving-station.trace"), name="leaving-station"
        )[0]
        self.assertIn("Refused: The answer is open.", told)


class Timeline(Reading):
    def test_a_picture_on_standard_output_or_in_a_file(self) -> None:
        told, said, status = self.replayed("timeline", str(self.trace))
        self.assertEqual((said, status), ("", 0))
        root = xml.etree.ElementTree.fromstring(told)
        self.assertTrue(root.tag.endswith("svg"))
        picture = self.room / "a picture.svg"
        self.assertEqual(
            self.replayed("timeline", "-o", str(picture), given=self.trace.read_bytes()), ("", "", 0)
        )
        self.assertEqual(picture.read_text(encoding="utf-8"), told)
        self.assertEqual([path.name for path in self.room.glob(".wf-new-*")], [])

    def test_a_place_that_cannot_be_written_keeps_what_is_there(self) -> None:
        for place in (self.room / "no folder/picture.svg", self.room):
            told, said, status = self.replayed("timeline", str(self.trace), "-o", str(place))
            self.assertEqual((told, status), ("", 125))
            self.assertIn("no picture can be written there", said)

    def test_after_a_fault_the_calls_before_it_are_drawn(self) -> None:
        told, _, status = self.replayed("timeline", str(self.examples / "fault.trace"), name="fault")
        self.assertEqual((told.startswith("<svg"), status), (True, 2))


class Frames(Reading):
    def listed(self, octets: bytes, answer: str, *words: str) -> tuple[str, list[str], int]:
        """Returns the list, the lines on standard error, and the status."""
        answers = self.write("answers", answer)
        told, said, status = self.asked(*words, "frames", given=octets, WF_TEST_ANSWERS=str(answers))
        return told, said.splitlines(), status

    def test_a_second_line_says_what_was_found_and_the_topic_is_right(self) -> None:
        told, said, status = self.listed(b"\x0a\x0d\x0d\x0a" + bytes(30), "fault packet 0 magic\n")
        self.assertEqual((told, status, len(said)), ("fault packet 0 magic\n", 2, 2))
        self.assertIn("wf help frames)", said[0])
        self.assertIn("pcapng; convert it with './wf convert IN OUT'", said[1])

    def test_quiet_leaves_the_program_alone(self) -> None:
        _, said, status = self.listed(b"\x0a\x0d\x0d\x0a", "fault packet 0 magic\n", "--quiet")
        self.assertEqual(
            (said, status),
            (LINES[Status.BAD_INPUT].decode().splitlines(), 2),
        )

    def test_a_whole_capture_has_no_second_line(self) -> None:
        self.assertEqual(self.listed(b"", "packets 0\n"), ("packets 0\n", [], 0))

    def test_the_help_lists_the_kinds_of_the_page(self) -> None:
        page = (TOP / "docs/CAPTURES.md").read_text(encoding="utf-8").partition("| KIND |")[2]
        told = self.asked("help", "frames")[0]
        for line in page.splitlines()[1:8]:
            if line.startswith("| `"):
                self.assertIn(f"\n  {line.split('`')[1]} ", told)


class Help(Reading):
    def test_the_overview_has_the_forms_that_the_script_adds(self) -> None:
        told = self.asked("help")[0]
        for form in (
            "./wf replay FILE",
            "./wf replay --echo [FILE]",
            "./wf replay --json [FILE]",
            "./wf explain [FILE]",
            "./wf timeline",
        ):
            self.assertIn(f"  {form}", told)
        self.assertIn("Nothing that the script adds to the program is proved.", told)
        for word in ("replay", "frames", "session", "uplink"):
            self.assertIn("\n\nThe script ./wf ", self.asked("help", word)[0])

    def test_bash_offers_files_and_options_to_the_script(self) -> None:
        folder = self.room / "here"
        folder.mkdir()
        (folder / "some.trace").touch()
        shutil.copytree(TOP / "tools/completions", folder / "completions")
        line = '. completions/wf.bash; COMP_WORDS=("$@"); COMP_CWORD=$(($# - 1)); _wf "$1"; echo "${COMPREPLY[*]}"'

        def offered(*words: str) -> str:
            command = ["bash", "-c", line, "bash", *words]
            return subprocess.run(
                command, cwd=folder, capture_output=True, text=True, check=True
            ).stdout.strip()

        script = str(pathlib.Path(self.top / "wf"))
        self.assertEqual(offered(script, "replay", "--"), "--pcap --echo --json")
        self.assertEqual(offered(script, "explain", "so"), "some.trace")
        self.assertEqual(offered(script, "exp"), "explain")
        self.assertEqual(offered("wf", "replay", "--"), "--pcap")

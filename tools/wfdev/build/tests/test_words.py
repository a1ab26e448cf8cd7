"""The words of ./wf: where each goes, and what it refuses. Program, library and kit are stand-ins."""
from __future__ import annotations

import re
import shutil
import signal
import subprocess
import time

from wfdev.build import fresh, texts
from wfdev.build.words import TABLE

from .support import Checkout

USAGES = {word.name: word.usage for word in TABLE}


class Words(Checkout):
    def test_words_next_to_those_that_it_takes_are_refused_with_its_usage(self) -> None:
        self.has_program(fresh.PROGRAM)
        self.has_library(fresh.LIBRARY)
        install: list[list[str]] = [[], ["--unproved"], ["--unproved", "--unproved"], ["--unprove", "place"], ["place", "other"]]
        install += [["", "--unproved"], ["", ""]]
        refused: dict[str, list[list[str]]] = {
            "build": [["--unprove"], ["place"], ["--unproved", "more"]],
            "lib": [["more"]],
            "which": [["more"]],
            "install": [*install, ["place", "--unproved", "more"]],
            "uninstall": [[], ["place", "other"], ["--unproved", "place"]],
        }
        for word, cases in refused.items():
            for words in cases:
                self.assertEqual(self.asked(word, *words), ("", f"usage: ./wf {USAGES[word]}\n", 1), (word, words))

    def test_words_that_are_no_command_are_refused_before_anything_is_compiled(self) -> None:
        cases: list[list[str]] = [["bild"], ["soak"], ["soak", "1"], ["soak", "1", "0"], ["soak", "1", "1000001"], ["soak", "01", "1"]]
        cases += [["soak", "x", "1"], ["live", "1", "2"], ["live", "1", "9", "1"], ["live", "18446744073709551616", "1", "1"]]
        cases += [["help", "nobody"], ["soak", "1", "1", "devices"], ["soak", "1", "device"], ["live", "1", "1", "device"]]
        self.has_kit("#!/bin/sh\necho compiled >&2\nexit 1\n")
        for words in cases:
            told, why, status = self.asked(*words)
            self.assertEqual((told, status), ("", 1), words)
            self.assertRegex(why, "^wf: (.*\n)+usage: wf replay")
            self.assertNotIn("compiled", why)
        for words in (["replay", "name", "other"], ["replay", "--ecko"]):
            told, why, status = self.asked(*words)
            self.assertEqual((told, status), ("", 1), words)
            self.assertRegex(why, "^wf: replay takes .*\n'./wf help replay' says more\n$")
        self.assertEqual(self.asked()[::2], ("", 1))

    def test_numbers_in_their_ranges_go_to_the_build(self) -> None:
        cases = [["soak", "0", "1"], ["soak", "18446744073709551615", "1000000"], ["live", "1", "8", "10000"]]
        cases += [["soak", "1", "2", "device"], ["soak", "1", "2", "agreements"]]
        for words in cases:
            self.assertEqual(self.asked(*words)[::2], ("", 125), words)

    def test_refusals_are_those_of_the_program(self) -> None:
        wanted = {
            "soak 1 0": "soak takes SEED, 0..18446744073709551615, and CALLS, 1..1000000",
            "live 1 9 1": "live takes SEED, 0..18446744073709551615, SENDERS, 1..8, and FRAMES, 1..10000",
            "repaly": "no such command; did you mean replay?",
        }
        for words, why in wanted.items():
            self.assertEqual(self.asked(*words.split())[1].splitlines()[0], f"wf: {why}")

    def test_a_mistyped_word_gets_a_suggestion_whether_or_not_a_program_is_built(self) -> None:
        for _ in range(2):
            for word, meant in {"biuld": "build", "bild": "build", "instal": "install", "simm": "sim"}.items():
                told, why, status = self.asked(word)
                self.assertEqual((told, status), ("", 1))
                self.assertIn(f"did you mean {meant}?", why)
            self.has_program()

    def test_all_other_words_go_to_the_program(self) -> None:
        self.has_program(fresh.PROGRAM)
        cases: list[list[str]] = [["replay"], ["soak", "1", "2"], ["repaly"], ["zzzz"], []]
        for words in cases:
            self.assertEqual(self.asked(*words), (" ".join(["program", *words]) + "\n", "", 0))

    def test_quiet_leaves_out_notes_and_nothing_else(self) -> None:
        self.has_program()
        self.assertIn("nothing is proved of", self.asked("replay")[1])
        self.assertEqual(self.asked("--quiet", "replay"), ("program replay\n", "", 0))
        self.assertEqual(self.asked("--quiet", "zzzz"), ("program zzzz\n", "", 0))
        self.assertIn("nothing is proved of", self.asked("zzzz")[1])
        self.assertEqual(self.asked("--quiet", "build", "--unproved"), ("", "", 0))
        self.assertEqual(self.asked("build", "--quiet", "--unproved"), ("", "", 0))
        self.write("HANDLES", "other")
        self.assertIn("there is no 'rt'", self.asked("--quiet", "replay")[1])


class Help(Checkout):
    def test_each_word_has_help_by_all_its_names(self) -> None:
        for word in TABLE:
            told = f"./wf {word.usage}\n\n{word.details}\n"
            self.assertEqual(self.asked("help", word.name), (told, "", 0))
            if word.name != "sim":
                self.assertEqual(self.asked(word.name, "--help"), (told, "", 0))
        self.assertEqual(self.asked("help", "soak"), (texts.text("SOAK"), "", 0))
        self.assertEqual(self.asked("soak", "1", "-h"), (texts.text("SOAK"), "", 0))

    def test_the_help_on_faults_says_what_becomes_of_a_line_without_an_end(self) -> None:
        told = " ".join(self.asked("help", "faults")[0].split())
        self.assertIn("until then a line without an end is read, and not answered", told)

    def test_the_overview_has_the_programs_text_and_a_line_for_each_form(self) -> None:
        told, why, status = self.asked("help")
        self.assertEqual((why, status), ("", 0))
        self.assertTrue(told.startswith(texts.text("OVERVIEW")))
        for word in TABLE:
            for form in word.forms:
                self.assertIn(f"  ./wf {form.words}", told)
                self.assertIn(f"  {form.does}\n", told)
        self.assertEqual(self.asked("--help")[0], told)

    def test_lines_fit_a_terminal(self) -> None:
        for line in texts.help_on(None).splitlines():
            self.assertLess(len(line), 120, line)
        for word in TABLE:
            for line in word.details.splitlines():
                self.assertLess(len(line), 112, line)

    def test_help_in_a_locale_in_which_the_capital_of_i_is_another_letter(self) -> None:
        locales = self.room / "locales"
        locales.mkdir()
        command = ["localedef", "-i", "tr_TR", "-f", "UTF-8", str(locales / "tr_TR.UTF-8")]
        if not shutil.which(command[0]) or subprocess.run(command, capture_output=True, check=False).returncode:
            self.skipTest("there is no Turkish locale")
        self.has_program()
        for word in ("uplink", "live", "install"):
            told, why, status = self.asked("help", word, LC_ALL="tr_TR.UTF-8", LOCPATH=str(locales))
            self.assertEqual((told, why, status), (texts.help_on(word), "", 0))
        self.assertEqual(self.asked("replay", LC_ALL="tr_TR.UTF-8", LOCPATH=str(locales))[0], "program replay\n")

    def test_a_full_device_is_a_write_fault(self) -> None:
        for words in (["help"], ["help", "build"], ["--version"]):
            with open("/dev/full", "w", encoding="utf-8") as full:
                command = [str(self.top / "wf"), *words]
                done = subprocess.run(command, env=self.variables(), stdout=full, stderr=subprocess.PIPE, text=True, check=False)
            self.assertEqual((done.stderr, done.returncode), ("wf: write fault\n", 4), words)

    def test_closed_outputs(self) -> None:
        for line, status in (("help >&-", 4), ("help nobody 2>&-", 1), ("biuld 2>&-", 1), ("build 2>&-", 125)):
            command = ["bash", "-c", f"'{self.top}/wf' {line}"]
            done = subprocess.run(command, env=self.variables(), capture_output=True, text=True, check=False)
            self.assertEqual((done.stdout, done.returncode), ("", status), line)

    def test_a_reader_that_leaves_early_is_no_traceback(self) -> None:
        line = f"'{self.top}/wf' help | head -c 10"
        done = subprocess.run(["bash", "-c", line], env=self.variables(), capture_output=True, text=True, check=False)
        self.assertEqual((done.stdout, done.stderr), ("wf: the tr", ""))

    def test_the_version_says_whether_the_program_is_proved(self) -> None:
        self.assertEqual(self.asked("--version")[0], texts.text("VERSION"))
        self.has_program()
        self.assertEqual(self.asked("--version")[0], texts.text("VERSION") + "unproved build\n")


class Places(Checkout):
    def test_by_a_link_to_the_script(self) -> None:
        self.has_program()
        link = self.room / "links" / "lacrossefir"
        link.parent.mkdir()
        link.symlink_to(self.top / "wf")
        second = self.room / "links" / "second"
        second.symlink_to("lacrossefir")
        for script in (link, second):
            self.assertEqual(self.asked("replay", script=script)[0], "program replay\n")
            self.assertEqual(self.asked("help", script=script)[0], texts.help_on(None))
            self.assertEqual(self.asked("--version", script=script)[0], texts.text("VERSION") + "unproved build\n")

    def test_the_simulator_by_a_link(self) -> None:
        self.has_program()
        self.write("sim/__init__.py", "")
        self.write("sim/__main__.py", "import sys\nprint('sim', *sys.argv[1:])\nsys.exit(3)\n")
        link = self.room / "link"
        link.symlink_to(self.top / "wf")
        self.assertEqual(self.asked("sim", "a", "--help", script=link), ("sim a --help\n", "", 3))
        self.assertEqual(self.asked("sim", "a", script=link), ("sim a\n", "", 3))

    def test_with_the_variable_cdpath(self) -> None:
        self.has_program()
        line = "cd '{}' && checkout/wf --version && checkout/wf replay".format(self.room)
        variables = self.variables(CDPATH=f"..:{self.room}:/")
        done = subprocess.run(["bash", "-c", line], env=variables, capture_output=True, text=True, check=False)
        self.assertEqual(done.stdout, texts.text("VERSION") + "unproved build\nprogram replay\n")

    def test_with_a_folder_whose_name_has_spaces(self) -> None:
        self.has_program()
        moved = self.room / "a check'out $x"
        self.top.rename(moved)
        self.assertEqual(self.asked("replay", script=moved / "wf")[::2], ("program replay\n", 0))

    def test_a_named_program_that_is_not_there_or_cannot_run(self) -> None:
        self.has_program()
        text = self.tool("text", "no program\n")
        text.chmod(0o644)
        octets = self.room / "octets"
        octets.write_bytes(b"\x7fELF\0\0")
        octets.chmod(0o755)
        cases: list[list[str]] = [["replay"], [], ["zzzz"]]
        for path in ("/nonexistent", str(text), str(octets), str(self.room)):
            for words in cases:
                told, why, status = self.asked(*words, WF_PROGRAM=path)
                self.assertEqual((told, status), ("", 125), (path, words))
                self.assertRegex(why, f"{re.escape(path)}.*(expected a program that can be run|cannot be run as a program)")
        named = self.tool("named", "#!/bin/sh\necho named \"$@\"\n")
        self.assertEqual(self.asked("replay", WF_PROGRAM=str(named)), ("named replay\n", "", 0))

    def test_without_a_kit(self) -> None:
        for words in (["replay"], ["build"], ["build", "--unproved"], ["lib"], ["lib", "--unproved"]):
            told, why, status = self.asked(*words)
            self.assertEqual((told, status), ("", 125))
            self.assertIn("there is no 'rt' on the PATH", why)

    def test_an_old_python(self) -> None:
        self.tool("bin/python3", "#!/bin/sh\nexit 125\n")
        self.assertEqual(self.asked("replay")[::2], ("", 125))
        (self.room / "bin/python3").unlink()
        (self.room / "bin/bash").symlink_to("/bin/bash")
        (self.room / "bin/readlink").symlink_to("/usr/bin/readlink")
        told, why, status = self.asked("help", PATH=str(self.room / "bin"))
        self.assertEqual((told, status), ("", 125))
        self.assertIn("there is no 'python3'", why)

    def test_hostile_variables_and_modules_change_nothing(self) -> None:
        self.tool("traps/hashlib.py", "raise SystemExit('trap')\n")
        done = subprocess.run(
            [self.top / "wf", "help", "build"],
            cwd=self.room / "traps",
            env=self.variables(PYTHONPATH=str(self.room / "traps"), PYTHONHOME="/nowhere"),
            capture_output=True,
            text=True,
            check=False,
        )
        self.assertEqual((done.stdout, done.stderr, done.returncode), (texts.help_on("build"), "", 0))


class Simulator(Checkout):
    """The simulator asks ./wf for a program, and has one built if there is none."""

    RUN = """import pathlib, subprocess, sys
wf = pathlib.Path(__file__).resolve().parent.parent / "wf"
if subprocess.run([wf, "which"], stderr=subprocess.DEVNULL).returncode and subprocess.run([wf, "build", "--unproved"]).returncode:
    sys.exit(2)
"""

    def setUp(self) -> None:
        super().setUp()
        self.write("sim/__init__.py", "")
        self.write("sim/__main__.py", self.RUN)

    def test_without_a_kit_the_status_is_125(self) -> None:
        told, why, status = self.asked("sim", "scenario")
        self.assertEqual((told, status), ("", 125))
        self.assertIn("there is no 'rt' on the PATH", why)

    def test_other_faults_keep_their_status(self) -> None:
        self.write("sim/__main__.py", "import sys\nsys.exit(2)\n")
        self.assertEqual(self.asked("sim", "scenario"), ("", "", 2))

    def test_a_signal_stops_the_simulator_and_what_it_builds(self) -> None:
        self.has_kit(f"#!/bin/sh\necho $$ >'{self.room}/began'\nexec sleep 60\n")
        child = subprocess.Popen([self.top / "wf", "sim", "scenario"], env=self.variables(), stderr=subprocess.DEVNULL)
        began = self.room / "began"
        for _ in range(2400):
            if began.exists() and began.read_text(encoding="utf-8"):
                break
            time.sleep(0.05)
        child.send_signal(signal.SIGTERM)
        self.assertEqual(child.wait(60), 128 + signal.SIGTERM)
        self.assertTrue(self.ends(int(began.read_text(encoding="utf-8"))))

    def ends(self, process: int) -> bool:
        """Returns whether a process ends soon."""
        for _ in range(200):
            try:
                with open(f"/proc/{process}/stat", encoding="utf-8") as file:
                    if file.read().rpartition(")")[2].split()[0] == "Z":
                        return True
            except OSError:
                return True
            time.sleep(0.05)
        return False

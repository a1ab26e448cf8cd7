"""Tests of the package traces: lines, pairs, answers, what follows from them, and the pictures. No program
runs."""
import re
import unittest
import xml.etree.ElementTree

from wfdev.model import text
from wfdev.model.frames import Fate
from wfdev.repo import paths
from wfdev.traces import calls, captures, explain, lines, replies, rules, runs, shown, timeline
from wfdev.traces.ledger import Ledger

EXAMPLES = sorted(path.stem for path in paths.EXAMPLES.glob("*.trace"))


def events_of(octets: bytes, written: bytes, size: int = 1000) -> list[runs.Event]:
    """Returns the events of a trace and its output, read in blocks of this size."""
    pairs, cutter, trace = runs.Pairs(), lines.Cutter(), lines.Trace()
    for at in range(0, len(octets), size):
        pairs.add([trace.line(line) for line in cutter.cut(octets[at : at + size])])
    pairs.add([trace.line(line) for line in cutter.rest()])
    return [event for line in written.splitlines() for event in pairs.events(line)]


def events(name: str, size: int = 1000) -> list[runs.Event]:
    """Returns the events of an example, read in blocks of this size."""
    octets = (paths.EXAMPLES / f"{name}.trace").read_bytes()
    return events_of(octets, (paths.EXAMPLES / f"{name}.out").read_bytes(), size)


def booked(name: str) -> Ledger:
    """Returns what follows from the answers of an example."""
    book = Ledger({})
    for event in events(name):
        if isinstance(event, runs.Headed):
            book = Ledger(calls.read_head(event.line.text))
        if isinstance(event, runs.Answered):
            book.take(calls.read(event.line.text), replies.read(event.answer))
    return book


def explained(name: str) -> str:
    """Returns the explanation of an example."""
    how = explain.Explain()
    return how.shown(events(name)) + how.ended()


def row_octets(name: str) -> bytes:
    """Returns the trace of a worked row."""
    return (paths.CHECKS / "worked.d" / f"{name}.in").read_bytes()


def explained_row(name: str) -> str:
    """Returns the explanation of a worked row, with the answers of the model, in one line."""
    octets = row_octets(name)
    return " ".join(explain.Explain().shown(events_of(octets, text.replay(octets)[0].encode())).split())


class Lines(unittest.TestCase):
    def test_blocks_of_each_size_have_the_same_lines(self) -> None:
        octets = b"cell\n\n  # comment\n @3 tick 5 \nend\nafter\nlast"
        wanted = [b"cell", b"", b"  # comment", b" @3 tick 5 ", b"end", b"after", b"last"]
        for size in range(1, len(octets) + 1):
            cutter = lines.Cutter()
            found = [
                line for at in range(0, len(octets), size) for line in cutter.cut(octets[at : at + size])
            ]
            self.assertEqual(found + cutter.rest(), wanted, size)

    def test_parts(self) -> None:
        trace = lines.Trace()
        found = [
            trace.line(line).part.name for line in (b"#", b"", b"cell", b" #x", b"@1 end", b"  end ", b"reap")
        ]
        self.assertEqual(found, ["SKIPPED", "SKIPPED", "HEAD", "SKIPPED", "CALL", "END", "AFTER"])

    def test_octets_that_a_terminal_would_obey_are_escapes(self) -> None:
        line = lines.Trace().line(b"cell \x1b[2J\r\xff~")
        self.assertEqual(line.text, "cell \\x1b[2J\\x0d\\xff~")

    def test_a_long_line_is_kept_in_part(self) -> None:
        cutter = lines.Cutter()
        for _ in range(1000):
            self.assertEqual(cutter.cut(b"x" * 1000), [])
        self.assertEqual(cutter.cut(b"\ny\n"), [b"x" * lines.KEPT, b"y"])
        self.assertEqual(cutter.rest(), [])


class Pairs(unittest.TestCase):
    def test_each_answer_has_its_call_in_every_example(self) -> None:
        for name in EXAMPLES:
            for size in (1, 7, 100_000):
                found = events(name, size)
                for event in found:
                    if isinstance(event, runs.Answered):
                        kinds = {"refused", *replies_of(calls.read(event.line.text).kind)}
                        self.assertIn(event.answer.split()[0], kinds, (name, event))
                text = shown.Echo().shown(found)
                self.assertEqual(
                    re.sub(r"^> .*\n", "", text, flags=re.M), paths.read(paths.EXAMPLES / f"{name}.out")
                )

    def test_a_fault_after_the_last_line_has_no_line(self) -> None:
        pairs, trace = runs.Pairs(), lines.Trace()
        pairs.add([trace.line(b"cell")])
        found = list(pairs.events(b"fault line 2 no-end"))
        self.assertEqual([type(event) for event in found], [runs.Headed, runs.Faulted])
        self.assertEqual(found[1], runs.Faulted(None, "fault line 2 no-end"))

    def test_a_fault_of_the_head_and_of_a_comment(self) -> None:
        for bad in (b"cell flows=0", b"# \xff"):
            pairs, trace = runs.Pairs(), lines.Trace()
            pairs.add([trace.line(line) for line in (b"# good", bad, b"end")])
            (found,) = pairs.events(b"fault line 2 range")
            assert isinstance(found, runs.Faulted) and found.line
            self.assertEqual(found.line.octets, bad)


def replies_of(kind: str) -> set[str]:
    """Returns the kinds of the answers to a kind of call."""
    names = "join leave rate tick enq pull arrive done sleep wake poll rx reap unsent giveup flush offload weight".split()
    answers = "joined left set now accepted send released done slept woken polled charged reaped".split()
    names += "plain hold begin free cease group beacon gpull gdone".split()
    answers += "marked marked flushed joined set joined held begun freed ceased queued beacon gsend gdone".split()
    names += "apsd trigger eosp bss".split()
    answers += "set triggered ended set".split()
    known = dict(zip(names, answers, strict=True))
    return {"ba", "ack"} if kind == "answer" else {known[kind]}


class Fields(unittest.TestCase):
    """The header has the names of the fields."""

    def struct(self, name: str) -> set[str]:
        """Returns the fields of a struct of the header."""
        text = paths.read(paths.HEADER)
        body = re.search(rf"^struct {name} \{{\n(.*?)^\}};", text, re.M | re.S)
        assert body
        return set(
            re.findall(r"^\s*\w+ (\w+)(?:\[\d+\])?;", re.sub(r"/\*.*?\*/", "", body[1], flags=re.S), re.M)
        )

    def test_answers(self) -> None:
        texts = ["joined", "left 3", "set", "now 5", "accepted 1", "accepted 4 dropped 2", "released 1 2"]
        texts += ["send 0 sta 1 tid 2 air 3 data 4:5 6:7 more", "send 0 sta 1 tid 2 air 80 bar 9"]
        texts += ["send 0 sta 1 tid 2 air 3 batch 4 6 more"]
        texts += ["ba 100 00000000000000ff", "ba 1 " + "0" * 63 + "5", "done acked 1 waiting 2 failed 3"]
        texts += ["slept", "woken", "polled be", "charged -5", "reaped 3 codel", "stopped", "started"]
        texts += ["marked", "flushed 3", "reaped 3 flushed", "refused marked"]
        texts += ["send 0 sta 1 tid 2 air 3 plain 4:5 more", "ack", "held 4095", "begun", "freed", "ceased 2", "ceased 2 7 9"]
        texts += ["reaped 3 ended", "refused held", "refused waits 1"]
        texts += ["refused open 2", "refused debt -7", "refused ahead 3952", "refused idle"]
        texts += ["send 0 sta 1 tid 2 air 3 data 4:5 more eosp", "triggered vo", "ended", "refused bad-classes"]
        texts += ["queued 0", "beacon 2 0", "beacon 0 1", "gsend 0 4095 air 464 more", "gdone 0", "refused buffered 9"]
        nested = {"frames": "wf_frames", "passed_up": "wf_passed_up", "block": "wf_block"}
        for text in texts:
            reply = replies.read(text)
            self.assertLessEqual(set(reply.fields) - set(nested), self.struct("wf_reply"), text)
            for name in set(nested) & set(reply.fields):
                self.assertEqual(set(reply.fields[name]), self.struct(nested[name]), text)
        kinds = set(re.findall(r"WF_KIND_(\w+) = ", paths.read(paths.HEADER)))
        self.assertEqual({replies.read(text).kind.upper() for text in texts}, kinds)

    def test_values(self) -> None:
        found = replies.read("send 9 sta 1 tid 2 air 3 data 4:5 6:7 more")
        self.assertEqual(found.frames, [(4, 5), (6, 7)])
        self.assertTrue(found.fields["more"])
        last = replies.read("send 9 sta 1 tid 2 air 3 data 4:5 eosp")
        self.assertEqual((last.frames, last.fields["more"], last.fields["eosp"]), ([(4, 5)], False, True))
        batch = replies.read("send 9 sta 1 tid 2 air 3 batch 4 6 more")
        self.assertEqual((batch.frames, batch.fields["batch"], batch.fields["more"]), ([(4, 0), (6, 0)], True, True))
        plain = replies.read("send 9 sta 1 tid 2 air 3 plain 4:5")
        self.assertEqual((plain.frames, plain.fields["plain"], plain.fields["more"]), ([(4, 5)], True, False))
        ceased = replies.read("ceased 2 7 9").fields
        self.assertEqual(ceased, {"count": 2, "passed_up": {"ids": [7, 9], "count": 2}})
        self.assertEqual(replies.read("held 4095").fields, {"start": 4095})
        self.assertEqual(replies.read("refused waits 1").fields, {"refusal": "waits", "count": 1})
        self.assertEqual(replies.read("refused debt -7").fields, {"refusal": "debt", "deficit": -7})
        self.assertEqual(replies.read("refused ahead 8").fields, {"refusal": "ahead", "air": 8})
        block = replies.read("ba 1 " + "0" * 15 + "3" + "0" * 47 + "5").fields["block"]
        self.assertEqual(
            block, {"bits": ["0" * 15 + "5", "0" * 16, "0" * 16, "0" * 15 + "3"], "start": 1, "wide": True}
        )

    def test_calls(self) -> None:
        texts = ["join 1 64 0 3", "join 1 64 0 3 2", "leave 1", "rate 1 7 20 short", "rate 1 vht 9 80 long 2"]
        texts += ["rate 1 he 11 160 800 2", "tick 5", "@7 enq 1 0 3 100", "pull be", "arrive 0 1", "answer 0"]
        texts += ["done 0 heard", "done 0 lost air 90", "sleep 1", "wake 1", "poll 1", "rx 1 vo 9", "reap"]
        texts += ["unsent 0 1", "giveup 0 1", "flush 1 0", "offload 1 3", "offload 1 3 2", "weight 1 2"]
        texts += ["plain 1 0 3", "plain 1 0 3 2", "hold 1 0", "begin 1 0 64", "free 1 0", "cease 1 0"]
        texts += ["group 300", "beacon", "gpull", "gdone", "group 300 1", "beacon 1", "gpull 1", "gdone 1", "bss 2 3"]
        texts += ["apsd 1 12 2", "trigger 1", "eosp 1"]
        for text in texts:
            self.assertLessEqual(set(calls.read(text).fields), self.struct("wf_call"), text)
        self.assertEqual(calls.read("join 1 64 0 3").fields["weight"], 1)
        self.assertEqual(calls.read("offload 1 3").fields["weight"], 1)
        wanted = {"station": 1, "start": 4095, "exponent": 3, "weight": 1}
        self.assertEqual(calls.read("plain 1 4095 3").fields, wanted)
        self.assertEqual(calls.read("begin 1 0 64").fields, {"station": 1, "tid": 0, "window": 64})
        self.assertEqual(calls.read("rate 1 he 11 160 800 2").fields["guard"], 800)
        self.assertEqual(calls.read("done 0 lost air 90").fields, {"exchange": 0, "heard": False, "air": 90})
        self.assertEqual(calls.read("@7 reap").caller, 7)
        self.assertEqual(calls.read("group 300 1").fields, {"length": 300, "bss": 1})
        self.assertEqual([calls.read(text).number("bss") for text in ("beacon", "beacon 1", "bss 2 3")], [0, 1, 3])

    def test_summary_of_every_example(self) -> None:
        for name in EXAMPLES:
            texts = [event.text for event in events(name) if isinstance(event, runs.Summed)]
            found = replies.read_summary(texts)
            if name != "fault":
                wanted = {"kind", "shares", "calls", "now", "tally", "held", "exchanges", "open"}
                wanted.add("bsses" if name == "bsses" else "tim")
                self.assertEqual(set(found) - {"group"}, wanted, name)
                self.assertEqual("group" in found, name == "multicast", name)
                self.assertEqual(set(found["tally"]), self.struct("wf_tally"))
                for share in found["shares"]:
                    self.assertEqual(set(share) - {"station", "class_"}, self.struct("wf_share"))


    def test_summary_of_several_bsses(self) -> None:
        found = replies.read_summary(["group 1 sent 1 held 0 air 64 bss 0", "tim 050400010000 bss 0", "tim 050401020000 bss 1"])
        group = {"accepted": 1, "sent": 1, "held": 0, "air": 64}
        self.assertEqual(found["bsses"], [{"bss": 0, "group": group, "tim": "050400010000"}, {"bss": 1, "tim": "050401020000"}])
        self.assertNotIn("tim", found)


class Follows(unittest.TestCase):
    def test_the_deficits_of_every_summary(self) -> None:
        for name in EXAMPLES:
            book = booked(name)
            texts = [event.text for event in events(name) if isinstance(event, runs.Summed)]
            for share in replies.read_summary(texts)["shares"]:
                station = book.stations[share["station"]]
                self.assertEqual(station.used[share["class_"]], share["charged"] + share["rx"], name)
                quantum = book.quantum(station)
                self.assertEqual(
                    book.deficit_when_picked(station, share["class_"]),
                    (share["deficit"] - 1) % quantum + 1,
                    name,
                )

    def test_the_frames_of_every_summary(self) -> None:
        for name in EXAMPLES:
            texts = [event.text for event in events(name) if isinstance(event, runs.Summed)]
            if name != "fault":
                found, book = replies.read_summary(texts), booked(name)
                held = sum(1 for frame in book.frames.values() if not frame.fate)
                self.assertEqual((held, len(book.open)), (found["held"], found["open"]), name)


    def test_the_frames_of_the_rows_with_agreements(self) -> None:
        for path in sorted((paths.CHECKS / "worked.d").glob("*.in")):
            octets = path.read_bytes()
            if re.search(rb"^(plain|hold|begin|free|cease) \d", octets, re.M) and not path.stem.startswith(("fault-", "uplink-")):
                player, book = text.Player(), Ledger({})
                for line in octets.splitlines():
                    answer = player.play(line)
                    if answer and line != b"end":
                        book.take(calls.read(line.decode()), replies.read(answer))
                assert player.machine is not None
                held = [frame.id for frame in player.machine.frames if frame.fate is Fate.HELD]
                self.assertEqual([frame.id for frame in book.frames.values() if not frame.fate], held, path.stem)


class Explained(unittest.TestCase):
    def test_a_pull_says_how_the_deficit_came_about(self) -> None:
        told = " ".join(explained("lost-acknowledgement").split())
        self.assertIn(
            "That of station 0 was 124 us: 300 at the join, less 1976 charged, plus 6 quanta of 300.", told
        )
        self.assertIn("sent again: frame 0 (transmission 2)", told)
        self.assertIn("without the answer the sender does not know", told)

    def test_a_pull_says_what_else_could_be_picked(self) -> None:
        told = " ".join(explained("two-rates").split())
        self.assertIn("Station 0 also holds 2 frames of the class, and 1976 us were charged to it", told)

    def test_with_pending_a_pull_says_what_is_in_flight(self) -> None:
        told = explained_row("pending-standing-of-1")
        self.assertIn("Station 0 had 0 us in flight.", told)
        self.assertIn("Station 0 had 256 us in flight.", told)
        self.assertIn("Station 1 also holds 1 frame of the class, 0 us were charged to it, and 0 us are in flight.", told)
        self.assertNotIn("The scheduler picks the first ready station with a deficit above 0.", told)

    def test_with_pending_an_idle_pull_changes_nothing(self) -> None:
        self.assertIn("1 of them in open exchanges. Nothing has changed.", explained_row("pending-idle-changes-no-deficit"))
        self.assertIn(explain.AFTER_IDLE, explained_row("aql-idle-forgives-a-debt"))

    def test_a_refusal_has_its_rule_with_its_numbers(self) -> None:
        told = " ".join(explained("leaving-station").split())
        self.assertIn("Call: Station 3 leaves. Refused: The station has 1 open exchange. Nothing has changed.", told)
        told = " ".join(explained("sleeping-station").split())
        self.assertIn("Station 0 holds 2 frames of the class, but sleeps, and no poll or trigger is for it.", told)

    def test_numbers_and_settings_of_a_rule_are_filled_in(self) -> None:
        told = rules.rule("ahead", 1976, {"aql_total": 100})
        self.assertEqual(told, "1976 microseconds of computed airtime are in flight in all classes: aql_total (100) or more.")
        self.assertEqual(rules.rule("full", 1, {"inflight": 1}), "1 exchange of the class is open: as many as inflight (1).")
        self.assertEqual(rules.rule("open", 11, {}), "The station has 11 open exchanges.")

    def test_no_rule_keeps_a_name_in_marks(self) -> None:
        for refusal in rules.table():
            self.assertNotIn("`", rules.rule(refusal, 1, {}), refusal)

    def test_marks_say_what_follows_from_them(self) -> None:
        told = explained_row("end-is-unsent-before-shown")
        self.assertIn("Call: Transmission 0 of exchange 1 never went on the air.", told)
        self.assertIn("it cannot arrive any more, and its frame waits again when the exchange ends", told)
        self.assertIn("1 transmission never went on the air: the frame waits again", told)
        told = explained_row("request-after-a-number-given-up")
        self.assertIn("its frame fails when the exchange ends, unless the BlockAck shows it", told)
        self.assertIn("A frame fails after attempts (10) transmissions, or if the device gives it up.", told)

    def test_a_batch_ends_as_its_device_says(self) -> None:
        told = " ".join(explained("offloaded-station").split())
        self.assertIn("Exchange 0 goes to station 0, TID 0, and takes 604 us of air. It is a batch, which the device", told)
        self.assertIn("The device says that it was acknowledged; what the receiver passes up is not known.", told)
        self.assertIn("1 frame acknowledged, 1 to be sent again, 1 failed. 900 us are charged", told)
        self.assertIn("A frame of a batch fails if it was not acknowledged, since the device has repeated it.", told)
        self.assertIn("The weight is set; each of its deficits is at most what its new quantum allows.", told)

    def test_a_flush_says_how_many_frames_are_dropped(self) -> None:
        told = explained_row("flush-of-waiting-numbers-then-queues")
        self.assertIn("The frames of station 0, TID 0, that are not on the air are to be dropped.", told)
        self.assertIn("is finished: it was dropped because its TID was flushed.", told)

    def test_an_exchange_without_an_agreement(self) -> None:
        told = explained_row("plain-duplicate-is-acknowledged")
        self.assertIn("the first number 0, the exponent 3 and the weight 1; no TID has an agreement.", told)
        self.assertIn("244 us of air. It is one frame without an agreement, not sent before.", told)
        self.assertIn("It is one frame without an agreement; sent again: frame 0 (transmission 2).", told)
        self.assertIn("The receiver passes nothing up: it has this frame already.", told)
        self.assertIn("The Ack acknowledges the frame.", told)
        told = explained_row("plain-frame-with-marks")
        self.assertIn("its frame fails when the exchange ends, unless an Ack is heard", told)
        self.assertIn("A frame fails after attempts (2) transmissions, or if the device gives it up.", told)

    def test_a_number_that_is_sent_once(self) -> None:
        told = explained_row("plain-number-4096-above-the-last-one")
        last, next_ = (part for part in told.split("line ") if re.match(r"\d+: done 1[01] lost", part))
        self.assertIn("A frame fails after attempts (2) transmissions.", last)
        self.assertIn("Its number is 2,048 or more above the last acknowledged one of the TID, so it is sent once.", next_)

    def test_agreements_begin_and_end(self) -> None:
        told = explained_row("cease-drops-what-waits")
        self.assertIn("The agreement of station 0, TID 0, ends.", told)
        self.assertIn("are dropped: 4. The receiver passes up frames 1 and 3. The TID is held", told)
        self.assertIn("Frame 0 is finished: it was dropped because the agreement of its TID ended.", told)
        self.assertIn("0 of them in open exchanges. TID 0 is held, so no frame of it gets a number.", told)
        self.assertIn("It is free: each frame waits for the Ack of the one before it.", told)
        told = explained_row("begin-is-refused")
        self.assertIn("Refused: The TID has 1 open exchange. Nothing has changed.", told)
        self.assertIn("Refused: 1 sequence number of the TID waits to be sent. Nothing has changed.", told)
        self.assertIn("It is held. An agreement may begin with the number 1.", told)
        self.assertIn("An agreement of station 0, TID 0, begins with a window of 1.", told)

    def test_nothing_means_another_thing_for_each_call(self) -> None:
        told = " ".join(explained("sleeping-station").split())
        self.assertNotIn("There is nothing to answer, to send or to reap", told)

    def test_the_page_has_each_refusal(self) -> None:
        listed = paths.read(paths.HEADER).partition("/* begin refusals")[2].partition("/* end refusals")[0]
        self.assertEqual(len(rules.table()), len(re.findall(r"^  WF_\w+ = ", listed, re.M)))
        said = rules.rule("room", 9, {"room": 9})
        self.assertEqual(said, "9 frames are accepted and not yet reaped: as many as room (9).")

    def test_each_call_of_each_example_has_a_paragraph(self) -> None:
        for name in EXAMPLES:
            count = sum(isinstance(event, runs.Answered) for event in events(name))
            self.assertGreaterEqual(len(re.findall(r"^line \d+: ", explained(name), re.M)), count)


class Pictures(unittest.TestCase):
    def drawn(self, name: str) -> tuple[timeline.Timeline, xml.etree.ElementTree.Element]:
        """Returns the timeline of an example and its picture."""
        made = timeline.Timeline()
        made.take(events(name))
        return made, xml.etree.ElementTree.fromstring(made.text())

    def test_a_bar_for_each_exchange_and_marks_for_losses(self) -> None:
        made, root = self.drawn("lost-requests")
        looks = [
            part.get("class") for part in root.iter("{http://www.w3.org/2000/svg}rect") if part.get("class")
        ]
        self.assertEqual(
            looks[len(timeline.LOOKS) :], ["part", "unheard", "unheard", "unheard", "request", "open"]
        )
        marks = [
            part.get("class") for part in root.iter("{http://www.w3.org/2000/svg}path") if part.get("class")
        ]
        self.assertEqual(marks[2:], ["lost"] * 4)
        self.assertEqual([bar.begin for bar in made.bars], [0, 3868, 3948, 4028, 4108, 4188])

    def test_a_frame_that_is_sent_again_is_marked(self) -> None:
        _, root = self.drawn("lost-acknowledgement")
        marks = [
            part.get("class") for part in root.iter("{http://www.w3.org/2000/svg}path") if part.get("class")
        ]
        self.assertEqual(marks[2:], ["again"])

    def test_a_batch_is_drawn_by_what_its_device_says(self) -> None:
        made, _ = self.drawn("offloaded-station")
        self.assertEqual([bar.look for bar in made.bars], ["part", "whole"])

    def test_exchanges_without_an_agreement_are_drawn(self) -> None:
        octets, made = row_octets("free-goes-on-where-it-held"), timeline.Timeline()
        made.take(events_of(octets, text.replay(octets)[0].encode()))
        self.assertEqual([bar.look for bar in made.bars], ["unheard", "whole", "open"])
        xml.etree.ElementTree.fromstring(made.text())

    def test_axes_have_titles_and_grey_looks_differ(self) -> None:
        _, root = self.drawn("weights")
        texts = [part.text for part in root.iter("{http://www.w3.org/2000/svg}text")]
        for title in ("time, ms", "station", *timeline.LOOKS.values()):
            self.assertIn(title, texts)
        self.assertEqual(len(list(root.iter("{http://www.w3.org/2000/svg}pattern"))), 3)

    def test_a_trace_without_calls(self) -> None:
        xml.etree.ElementTree.fromstring(timeline.Timeline().text())

    def test_ticks(self) -> None:
        for last, wanted in ((1, 0.2), (8000, 1000), (8001, 2000), (33_000, 5000), (1_000_000, 200_000)):
            self.assertAlmostEqual(timeline.step(last), wanted)


class Captures(unittest.TestCase):
    HEAD = bytes.fromhex("d4c3b2a1 02000400 00000000 00000000 ffff0000 7f000000")

    def test_each_kind_says_what_was_found(self) -> None:
        big = bytes.fromhex("a1b2c3d4 00020003 00000000 00000000 0000ffff 00000001")
        for kind, number, head, wanted in (
            ("link", 0, self.HEAD, "begins with radiotap fields; convert it with './wf convert IN OUT'"),
            ("link", 0, big, "the link type is 1, packets of Ethernet: expected 105"),
            ("version", 0, big, "version 2.3: expected 2.4; convert it with"),
            ("magic", 0, b"\x0a\x0d\x0d\x0a", "pcapng; convert it with './wf convert IN OUT'"),
            ("magic", 0, b"\x1f\x8b\x08\x00", "gunzip"),
            ("magic", 0, b"# a trace\ncell\n", "it is a text: expected a capture"),
            ("magic", 0, b"\x00\x01\x02\x03", "begins with the octets 00 01 02 03"),
            ("short", 0, b"\xd4\xc3", "the input has 2 octets"),
            ("short", 3, self.HEAD, "ends inside packet 3"),
            ("long", 3, self.HEAD, "the header of packet 3"),
            ("too-big", 3, self.HEAD, "packet 3 does not end"),
        ):
            self.assertIn(wanted, captures.explained(kind, number, head), kind)


if __name__ == "__main__":
    unittest.main()

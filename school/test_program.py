"""Tests of program.py: the answer of the program `schedule`, and how far rt is."""
import contextlib
import io
import os
import pathlib
import struct
import threading
import unittest
import unittest.mock

import lists
import program
from lists import Window, Zone
from program import Row
from stand_in import walk

CRATES = pathlib.Path(__file__).resolve().parent.parent / "crates.txt"


class Answer(unittest.TestCase):
    def test_the_worked_example(self):
        zones, windows = [Zone(3600, 0), Zone(7200, 2000)], [Window(3600, 1000, 2000)]
        answer = walk(struct.pack("<Q", 500) + lists.record_bytes(zones, windows))
        self.assertEqual(answer, "moment zone dst usable\n500 3600 - yes\n1000 3600 3600 yes\n"
                         "2000 7200 - no\nsteps 2\n")
        rows = [Row(500, 3600, None, True), Row(1000, 3600, 3600, True), Row(2000, 7200, None, False)]
        self.assertEqual(program.read_answer(answer), rows)
        program.agree(zones, windows, 500, rows)

    def test_rows_that_are_not_of_the_lists(self):
        zones, windows = [Zone(3600, 0)], [Window(3600, 1000, 2000)]
        good = [Row(500, 3600, None, True), Row(1000, 3600, 3600, True), Row(2000, 3600, None, False)]
        program.agree(zones, windows, 500, good)
        with self.assertRaises(lists.Stop):
            program.agree(zones, windows, 500, good[:1] + good)
        for index, wrong in ((0, {"moment": 501}), (0, {"usable": False}), (1, {"dst": None}), (1, {"dst": 0}),
                             (2, {"zone": 0}), (2, {"usable": True}), (2, {"moment": 1000})):
            rows = list(good)
            rows[index] = rows[index]._replace(**wrong)
            with self.assertRaises(lists.Stop) as caught:
                program.agree(zones, windows, 500, rows)
            self.assertEqual(caught.exception.status, 3)

    def test_answers_that_are_none(self):
        head = "moment zone dst usable\n"
        for answer in ("", "\n", head, head + "steps 0\n", head + "1 0 - yes\n", head + "1 0 - yes\nsteps 1\n",
                       head + "1 0 - maybe\nsteps 0\n", head + "1 0 -- yes\nsteps 0\n",
                       head + "1 0 - yes\nsteps 0", head + "1 0 - yes\nhm\nsteps 1\n",
                       head + "1 0 - yes\nhm\nsteps 0\n", "1 0 - yes\nsteps 0\n",
                       head + "1 0 - yes\nsteps 0\n\n", "refused 8\n"):
            with self.assertRaises(lists.Stop) as caught:
                program.read_answer(answer)
            self.assertEqual(caught.exception.status, 3)
        with self.assertRaisesRegex(lists.Stop, "refused 7") as caught:
            program.read_answer("refused 7\n")
        self.assertEqual(caught.exception.status, 1)


class Order(unittest.TestCase):
    def test_of_this_repository(self):
        order = program.proof_order(CRATES.read_text("utf-8"), "schedule")
        self.assertEqual(order, ["model", "word", "record", "rules", "table", "lookups", "text", "schedule_text",
                                 "schedule"])

    def test_by_hand(self):
        text = "# crates\n\nlast: a c kit  # and no more\nc: b\nb:\na: b\nother staticlib: last\n"
        self.assertEqual(program.proof_order(text, "last"), ["b", "a", "c", "last"])
        self.assertEqual(program.proof_order(text, "b"), ["b"])

    def test_what_rt_refuses_does_no_harm(self):
        self.assertEqual(program.proof_order("", "last"), [])
        self.assertEqual(program.proof_order("hm", "last"), [])
        self.assertEqual(sorted(program.proof_order("a: b\nb: a c\nc: c", "a")), ["a", "b", "c"])


class Terminal(io.StringIO):
    def isatty(self):
        return True


class Progress(unittest.TestCase):
    def test_the_crate_that_rt_is_at(self):
        order = ["a", "b", "c"]
        for printed, expected in (
            ("", "changes: proving a (1 of 3) ..."),
            ("rt: chose --jobs 2 for ", "changes: proving a (1 of 3) ..."),
            ("rt: chose --jobs 2 for a\n", "changes: proving a (1 of 3) ..."),
            ("rt: chose --jobs 2 for a\nlogic=proved\nrt: chose --jobs 4 for b\n", "changes: proving b (2 of 3) ..."),
            ("rt: a: begins with what a check kept\nrt: chose --jobs 1 for c\n", "changes: proving c (3 of 3) ..."),
            ("rt: chose --jobs 2 for c\nrt: running out/c; to give it other input, run that file yourself\n", None),
        ):
            self.assertEqual(program.progress(order, printed), expected)
        self.assertIsNone(program.progress([], ""))

    def watch(self, *parts):
        """What is told of a pipe on which a part is written after each silence, and what it had."""
        reading, writing = os.pipe()
        told, left, pipe_in = [], list(parts), open(writing, "wb", 0)

        def say(text):
            told.append(text)
            pipe_in.write(left.pop(0).encode())
            if not left:
                pipe_in.close()

        late = threading.Timer(10, pipe_in.close)  # where nothing is told the watch ends all the same
        late.start()
        with open(reading, "rb") as pipe, unittest.mock.patch.object(program, "PATIENCE", 0.01):
            printed = program.watched(pipe, ["a", "b"], say)
        late.cancel()
        return told, printed

    def test_a_silence_is_told(self):
        told, printed = self.watch("rt: chose --jobs 2 for b\n", "logic=é", "\nrt: running out/b\n", "refused 7\n")
        self.assertEqual(told, ["changes: proving a (1 of 2) ...", "changes: proving b (2 of 2) ...",
                                "changes: proving b (2 of 2) ...", None])
        self.assertEqual(printed, "rt: chose --jobs 2 for b\nlogic=é\nrt: running out/b\nrefused 7\n")

    def said(self, stream, *texts):
        """What a line's texts leave on standard error."""
        with contextlib.redirect_stderr(stream):
            line = program.Line()
            for text in texts:
                line.say(text)
            line.clear()
        return stream.getvalue()

    def test_a_line_for_each_crate(self):
        self.assertEqual(self.said(io.StringIO(), "at longer", "at longer", "at b", None), "at longer\nat b\n")

    def test_in_place_on_a_terminal(self):
        self.assertEqual(self.said(Terminal(), "at longer", "at longer", "at b", None),
                         "\rat longer\rat b     \r    \r")

    def test_nowhere_to_say_it(self):
        with unittest.mock.patch("sys.stderr", None):
            line = program.Line()
            line.say("at a")
            line.clear()
        self.assertEqual(line.text, "")

    def test_nothing_to_say(self):
        self.assertEqual(self.said(Terminal()), "")
        self.assertEqual(self.said(Terminal(), None), "")

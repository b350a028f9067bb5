#!/usr/bin/env python3
"""Tests of all that is in school/: school/test_changes.py runs them, those of the other test files too.

They need no toolchain: a walker in Python stands in for the program `schedule`. Where the program
itself has been built, it is run as well, and held to the walker."""
import calendar
import datetime
import os
import pathlib
import random
import re
import struct
import subprocess
import sys
import tempfile
import textwrap
import unittest
import unittest.mock

sys.dont_write_bytecode = True
HERE = pathlib.Path(__file__).resolve().parent
sys.path.insert(0, str(HERE))
import lists  # noqa: E402
import program  # noqa: E402
import test_lists  # noqa: E402
import test_program  # noqa: E402
import test_rules  # noqa: E402
import test_shown  # noqa: E402
import test_whole_way  # noqa: E402
from lists import Window, Zone  # noqa: E402
from stand_in import AT, ZONE, as_text, command, mistakes, random_lists, read, walk, years  # noqa: E402
from words import TOP, read_moment  # noqa: E402

SHIPPED, LARGE = HERE / "lists.txt", HERE / "lists-large.txt"


def load_tests(loader, tests, _):
    others = (test_lists, test_rules, test_program, test_shown, test_whole_way)
    tests.addTests(map(loader.loadTestsFromModule, others))
    return tests


# ## The shipped lists


def last_sunday(year, month):
    """01:00 UTC on the last Sunday of a month."""
    day = max(week[calendar.SUNDAY] for week in calendar.Calendar().monthdayscalendar(year, month))
    return read_moment(f"{year}-{month:02}-{day:02}T01:00Z")


def windows_of(years):
    return [Window(3600, last_sunday(year, 3), last_sunday(year, 10)) for year in years]


class ShippedLists(unittest.TestCase):
    def test_of_the_device(self):
        zones, windows = read(SHIPPED.read_text("utf-8"), "2/2")
        self.assertEqual(zones, [Zone(3600, 0, "Europe/Amsterdam")])
        self.assertEqual(windows, windows_of((2027, 2028)))

    def test_of_a_larger_unit(self):
        zones, windows = read(LARGE.read_text("utf-8"), "8/16")
        self.assertEqual(zones, [Zone(-10_800, 0, "America/Nuuk"), Zone(-7200, last_sunday(2023, 3), "America/Nuuk")])
        self.assertEqual(windows, windows_of(range(2027, 2043)))

    def test_a_larger_units_do_not_fit_the_device(self):
        status, out, err = command(str(LARGE), "--at", AT)
        self.assertEqual((status, out), (1, ""))
        self.assertIn("would refuse these windows (SetDSTOffset) with 3 (ResourceExhausted)", err)

    def test_the_device_shown(self):
        for at, count, local in ((AT, 4, "Mon 2026-11-16 09:00."), ("2027-06-01T10:00Z", 3, "Tue 2027-06-01 12:00.")):
            status, out, err = command("--at", at)
            self.assertEqual((status, err), (0, ""))
            self.assertIn("lists.txt: 1 zone, 2 windows; they fit a controller with limits 2/2\n", out)
            self.assertIn(f"At {at} (given with --at)\n  a correctly set clock shows {local}\n", out)
            self.assertIn("\nUTC                local time                    offset  window  clock\n", out)
            self.assertTrue(out.endswith(f"\n{count} changes are coming.\nThe windows run out at Sun 2028-10-29 03:00 "
                                         "local time (2028-10-29T01:00Z).\nSend new windows before then.\n"))
            self.assertLessEqual(max(map(len, out.split("\n")[1:])), 80)
        self.assertIn("there is NO local time", command("--at", "2028-10-29T01:00Z")[1])

    def test_a_larger_unit_shown(self):
        status, out, _ = command("--limits", "8/16", str(LARGE), "--at", AT)
        self.assertEqual(status, 0)
        self.assertIn("2 zones, 16 windows; they fit a controller with limits 8/16\n", out)
        self.assertIn("\n2027-03-28T01:00Z  Sat 2027-03-27 23:00 → Sun 00:00  -01:00  +01:00  forward 1 h\n", out)
        self.assertIn("\n32 changes are coming.\n", out)
        self.assertLessEqual(max(map(len, out.split("\n")[1:])), 80)

    def test_what_their_comments_say(self):
        text = re.sub(r"\n?# ?", " ", SHIPPED.read_text("utf-8"))
        self.assertIn("A controller with limits 2/2 holds two windows", text)
        self.assertIn("each year, after the October change, send the next two", text)
        self.assertIn("school/changes.py --limits 8/16 school/lists-large.txt", LARGE.read_text("utf-8"))


# ## The command


class Command(unittest.TestCase):
    def setUp(self):
        folder = tempfile.TemporaryDirectory()
        self.addCleanup(folder.cleanup)
        self.folder = pathlib.Path(folder.name)

    def file(self, text):
        (self.folder / "lists").write_text(text, "utf-8")
        return str(self.folder / "lists")

    def test_the_readme_shows_what_is_shown(self):
        """README's block has the output from its first to its last line; ... stands for what is left out."""
        readme = (HERE.parent / "README.md").read_text("utf-8")
        block = readme.partition(f"`--at {AT}`:\n\n")[2].partition("\n\nThe lists are tested first")[0]
        front, left_out, back = textwrap.dedent(block).partition("\n...\n")
        out = command("--at", AT)[1].replace(os.path.relpath(SHIPPED), "school/lists.txt")
        self.assertTrue(left_out and out.startswith(front + "\n") and out.endswith("\n" + back + "\n"))

    def test_the_machines_clock(self):
        status, out, _ = command()
        self.assertEqual(status, 0)
        self.assertIn("(now, by this machine's clock)", out)
        year = datetime.datetime.now(datetime.timezone.utc).year
        self.assertIn(f"At {year}-", out)

    def test_the_machines_clock_is_read_to_the_minute(self):
        for seconds, minute in ((0, 0), (59.999, 0), (60, 1)):
            with unittest.mock.patch("time.time", return_value=1_794_816_000 + seconds):
                self.assertIn(f"At 2026-11-16T08:0{minute}Z (now", command()[1])

    def test_a_machines_clock_before_2000(self):
        with unittest.mock.patch("time.time", return_value=946_684_799.9):
            self.assertEqual(command()[:2], (2, ""))
        with unittest.mock.patch("time.time", return_value=946_684_800.9):
            self.assertIn("At 2000-01-01T00:00Z (now", command()[1])

    def test_stopped_by_hand(self):
        self.assertEqual(command(ask=unittest.mock.Mock(side_effect=KeyboardInterrupt)), (3, "", "changes: stopped\n"))

    def test_record(self):
        out = self.folder / "record"
        status, _, err = command("--at", AT, "--record", str(out))
        # two counts, a zone of 13 bytes with a name of 1 + 16 bytes, two windows of 21 bytes
        self.assertEqual((status, err), (0, f"changes: the record, 74 bytes, is in {out}\n"))
        self.assertEqual(out.read_bytes(), lists.record_bytes(*read(SHIPPED.read_text("utf-8"))))

    def test_record_that_cannot_be_written(self):
        path = self.file(ZONE)
        for out in (str(self.folder), str(self.folder / "no" / "such"), path, "", "a\0b"):
            status, shown_text, err = command(path, "--record", out)
            self.assertEqual((status, shown_text), (2, ""), err)
            self.assertEqual(err.count("\n"), 1)
        self.assertEqual(pathlib.Path(path).read_text(), ZONE)

    def test_a_refused_record_is_not_written(self):
        out = self.folder / "record"
        status, text, err = command("--record", str(out), ask=lambda given: "refused 7\n")
        self.assertEqual((status, text, out.exists()), (1, "", False))
        self.assertIn("refused 7", err)

    def test_limits(self):
        zones = ZONE + "zone +02:00 from 2020-01-01T00:00Z\n"
        three = ZONE + years(2027, 3)
        for text, limits, status in ((three, "1/3", 0), (three, "8/16", 0), (three, "2/2", 1), (zones, "2/1", 0),
                                     (zones, "1/16", 1), (zones + years(2027, 3), "1/2", 1)):
            asked, out = [], self.folder / "record"
            done = command(self.file(text), "--at", AT, "--limits", limits, "--record", str(out),
                           ask=lambda given: asked.append(given) or walk(given))
            self.assertEqual((done[0], bool(done[1]), out.exists(), len(asked)),
                             (status, not status, not status, 1 - status), (text, limits))
            out.unlink(missing_ok=True)

    def test_limits_without_the_option_are_the_devices(self):
        text = ZONE + years(2027, 3)
        path = self.file(text)
        status, out, err = command(path, "--at", "2027-10-01T00:00Z")
        self.assertEqual((status, out), (1, ""))
        self.assertEqual(err.replace(path, "f").split("\n")[:-1], mistakes(text, "2/2", "2027-10-01T00:00Z"))

    def test_bad_usage(self):
        for arguments in (["--at", "now"], ["--at", "2026-11-16T08:00"], ["--at", "2026-02-30T08:00Z"], ["--at"],
                          ["--what"], ["a", "b"], ["--rec", "x"], ["--limits"], ["--limits", "9/16"],
                          ["--limits", "0/1"], ["--limits", "2-2"], ["--limits", "2/"], ["--limits", " 2/2"],
                          ["--limits", ""]):
            status, out, err = command(*arguments)
            self.assertEqual((status, out), (2, ""))
            self.assertIn("error: ", err)

    def test_bad_limits_are_told_in_a_sentence(self):
        self.assertTrue(command("--limits", "9/16")[2].endswith(
            'error: argument --limits: "9/16" gives no limits: '
            "write ZONES/WINDOWS, 1 to 8 zones and 1 to 16 windows, as 2/2 or 8/16\n"))

    def test_a_bad_moment_is_told_in_a_sentence(self):
        self.assertTrue(command("--at", "2026-11-16 08:00Z")[2].endswith(
            "error: argument --at: 2026-11-16 08:00Z has no T between date and time: write 2026-11-16T08:00Z\n"))

    def test_help(self):
        status, out, _ = command("--help")
        self.assertEqual(status, 0)
        for part in ("zone   OFFSET  from MOMENT", "window OFFSET  from MOMENT  to MOMENT", "to open", "exit status:",
                     "little endian", "between windows", "run out", "`rt run` in crates/schedule", "before → after",
                     "--limits ZONES/WINDOWS", "TimeZoneListMaxSize", "\n  window +00:00 from beginning to open\n"):
            self.assertIn(part, out)
        self.assertLessEqual(max(map(len, out.split("\n"))), 80)

    def test_encodings(self):
        for encoding, arrow, other in (("utf-8", "→", "->"), ("ascii", "->", "→"), ("latin-1", "->", "→")):
            for arguments in (["--help"], ["--at", AT]):
                status, out, _ = command(*arguments, encoding=encoding)
                self.assertEqual((status, arrow in out, other in out), (0, True, False))

    def test_columns(self):
        for columns, table, longest in (("40", False, 40), ("80", True, 80), ("200", True, 120)):
            status, out, _ = command("--at", AT, columns=columns)
            self.assertEqual((status, "\nUTC    " in out), (0, table))
            self.assertLessEqual(max(map(len, out.split("\n")[1:])), longest)
            sentence = "\n    inside a window of +01:00, until Sun 2027-10-31 03:00 local time (2027-10-31T01:00Z)\n"
            self.assertEqual(sentence in out, columns == "200")


@unittest.skipUnless(program.PROGRAM.exists(), "the program schedule is not built: rt run, in crates/schedule")
class Program(unittest.TestCase):
    """The program itself, held to the stand-in."""

    def answer(self, given):
        return subprocess.run([str(program.PROGRAM)], input=given, stdout=subprocess.PIPE, check=True).stdout.decode()

    def test_shipped_lists(self):
        for arguments in ((), ("--limits", "8/16", str(LARGE))):
            for at in ("2000-01-01T00:00Z", AT, "2027-06-01T10:00Z", "2043-01-01T00:00Z"):
                self.assertEqual(command("--at", at, *arguments, ask=self.answer), command("--at", at, *arguments))

    def test_many_lists(self):
        drawn = random.Random(4)
        for _ in range(200):
            start = drawn.choice((0, TOP, drawn.randrange(2 ** drawn.randrange(1, 65))))
            given = struct.pack("<Q", start) + lists.record_bytes(*random_lists(drawn))
            self.assertEqual(self.answer(given), walk(given))

    def test_what_the_rules_turn_down_is_refused(self):
        good = Zone(0, 0)
        for zones, windows in (([Zone(0, 1)], []), ([good, good], []), ([Zone(50_401, 0)], []),
                               ([Zone(0, 0, "x" * 65)], []), ([good], [Window(0, 5, 5)]),
                               ([good], [Window(0, 5, None), Window(0, 6, None)]),
                               ([good], [Window(0, 5, 9), Window(0, 8, None)]),
                               ([Zone(0, n) for n in range(9)], []),
                               ([good], [Window(0, n, n + 1) for n in range(17)])):
            self.assertEqual(self.answer(bytes(8) + lists.record_bytes(zones, windows)), "refused 7\n")
            self.assertNotEqual(mistakes(as_text(zones, windows)), [])

    def test_the_rules_turn_down_what_is_refused_and_nothing_else(self):
        drawn = random.Random(7)
        refused = 0
        for _ in range(200):
            zones, windows = test_rules.spoiled_lists(drawn)
            answer = self.answer(bytes(8) + lists.record_bytes(zones, windows))
            self.assertEqual(bool(mistakes(as_text(zones, windows))), answer == "refused 7\n")
            refused += answer == "refused 7\n"
        self.assertGreater(min(refused, 200 - refused), 20)


if __name__ == "__main__":
    unittest.main()

"""Tests of words.py and lists.py: moments, offsets, names, lines, files and the record."""
import datetime
import os
import pathlib
import random
import tempfile
import unittest

import lists
import words
from lists import Window, Zone
from stand_in import AT, ZONE, command, mistakes, read, wrong_lines
from words import TOP, read_moment

HERE = pathlib.Path(__file__).resolve().parent


# ## Words


class Words(unittest.TestCase):
    def test_moments_against_the_calendar(self):
        drawn = random.Random(1)
        base = datetime.datetime(2000, 1, 1)
        for _ in range(2000):
            date = base + datetime.timedelta(minutes=drawn.randrange(8000 * 365 * 1440))
            moment = (date - base) // datetime.timedelta(microseconds=1)
            word = date.strftime("%Y-%m-%dT%H:%MZ")
            self.assertEqual((read_moment(word), words.utc_text(moment)), (moment, word))
            self.assertEqual(words.local_text(moment), date.strftime("%a %Y-%m-%d %H:%M"))

    def test_moments_come_back(self):
        drawn = random.Random(2)
        edges = [0, 1, 999_999, 10**6, 2**63, TOP - 1, TOP]
        for moment in edges + [drawn.randrange(2 ** drawn.randrange(1, 65)) for _ in range(3000)]:
            self.assertEqual(read_moment(words.utc_text(moment)), moment)

    def test_moments_at_the_edges(self):
        for word, moment in (
            ("2000-01-01T00:00Z", 0),
            ("2000-01-01T00:00:00.1Z", 100_000),
            ("2000-01-01T23:59:59Z", 86_399_000_000),
            ("2000-02-29T00:00Z", 59 * words.DAY),
            ("2400-02-29T00:00Z", (146_097 + 59) * words.DAY),
            ("+586554-01-18T08:01:49.551615Z", TOP),
        ):
            self.assertEqual(read_moment(word), moment)
        self.assertEqual(words.utc_text(TOP), "+586554-01-18T08:01:49.551615Z")
        with self.assertRaisesRegex(words.Wrong, "too late"):
            read_moment("+586554-01-18T08:01:49.551616Z")

    def test_offsets_come_back(self):
        for word, offset in (
            ("+01:00", 3600), ("-03:30", -12_600), ("+00:19:32", 1172), ("+00:00", 0),
            ("+99:59:59", 359_999), ("+360000s", 360_000), ("-2147483648s", -(2**31)),
            ("+2147483647s", 2**31 - 1),
        ):
            self.assertEqual((words.read_offset(word), words.offset_text(offset)), (offset, word))
        self.assertEqual(words.read_offset("+3600s"), 3600)

    def test_names(self):
        for name in ("", "Europe/Amsterdam", "a # b", "é" * 32, "x" * 64):
            self.assertEqual(read(f'zone +01:00 from beginning "{name}"')[0][0].name, name)
        self.assertIsNone(read(ZONE)[0][0].name)


# a moment that is not written as it has to be, and all that is said of it
IN_UTC = "write the moment in UTC (local time less its offset), as one word such as 2026-03-29T01:00Z"
BOTH = "write date and time as one word, such as 2026-03-29T01:00Z"
NO_MOMENTS = (
    ("2026-10-25 01:00Z", "has no T between date and time: write 2026-10-25T01:00Z"),
    ("2026-10-2501:00Z", "has no T between date and time: write 2026-10-25T01:00Z"),
    ("2026-10-25-01:00Z", "has no T between date and time: write 2026-10-25T01:00Z"),
    ("2026-10-25_01:00:30.5Z", "has no T between date and time: write 2026-10-25T01:00:30.5Z"),
    ("2026-10-25t01:00Z", "has a small t: write 2026-10-25T01:00Z"),
    ("2026-10-25T01:00z", "has a small z: write 2026-10-25T01:00Z"),
    ("2026-10-25t01:00z", "has a small t and a small z: write 2026-10-25T01:00Z"),
    ("2026-10-25 T01:00Z", "has a space beside its T: write 2026-10-25T01:00Z"),
    ("2026-10-25T 01:00Z", "has a space beside its T: write 2026-10-25T01:00Z"),
    ("2026-10-25T01:00 Z", "has a space before its Z: write 2026-10-25T01:00Z"),
    ("2026-10-25 01:00 Z", "has no T between date and time and a space before its Z: write 2026-10-25T01:00Z"),
    ("2026-10-25 01:00 UTC", "has no T between date and time and UTC in place of Z: write 2026-10-25T01:00Z"),
    ("+12026-10-25 01:00Z", "has no T between date and time: write +12026-10-25T01:00Z"),
    ("2026-10-25T01:00", f"has no Z at its end: {IN_UTC}"),
    ("2026-10-25 01:00", f"has no T between date and time and no Z at its end: {IN_UTC}"),
    ("2026-10-2501:00", f"has no T between date and time and no Z at its end: {IN_UTC}"),
    ("2026-10-25T01:00+01:00", f"has an offset at its end: {IN_UTC}"),
    ("2026-10-25T01:00 +01:00", f"has an offset at its end: {IN_UTC}"),
    ("2026-10-25 01:00-0330", f"has no T between date and time and an offset at its end: {IN_UTC}"),
    ("2026-10-25", f"has no time of day: {BOTH}"),
    ("2026-10-25T", f"has no time of day: {BOTH}"),
    ("2026-10-25Z", f"has no time of day: {BOTH}"),
    ("01:00Z", f"has no date: {BOTH}"),
    ("01:00", f"has no date: {BOTH}"),
    ("T01:00:30Z", f"has no date: {BOTH}"),
)


class Moments(unittest.TestCase):
    def test_what_is_missing_is_named(self):
        for word, sentence in NO_MOMENTS:
            with self.subTest(word=word), self.assertRaises(words.Wrong) as caught:
                read_moment(word)
            self.assertEqual(str(caught.exception), f"{word} {sentence}")

    def test_in_a_line_it_is_told_once_even_as_several_words(self):
        for word, sentence in NO_MOMENTS:
            for line in (f"window +01:00 from {word} to open", f"window +01:00 from beginning to {word}",
                         f'zone +01:00 from {word} "A"'):
                with self.subTest(line=line):
                    self.assertEqual(mistakes(ZONE + line), [f"f:2: {word} {sentence}"])

    def test_both_moments_of_a_window(self):
        told = mistakes(ZONE + "window +01:00 from 2026-03-29 01:00Z to 2026-10-25 01:00Z")
        self.assertEqual(told, ["f:2: 2026-03-29 01:00Z has no T between date and time: write 2026-03-29T01:00Z",
                                "f:2: 2026-10-25 01:00Z has no T between date and time: write 2026-10-25T01:00Z"])

    def test_words_that_belong_to_no_moment_are_not_joined_to_one(self):
        for line, unexpected in (("window +01:00 from 2026-10-25 +01:00 to", '"+01:00" where "to" belongs'),
                                 ("window +01:00 from 2026-10-25 -01:00 to", '"-01:00" where "to" belongs'),
                                 ("window +01:00 from 2026-10-25T01:00Z Z to open", '"Z" where "to" belongs'),
                                 ("window +01:00 from 2026-10-25T01:00Z 02:00Z open", '"02:00Z" where "to" belongs')):
            self.assertIn(f"unexpected word {unexpected}", mistakes(ZONE + line)[-1])

    def test_other_words(self):
        for word in ("tomorrow", "", "20266-03-29T01:00Z", "2026-3-29T01:00Z", "2026-03-29T1:00Z", "29.03.2026",
                     "2026-03-29T01:00:00.1234567Z", "2026-03-29T01:00Z ", "٢026-03-29T01:00Z"):
            with self.assertRaises(words.Wrong) as caught:
                read_moment(word)
            self.assertEqual(str(caught.exception),
                             f'"{word}" is no moment: write one in UTC, such as 2026-03-29T01:00Z')


# ## Wrong lines

ZONE_FORM = 'zone OFFSET from MOMENT "NAME"'
WINDOW_FORM = "window OFFSET from MOMENT to MOMENT"
# a line after a good zone, and what is said of it
WRONG_LINES = (
    ("Zone +01:00 from beginning", 'unexpected word "Zone": a line begins with zone, window or #'),
    ("dst +01:00", 'unexpected word "dst": a line begins with zone, window or #'),
    ('"zone" +01:00', 'unexpected word "zone": a line begins'),
    ("zone 01:00 from 2001-01-01T00:00Z", r"the offset 01:00 has no sign: write \+01:00 or -01:00"),
    ("zone \u221201:00 from 2001-01-01T00:00Z", "plain minus"),
    ("zone +1:00 from 2001-01-01T00:00Z", r"\+1:00 is no offset"),
    ("zone +01:60 from 2001-01-01T00:00Z", r"\+01:60 is no offset"),
    ("zone +14:00:01 from 2001-01-01T00:00Z", r"from -12:00 to \+14:00, and \+14:00:01 does not"),
    ("zone -12:00:01 from 2001-01-01T00:00Z", r"from -12:00 to \+14:00"),
    ("zone +01:00 from beginning", "only the first zone counts from the beginning"),
    ("zone +01:00 from 2000-01-01T00:00Z", "only the first zone counts from the beginning"),
    ("zone +01:00 since 2001-01-01T00:00Z", f'unexpected word "since" where "from" belongs: {ZONE_FORM}$'),
    ("zone +01:00 2001-01-01T00:00Z Europe/Paris", 'unexpected word "2001-01-01T00:00Z" where "from" belongs'),
    ("zone +01:00 from", f"the line is too short: {ZONE_FORM} "),
    ("zone", "too short"),
    ("window +01:00 2026-03-29T01:00Z - 2026-10-25T01:00Z",
     f'unexpected word "2026-03-29T01:00Z" where "from" belongs: {WINDOW_FORM}$'),
    ("window +01:00 to open", f'unexpected word "to" where "from" belongs: {WINDOW_FORM}$'),
    ('zone +01:00 from 2001-01-01T00:00Z "A', "closing quote is missing"),
    ('zone +01:00 from 2001-01-01T00:00Z "', "closing quote is missing"),
    ("zone +01:00 from 2001-01-01T00:00Z Europe/Paris",
     'unexpected word "Europe/Paris": a name stands in straight double quotes'),
    ("zone +01:00 from 2001-01-01T00:00Z \u201cA\u201d", "straight double quotes"),
    ('zone +01:00 from 2001-01-01T00:00Z "A" "B"', f'unexpected word "B": {ZONE_FORM}$'),
    ('zone +01:00 from 2001-01-01T00:00Z "A\tB"', "a tab stands in the name"),
    ('zone +01:00 from 2001-01-01T00:00Z "A\x07"', r"control character \(U\+0007\)"),
    (f'zone +01:00 from 2001-01-01T00:00Z "{"x" * 65}"', "65 bytes long in UTF-8, and at most 64 are taken"),
    (f'zone +01:00 from 2001-01-01T00:00Z "{"é" * 33}"', "66 bytes long"),
    (f'zone +01:00 from 2001-01-01T00:00Z "{"x" * 256}"', "256 bytes long in UTF-8, and at most 64 are taken"),
    ("window +2147483648s from beginning to open", "too large: 32 bits"),
    ("window -2147483649s from beginning to open", "too large: 32 bits"),
    ("window +01:00 from tomorrow to open", '"tomorrow" is no moment'),
    ("window +01:00 from 2026-02-30T01:00Z to open", "impossible date"),
    ("window +01:00 from 2100-02-29T01:00Z to open", "impossible date"),
    ("window +01:00 from 2026-13-01T01:00Z to open", "impossible date"),
    ("window +01:00 from 2026-03-29T24:00Z to open", "no possible time of day"),
    ("window +01:00 from 2026-03-29T23:60Z to open", "no possible time of day"),
    ("window +01:00 from 2026-03-29T23:59:60Z to open", "no possible time of day"),
    ("window +01:00 from 1999-12-31T23:59Z to open", "is before 2000"),
    ("window +01:00 from +700000-01-01T00:00Z to open", "too late"),
    ("window +01:00 from beginning until open", f'unexpected word "until" where "to" belongs: {WINDOW_FORM}$'),
    ("window +01:00 from beginning to", f"the line is too short: {WINDOW_FORM} "),
    ("window +01:00 from beginning to beginning", '"beginning" is no moment'),
    ('window +01:00 from beginning to open "Summer"', f'unexpected word "Summer": {WINDOW_FORM}$'),
    ("window +01:00 from beginning to open Summer", f'unexpected word "Summer": {WINDOW_FORM}$'),
    ("window +01:00 from beginning to open Summer time", f'unexpected word "Summer": {WINDOW_FORM}$'),
    ("window +01:00 from 2026-03-29T01:00Z to 2026-03-29T01:00Z", "not after it starts"),
    ("window +01:00 from 2026-03-29T01:00Z to 2025-03-29T01:00Z", "not after it starts"),
    ("z\0o\0n\0e\0", r"control character \(U\+0000\)"),
    ("x" * 500, 'unexpected word "x{70}[.]{3}":'),
)


class WrongLines(unittest.TestCase):
    def test_each_wrong_line(self):
        for line, sentence in WRONG_LINES:
            with self.subTest(line=line):
                told = wrong_lines(f"# lists\n\n{ZONE}{line}\n")
                self.assertEqual(len(told), 1, told)
                self.assertRegex(told[0], "^f:4: ")
                self.assertRegex(told[0], sentence)

    def test_several_in_a_line(self):
        told = mistakes(ZONE + 'zone 1 from 01:00Z "A')
        self.assertEqual([line.split(": ")[1][:12] for line in told], ["1 is no offs", "01:00Z has n", "the name's c"])

    def test_a_short_line_with_a_wrong_word(self):
        self.assertEqual(mistakes(ZONE + "window 1 from beginning"), [
            "f:2: 1 is no offset: write one as +01:00, -03:30 or +3600s",
            f"f:2: the line is too short: {WINDOW_FORM} (or: to open)"])

    def test_all_together_in_order(self):
        told = mistakes('zone 1 from 1999-01-01T00:00Z "x\nwindow +01:00 from beginning to 2026-02-30T00:00Z\nhm\n'
                        "window +01:00 from 2027-01-01T00:00Z to 2026-01-01T00:00Z\nzone +20:00 from beginning")
        self.assertEqual([line.split(":")[1] for line in told], list("11123455"))

    def test_very_many(self):
        told = mistakes("hm\n" * 1000)
        self.assertEqual((len(told), told[-1]), (61, "f: and 940 more"))

    def test_nothing(self):
        for text in ("", "\n\n", "# only a comment\n"):
            self.assertEqual(mistakes(text), ["f: nothing is in the file: no zone and no window"])

    def test_no_zone(self):
        told = mistakes("window +01:00 from beginning to open")
        self.assertEqual(told, ["f: no zone is in the file; for UTC write:  zone +00:00 from beginning"])


class Files(unittest.TestCase):
    def setUp(self):
        folder = tempfile.TemporaryDirectory()
        self.addCleanup(folder.cleanup)
        self.path = os.path.join(folder.name, "f.txt")

    def told(self, data):
        pathlib.Path(self.path).write_bytes(data)
        status, out, err = command(self.path, "--at", AT)
        return status, out, err.replace(self.path, "f")

    def test_not_utf8(self):
        expected = (1, "", "f:2: not UTF-8 text (byte 0xe9); save it as UTF-8\n")
        self.assertEqual(self.told(b"# a\n# caf\xe9\n"), expected)
        self.assertIn("byte 0xff", self.told(ZONE.encode("utf-16"))[2])

    def test_missing_and_directory(self):
        status, out, err = command(self.path)
        self.assertEqual((status, out, err), (1, "", f"{self.path}: cannot be read: No such file or directory\n"))
        status, out, err = command(str(HERE))
        self.assertEqual((status, out, err), (1, "", f"{HERE}: cannot be read: Is a directory\n"))
        self.assertEqual(command("")[0], 1)
        self.assertEqual(command("a\0b")[0], 1)

    def test_too_large(self):
        self.assertIn("larger than", self.told(b"#" * 1_000_001)[2])

    def test_mark_and_line_ends_of_other_editors(self):
        self.assertEqual(self.told(b"\xef\xbb\xbf" + ZONE.replace("\n", "\r\n").encode())[0], 0)
        self.assertIn("f:1: a control character (U+000D)", self.told(b"# one\rzone\r")[2])


# ## The record


class Record(unittest.TestCase):
    def test_by_hand(self):
        text = ('zone +01:00 from beginning "Zürich"\nzone -00:00:01 from 2000-01-01T00:00:00.000258Z\n'
                'zone +00:00 from 2000-01-01T00:00:01Z ""\n'
                "window +01:00 from 2000-01-01T00:00:00.001Z to 2000-01-01T00:00:00.002Z\n"
                "window -2147483648s from +586554-01-18T08:01:49.551615Z to open\n")
        expected = bytes.fromhex(
            "03" "100e0000" "0000000000000000" "01" "07" "5ac3bc72696368"
            "ffffffff" "0201000000000000" "00" "00000000" "40420f0000000000" "01" "00"
            "02" "100e0000" "e803000000000000" "01" "d007000000000000" "00000080" "ffffffffffffffff" "00")
        self.assertEqual(lists.record_bytes(*read(text)), expected)

    def test_of_the_largest_lists(self):
        zones = [Zone(0, n, "x" * 64) for n in range(8)]
        windows = [Window(0, n, n + 1) for n in range(16)]
        self.assertEqual(len(lists.record_bytes(zones, windows)), 962)

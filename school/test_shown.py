"""Tests of shown.py: what a person is shown of a school's lists."""
import io
import os
import random
import re
import unittest
import unittest.mock

import shown
from stand_in import PAGE, ZONE, as_text, random_lists, read, shown_text, view
from words import TOP, local_text, utc_text

YEAR = "window +01:00 from 2026-03-29T01:00Z to 2026-10-25T01:00Z\n"
WIDE = PAGE._replace(width=120)
ASCII = PAGE._replace(encoding="ascii")
RUN_OUT = "the windows have run out: panels show NO local time until the administrator sends new windows"
DUBLIN = ('zone +01:00 from beginning "Europe/Dublin"\n'
          "window -01:00 from 2026-10-25T01:00Z to 2027-03-28T01:00Z\n"
          "window -01:00 from 2027-10-31T01:00Z to 2028-03-26T01:00Z\n")


def wide(text, at):
    """What is shown on a wide page, where no sentence of these tests is broken."""
    return shown_text(text, at, WIDE)


class States(unittest.TestCase):
    def test_a_year(self):
        self.assertEqual(shown_text('zone +01:00 from beginning "Europe/Amsterdam"\n' + YEAR, "2026-01-01T00:00Z"), """\
lists: 1 zone, 1 window; they fit a controller with limits 8/16
At 2026-01-01T00:00Z (test) a correctly set clock shows Thu 2026-01-01 01:00.
Zone +01:00 "Europe/Amsterdam"

UTC                local time                    offset  window  clock
2026-01-01T00:00Z  Thu 2026-01-01 01:00          +01:00  -       (start)
    between windows (none has started yet): the next starts
      Sun 2026-03-29 02:00 local time (2026-03-29T01:00Z)
2026-03-29T01:00Z  Sun 2026-03-29 02:00 → 03:00  +02:00  +01:00  forward 1 h
    inside a window of +01:00, until
      Sun 2026-10-25 03:00 local time (2026-10-25T01:00Z)
2026-10-25T01:00Z  Sun 2026-10-25 03:00 → none   -       -       stops
    the windows have run out: panels show NO local time until the administrator
      sends new windows

2 changes are coming.
The windows run out at Sun 2026-10-25 03:00 local time (2026-10-25T01:00Z).
Send new windows before then.
""")

    def test_between_is_not_run_out(self):
        after = "2026-12-01T00:00Z"
        between = wide(ZONE + YEAR + "window +01:00 from 2027-03-28T01:00Z to open", after)
        run_out = wide(ZONE + YEAR.replace("2026", "2025") + YEAR, after)
        self.assertIn("\n    between windows: the next starts Sun 2027-03-28 02:00 local time (2027-03-28T01:00Z)\n",
                      between)
        self.assertIn("a correctly set clock shows Tue 2026-12-01 01:00.", between)
        self.assertNotRegex(between, "(run|ran) out")
        self.assertIn("there is NO local time: panels show none.", run_out)
        self.assertIn(RUN_OUT, run_out)
        self.assertTrue(run_out.endswith("\nNo changes are coming.\nThe windows ran out at "
                                         "Sun 2026-10-25 03:00 local time (2026-10-25T01:00Z).\nSend new windows.\n"))
        self.assertNotIn("between", run_out)
        self.assertNotRegex(run_out, r"2026-12-01 0|\+01:00  ")

    def test_the_edges_of_a_window(self):
        for at, state in (("2026-03-29T00:59:59.999999Z", "between windows"),
                          ("2026-03-29T01:00Z", "inside a window"),
                          ("2026-10-25T00:59:59.999999Z", "inside a window"), ("2026-10-25T01:00Z", RUN_OUT)):
            under = wide(ZONE + YEAR, at).split("(start)\n")[1]
            self.assertTrue(under.startswith("    " + state), under)

    def test_open(self):
        text = wide(ZONE + "window +01:00 from 2026-03-29T01:00Z to open", "2026-01-01T00:00Z")
        self.assertIn("inside a window of +01:00, open: it has no end", text)
        self.assertTrue(text.endswith("\n1 change is coming.\nThe last window is open: local time does not stop.\n"))

    def test_no_windows(self):
        text = wide(ZONE + "zone +02:00 from 2027-01-01T00:00Z\n", "2026-01-01T00:00Z")
        self.assertIn("lists: 2 zones, no windows; ", text)
        self.assertIn("there is NO local time: panels show none.", text)
        state = "    no window is in the file: panels show NO local time until the administrator sends windows\n"
        self.assertEqual(text.count(state), 2)
        self.assertTrue(text.endswith("\n1 change is coming.\nSend windows. A school without summer time sends one "
                                      "that is open: window +00:00 from beginning to open\n"))
        self.assertNotRegex(text, "(run|ran) out|between")

    def test_the_window_for_a_school_without_summer_time(self):
        text = shown_text(ZONE + shown.NO_SUMMER_TIME, "2026-07-01T00:00Z")
        self.assertIn("2026-07-01T00:00Z  Wed 2026-07-01 01:00  +01:00  +00:00  (start)\n"
                      "    inside a window of +00:00 (the clock is not shifted), open: it has no end\n", text)
        self.assertTrue(text.endswith("\nNo changes are coming.\nThe last window is open: local time does not stop.\n"))

    def test_held_at_the_beginning(self):
        text = wide("zone -01:00 from beginning\nwindow +00:00 from beginning to open", "2000-01-01T00:30Z")
        self.assertIn("a correctly set clock shows Sat 2000-01-01 00:00.", text)
        self.assertIn("    local time is held at the beginning\n", text)

    def test_held_at_the_end(self):
        text = wide(ZONE + "window +2147483647s from beginning to open", utc_text(TOP))
        self.assertIn("a correctly set clock shows Fri +586554-01-18 08:01:49.551615.", text)
        self.assertIn("    local time is held at the last moment that fits\n", text)

    def test_names_cannot_disturb_the_terminal(self):
        text = shown_text('zone +01:00 from beginning "a\u202eb\u2028c"', "2026-01-01T00:00Z")
        self.assertIn('Zone +01:00 "a\\u{202e}b\\u{2028}c"', text)


class WindowColumn(unittest.TestCase):
    def test_winter_windows_that_set_back(self):
        text = wide(DUBLIN, "2026-07-01T00:00Z")
        for row in (r"2026-07-01T00:00Z  Wed 2026-07-01 01:00 +\+01:00  -       \(start\)\n"
                    r"    between windows \(none has started yet\): the next starts Sun 2026-10-25 02:00 local time ",
                    r"2026-10-25T01:00Z  Sun 2026-10-25 02:00 → 01:00  \+00:00  -01:00  back 1 h\n"
                    r"    inside a window of -01:00, until Sun 2027-03-28 01:00 local time ",
                    r"2027-03-28T01:00Z  Sun 2027-03-28 01:00 → 02:00  \+01:00  -       forward 1 h\n"
                    r"    between windows: the next starts Sun 2027-10-31 02:00 local time ",
                    r"2028-03-26T01:00Z  Sun 2028-03-26 01:00 → none   -       -       stops\n"):
            self.assertRegex(text, row)

    def test_a_window_that_shifts_nothing(self):
        text = wide(ZONE + YEAR.replace("+01:00", "+00:00"), "2026-01-01T00:00Z")
        self.assertIn("2026-03-29T01:00Z  Sun 2026-03-29 02:00         +01:00  +00:00  no change\n", text)
        self.assertIn("inside a window of +00:00 (the clock is not shifted), until Sun 2026-10-25 02:00 local", text)

    def test_no_word_is_made_of_an_offset(self):
        for offset in ("+01:00", "-01:00", "+00:00", "+02:00"):
            self.assertNotRegex(wide(ZONE + YEAR.replace("+01:00", offset), "2026-01-01T00:00Z"), "(?i)summer|winter")

    def test_a_window_of_many_seconds(self):
        text = wide(ZONE + "window +2147483647s from 2026-03-29T01:00Z to open", "2026-03-29T01:00Z")
        self.assertIn("  +2147487247s  +2147483647s  (start)\n", text)


class LocalTimes(unittest.TestCase):
    def test_a_zone_changes_before_the_window_ends(self):
        text = wide(ZONE + 'zone +03:00 from 2026-05-01T00:00Z "B"\n' + YEAR, "2026-04-01T00:00Z")
        self.assertEqual(re.findall("until (Sun.*)", text), ["Sun 2026-10-25 05:00 local time (2026-10-25T01:00Z)"] * 2)
        self.assertIn("Sun 2026-10-25 05:00 → none", text)
        self.assertIn("The windows run out at Sun 2026-10-25 05:00 local time (2026-10-25T01:00Z).", text)

    def test_a_zone_changes_before_the_next_window_starts(self):
        text = wide(ZONE + "zone -02:00 from 2026-02-01T00:00Z\n" + YEAR, "2026-01-01T00:00Z")
        self.assertEqual(re.findall("starts (.*)", text), ["Sat 2026-03-28 23:00 local time (2026-03-29T01:00Z)"] * 2)
        self.assertIn("Sat 2026-03-28 23:00 → Sun 00:00", text)

    def test_a_zone_changes_at_the_very_moment(self):
        text = wide(ZONE + "zone +05:00 from 2026-10-25T01:00Z\n" + YEAR, "2026-04-01T00:00Z")
        self.assertIn("until Sun 2026-10-25 03:00 local time (2026-10-25T01:00Z)", text)

    def test_a_window_at_the_end_of_another(self):
        text = wide(ZONE + YEAR + "window +02:00 from 2026-10-25T01:00Z to 2026-11-01T00:00Z", "2026-04-01T00:00Z")
        self.assertRegex(text, "until Sun 2026-10-25 03:00 local time .*\n.* 03:00 → 04:00 .* forward 1 h\n"
                         ".* until Sun 2026-11-01 03:00 local")

    def test_after_the_windows_ran_out_the_zone_before_counts(self):
        for zone in ("2026-10-25T01:00Z", "2026-11-01T00:00Z"):
            text = wide(ZONE + f"zone +05:00 from {zone}\n" + YEAR, "2026-12-01T00:00Z")
            self.assertIn("The windows ran out at Sun 2026-10-25 03:00 local time (2026-10-25T01:00Z).", text)

    def test_what_is_told_before_is_what_the_row_then_shows(self):
        drawn = random.Random(6)
        for _ in range(300):
            found = view(as_text(*random_lists(drawn)), utc_text(drawn.randrange(2 ** drawn.randrange(1, 65))))
            for before, row in zip(found.rows, found.rows[1:]):
                if before.usable:
                    arrives = shown.local_moment(before._replace(moment=row.moment))
                    expected = f"{local_text(arrives)} local time ({utc_text(row.moment)})"
                    self.assertEqual(shown.coming_text(found, row.moment).replace(shown.GLUE, " "), expected)


class Table(unittest.TestCase):
    def test_a_window_that_sets_back(self):
        text = wide(ZONE + "window -00:30 from 2026-03-29T01:00Z to open", "2026-01-01T00:00Z")
        self.assertRegex(text, r"02:00 → 01:30  \+00:30  -00:30  back 30 min\n    inside a window of -00:30, open")

    def test_over_midnight(self):
        text = wide(ZONE + "window +01:30 from 2026-03-28T22:30Z to open", "2026-01-01T00:00Z")
        self.assertIn("Sat 2026-03-28 23:30 → Sun 01:00  +02:30  +01:30  forward 1 h 30 min\n", text)

    def test_over_days(self):
        text = wide(ZONE + "window -48:00 from 2026-03-28T22:30Z to open", "2026-01-01T00:00Z")
        self.assertIn("Sat 2026-03-28 23:30 → Thu 2026-03-26 23:30  -47:00  -48:00  back 2 d\n", text)

    def test_stopping_over_midnight(self):
        text = wide(ZONE + YEAR.replace("10-25T01:00Z", "10-25T22:30Z"), "2026-07-01T00:00Z")
        self.assertIn("2026-10-25T22:30Z  Mon 2026-10-26 00:30 → none  -       -       stops\n", text)

    def test_rows_too_wide_for_a_table(self):
        text = shown_text(ZONE + "window +01:00 from 2026-03-28T22:30:00.000001Z to open", "2026-01-01T00:00Z")
        self.assertIn("""
2026-03-28T22:30:00.000001Z
    local time: Sat 2026-03-28 23:30:00.000001 → Sun 00:30:00.000001
    offset: +02:00
    window: +01:00
    clock: forward 1 h
    inside a window of +01:00, open: it has no end
""", text)
        self.assertNotIn("UTC  ", text)

    def test_zones(self):
        text = wide(ZONE + 'zone +02:00 from 2026-05-01T00:00Z "B"\nzone +02:00 from 2026-06-01T00:00Z\n'
                    'zone +00:00 from 2027-01-01T00:00Z "C"\n' + YEAR, "2026-04-01T00:00Z")
        self.assertIn("Zone +01:00, without a name\n", text)
        self.assertRegex(text, r"Fri 2026-05-01 02:00 → 03:00  \+03:00  \+01:00  forward 1 h\n"
                         r'    zone changes to \+02:00 "B"\n    inside a window of \+01:00, until')
        self.assertRegex(text, r"Mon 2026-06-01 03:00 +\+03:00  \+01:00  no change\n"
                         r"    zone changes to \+02:00, without a name\n    inside")
        self.assertRegex(text, r"2027-01-01T00:00Z  none +-       -       still none\n"
                         rf'    zone changes to \+00:00 "C"\n    {RUN_OUT}')
        self.assertIn("\n4 changes are coming.\nThe windows run out at Sun 2026-10-25 04:00 local time", text)

    def test_a_zone_from_the_starting_moment(self):
        text = wide(ZONE + 'zone +02:00 from 2026-05-01T00:00Z "B"\n' + YEAR, "2026-05-01T00:00Z")
        self.assertIn('Zone +02:00 "B"\n', text)
        self.assertNotIn("zone changes", text)

    def test_zone_and_window_that_cancel(self):
        text = wide(ZONE + "zone +02:00 from 2026-10-25T01:00Z\n" + YEAR + YEAR.replace("2026", "2027"),
                    "2026-10-01T00:00Z")
        self.assertRegex(text, r"2026-10-25T01:00Z  Sun 2026-10-25 03:00 +\+02:00  -       no change\n"
                         r"    zone changes to \+02:00, without a name\n    between windows: ")


class Pages(unittest.TestCase):
    def page(self, columns, encoding="utf-8", terminal=None):
        """The page of an output, with COLUMNS and with so many columns of a terminal, or none."""
        size = {"side_effect": OSError} if terminal is None else {"return_value": os.terminal_size((terminal, 24))}
        with unittest.mock.patch.dict(os.environ, COLUMNS=columns), \
                unittest.mock.patch("os.get_terminal_size", **size):
            return shown.page_of(io.TextIOWrapper(io.BytesIO(), encoding))

    def test_width(self):
        for columns, terminal, width in (("", None, 80), ("0", None, 80), ("wide", None, 80), ("", 100, 100),
                                         ("90", 100, 90), ("80", None, 80), ("40", None, 40), ("39", None, 40),
                                         ("1", None, 40), ("120", None, 120), ("200", None, 120), ("", 500, 120)):
            self.assertEqual(self.page(columns, terminal=terminal).width, width, (columns, terminal))

    def test_signs(self):
        for encoding, signs in (("utf-8", ("→", "µs")), ("utf-16", ("→", "µs")), ("ascii", ("->", "us")),
                                ("latin-1", ("->", "us")), ("cp1252", ("->", "us"))):
            page = self.page("80", encoding)
            self.assertEqual((page.arrow, page.micro), signs)
        self.assertEqual(shown.page_of(io.StringIO()).arrow, "→")

    def test_a_name_that_the_encoding_does_not_have(self):
        lists = 'zone +01:00 from beginning "Zürich"\nzone +02:00 from 2027-01-01T00:00Z "東京"\n' + YEAR
        for encoding, first, second in (("utf-8", "Zürich", "東京"), ("latin-1", "Zürich", "\\u6771\\u4eac"),
                                        ("ascii", "Z\\xfcrich", "\\u6771\\u4eac")):
            text = shown_text(lists, "2026-01-01T00:00Z", PAGE._replace(encoding=encoding))
            self.assertIn(f'\nZone +01:00 "{first}"\n', text)
            self.assertIn(f'\n    zone changes to +02:00 "{second}"\n', text)

    def test_the_table_without_an_arrow(self):
        text = shown_text(ZONE + "window +01:00 from 2026-03-29T01:00Z to 2026-10-25T01:00Z\n", "2026-01-01T00:00Z",
                          ASCII)
        self.assertIn("""
UTC                local time                     offset  window  clock
2026-01-01T00:00Z  Thu 2026-01-01 01:00           +01:00  -       (start)
""", text)
        self.assertIn("\n2026-03-29T01:00Z  Sun 2026-03-29 02:00 -> 03:00  +02:00  +01:00  forward 1 h\n", text)
        self.assertIn("\n2026-10-25T01:00Z  Sun 2026-10-25 03:00 -> none   -       -       stops\n", text)
        self.assertTrue(text.isascii())

    def test_microseconds(self):
        lists = "zone -00:00:01 from beginning\nwindow +00:00 from beginning to open\n"
        lists += "zone +00:00 from 2000-01-01T00:00:00.000005Z\n"
        for page, change in ((PAGE, "forward 5 µs"), (ASCII, "forward 5 us")):
            self.assertIn(f"clock: {change}\n", shown_text(lists, "2000-01-01T00:00Z", page))

    def test_a_narrow_page(self):
        text = shown_text(ZONE + YEAR, "2026-07-01T00:00Z", PAGE._replace(width=40))
        self.assertIn("""
2026-10-25T01:00Z
    local time:
      Sun 2026-10-25 03:00 → none
    offset: -
    window: -
    clock: stops
    the windows have run out: panels
      show NO local time until the
      administrator sends new windows

1 change is coming.
The windows run out at Sun 2026-10-25
  03:00 local time (2026-10-25T01:00Z).
Send new windows before then.
""", text)

    def test_a_wide_page(self):
        self.assertIn("\n    inside a window of +01:00, until Sun 2026-10-25 03:00 local time (2026-10-25T01:00Z)\n",
                      shown_text(ZONE + YEAR, "2026-07-01T00:00Z", PAGE._replace(width=88)))


class ManyLists(unittest.TestCase):
    def test_read_back_and_shown_within_the_width(self):
        drawn = random.Random(3)
        for _ in range(400):
            zones, windows = random_lists(drawn)
            text = as_text(zones, windows)
            self.assertEqual(read(text), (zones, windows))
            start = drawn.choice((0, TOP, drawn.randrange(2 ** drawn.randrange(1, 65))))
            page = shown.Page(drawn.choice((40, 60, 80, 120)), drawn.choice(("utf-8", "ascii")))
            lines = shown_text(text, utc_text(start), page).split("\n")
            self.assertLessEqual(max(map(len, lines[1:])), page.width)
            ends = bool(windows) and windows[-1].end is not None
            self.assertEqual("have run out" in " ".join(" ".join(lines).split()), ends)

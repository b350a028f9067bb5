"""Tests of rules.py: the rules of the lists, a controller's limits, and what it would do with lists that it refuses."""
import random
import re
import unittest

import rules
from lists import Window, Zone
from stand_in import ZONE, as_text, mistakes, random_lists, read, wrong_lines, years
from words import Wrong

# what a controller has after it refused a list
KEPT = "and keep its zones and windows as they are"
LOST = "and lose the windows that it has: panels would show NO local time"
LARGER = ("f: where the controller is a larger unit, give its limits, as --limits 8/16; "
          "it tells them as TimeZoneListMaxSize and DSTOffsetListMaxSize")


def zones(count):
    """Zones on the lines from 1 on: from the beginning, then from each year after 2020."""
    return ZONE + "".join(f"zone +02:00 from {2020 + n}-01-01T00:00Z\n" for n in range(1, count))


def windows(count):
    return years(2021, count)


def refused(noun, number, limits):
    """What is told of a controller that refuses a list."""
    command, after = {"zone": ("SetTimeZone", KEPT), "window": ("SetDSTOffset", LOST)}[noun]
    named = {2: "2 (ConstraintError)", 3: "3 (ResourceExhausted)"}[number]
    return f"f: a controller with limits {limits} would refuse these {noun}s ({command}) with {named} {after}"


class Rules(unittest.TestCase):
    def test_first_zone(self):
        told = wrong_lines("\nzone +01:00 from 2020-01-01T00:00Z")
        self.assertEqual(told, ["f:2: the first zone has to count from the beginning: from beginning"])

    def test_the_edges_of_a_zones_offset(self):
        self.assertEqual(mistakes("zone -12:00 from beginning\nzone +14:00 from 2020-01-01T00:00Z"), [])

    def test_order_of_zones(self):
        told = wrong_lines(ZONE + "zone +02:00 from 2020-01-01T00:00Z\nzone +02:00 from 2020-01-01T00:00Z")
        self.assertEqual(told, ["f:3: zones stand in order of time: this one starts at 2020-01-01T00:00Z, "
                                "not after that of line 2, at 2020-01-01T00:00Z"])

    def test_between_windows(self):
        first = "window +01:00 from 2026-03-01T00:00Z to 2026-10-01T00:00Z\n"
        for second, sentence in (
            ("from 2026-09-30T23:59:59.999999Z to open", "f:3: windows overlap: .* that of line 2 ends"),
            ("from 2026-03-01T00:00Z to open", "f:3: windows stand in order of time: .* line 2"),
            ("from 2025-03-01T00:00Z to 2025-04-01T00:00Z", "f:3: windows stand in order of time"),
        ):
            told = wrong_lines(ZONE + first + "window +01:00 " + second)
            self.assertEqual(len(told), 1)
            self.assertRegex(told[0], sentence)
        self.assertEqual(mistakes(ZONE + first + "window +01:00 from 2026-10-01T00:00Z to open"), [])

    def test_after_an_open_window(self):
        told = wrong_lines(ZONE + "window +01:00 from beginning to open\n"
                           "window +01:00 from 2026-03-01T00:00Z to open")
        self.assertEqual(told, ["f:3: nothing can follow an open window, and that of line 2 is open"])


class LimitWords(unittest.TestCase):
    def test_taken(self):
        for count_zones in range(1, 9):
            for count_windows in range(1, 17):
                limits = rules.read_limits(f"{count_zones}/{count_windows}")
                self.assertEqual(tuple(limits), (count_zones, count_windows))
                self.assertEqual(str(limits), f"{count_zones}/{count_windows}")

    def test_not_taken(self):
        for word in ("9/16", "8/17", "0/1", "1/0", "10/16", "2-2", "2/", "/2", "2", "", "/", " 2/2", "2/2 ", "2 / 2",
                     "02/2", "2/02", "+2/2", "2/2/2", "2\\2", "-1/2", "2.0/2", "٢/2", "2/2\n", "a/b", "100/2"):
            with self.subTest(word=word), self.assertRaises(Wrong) as caught:
                rules.read_limits(word)
            self.assertRegex(str(caught.exception), r" gives no limits: write ZONES/WINDOWS, 1 to 8 zones and "
                             r"1 to 16 windows, as 2/2 or 8/16\Z")


class LimitOfLists(unittest.TestCase):
    def test_windows_at_each_limit_and_one_past_it(self):
        for limit in range(1, 17):
            limits = f"1/{limit}"
            self.assertEqual(len(read(ZONE + windows(limit), limits)[1]), limit)
            told = mistakes(ZONE + windows(limit + 1), limits)
            self.assertEqual(told[0], f"f:{limit + 2}: {limit + 1} windows, and a controller with limits {limits} "
                             f"takes {limit}; past the limit: the window of line {limit + 2}")
            self.assertEqual(told[1], refused("window", 3, limits))

    def test_zones_at_each_limit_and_one_past_it(self):
        for limit in range(1, 9):
            limits = f"{limit}/1"
            self.assertEqual(len(read(zones(limit), limits)[0]), limit)
            told = mistakes(zones(limit + 1), limits)
            self.assertEqual(told[0], f"f:{limit + 1}: {limit + 1} zones, and a controller with limits {limits} "
                             f"takes {limit}; past the limit: the zone of line {limit + 1}")
            self.assertEqual(told[1], refused("zone", 3, limits))

    def test_all_that_is_told_of_windows(self):
        text = ZONE + "# five\n" + windows(5)
        told = mistakes(text, "2/2", "2020-01-01T00:00Z")
        self.assertEqual(told, [
            "f:5: 5 windows, and a controller with limits 2/2 takes 2; past the limit: the windows of lines 5 to 7",
            refused("window", 3, "2/2"),
            "f: send at most 2: keep the windows of lines 3 and 4, the first that are not over at 2020-01-01T00:00Z",
            LARGER])

    def test_windows_that_are_over_are_not_to_be_kept(self):
        for at, sentence in (
            ("2021-09-30T23:59:59.999999Z", "keep the windows of lines 2 and 3, the first that are not over at 2021"),
            ("2021-10-01T00:00Z", "keep the windows of lines 3 and 4, the first that are not over at 2021-10-01"),
            ("2024-10-01T00:00Z", "keep the window of line 6, the first that is not over at 2024-10-01T00:00Z"),
            ("2025-10-01T00:00Z", "send at most 2, and new ones: all of these have ended at 2025-10-01T00:00Z"),
        ):
            self.assertIn(sentence, mistakes(ZONE + windows(5), "2/2", at)[2])

    def test_what_is_to_be_kept_is_taken(self):
        text = (ZONE + windows(5)).split("\n")
        kept = re.search(r"lines (\d+) and (\d+),", mistakes("\n".join(text), "2/2", "2022-05-01T00:00Z")[2])
        lines = [text[0], text[int(kept[1]) - 1], text[int(kept[2]) - 1]]
        self.assertEqual([window.start for window in read("\n".join(lines), "2/2")[1]],
                         [window.start for window in read("\n".join(text))[1][1:3]])

    def test_all_that_is_told_of_zones(self):
        told = mistakes(zones(4) + windows(1), "2/2", "2020-01-01T00:00Z")
        self.assertEqual(told, [
            "f:3: 4 zones, and a controller with limits 2/2 takes 2; past the limit: the zones of lines 3 and 4",
            refused("zone", 3, "2/2"), "f: send at most 2: keep the zones of lines 1 and 2", LARGER])

    def test_the_first_zone_that_is_kept_counts_from_the_beginning(self):
        for at, sentence in (
            ("2020-12-31T23:59Z", "keep the zones of lines 1 and 2"),
            ("2021-01-01T00:00Z", "keep the zones of lines 2 and 3, and change line 2 to: from beginning"),
            ("2030-01-01T00:00Z", "keep the zone of line 4, and change line 4 to: from beginning"),
        ):
            self.assertEqual(mistakes(zones(4), "2/2", at)[2], f"f: send at most 2: {sentence}")

    def test_both(self):
        told = mistakes(zones(3) + windows(3), "2/2", "2020-01-01T00:00Z")
        self.assertEqual([line[:4] for line in told[:2]], ["f:3:", "f:6:"])
        self.assertEqual((told[2], told[4]), (refused("zone", 3, "2/2"), refused("window", 3, "2/2")))
        self.assertEqual((told[3], told[5]), (
            "f: send at most 2: keep the zones of lines 1 and 2",
            "f: send at most 2: keep the windows of lines 4 and 5, the first that are not over at 2020-01-01T00:00Z"))
        self.assertEqual(told[6:], [LARGER])

    def test_past_every_limit_there_is_one_message_and_no_larger_unit(self):
        told = mistakes(zones(10) + windows(17))
        self.assertEqual(told[:2], [
            "f:9: 10 zones, and a controller with limits 8/16 takes 8; past the limit: the zones of lines 9 and 10",
            "f:27: 17 windows, and a controller with limits 8/16 takes 16; past the limit: the window of line 27"])
        self.assertEqual((told[2], told[4], len(told)), (refused("zone", 3, "8/16"), refused("window", 3, "8/16"), 6))
        told = mistakes(ZONE + windows(17), "2/2")
        self.assertEqual((len([line for line in told if line.startswith("f:4:")]), told[-1]), (1, LARGER))

    def test_a_larger_unit_is_spoken_of_where_there_is_one(self):
        for text, limits, larger in ((zones(9), "8/1", False), (zones(8), "7/16", True), (zones(9), "7/16", True),
                                     (ZONE + windows(17), "1/16", False), (ZONE + windows(16), "8/15", True)):
            self.assertEqual(mistakes(text, limits)[-1] == LARGER, larger)


# ## What a controller would do, entry by entry


def controller(entries, limit, rule):
    """Its answer to a list: the entry at the limit is 3 before its rule is asked, one that breaks its rule is 2."""
    for index, entry in enumerate(entries):
        if index == limit:
            return 3
        if not rule(index, entries[index - 1] if index else None, entry):
            return 2
    return 0


def zone_good(index, before, zone):
    return ((zone.start == 0) == (index == 0) and (before is None or before.start < zone.start)
            and -43_200 <= zone.offset <= 50_400 and (zone.name is None or len(zone.name.encode()) <= 64))


def window_good(_, before, window):
    in_order = before is None or (before.end is not None and before.start < window.start >= before.end)
    return in_order and (window.end is None or window.start < window.end)


def spoiled(drawn, entries, make):
    """Some entries in another order, and some others in their place."""
    entries = [make() if drawn.random() < 0.1 else entry for entry in entries]
    if len(entries) > 1 and drawn.random() < 0.3:
        at = drawn.randrange(len(entries) - 1)
        entries[at:at + 2] = entries[at + 1], entries[at]
    return entries


def spoiled_lists(drawn):
    """Lists of which some have mistakes."""
    def zone():
        return Zone(drawn.randint(-50_000, 60_000), drawn.randrange(99), drawn.choice((None, "é" * 33)))

    def window():
        return Window(0, drawn.randrange(99), drawn.randrange(99))

    zones_read, windows_read = random_lists(drawn)
    return spoiled(drawn, zones_read, zone), spoiled(drawn, windows_read, window)


class Answers(unittest.TestCase):
    def test_many_lists_with_mistakes(self):
        drawn = random.Random(5)
        seen = set()
        for _ in range(1500):
            some_zones, some_windows = spoiled_lists(drawn)
            limits = rules.Limits(drawn.randint(1, 8), drawn.randint(1, 16))
            told = mistakes(as_text(some_zones, some_windows), str(limits))
            expected = []
            for noun, answer in (("zone", controller(some_zones, limits.zones, zone_good)),
                                 ("window", controller(some_windows, limits.windows, window_good))):
                expected += [refused(noun, answer, limits)] if answer else []
                seen.add((noun, answer))
            self.assertEqual([line for line in told if "would refuse" in line], expected)
            self.assertEqual(bool(told), bool(expected))
        self.assertEqual(len(seen), 6)

    def test_a_rule_broken_before_the_limit(self):
        told = mistakes(ZONE + windows(1) * 2 + windows(3), "2/2")
        self.assertIn(refused("window", 2, "2/2"), told)
        self.assertIn("f:4: 5 windows, and", "\n".join(told))
        self.assertNotIn("keep the windows", "\n".join(told))

    def test_a_rule_broken_at_the_limit(self):
        told = mistakes(ZONE + windows(2) + windows(1), "2/2")
        self.assertEqual([line[:4] for line in told[:2]], ["f:4:", "f:4:"])
        self.assertIn(refused("window", 3, "2/2"), told)

    def test_a_rule_broken_within_the_limits(self):
        self.assertEqual(mistakes(ZONE + windows(1) * 2, "2/2")[1:], [refused("window", 2, "2/2")])
        self.assertEqual(mistakes(ZONE * 2, "2/2")[1:], [refused("zone", 2, "2/2")])
        self.assertEqual(mistakes(ZONE * 2 + windows(1) * 2, "2/2")[2:],
                         [refused("zone", 2, "2/2"), refused("window", 2, "2/2")])

    def test_a_long_name_can_be_sent_up_to_255_bytes(self):
        for size, after in ((65, [refused("zone", 2, "2/2")]), (255, [refused("zone", 2, "2/2")]), (256, [])):
            self.assertEqual(mistakes(f'zone +01:00 from beginning "{"x" * size}"', "2/2")[1:], after)

    def test_what_cannot_be_read_cannot_be_sent(self):
        unread = "window +01:00 from now to open\n"
        self.assertEqual(len(mistakes(ZONE + windows(1) * 2 + unread)), 2)
        told = mistakes(ZONE * 2 + unread, "2/2")
        self.assertEqual((len(told), told[-1]), (3, refused("zone", 2, "2/2")))
        told = mistakes(ZONE + windows(2) + unread, "2/2")
        self.assertEqual((len(told), told[-1]), (3, LARGER))
        for stray in ("Window +01:00 from beginning to open\n", "# \x07\n"):
            self.assertNotIn("would refuse", "\n".join(mistakes(ZONE * 2 + stray + windows(3), "2/2")))

    def test_a_list_can_be_sent_up_to_255_entries(self):
        for count, after in ((255, 2), (256, 1)):
            self.assertEqual(len(mistakes(ZONE + windows(1) * count, "2/2")), 61 + after)

    def test_it_is_told_after_very_many_lines(self):
        told = mistakes(ZONE + windows(1) * 100, "2/2")
        self.assertEqual(told[60:], ["f: and 40 more", refused("window", 2, "2/2"), LARGER])

#!/usr/bin/env python3
"""Writes the table of the program `vectors`: its input, and the answers that it must give.

The answers come from readers of their own, written here and resting on Python's strict UTF-8
decoder, never from a run of the port. Usage: tests/vectors.py, at the root of the repository."""
import pathlib
import random
import struct

TOP = 2**64 - 1
rows = []


def row(letter, given, answer):
    """Adds a row, once; what is given is bytes, or numbers and bytes."""
    parts = given if isinstance(given, tuple) else (given,)
    shown = " ".join(part.hex() if isinstance(part, bytes) else str(part) for part in parts)
    if (letter, shown, answer) not in rows:
        rows.append((letter, shown, answer))


# ## UTF-8: Unicode's table 3-7 as rows of lead bytes, second bytes and how many more follow

TABLE_3_7 = [
    (0xC2, 0xDF, 0x80, 0xBF, 0),
    (0xE0, 0xE0, 0xA0, 0xBF, 1),
    (0xE1, 0xEC, 0x80, 0xBF, 1),
    (0xED, 0xED, 0x80, 0x9F, 1),
    (0xEE, 0xEF, 0x80, 0xBF, 1),
    (0xF0, 0xF0, 0x90, 0xBF, 2),
    (0xF1, 0xF3, 0x80, 0xBF, 2),
    (0xF4, 0xF4, 0x80, 0x8F, 2),
]
OTHERS = ["", "00", "7f", "80", "bf", "c080", "c1bf", "e08080", "e09fbf", "eda080", "edbfbf", "f0808080", "f08fbfbf", "f4908080",
          "f5808080", "f8888080", "fe", "ff", "41c3a942", "c3a9c3", "4575726f70652f5a7572696368"]


def well_formed(text):
    try:
        text.decode("utf-8")
        return True
    except UnicodeDecodeError:
        return False


def utf8(text):
    row("u", text, "well-formed" if well_formed(text) else "malformed")


def utf8_rows():
    """The first and last of each row, one outside each, every cut, and one byte too many."""
    for low, high, first, last, more in TABLE_3_7:
        for lead in (low, high):
            whole = bytes([lead, first]) + b"\x80" * more
            for second in (first - 1, first, last, last + 1):
                utf8(bytes([lead, second]) + b"\x80" * more)
            for at in range(2, 2 + more):
                for byte in (0x7F, 0x80, 0xBF, 0xC0):
                    utf8(whole[:at] + bytes([byte]) + whole[at + 1:])
            for cut in range(1, len(whole)):
                utf8(whole[:cut])
            utf8(whole + b"\x80")
    for text in OTHERS:
        utf8(bytes.fromhex(text))


# ## Sections and records

def zone(offset, start, name=None):
    tail = b"\0" if name is None else b"\1" + bytes([len(name)]) + name
    return struct.pack("<iQ", offset, start) + tail


def window(offset, start, end=None):
    tail = b"\0" if end is None else b"\1" + struct.pack("<Q", end)
    return struct.pack("<iQ", offset, start) + tail


def section(entries):
    return bytes([len(entries)]) + b"".join(entries)


def read_zone(s, at):
    """What is shown of the zone at a place, and the place after it; None where there is none."""
    if at + 13 > len(s) or s[at + 12] > 1:
        return None
    offset, start = struct.unpack("<iQ", s[at:at + 12])
    shown = f"{offset} from {start}"
    if s[at + 12] == 0:
        return shown, at + 13
    if at + 13 == len(s):
        return None
    name = s[at + 14:at + 14 + s[at + 13]]
    if len(name) < s[at + 13] or not well_formed(name):
        return None
    return f"{shown} named by {len(name)}", at + 14 + len(name)


def read_window(s, at):
    if at + 13 > len(s) or s[at + 12] > 1:
        return None
    offset, start = struct.unpack("<iQ", s[at:at + 12])
    if s[at + 12] == 0:
        return f"{offset} from {start}, open", at + 13
    if at + 21 > len(s):
        return None
    return f"{offset} from {start} to {struct.unpack('<Q', s[at + 13:at + 21])[0]}", at + 21


def read_section(read, s, at):
    if at >= len(s):
        return None
    entries, next_at = [], at + 1
    for _ in range(s[at]):
        found = read(s, next_at)
        if found is None:
            return None
        entries.append(found[0])
        next_at = found[1]
    return entries, next_at


def request(letter, read, s):
    found = read_section(read, s, 0)
    if found is None or found[1] != len(s):
        row(letter, s, "unreadable")
    else:
        row(letter, s, "; ".join([str(len(found[0]))] + found[0]))


def zones(s):
    request("z", read_zone, s)


def windows(s):
    request("w", read_window, s)


def record(s):
    first = read_section(read_zone, s, 0)
    second = read_section(read_window, s, first[1]) if first else None
    if second is None or second[1] != len(s):
        row("r", s, "unreadable")
    else:
        row("r", s, f"{len(first[0])} zones, {len(second[0])} windows from byte {first[1]}")


def marked(s, at, mark):
    return s[:at] + bytes([mark]) + s[at + 1:]


def cuts(ask, s):
    for cut in range(len(s) + 1):
        ask(s[:cut])
    ask(s + b"\0")


def zone_rows():
    for s in (b"\0\0", b"\1", b"\xff", section([zone(0, 0)]), section([zone(-1, 0)])):
        zones(s)
    zones(section([zone(-43200, 1, b""), zone(50400, 2)]))
    zones(section([zone(-2**31, 0), zone(2**31 - 1, TOP)]))
    cuts(zones, section([zone(3600, 0, b"UTC"), zone(-3600, TOP)]))
    for mark in (2, 3, 255):
        zones(marked(section([zone(0, 0)]), 13, mark))
    for length in (64, 65, 255):
        zones(section([zone(0, 0, b"a" * length)]))
    zones(section([zone(0, 0, b"a" * 255)])[:-1])
    for name in ("c080", "eda080", "f4908080", "c3", "c3a9"):
        zones(section([zone(0, 0, bytes.fromhex(name))]))
    for count, there in ((2, 1), (0, 1), (9, 9), (255, 255)):
        zones(bytes([count]) + zone(1, 5) * there)


def window_rows():
    for s in (b"\0\0", section([window(-2**31, 0, 0)]), section([window(2**31 - 1, TOP, TOP)])):
        windows(s)
    cuts(windows, section([window(3600, 10, 20), window(0, 20)]))
    for mark in (2, 255):
        windows(marked(section([window(0, 1, 2)]), 13, mark))
        windows(marked(section([window(0, 1)]), 13, mark))
    for count, there in ((3, 2), (1, 2), (17, 17)):
        windows(bytes([count]) + window(1, 2, 3) * there)


def record_rows():
    cuts(record, section([zone(3600, 0, b"CET")]) + section([window(3600, 10, 20)]))
    cuts(record, b"\0\0")
    largest = bytes([8]) + zone(0, 0, b"a" * 64) * 8 + bytes([16]) + window(0, 1, 2) * 16
    for s in (largest, largest[:-1], largest + b"\0", marked(largest, 0, 7), marked(largest, 0, 9)):
        record(s)


# ## Scripts on a clock: a new one of build moment 0

DAY = 86_400_000_000
MINUTES, SECONDS = 1, 2
ADMIN = 2
GRANULARITIES, TIME_SOURCES = 5, 17


class Clock:
    def __init__(self):
        self.bytes, self.answers = b"", []
        self.start(0)

    def start(self, build, stored=None, trusted=None):
        """A clock that knows no time: after a reset, and after a load."""
        self.utc, self.persisted = (build, build) if stored is None else (max(build, stored), stored)
        self.granularity = self.source = 0
        self.anchor, self.trusted = None, trusted

    def setting(self, letter, moment, granularity, source, tick):
        self.bytes += letter + struct.pack("<QBBQ", moment, granularity, source, tick)
        if granularity >= GRANULARITIES:
            return "no granularity"
        if source >= TIME_SOURCES:
            return "no time source"
        new = (moment, max(granularity - 1, MINUTES), source)
        changed = new != (self.utc, self.granularity, self.source)
        (self.utc, self.granularity, self.source), self.anchor = new, tick
        return "changed" if changed else "same"

    def set(self, moment, granularity=SECONDS, source=ADMIN, tick=0):
        self.answers.append(self.setting(b"S", moment, granularity, source, tick))
        return self

    def persist(self, moment, granularity=SECONDS, source=ADMIN, tick=0):
        answer = self.setting(b"P", moment, granularity, source, tick)
        if answer in ("changed", "same"):
            stored = abs(self.persisted - moment) >= DAY
            self.persisted = moment if stored else self.persisted
            answer += f", stored {moment}" if stored else ", not stored"
        self.answers.append(answer)
        return self

    def trust(self, *source):
        """Installs a source of fabric index, node and endpoint, and clears it where none is given."""
        self.bytes += b"T" + struct.pack("<BQH", *source) if source else b"C"
        if source == (self.trusted or ()):
            self.answers.append("same source")
        else:
            self.answers.append(" ".join(map(str, ("stored source", *source))) if source else "removed source")
        self.trusted = source or None
        return self

    def load(self, build, stored=None, trusted=None):
        parts = (*(trusted or (0, 0, 0)), trusted is not None, stored is not None, stored or 0, build)
        self.bytes += b"L" + struct.pack("<BQHBBQQ", *parts)
        if trusted is not None and trusted[0] == 0:
            self.answers.append("refused 7")
        else:
            self.start(build, stored, trusted)
            self.answers.append("loaded")
        return self

    def reset(self, build):
        self.bytes += b"R" + struct.pack("<Q", build)
        self.start(build)
        self.answers.append("reset")
        return self

    def read(self, *ticks):
        for tick in ticks:
            self.bytes += b"U" + struct.pack("<Q", tick)
            shown, granularity, source = f"last known {self.utc}", 0, 0
            if self.anchor is not None:
                shown = f"reliable {min(self.utc + max(tick - self.anchor, 0), TOP)}"
                granularity, source = self.granularity, self.source
            trusted = "none trusted" if self.trusted is None else " ".join(map(str, ("trusted", *self.trusted)))
            self.answers.append(f"{shown}, granularity {granularity}, time source {source}, {trusted}")
        return self

    def broken(self, given):
        """Bytes that are no step: the script ends there."""
        self.bytes += given
        self.answers.append("no step")
        return self

    def row(self):
        row("c", self.bytes, "; ".join(self.answers))


def within(*numbers):
    return [n for n in numbers if 0 <= n <= TOP]


def setting_rows():
    """Readings before, at and after the tick of a setting, granularities and time sources, and what is new in a setting."""
    for at in (0, 1, 1000, TOP - 1, TOP):
        for moment in (0, 1, TOP - 1, TOP):
            Clock().set(moment, tick=at).read(*within(0, 1, at - 1, at, at + 1, TOP)).row()
    for own in range(GRANULARITIES):
        clock = Clock()
        for new in range(GRANULARITIES):
            clock.reset(5).set(7, own, tick=0).set(7, new, tick=9).read(20)
        clock.row()
    clock = Clock().read(3)
    for source in range(TIME_SOURCES):
        clock.set(7, 0, source, source).read(20)
    clock.set(7, 0, TIME_SOURCES, 19).set(7, GRANULARITIES, 0, 19).set(7, 255, 255, 19).persist(7, 4, 255, 19).persist(7, 255, 4, 19).read(20).row()
    # equal settings, and only the moment, the granularity or the time source new
    clock = Clock().set(0, 0, 0, 4).read(9).set(0, 0, 0, 5).read(9).set(0, 1, 0, 6).read(9).set(0, 2, 0, 7).read(9)
    clock.set(1, 2, 0, 8).read(9).set(1, 3, 0, 9).read(9).set(1, 3, 1, 10).read(9, 10, 11).set(1, 3, 1, 3).read(11).row()
    # ten minutes later: the same, the same by a granularity that is lowered to the same one, what the clock reads by then, and no setting
    for again in ((1000, SECONDS), (1000, 0), (1000, MINUTES), (1000, 3), (600_001_000, SECONDS), (1000, GRANULARITIES)):
        Clock().set(1000).set(*again, tick=600_000_000).read(0, 600_000_000, 600_000_001).persist(*again, tick=700_000_000).read(700_000_000).row()


def persisting_rows():
    """A moment is stored a day or more from the persisted one, whether the setting changes something or not."""
    for stored in (0, 1, DAY, 2 * DAY, TOP - DAY, TOP):
        clock = Clock()
        for moment in within(*(stored + side * DAY + more for side in (-1, 0, 1) for more in (-1, 0, 1)), 0, TOP):
            clock.load(0, stored).persist(moment).read(0)
        clock.row()
    clock = Clock().set(DAY, tick=1).persist(DAY, tick=2).persist(DAY, tick=3).read(5)
    clock.persist(2 * DAY - 1).persist(2 * DAY, 3).set(0).persist(0).read(5).row()
    Clock().persist(DAY - 1).persist(DAY).persist(1).persist(0).persist(DAY - 1).read(0).row()
    Clock().reset(DAY).persist(2 * DAY - 1).persist(1).persist(2 * DAY).load(DAY).persist(1).persist(0).read(0).row()


def loading_rows():
    """Loads on a set clock: moments about the build moment, with a source, without one, and with one of no fabric."""
    for build in (0, 10, TOP):
        for stored in (0, 9, 10, 11, TOP):
            clock = Clock().trust(3, 4, 5)
            for fabric in (0, 1, 255):
                clock.set(5).load(build, stored, (fabric, 1, 0)).read(0)
            clock.persist(min(stored + DAY - 1, TOP)).persist(max(stored - DAY, 0)).read(0).row()
    Clock().set(5).load(1000, 2000, (1, 2, 3)).read(9).load(1000, None, (1, 2, 4)).read(9).load(1000, 2000).read(9).load(1000).read(9).row()
    Clock().load(1000, 2000, (0, 0, 0)).read(9).load(1000, None, (0, 2, 3)).read(9).reset(7).read(9).trust(1, 1, 1).set(8).reset(9).read(9).row()


def source_rows():
    """Sources that differ in one part, and a source beside a set clock."""
    clock = Clock().trust().read(0)
    for source in ((1, 2, 3), (1, 2, 3), (2, 2, 3), (2, 3, 3), (2, 3, 4), (255, TOP, 65535), (255, TOP - 1, 65535), (255, TOP - 1, 65534), ()):
        clock.trust(*source).read(0)
    clock.trust().trust(1, 0, 0).read(0).trust(1, 0, 1).trust(1, 1, 1).trust(2, 1, 1).trust().read(0).row()
    Clock().set(DAY, 4, 16, 5).trust(1, 2, 3).read(6).set(DAY, 4, 16, 7).read(8).persist(DAY + 1, 4, 16, 9).read(10).trust().read(11).row()
    Clock().trust(1, 2, 3).set(6).read(0).trust(1, 2, 3).persist(6).load(0, 8, (1, 2, 3)).trust(1, 2, 3).read(0).reset(9).trust().read(0).row()


def broken_rows():
    """A letter that names no step, and every step with its last byte missing."""
    for step in (Clock().set(7), Clock().persist(7), Clock().trust(1, 2, 3), Clock().load(1, 2, (1, 2, 3)), Clock().reset(7), Clock().read(7)):
        Clock().set(9).broken(step.bytes[:-1]).row()
    Clock().set(9).read(1).broken(b"X" + b"U" * 40).row()
    Clock().broken(b"\0").row()


def clock_rows():
    for ask in (setting_rows, persisting_rows, loading_rows, source_rows, broken_rows):
        ask()


# ## Histories: a store of its own

SET_TIME_ZONE, SET_DST_OFFSET, LOAD, LOAD_NONE, FACTORY_RESET = range(5)


def entries(read, s, at):
    """The entries of a section as numbers and bytes, and the place after it; None where it is unreadable."""
    found = read_section(read, s, at)
    if found is None:
        return None
    values, place = [], at + 1
    for _ in range(s[at]):
        offset, start = struct.unpack("<iQ", s[place:place + 12])
        end = read(s, place)[1]
        values.append((offset, start, s[place + 13:end] if s[place + 12] else None))
        place = end
    return values, place


def zones_answer(zone_list, limit):
    """The number that SetTimeZone answers: 0, 2 or 3."""
    before = None
    for index, (offset, start, name) in enumerate(zone_list):
        if index == limit:
            return 3
        if (index == 0) != (start == 0) or (before is not None and start <= before):
            return 2
        if not -43200 <= offset <= 50400 or (name is not None and len(name) - 1 > 64):
            return 2
        before = start
    return 0


def ends(window_list):
    return [None if end is None else struct.unpack("<Q", end)[0] for _, _, end in window_list]


def windows_answer(window_list, limit):
    """The number that SetDSTOffset answers: 0, 2 or 3."""
    starts, tails = [start for _, start, _ in window_list], ends(window_list)
    for index, start in enumerate(starts):
        if index == limit:
            return 3
        if tails[index] is not None and tails[index] <= start:
            return 2
        if index and (tails[index - 1] is None or start <= starts[index - 1] or start < tails[index - 1]):
            return 2
    return 0


def after(lists, limits, kind, given):
    """Both lists after a call."""
    if kind == FACTORY_RESET:
        return [], []
    if kind == LOAD_NONE:
        return lists
    first = entries(read_window if kind == SET_DST_OFFSET else read_zone, given, 0)
    if first is None or (kind != LOAD and first[1] != len(given)):
        return lists
    if kind == SET_TIME_ZONE:
        return lists if zones_answer(first[0], limits[0]) else (first[0], [])
    if kind == SET_DST_OFFSET:
        return lists[0], [] if windows_answer(first[0], limits[1]) else first[0]
    second = entries(read_window, given, first[1])
    if second is None or second[1] != len(given) or zones_answer(first[0], limits[0]) or windows_answer(second[0], limits[1]):
        return lists
    return first[0], second[0]


def walked(lists, start):
    """The steps and the moments: the starting one, then each different later start or end."""
    bounds = [s for _, s, _ in lists[0]] + [s for _, s, _ in lists[1]] + [e for e in ends(lists[1]) if e is not None]
    later = sorted({bound for bound in bounds if bound > start})
    return f"{len(later)} steps: " + " ".join(map(str, [start] + later))


def written(calls):
    return b"".join(bytes([kind]) + (struct.pack("<I", len(given)) + given if kind <= LOAD else b"") for kind, given in calls)


def history(limits, start, calls, damage=b""):
    """A run of calls; what is added as damage is no call."""
    given = (*limits, start, written(calls) + damage)
    if not (1 <= limits[0] <= 8 and 1 <= limits[1] <= 16):
        row("h", given, "refused 8")
    elif damage:
        row("h", given, "refused 1")
    else:
        lists = ([], [])
        for kind, argument in calls:
            lists = after(lists, limits, kind, argument)
        row("h", given, walked(lists, start))


def some_zones(source, most):
    count, start, made = source.randrange(most + 2), 0, []
    for _ in range(count):
        made.append(zone(source.choice([-43201, -43200, 0, 3600, 50400]), start, source.choice([None, b"", b"CET"])))
        start += source.choice([0, 1, 1, 5, 10])
    return section(made)


def some_windows(source, most):
    count, start, made = source.randrange(most + 2), source.randrange(5), []
    for _ in range(count):
        end = start + source.choice([0, 1, 1, 7])
        made.append(window(3600, start, source.choice([end, end, end, None])))
        start = end + source.choice([-1, 0, 0, 3])
        start = max(start, 0)
    return section(made)


def some_call(source, limits):
    kind = source.choice([SET_TIME_ZONE, SET_TIME_ZONE, SET_DST_OFFSET, SET_DST_OFFSET, LOAD, LOAD_NONE, FACTORY_RESET])
    given = {SET_TIME_ZONE: lambda: some_zones(source, limits[0]), SET_DST_OFFSET: lambda: some_windows(source, limits[1]),
             LOAD: lambda: some_zones(source, limits[0]) + some_windows(source, limits[1])}.get(kind, bytes)()
    if given and source.randrange(8) == 0:
        given = given[:-1]
    return kind, given


def history_rows():
    full = [(SET_TIME_ZONE, section([zone(0, start) for start in range(8)])),
            (SET_DST_OFFSET, section([window(0, 8 + 2 * k, 9 + 2 * k) for k in range(16)]))]
    for limits in ((8, 16), (7, 16), (8, 15), (0, 1), (9, 1), (1, 0), (1, 17)):
        history(limits, 0, full)
    history((8, 16), TOP, full)
    history((1, 1), 0, [], b"\5")
    history((1, 1), 0, [(FACTORY_RESET, b"")], b"\0\1\0\0\0")
    history((2, 2), 0, [(SET_DST_OFFSET, section([window(0, 1, 2)])), (SET_DST_OFFSET, section([window(0, 2, 2)]))])
    history((2, 2), 0, [(SET_DST_OFFSET, section([window(0, 1, 2)])), (SET_DST_OFFSET, b"")])
    source = random.Random(1)
    for _ in range(30):
        limits = (source.choice([1, 2, 3]), source.choice([1, 2, 3]))
        history(limits, source.choice([0, 1, 3, 9]), [some_call(source, limits) for _ in range(source.randrange(6))])


# ## Scripts on a device: a new clock, and a list store of limits 2 and 2

HOUR = 3600


def entry(letter, offset, start, tail):
    """A listed zone or window."""
    more = "" if tail is None else f" named {tail[1:].decode()}" if letter == b"A" else f" to {struct.unpack('<Q', tail)[0]}"
    return f"({offset} from {start}{more})"


class Device:
    def __init__(self):
        self.clock, self.lists, self.bytes, self.answers = None, ([], []), b"", []

    def utc(self, moment, granularity, tick):
        """SetUTCTime; an equal setting starts the clock over too."""
        self.bytes += b"U" + struct.pack("<QBQ", moment, granularity, tick)
        if granularity > 4:
            self.answers.append(1)
            return self
        self.clock = (moment, tick)
        self.answers.append(0)
        return self

    def zones(self, *made):
        given = section([zone(*one) for one in made])
        self.bytes += b"Z" + struct.pack("<I", len(given)) + given
        self.answers.append(5 if self.lists is None else zones_answer(entries(read_zone, given, 0)[0], 2))
        self.lists = self.lists and after(self.lists, (2, 2), SET_TIME_ZONE, given)
        return self

    def windows(self, *made):
        given = section([window(*one) for one in made])
        self.bytes += b"D" + struct.pack("<I", len(given)) + given
        self.answers.append(5 if self.lists is None else windows_answer(entries(read_window, given, 0)[0], 2))
        self.lists = self.lists and after(self.lists, (2, 2), SET_DST_OFFSET, given)
        return self

    def none(self):
        """No list store from here on."""
        self.bytes += b"N"
        self.lists = None
        return self

    def load(self, given):
        self.bytes += b"R" + struct.pack("<I", len(given)) + given
        new = after(None, (2, 2), LOAD, given) if self.lists is not None else None
        self.answers.append(7 if self.lists is not None and new is None else 0)
        self.lists = new or self.lists
        return self

    def trusted(self, fabric):
        self.bytes += b"T" + bytes([fabric])
        self.answers.append(0 if fabric else 4)
        return self

    def listing(self):
        """How many entries are listed, and each of them, with one index past the last."""
        self.bytes += b"C"
        if self.lists is None:
            self.answers += [6, 6]
            zone_list, window_list = [], []
        else:
            zone_list, window_list = self.lists[0] or [(0, 0, None)], self.lists[1]
            self.answers += [len(zone_list), len(window_list)]
        past = 6 if self.lists is None else 2
        for letter, listed in ((b"A", zone_list), (b"B", window_list)):
            for index in (*range(len(listed) + 1), 2**32, TOP):
                self.bytes += letter + struct.pack("<Q", index)
                self.answers.append(f"0{entry(letter, *listed[index])}" if index < len(listed) else f"{past}(0 from 0)")
        return self

    def local(self, tick):
        self.bytes += b"L" + struct.pack("<Q", tick)
        self.answers.append(self.local_time(tick))
        return self

    def local_time(self, tick):
        if self.clock is None:
            return "null"
        if self.lists is None:
            return 6
        now = min(self.clock[0] + max(tick - self.clock[1], 0), TOP)
        spans = [(offset, start, end) for (offset, start, _), end in zip(self.lists[1], ends(self.lists[1]))]
        if not any(end is None or now < end for _, _, end in spans):
            return "null"
        zone_offset = [offset for offset, start, _ in self.lists[0] if start <= now][-1:] or [0]
        window_offset = [offset for offset, start, end in spans if start <= now and (end is None or now < end)][-1:] or [0]
        return min(max(now + (zone_offset[0] + window_offset[0]) * 1_000_000, 0), TOP)

    def row(self):
        row("x", self.bytes, "".join(f" {answer}" for answer in self.answers))


def script_rows():
    now = 800_000_000_000_000
    later = now + HOUR * 1_000_000
    # steps of TC_TIMESYNC_2_5, as they are publicly known: too many, out of order, overlapping, after an open one, and good lists
    device = Device().utc(now, 3, 0).zones((0, 0))
    device.windows((HOUR, 0, 1), (HOUR, 2, 3), (HOUR, 4, 5)).local(0)
    device.windows((HOUR, later, later + 1), (HOUR, now, now + 1)).windows((HOUR, now, later), (0, now + 1, later + 1))
    device.windows((HOUR, now), (HOUR, later)).windows((HOUR, later, now)).windows().local(0)
    device.windows((HOUR, 0, later), (0, later)).local(0).windows((-HOUR, 0)).local(0).row()
    # steps of TC_TIMESYNC_2_8, as they are publicly known: LocalTime with a zone, inside a window, before one, and after it ran out
    device = Device().local(0).utc(now, 3, 0).local(0).zones((2 * HOUR, 0)).local(0).windows((HOUR, 0)).local(0)
    device.windows((HOUR, later)).local(0).windows((HOUR, later, later + 1)).local(HOUR * 1_000_000 - 1).local(HOUR * 1_000_000)
    device.local(HOUR * 1_000_000 + 1).zones((0, 0), (-HOUR, later)).windows((0, 0)).local(0).local(HOUR * 1_000_000).row()
    # steps of TestTimeSynchronization, as they are publicly known: granularity 5, and a setting that is read back
    Device().utc(now, 5, 0).windows((0, 0)).local(0).utc(now, 2, 0).local(0).utc(now, 2, 9).local(9).utc(now + 1, 4, 9).local(10).row()
    # an installer sends the same moment ten minutes later, then by a request that cannot be read
    ten = 600_000_000
    device = Device().windows((HOUR, 0)).utc(now, 2, 0).local(ten)
    for again, granularity in enumerate((2, 0, 5), 1):
        device.utc(now, granularity, again * ten).local(again * ten)
    device.row()
    # held at both ends
    Device().utc(0, 3, 0).zones((-12 * HOUR, 0)).windows((0, 0)).local(0).local(12 * HOUR * 1_000_000 + 1).row()
    Device().utc(TOP, 3, 0).zones((14 * HOUR, 0)).windows((2**31 - 1, 0)).local(0).row()
    Device().utc(TOP - 1, 3, 0).windows((-2**31, 0)).local(0).local(9).row()
    Device().utc(5 * 10**15, 3, 0).zones((14 * HOUR, 0)).windows((2**31 - 1, 0)).local(0).row()
    Device().utc(2147526848 * 10**6, 3, 0).zones((-12 * HOUR, 0)).windows((-2**31, 0)).local(0).local(1).row()
    # between two windows
    Device().utc(25, 3, 0).windows((1, 10, 20), (1, 30, 40)).local(0).row()


def list_rows():
    """Names of 64 and 65 bytes, the listings, loads, and the refusals 4 to 7."""
    fine, long = "n" * 64, "n" * 65
    Device().zones((0, 0, fine.encode())).listing().zones((0, 0, long.encode())).listing().zones((0, 0, ("ü" * 32).encode())).row()
    Device().zones((0, 0, ("ü" * 33).encode())).listing().zones((3600, 0, b""), (-43200, 9)).windows((1, 5, 6), (-2**31, 6)).listing().zones().listing().row()
    Device().windows((7, 1, 2), (8, 9, TOP)).windows((7, 2, 2)).listing().row()
    good = section([zone(50400, 0, b"A")]) + section([window(2**31 - 1, 4, 5)])
    for bad in (b"", good[:-1], good + b"\0", section([zone(0, 5)]) + b"\0", section([zone(0, i) for i in range(3)]) + b"\0", good[:-9] + b"\2" + good[-8:]):
        Device().load(good).load(bad).listing().row()
    Device().load(section([]) + section([])).listing().trusted(0).trusted(1).trusted(255).row()
    Device().none().utc(5, 3, 0).local(0).zones((0, 0)).windows().load(b"").listing().trusted(0).trusted(2).row()
    Device().none().local(0).zones((0, 0), (0, 0)).row()


def oracle_rows():
    """Histories and scripts on a clock with the answers of the unchanged Rust, as `differ` of oracle/ wrote them:
    `differ --list tests/oracle_rows.txt --rows 200 --most 60 --scripts 100`."""
    for line in pathlib.Path("tests/oracle_rows.txt").read_text().splitlines():
        row, answer = line.split(": ", 1)
        letter, given = row.split(" ", 1)
        rows.append((letter, given, answer))


def main():
    for ask in (utf8_rows, zone_rows, window_rows, record_rows, clock_rows, history_rows, script_rows, list_rows, oracle_rows):
        ask()
    where = pathlib.Path("crates/vectors")
    where.joinpath("stdin").write_text("".join(f"{letter} {given}\n" for letter, given, _ in rows))
    where.joinpath("stdout").write_text("".join(f"{letter} {given}: {answer}\n" for letter, given, answer in rows))
    print(f"{len(rows)} rows")


if __name__ == "__main__":
    main()

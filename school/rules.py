"""The rules of a school's lists and a controller's limits, for the sake of line numbers: the program has them proved.

Of lists that a controller would refuse it says so before they are sent: with which number, and what is lost."""
import re
from typing import Callable, NamedTuple

from lists import Stop, ended, read_text
from words import MOST_NAME, MOST_SENT, Wrong, counted, long_name, name_size, offset_text, quoted, utc_text

WEST, EAST = -12 * 3600, 14 * 3600  # seconds: the least and the largest offset of a zone
MOST_TOLD = 60  # wrong lines that are named in one go
CONSTRAINT_ERROR, RESOURCE_EXHAUSTED = "2 (ConstraintError)", "3 (ResourceExhausted)"  # a controller's answers


# ## Limits


class Limits(NamedTuple):
    """How many zones and windows a controller takes."""

    zones: int
    windows: int

    def __str__(self):
        return f"{self.zones}/{self.windows}"


DEVICE = Limits(2, 2)
LARGEST = Limits(8, 16)


def read_limits(word):
    found = re.fullmatch(r"([1-9][0-9]?)/([1-9][0-9]?)", word)
    limits = found and Limits(int(found[1]), int(found[2]))
    if not found or limits.zones > LARGEST.zones or limits.windows > LARGEST.windows:
        raise Wrong(f"{quoted(word)} gives no limits: write ZONES/WINDOWS, 1 to {LARGEST.zones} zones and "
                    f"1 to {LARGEST.windows} windows, as {DEVICE} or {LARGEST}")
    return limits


# ## The rules for one entry; `before` is the entry before it, with its line, or None


def zone_rule(index, before, zone):
    """What is wrong with a zone."""
    wrong = []
    if not WEST <= zone.offset <= EAST:
        wrong.append(f"a zone's offset lies from {offset_text(WEST)} to {offset_text(EAST)}, "
                     f"and {offset_text(zone.offset)} does not")
    if zone.name is not None and name_size(zone.name) > MOST_NAME:
        wrong.append(long_name(zone.name))
    if index == 0 and zone.start != 0:
        wrong.append("the first zone has to count from the beginning: from beginning")
    elif index > 0 and zone.start == 0:
        wrong.append("only the first zone counts from the beginning")
    elif before and zone.start <= before[1].start:
        wrong.append(f"zones stand in order of time: this one starts at {utc_text(zone.start)}, "
                     f"not after that of line {before[0]}, at {utc_text(before[1].start)}")
    return wrong


def order_mistakes(line, before, window):
    """What is wrong between a window and the one before it, on its line."""
    if before.end is None:
        return [f"nothing can follow an open window, and that of line {line} is open"]
    if window.start <= before.start:
        return [f"windows stand in order of time: this one starts at {utc_text(window.start)}, "
                f"not after that of line {line}, at {utc_text(before.start)}"]
    if window.start < before.end:
        return [f"windows overlap: this one starts at {utc_text(window.start)}, "
                f"before that of line {line} ends, at {utc_text(before.end)}"]
    return []


def window_rule(_, before, window):
    """What is wrong with a window."""
    wrong = []
    if ended(window, window.start):
        wrong.append(f"the window ends at {utc_text(window.end)}, not after it starts, at {utc_text(window.start)}")
    return wrong + (order_mistakes(*before, window) if before else [])


# ## Which entries to keep where there are too many


def those(noun, entries):
    """Entries that follow each other, by their lines."""
    lines = [line for line, _ in entries]
    if len(lines) == 1:
        return f"the {noun} of line {lines[0]}"
    return f"the {noun}s of lines {lines[0]} {'and' if len(lines) == 2 else 'to'} {lines[-1]}"


def zones_to_keep(zones, limit, start):
    """From the zone at the starting moment on; the first that is sent has to count from the beginning."""
    first = max(index for index, (_, zone) in enumerate(zones) if zone.start <= start)
    kept = zones[first:first + limit]
    change = f", and change line {kept[0][0]} to: from beginning" if first else ""
    return f"send at most {limit}: keep {those('zone', kept)}{change}"


def windows_to_keep(windows, limit, start):
    """The first that are still usable at the starting moment."""
    kept = [(line, window) for line, window in windows if not ended(window, start)][:limit]
    if not kept:
        return f"send at most {limit}, and new ones: all of these have ended at {utc_text(start)}"
    are = "is" if len(kept) == 1 else "are"
    return f"send at most {limit}: keep {those('window', kept)}, the first that {are} not over at {utc_text(start)}"


# ## What a controller would do


class Kind(NamedTuple):
    """A kind of list: which command sends it, what a controller has after it refuses it, its rule, what to keep."""

    noun: str
    command: str
    after: str
    rule: Callable
    keep: Callable


ZONES = Kind("zone", "SetTimeZone", "keep its zones and windows as they are", zone_rule, zones_to_keep)
WINDOWS = Kind("window", "SetDSTOffset", "lose the windows that it has: panels would show NO local time",
               window_rule, windows_to_keep)


def mistakes(rule, entries):
    """What is wrong by the rule, each beside its line; an entry that could not be read is passed over."""
    wrong, before = [], None
    for index, (line, entry) in enumerate(entries):
        if entry is not None:
            wrong += [(line, sentence) for sentence in rule(index, before, entry)]
            before = (line, entry)
    return wrong


def answer(entries, limit, broken):
    """A controller's answer: the first entry that offends decides, and one at the limit does so before its rule."""
    lines = {line for line, _ in broken}
    return CONSTRAINT_ERROR if any(line in lines for line, _ in entries[:limit]) else RESOURCE_EXHAUSTED


def judged(kind, entries, limits, limit, start):
    """The wrong lines of a list, and what a controller would do with it; nothing where it cannot be sent at all."""
    broken, past, told = mistakes(kind.rule, entries), entries[limit:], []
    wrong = list(broken)
    if past:
        sentence = f"{counted(entries, kind.noun)}, and a controller with limits {limits} takes {limit}"
        wrong.append((past[0][0], f"{sentence}; past the limit: {those(kind.noun, past)}"))
    if wrong and len(entries) <= MOST_SENT and all(entry is not None for _, entry in entries):
        told.append(f"a controller with limits {limits} would refuse these {kind.noun}s ({kind.command}) "
                    f"with {answer(entries, limit, broken)} and {kind.after}")
        told += [] if broken else [kind.keep(entries, limit, start)]
    return wrong, told


def larger_unit(zones, windows, limits):
    """That another controller may take what this one does not."""
    if len(zones) > limits.zones < LARGEST.zones or len(windows) > limits.windows < LARGEST.windows:
        return [f"where the controller is a larger unit, give its limits, as --limits {LARGEST}; "
                "it tells them as TimeZoneListMaxSize and DSTOffsetListMaxSize"]
    return []


def read_lists(text, name, limits, start):
    """The zones and windows of a text; stops with every wrong line, and with what a controller would do."""
    zones, windows, unread = read_text(text)
    zones_wrong, of_zones = judged(ZONES, zones, limits, limits.zones, start)
    windows_wrong, of_windows = judged(WINDOWS, windows, limits, limits.windows, start)
    wrong = sorted(unread + zones_wrong + windows_wrong, key=lambda each: each[0])
    told = [f"{name}:{line}: {sentence}" for line, sentence in wrong]
    if len(told) > MOST_TOLD:
        told[MOST_TOLD:] = [f"{name}: and {len(told) - MOST_TOLD} more"]
    known = {line for line, _ in zones + windows}
    after = of_zones + of_windows if all(line in known for line, _ in unread) else []
    if not wrong and not zones:
        after = ["no zone is in the file; for UTC write:  zone +00:00 from beginning"]
        after = after if windows else ["nothing is in the file: no zone and no window"]
    told += [f"{name}: {sentence}" for sentence in after + larger_unit(zones, windows, limits)]
    if told:
        raise Stop(1, "\n".join(told))
    return [zone for _, zone in zones], [window for _, window in windows]

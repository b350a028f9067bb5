"""What the tests of school/ share: a walker in Python that stands in for the program `schedule`, and the tool's parts
put together over it."""
import contextlib
import io
import os
import struct
import unittest.mock

import changes
import lists
import program
import rules
import shown
from words import offset_text, read_moment, utc_text

AT = "2026-11-16T08:00Z"
ZONE = "zone +01:00 from beginning\n"
PAGE = shown.Page(80, "utf-8")


# ## The walker


def lists_of(record):
    """The zones and windows of a record's bytes, as tuples."""
    at, zones, windows = 1, [], []
    for _ in range(record[0]):
        offset, start, mark = struct.unpack_from("<iQB", record, at)
        at += 13 + (1 + record[at + 13] if mark else 0)
        zones.append((offset, start))
    at += 1
    for _ in range(record[at - 1]):
        offset, start, mark = struct.unpack_from("<iQB", record, at)
        end = struct.unpack_from("<Q", record, at + 13)[0] if mark else None
        at += 13 + 8 * mark
        windows.append((offset, start, end))
    assert at == len(record)
    return zones, windows


def walk(given):
    """What the program answers to a moment and a record that it accepts."""
    zones, windows = lists_of(given[8:])
    start = struct.unpack("<Q", given[:8])[0]
    ends = [end for _, _, end in windows if end is not None]
    moments = {at for _, at in zones} | {at for _, at, _ in windows} | set(ends)
    lines = ["moment zone dst usable"]
    for moment in [start] + sorted(at for at in moments if at > start):
        zone = [offset for offset, at in zones if at <= moment][-1:] or [0]
        left = [w for w in windows if w[2] is None or moment < w[2]]
        dst = [w[0] for w in left if w[1] <= moment] or ["-"]
        lines.append(f"{moment} {zone[0]} {dst[0]} {'yes' if left else 'no'}")
    return "\n".join(lines + [f"steps {len(lines) - 2}", ""])


# ## The tool


def command(*arguments, ask=walk, encoding="utf-8", columns="80"):
    """Exit status, standard output and standard error of the command."""
    out, err = io.TextIOWrapper(io.BytesIO(), encoding), io.StringIO()
    with contextlib.redirect_stdout(out), contextlib.redirect_stderr(err), \
            unittest.mock.patch.dict(os.environ, COLUMNS=columns, PYTHONIOENCODING=encoding):
        try:
            status = changes.main(list(arguments), ask)
        except SystemExit as left:
            status = left.code
        out.flush()
    return status, out.buffer.getvalue().decode(encoding), err.getvalue()


def read(text, limits="8/16", at=AT):
    return rules.read_lists(text, "f", rules.read_limits(limits), read_moment(at))


def mistakes(text, limits="8/16", at=AT):
    """What is told of a wrong text, line by line."""
    try:
        read(text, limits, at)
    except lists.Stop as stop:
        assert stop.status == 1
        return str(stop).split("\n")
    return []


def wrong_lines(text, limits="8/16"):
    """The wrong lines of a text, as FILE:LINE: and a sentence each, without what a controller would do."""
    return [line for line in mistakes(text, limits) if line.split(":")[1].isdigit()]


def view(text, at, page=PAGE):
    """What a text's lists are from a moment."""
    zones, windows = read(text, at=at)
    start = read_moment(at)
    rows = program.read_answer(walk(struct.pack("<Q", start) + lists.record_bytes(zones, windows)))
    program.agree(zones, windows, start, rows)
    return shown.View(zones, windows, rows, page)


def shown_text(text, at, page=PAGE):
    """What is shown of a text's lists from a moment."""
    return shown.show("lists", view(text, at, page), rules.LARGEST, "test")


# ## Lists


def years(first, count):
    """A window in each year from the first on, from March to September."""
    return "".join(f"window +01:00 from {year}-03-01T00:00Z to {year}-10-01T00:00Z\n"
                   for year in range(first, first + count))


def random_lists(drawn):
    """Lists that are accepted, of moments and offsets of every size."""
    def moments(count):
        return sorted({drawn.randrange(1, 2 ** drawn.randrange(1, 65)) for _ in range(count)})

    zones = [lists.Zone(drawn.randint(-43_200, 50_400), at, drawn.choice((None, "", "x" * 64, "時" * 21)))
             for at in [0] + moments(drawn.randrange(8))]
    bounds = moments(drawn.randrange(33))
    offsets = (0, 3600, -1800, 2**31 - 1, -(2**31))
    windows = [lists.Window(drawn.choice(offsets), a, b) for a, b in zip(bounds[::2], bounds[1::2])]
    if windows and drawn.random() < 0.3:
        windows[-1] = windows[-1]._replace(end=None)
    return zones, windows


def as_text(zones, windows):
    lines = [f"zone {offset_text(z.offset)} from {utc_text(z.start)}" + ("" if z.name is None else f' "{z.name}"')
             for z in zones]
    ends = ["open" if w.end is None else utc_text(w.end) for w in windows]
    lines += [f"window {offset_text(w.offset)} from {utc_text(w.start)} to {end}" for w, end in zip(windows, ends)]
    return "\n".join(lines)

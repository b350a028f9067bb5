#!/usr/bin/env python3
"""Runs the program `schedule` at every edge and on many records made by chance, and compares what it prints, byte for byte; then it
and the program `vectors` with standard input and output that are closed, unreadable, full or cut.

What is expected comes from the readers and rules of tests/vectors.py and a walk written here, never from a run of the port.
Usage: tests/schedule.py, once `rt ci`, or `rt run` in each one's folder, has built both programs as crates/NAME/out/NAME."""
import os
import pathlib
import random
import re
import resource
import struct
import subprocess
import sys
import tempfile

from vectors import TOP, ends, entries, read_window, read_zone, section, some_windows, some_zones, window, windows_answer, zone, zones_answer

CRATES = pathlib.Path(__file__).resolve().parent.parent / "crates"
PROGRAM, VECTORS = (CRATES / name / "out" / name for name in ("schedule", "vectors"))
REFUSED = "refused 7\n"
LONGEST = 970


def loaded(record):
    """Both lists of a record, or None where it is a bad one."""
    first = entries(read_zone, record, 0)
    second = first and entries(read_window, record, first[1])
    if second is None or second[1] != len(record) or zones_answer(first[0], 8) or windows_answer(second[0], 16):
        return None
    return first[0], second[0]


def line(lists, moment):
    zones = [offset for offset, start, _ in lists[0] if start <= moment]
    windows = [(offset, start, end) for (offset, start, _), end in zip(lists[1], ends(lists[1]))]
    active = [offset for offset, start, end in windows if start <= moment and (end is None or moment < end)]
    usable = any(end is None or moment < end for _, _, end in windows)
    return f"{moment} {zones[-1] if zones else 0} {active[0] if active else '-'} {'yes' if usable else 'no'}\n"


def expected(given):
    """The whole text for an input."""
    lists = loaded(given[8:]) if 8 <= len(given) <= LONGEST else None
    if lists is None:
        return REFUSED
    start = int.from_bytes(given[:8], "little")
    bounds = [entry[1] for entry in lists[0] + lists[1]] + [end for end in ends(lists[1]) if end is not None]
    moments = [start] + sorted({bound for bound in bounds if start < bound})
    return "moment zone dst usable\n" + "".join(line(lists, moment) for moment in moments) + f"steps {len(moments) - 1}\n"


def at(moment, zones, windows):
    return struct.pack("<Q", moment) + section(zones) + section(windows)


def full(first):
    """The longest input: 8 zones with names of 64 bytes and 16 windows with ends, all starts and ends different."""
    zones = [zone(-43200 + 12 * 3600 * i % 93600, 10 * i, bytes([65 + i]) * 64) for i in range(8)]
    return at(first, zones, [window((-1) ** i * (2**31 - 1), 100 + 2 * i, 101 + 2 * i) for i in range(16)])


def lengths():
    """Inputs too short and too long, and each cut of the longest one."""
    whole = full(0)
    yield from (whole[:n] for n in range(len(whole) + 1))
    yield whole + b"\0"
    yield from (struct.pack("<Q", 5) + b"\0\0" + b"\0" * n for n in (1, 960, 961, 4990, 100_000))


def extremes():
    for moment in (0, 1, TOP - 1, TOP):
        yield at(moment, [], [])
        yield at(moment, [zone(-43200, 0)], [window(-2**31, 0)])
        yield at(moment, [zone(50400, 0), zone(0, TOP)], [window(2**31 - 1, 0, TOP)])
        yield at(moment, [], [window(0, TOP - 1, TOP)])
    yield from (full(moment) for moment in range(140))


def refusals():
    """What the rules turn down: the limit and one past it, offsets, names, starts, ends, marks and UTF-8."""
    nine, seventeen = [zone(0, i) for i in range(9)], [window(0, i, i + 1) for i in range(17)]
    for zones, windows in ((nine[:8], seventeen[:16]), (nine, []), ([], seventeen), (nine[:8], [window(0, 5), window(0, 9)])):
        yield at(0, zones, windows)
    yield from (at(0, [zone(offset, 0)], []) for offset in (-43201, -43200, -1, 0, 1, 50400, 50401, -2**31, 2**31 - 1))
    yield from (at(0, [zone(0, 0, name)], []) for name in (b"", b"n" * 64, b"n" * 65, b"n" * 255, b"\xff", b"\xc3\xbc" * 32))
    yield from (at(0, [zone(0, 0), zone(0, start)], []) for start in (0, 1, TOP))
    yield at(0, [zone(0, 5)], [])
    yield from (at(0, [], [window(0, 7, 9), window(0, start, 20)]) for start in (6, 7, 8, 9, 10, 19, 20, 21))
    good = bytearray(at(500, [zone(3600, 0), zone(7200, 2000)], [window(3600, 1000, 2000)]))
    for place in range(8, len(good)):
        for byte in {0, 1, 2, 127, 128, 255, good[place] ^ 1}:
            yield bytes(good[:place]) + bytes([byte]) + bytes(good[place + 1:])


def accepted(source):
    """Lists that the rules take, close together, so that starts and ends often fall on one moment."""
    starts = [0] + sorted(source.sample(range(1, 60), source.randrange(8)))
    zones = [zone(source.randrange(-43200, 50401), start, source.choice([None, b"", b"CET"])) for start in starts[:source.randrange(9)]]
    places = sorted(source.sample(range(60), 2 * source.randrange(17)))
    windows = [window(source.randrange(-2**31, 2**31), a, b + source.randrange(2) * (c == b + 1))
               for a, b, c in zip(places[::2], places[1::2], places[2::2] + [99])]
    if windows and source.randrange(3) == 0:
        windows[-1] = window(0, places[-2])
    return zones, windows


def by_chance(source, count):
    for _ in range(count):
        moment = source.choice([0, 1, 3, 8, source.randrange(60), TOP])
        yield at(moment, *accepted(source))
        given = struct.pack("<Q", moment) + some_zones(source, 8) + some_windows(source, 16)
        yield given if source.randrange(8) else given[:-1]


EXAMPLE = at(500, [zone(3600, 0), zone(7200, 2000)], [window(3600, 1000, 2000)])

# input that is closed, a directory and empty; output that is closed and full; both closed: a shell's words, and the text that comes
REDIRECTIONS = (("<&-", REFUSED), ("</", REFUSED), ("</dev/null", REFUSED), (">&-", ""), (">/dev/full", ""), ("<&- >&-", ""))
# of `vectors`: whether one letter is UTF-8
ROW, ANSWER = b"u 41\n", "u 41: well-formed\n"


def whole(text):
    """Whether a text is not cut: its last line, with its line feed, is one of the two that end every text."""
    return re.search(r"^(steps \d+|refused 7)\n\Z", text, re.MULTILINE) is not None


def seen(ran, printed):
    return printed.decode("ascii", "replace"), ran.returncode


def redirected(program, given, how):
    """Runs a program with a shell's redirection; the text has what it writes to standard error too."""
    ran = subprocess.run(["sh", "-c", f'exec "$0" {how}', program], input=given, stdout=subprocess.PIPE, stderr=subprocess.STDOUT,
                         check=False)
    return seen(ran, ran.stdout)


def limited(given, room):
    """Runs the program with a file for its text that is full after so many bytes."""
    with tempfile.TemporaryFile() as file:
        ran = subprocess.run([PROGRAM], input=given, stdout=file, check=False, restore_signals=False,
                             preexec_fn=lambda: resource.setrlimit(resource.RLIMIT_FSIZE, (room, room)))
        file.seek(0)
        return seen(ran, file.read())


def without_reader(program, given, restored):
    """Runs a program with a pipe that nobody reads, where SIGPIPE is what it is by default, or else ignored."""
    reading, writing = os.pipe()
    os.close(reading)
    ran = subprocess.run([program], input=given, stdout=writing, check=False, restore_signals=restored)
    os.close(writing)
    return seen(ran, b"")


def cut(given):
    """A file of each size: the text as far as there is room, and only the whole one ends as a whole one."""
    text = expected(given)
    for room in range(len(text) + 1):
        printed, status = limited(given, room)
        yield f"room for {room} bytes", (printed, status, whole(printed)), (text[:room], 0, room == len(text))


def streams():
    """What is done with standard input and output, what then comes, and what is due: the text and the status."""
    yield from ((how, redirected(PROGRAM, EXAMPLE, how), (text, 0)) for how, text in REDIRECTIONS)
    yield from ((f"vectors {how}", redirected(VECTORS, ROW, how), ("", 0)) for how, _ in REDIRECTIONS)
    yield "vectors", redirected(VECTORS, ROW, ""), (ANSWER, 0)
    for program, given in ((PROGRAM, EXAMPLE), (VECTORS, ROW)):
        yield f"{program.name}, no reader", without_reader(program, given, True), ("", 0)
        yield f"{program.name}, no reader, SIGPIPE ignored", without_reader(program, given, False), ("", 0)
    yield from cut(EXAMPLE)
    yield from cut(b"")


def texts_differ(inputs, texts):
    for given, text in zip(inputs, texts):
        ran = subprocess.run([PROGRAM], input=given, stdout=subprocess.PIPE, check=False)
        printed, status = seen(ran, ran.stdout)
        if (printed, status) != (text, 0):
            print(f"schedule: on {given.hex()}\nexpected:\n{text}printed, with status {status}:\n{printed}")
            return True
    return False


def streams_differ(ways):
    for how, came, due in ways:
        if came != due:
            print(f"schedule: {how}\nexpected: {due}\ncame:     {came}")
            return True
    return False


def main():
    inputs = [EXAMPLE]
    for some in (lengths(), extremes(), refusals(), by_chance(random.Random(1), 2000)):
        inputs += some
    texts = [expected(given) for given in inputs]
    assert len(full(0)) == LONGEST and expected(full(0)).endswith("\nsteps 39\n")
    ways = list(streams())
    if texts_differ(inputs, texts) or streams_differ(ways):
        return 1
    refused = sum(text == REFUSED for text in texts)
    print(f"schedule: {len(inputs)} inputs as expected, {refused} of them refused; {len(ways)} streams as expected")
    return 0


if __name__ == "__main__":
    sys.exit(main())

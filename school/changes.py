#!/usr/bin/env python3
"""Shows a school's coming clock changes from a readable file of zones and windows.

The text is turned into a record, the proved program `schedule` walks it from change to change, and
what it answers is shown to a person. `--help` says all."""
import argparse
import locale
import os
import pathlib
import struct
import sys
import time

sys.dont_write_bytecode = True
from lists import Stop, load, record_bytes  # noqa: E402
from program import agree, ask_program, read_answer  # noqa: E402
from rules import DEVICE, LARGEST, read_limits, read_lists  # noqa: E402
from shown import ARROW, NO_SUMMER_TIME, View, page_of, show  # noqa: E402
from words import EXAMPLE, MINUTE, MOST_NAME, SECOND, TOP, Wrong, read_moment, utc_text  # noqa: E402

HERE = pathlib.Path(__file__).resolve().parent
BEGINNING = 946_684_800  # seconds from 1970, where a machine's clock begins, to 2000, where a controller's does

HELP = f"""\
the file, one entry to a line; # starts a comment, empty lines do not count:

  zone   OFFSET  from MOMENT  "NAME"         the zone's name may be left out
  window OFFSET  from MOMENT  to MOMENT

  OFFSET  with its sign: +01:00, -03:30, +00:19:32, or in seconds: +3600s.
          A zone's is added to UTC, and lies from -12:00 to +14:00. A window's
          is added to the zone's while the window lasts: +01:00 sets clocks one
          hour forward. Any number that 32 bits hold is taken.
  MOMENT  in UTC, with T and Z: {EXAMPLE}. Seconds may follow,
          2026-03-29T01:00:30Z, and up to six digits of a fraction,
          2026-03-29T01:00:30.5Z. The year is 2000 or later; above 9999 it has a
          plus sign, as {utc_text(TOP)}, the last that fits.
          from beginning   is from 2000-01-01T00:00Z
          to open          is a window without an end
  NAME    in straight double quotes, at most {MOST_NAME} bytes of UTF-8, without a quote,
          a tab or another control character. A zone named "" is not the same as
          one without a name.

a school without summer time:
  Where no window is usable a panel shows nothing. So such a school sends one
  window that is open and does not shift the clock:
  {NO_SUMMER_TIME}

rules of the lists:
  zones     At least one. The first counts from the beginning and only it; each
            later one starts later. A record without zones would mean UTC.
            Nothing is guessed, so UTC has its line, which means the same:
            zone +00:00 from beginning
  windows   In order of time. Each ends after it starts, and starts at or after
            the end of the one before. Nothing follows an open window.
  limits    At most {DEVICE.zones} zones and {DEVICE.windows} windows. A larger unit takes more, at most
            {LARGEST.zones} zones and {LARGEST.windows} windows: --limits {LARGEST}. A controller tells its limits
            as TimeZoneListMaxSize and DSTOffsetListMaxSize.

what a controller does with a list that it refuses:
  zones     (SetTimeZone) It keeps its zones and windows as they are.
  windows   (SetDSTOffset) It loses the windows that it has: panels show NO
            local time.
It answers 3 (ResourceExhausted) where a list is longer than its limit, and
2 (ConstraintError) where an entry breaks a rule; the first such entry decides.
Such lists are named here before they are sent, and nothing of them is shown.
Zones that it takes empty its windows: send the zones first, then the windows.

the record, which --record writes and the program reads, little endian:
  the count of zones (1 byte); for each its offset in seconds (4 bytes, two's
  complement), its start (8 bytes, microseconds since 2000-01-01T00:00Z), then
  0, or 1 with the name's length (1 byte) and the name in UTF-8
  the count of windows (1 byte); for each its offset and its start in the same
  way, then 0 where it is open, or 1 with its end (8 bytes)
It is written only where the lists fit the limits and the program takes them.

what is shown: a row for the starting moment and one for each coming change:
  UTC          the moment
  local time   before {ARROW} after where clocks change; none where they stop
  offset       local time less UTC
  window       the active window's offset; - where no window is active
  clock        forward or back, and how far; no change; stops; still none
and under it a new zone, and the state, which is one of
  inside a window    local time is UTC plus the zone's offset and the window's
  between windows    local time is UTC plus the zone's offset; a window is still
                     to come
  run out            every window has ended: there is NO local time, and panels
                     show none, until the administrator sends new windows. It is
                     the same where no windows were sent.
A coming moment is told as clocks show it when it comes, before they change.

The walk from change to change is that of the proved program schedule. Each run
first has it built by `rt run` in crates/schedule, which takes minutes the
first time and hardly any time after that.

exit status:
  0  shown
  1  the lists are wrong, or too long for the limits, or cannot be read; each
     wrong line is named as FILE:LINE:
  2  bad usage, or OUT cannot be written
  3  the toolchain or the program failed, or is not there
"""


def reader(read):
    """A reader of words for argparse."""
    def taken(word):
        try:
            return read(word)
        except Wrong as wrong:
            raise argparse.ArgumentTypeError(str(wrong)) from None
    return taken


def parser(page):
    made = argparse.ArgumentParser(
        prog="changes.py", description="Shows a school's coming clock changes.", epilog=HELP.replace(ARROW, page.arrow),
        allow_abbrev=False, formatter_class=argparse.RawDescriptionHelpFormatter)
    made.add_argument("file", nargs="?", metavar="FILE",
                      help="the lists; without it those of school/lists.txt")
    made.add_argument("--at", type=reader(read_moment), metavar="MOMENT",
                      help="the starting moment, as 2026-11-16T08:00Z; without it this machine's clock")
    made.add_argument("--limits", type=reader(read_limits), default=DEVICE, metavar="ZONES/WINDOWS",
                      help=f"how many of each the controller takes: 1/1 to {LARGEST}; without it {DEVICE}")
    made.add_argument("--record", metavar="OUT", help="also write the record to the file OUT")
    return made


def starting_moment(at):
    """The starting moment, and where it comes from; a machine's clock is read to the minute, as people read clocks."""
    if at is not None:
        return at, "given with --at"
    now = (int(time.time()) - BEGINNING) * SECOND
    if not 0 <= now <= TOP:
        raise Stop(2, "changes: this machine's clock stands before 2000; give the moment with --at")
    return now - now % MINUTE, "now, by this machine's clock"


def write_record(out, path, data):
    try:
        if os.path.exists(out) and os.path.samefile(out, path):
            raise Stop(2, f"changes: {out} is the file of the lists; the record is not written over it")
        with open(out, "wb") as file:
            file.write(data)
    except (OSError, ValueError) as error:
        reason = getattr(error, "strerror", None) or error
        raise Stop(2, f"changes: {out} cannot be written: {reason}") from None
    print(f"changes: the record, {len(data)} bytes, is in {out}", file=sys.stderr)


def text_for(options, page, ask):
    start, how = starting_moment(options.at)
    path = HERE / "lists.txt" if options.file is None else options.file
    name = os.path.relpath(path) if options.file is None else options.file
    zones, windows = read_lists(load(path, name), name, options.limits, start)
    record = record_bytes(zones, windows)
    rows = read_answer(ask(struct.pack("<Q", start) + record))
    agree(zones, windows, start, rows)
    if options.record is not None:
        write_record(options.record, path, record)
    return show(name, View(zones, windows, rows, page), options.limits, how)


def encoding_of(stream):
    """An output's encoding: where the locale is C, Python takes UTF-8 unasked, but the locale's own counts."""
    asked = {"PYTHONUTF8", "PYTHONIOENCODING"} & set(os.environ)
    return locale.nl_langinfo(locale.CODESET) if sys.flags.utf8_mode and not asked else stream.encoding


def main(arguments, ask=ask_program):
    """Runs the command; `ask` gives the program's answer to bytes."""
    for stream in (sys.stdout, sys.stderr):
        if hasattr(stream, "reconfigure"):
            stream.reconfigure(encoding=encoding_of(stream), errors="backslashreplace")
    try:
        if sys.stdout is None:
            raise Stop(3, "changes: standard output is closed, so nothing can be shown")
        page = page_of(sys.stdout)
        sys.stdout.write(text_for(parser(page).parse_args(arguments), page, ask))
        sys.stdout.flush()
        return 0
    except Stop as stop:
        print(stop, file=sys.stderr)
        return stop.status
    except KeyboardInterrupt:
        print("changes: stopped", file=sys.stderr)
        return 3
    except OSError as error:
        os.dup2(os.open(os.devnull, os.O_WRONLY), sys.stdout.fileno())
        if isinstance(error, BrokenPipeError):  # a reader, as head, has seen enough
            return 0
        print(f"changes: what is shown cannot be written: {error.strerror}", file=sys.stderr)
        return 3


if __name__ == "__main__":
    sys.exit(main(sys.argv[1:]))

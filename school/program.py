"""The proved program `schedule`: rt proves and builds it, it is asked, and its answer is held to the lists."""
import os
import pathlib
import re
import select
import shutil
import subprocess
import sys
from typing import NamedTuple, Optional

from lists import Stop, ended, window_at, zone_at

ROOT = pathlib.Path(__file__).resolve().parent.parent
NAME = "schedule"
CRATE = ROOT / "crates" / NAME
PROGRAM = CRATE / "out" / NAME
BUILD = ("rt", "run")  # in the crate's folder: proves it and what is below it, builds it, and runs it once on nothing
LONGEST_RUN = 60  # seconds; the program takes far less than one
PATIENCE = 2  # seconds without a line from rt, after which it is proving; of a proved crate it tells in far less
CHUNK = 65_536  # bytes that are read in one go


class Row(NamedTuple):
    """A line of the program's answer."""

    moment: int
    zone: int
    dst: Optional[int]  # the active window's offset; None: no window is active
    usable: bool


# ## How far rt is


def proof_order(text, wanted):
    """The crates of a crates.txt that are proved for one of them, in rt's order: each after those that it names."""
    lines = [line.partition("#")[0].partition(":") for line in text.split("\n")]
    needs = {head.split()[0]: others.split() for head, _, others in lines if head.split()}
    seen, order = set(), []

    def put(crate):
        if crate in needs and crate not in seen:
            seen.add(crate)  # where crates need each other in a circle, which rt refuses, it ends here
            for other in needs[crate]:
                put(other)
            order.append(crate)

    put(wanted)
    return order


def crates():
    try:
        return proof_order((ROOT / "crates.txt").read_text("utf-8", "replace"), NAME)
    except OSError:
        return []  # rt itself says what is wrong


TOLD = re.compile(r"^rt: chose --jobs \d+ for (\w+)$", re.MULTILINE)  # rt's line as it begins to prove a crate
PROVED = re.compile(r"^rt: running ", re.MULTILINE)


def progress(order, text):
    """The crate that rt is at after it printed a text, or None."""
    if not order or PROVED.search(text):
        return None
    at = [crate for crate in TOLD.findall(text) if crate in order][-1:] or order[:1]
    return f"changes: proving {at[0]} ({order.index(at[0]) + 1} of {len(order)}) ..."


class Line:
    """A line on standard error that says how far a work is: on a terminal in place of the one before."""

    def __init__(self):
        self.text = ""

    def say(self, text):
        if text is None or text == self.text or sys.stderr is None:
            return
        if sys.stderr.isatty():
            sys.stderr.write("\r" + text.ljust(len(self.text)))
        else:
            sys.stderr.write(text + "\n")
        sys.stderr.flush()
        self.text = text

    def clear(self):
        if self.text and sys.stderr.isatty():
            sys.stderr.write("\r" + " " * len(self.text) + "\r")
            sys.stderr.flush()


def watched(pipe, order, say):
    """All that rt prints; where it has been silent for a while, it is told which crate it is at."""
    printed = b""
    while True:
        if select.select([pipe], [], [], PATIENCE)[0]:
            more = os.read(pipe.fileno(), CHUNK)
            printed += more
            if not more:
                return printed.decode("utf-8", "replace")
        else:
            say(progress(order, printed.decode("utf-8", "replace")))


# ## The program


def cannot_be_run(command, error):
    return Stop(3, f"changes: {command} cannot be run: {error}")


def build():
    """Has the program proved and built by rt, and says how far it is while it proves."""
    try:
        rt = subprocess.Popen(BUILD, cwd=CRATE, stdin=subprocess.DEVNULL, stdout=subprocess.PIPE,
                              stderr=subprocess.STDOUT)
    except OSError as error:
        raise cannot_be_run(BUILD[0], error) from None
    line = Line()
    with rt:
        try:
            text = watched(rt.stdout, crates(), line.say)
        except BaseException:
            rt.kill()
            raise
        finally:
            line.clear()
    if rt.returncode != 0:
        raise Stop(3, f"{text.rstrip()}\nchanges: {' '.join(BUILD)} in crates/{NAME} failed with status {rt.returncode}")


def ask_program(given):
    """What the program writes on the bytes that it is given, once it is proved and built."""
    if shutil.which(BUILD[0]) is None:
        raise Stop(3, f"changes: {BUILD[0]} is not found on PATH; it is needed to prove and build the program")
    build()
    try:
        answer = subprocess.run([PROGRAM], cwd=ROOT, check=False, input=given, stdout=subprocess.PIPE,
                                timeout=LONGEST_RUN)
    except (OSError, subprocess.SubprocessError) as error:
        raise cannot_be_run(PROGRAM, error) from None
    if answer.returncode != 0:
        raise Stop(3, f"changes: {PROGRAM} ended with status {answer.returncode}")
    return answer.stdout.decode("ascii", "replace")


# ## Its answer

ROW = re.compile(r"([0-9]{1,20}) (-?[0-9]{1,10}) (-|-?[0-9]{1,10}) (yes|no)")


def read_answer(text):
    """The rows of the program's answer."""
    lines = text.split("\n")
    if lines == ["refused 7", ""]:
        raise Stop(1, "changes: the program refuses these lists (refused 7); no wrong line was found")
    found = [ROW.fullmatch(line) for line in lines[1:-2]]
    rows = [Row(int(f[1]), int(f[2]), None if f[3] == "-" else int(f[3]), f[4] == "yes")
            for f in found if f]
    whole = ["moment zone dst usable"] + lines[1:-2] + [f"steps {len(rows) - 1}", ""]
    if not rows or not all(found) or lines != whole:
        raise Stop(3, f"changes: the program answered something else than a walk:\n{text}")
    return rows


def agree(zones, windows, start, rows):
    """Stops where the rows are not of these lists from this moment: nothing wrong is to be shown."""
    moments = [row.moment for row in rows]
    good = moments[0] == start and moments == sorted(set(moments))
    for row in rows:
        window = window_at(windows, row.moment)
        usable = not all(ended(each, row.moment) for each in windows)
        expected = (zone_at(zones, row.moment).offset, window and window.offset, usable)
        good = good and (row.zone, row.dst, row.usable) == expected
    if not good:
        raise Stop(3, "changes: the program's answer does not fit the lists, so it is not shown")

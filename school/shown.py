"""What a person is shown of a walk: the table of coming changes, the state under each row, and a summary."""
import shutil
import textwrap
from typing import NamedTuple

from lists import window_at, zone_at
from program import Row
from words import (DAY, HOUR, MINUTE, SECOND, TOP, clock_text, counted, local_text, offset_text, plain, utc_text,
                   weekday_text)

NARROWEST, WIDEST = 40, 120  # columns
GLUE = "\0"  # stands for a space at which no line is broken; no text of a school has it
ARROW = "→"
NO_SUMMER_TIME = "window +00:00 from beginning to open"


class Page(NamedTuple):
    """How wide the output is, and its encoding."""

    width: int
    encoding: str

    def escaped(self, text):
        """The text, with its number for each character that the encoding does not have."""
        return text.encode(self.encoding, "backslashreplace").decode(self.encoding)

    @property
    def plain(self):
        return self.escaped(ARROW) != ARROW

    @property
    def arrow(self):
        return "->" if self.plain else ARROW

    @property
    def micro(self):
        return "us" if self.plain else "µs"


def page_of(stream):
    """The page of an output: as wide as its terminal, or as COLUMNS says; 80 columns where neither is known."""
    return Page(min(max(shutil.get_terminal_size().columns, NARROWEST), WIDEST), stream.encoding or "utf-8")


class View(NamedTuple):
    """Lists, their walk, and the page that it is shown on."""

    zones: list
    windows: list
    rows: list
    page: Page


# ## Times


def glued(text):
    """A text that stays on one line where it fits."""
    return text.replace(" ", GLUE)


def duration_text(micros, page):
    units = (DAY, "d"), (HOUR, "h"), (MINUTE, "min"), (SECOND, "s"), (1, page.micro)
    parts = []
    for unit, name in units:
        count, micros = divmod(micros, unit)
        parts += [f"{count} {name}"] if count else []
    return " ".join(parts)


def offset_of(row):
    return row.zone + (row.dst or 0)


def local_moment(row):
    """What panels show: None where no window is usable; held at both ends of 64 bits."""
    return min(max(row.moment + offset_of(row) * SECOND, 0), TOP) if row.usable else None


def arrival_text(row, moment):
    """A moment after a row and before any other: what clocks show when it comes, and UTC."""
    local = local_text(local_moment(row._replace(moment=moment)))
    return glued(f"{local} local time ({utc_text(moment)})")


def coming_text(view, moment):
    return arrival_text([row for row in view.rows if row.moment < moment][-1], moment)


# ## The state


def zone_text(zone, page):
    name = ", without a name" if zone.name is None else f' "{page.escaped(plain(zone.name))}"'
    return offset_text(zone.offset) + name


def state_text(view, row):
    if not view.windows:
        return "no window is in the file: panels show NO local time until the administrator sends windows"
    if not row.usable:
        return "the windows have run out: panels show NO local time until the administrator sends new windows"
    window = window_at(view.windows, row.moment)
    if window is None:
        start = min(each.start for each in view.windows if each.start > row.moment)
        none_yet = " (none has started yet)" if start == view.windows[0].start else ""
        return f"between windows{none_yet}: the next starts {coming_text(view, start)}"
    shift = "" if window.offset else " (the clock is not shifted)"
    until = "open: it has no end" if window.end is None else f"until {coming_text(view, window.end)}"
    return f"inside a window of {offset_text(window.offset)}{shift}, {until}"


def details(view, row):
    """The lines under a row: a new zone, the state, and a local time that is held."""
    zone = zone_at(view.zones, row.moment)
    new = zone.start == row.moment and row is not view.rows[0]
    told = [f"zone changes to {zone_text(zone, view.page)}"] if new else []
    told.append(state_text(view, row))
    if row.usable and local_moment(row) != row.moment + offset_of(row) * SECOND:
        end = "the beginning" if local_moment(row) == 0 else "the last moment that fits"
        told.append(f"local time is held at {end}")
    return told


# ## The table

HEAD = ("UTC", "local time", "offset", "window", "clock")


def change_text(before, after, page):
    """What happens to the clock, from the local times before and after."""
    if before is None or after is None:
        return "still none" if before is None else "stops"
    if before == after:
        return "no change"
    return f"{'forward' if after > before else 'back'} {duration_text(abs(after - before), page)}"


def local_cell(before, after, page):
    """The local time, with the one before it where the clock changes or stops."""
    if before is None or before == after:
        return "none" if after is None else local_text(after)
    if after is None:
        return f"{local_text(before)} {page.arrow} none"
    days = abs(after // DAY - before // DAY)
    short = clock_text(after) if days == 0 else f"{weekday_text(after)} {clock_text(after)}"
    return f"{local_text(before)} {page.arrow} {short if days <= 1 else local_text(after)}"


def cells(before_row, row, page):
    """A row of the table; `before_row` is None for the first."""
    after = local_moment(row)
    before = before_row and local_moment(before_row._replace(moment=row.moment))
    offset = offset_text(offset_of(row)) if row.usable else "-"
    window = "-" if row.dst is None else offset_text(row.dst)
    change = change_text(before, after, page) if before_row else "(start)"
    return utc_text(row.moment), local_cell(before, after, page), offset, window, change


def wrapped(text, page, indent=""):
    """The lines of a text; those after the first stand further in."""
    further = indent + "  "
    if max(map(len, text.split(" "))) > page.width - len(further):
        text = text.replace(GLUE, " ")
    lines = textwrap.wrap(text, page.width, initial_indent=indent, subsequent_indent=further, break_on_hyphens=False)
    return [line.replace(GLUE, " ") for line in lines]


def table(view):
    """A row for each moment with its details under it; a line for each cell where rows are too wide."""
    body = [cells(before, row, view.page) for before, row in zip([None] + view.rows, view.rows)]
    widths = [max(map(len, column)) for column in zip(HEAD, *body)]
    fits = sum(widths) + 2 * (len(HEAD) - 1) <= view.page.width

    def line(row_cells):
        return "  ".join(cell.ljust(width) for cell, width in zip(row_cells, widths)).rstrip()

    def apart(row_cells):
        named = [f"{head}: {glued(cell)}" for head, cell in zip(HEAD[1:], row_cells[1:])]
        return row_cells[:1] + tuple(each for text in named for each in wrapped(text, view.page, "    "))

    lines = [line(HEAD)] if fits else []
    for row, row_cells in zip(view.rows, body):
        lines += [line(row_cells)] if fits else apart(row_cells)
        lines += [each for text in details(view, row) for each in wrapped(text, view.page, "    ")]
    return lines


# ## The whole


def summary(view):
    """Sentences on what is coming, and on what to do."""
    coming, windows = len(view.rows) - 1, view.windows
    count = "1 change is coming." if coming == 1 else f"{coming or 'No'} changes are coming."
    if not windows:
        return [count, f"Send windows. A school without summer time sends one that is open: {glued(NO_SUMMER_TIME)}"]
    end = windows[-1].end
    if end is None:
        return [count, "The last window is open: local time does not stop."]
    if not view.rows[0].usable:
        last = Row(end, zone_at(view.zones, end - 1).offset, windows[-1].offset, True)
        return [count, f"The windows ran out at {arrival_text(last, end)}.", "Send new windows."]
    return [count, f"The windows run out at {coming_text(view, end)}.", "Send new windows before then."]


def show(name, view, limits, how):
    """The whole text for a person; `how` says where the starting moment comes from."""
    first = view.rows[0]
    local = local_moment(first)
    shows = "there is NO local time: panels show none"
    if local is not None:
        shows = f"a correctly set clock shows {local_text(local)}"
    have = f"{counted(view.zones, 'zone')}, {counted(view.windows, 'window')}"
    lines = [f"{name}: {have}; they fit a controller with limits {limits}"]
    lines += wrapped(f"At {utc_text(first.moment)} ({how}) {glued(shows)}.", view.page)
    lines += wrapped(f"Zone {zone_text(zone_at(view.zones, first.moment), view.page)}", view.page)
    lines += [""] + table(view) + [""]
    lines += [line for sentence in summary(view) for line in wrapped(sentence, view.page)]
    return "\n".join(lines) + "\n"

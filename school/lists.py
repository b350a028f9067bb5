"""A school's lists as a readable text: its lines, what the lists have at a moment, and the record that they stand for.

Every mistake is told with the number of its line. Nothing is guessed, and no zone's rules are known here."""
import re
import struct
import unicodedata
from typing import Callable, NamedTuple, Optional

from words import Wrong, joined, quoted, read_end, read_name, read_offset, read_start

LARGEST_FILE = 1_000_000  # bytes; far more than full lists with comments


class Zone(NamedTuple):
    offset: int
    start: int
    name: Optional[str] = None


class Window(NamedTuple):
    offset: int
    start: int
    end: Optional[int]  # None: open


class Stop(Exception):
    """The end of a run that shows nothing: an exit status and what to say."""

    def __init__(self, status, text):
        super().__init__(text)
        self.status = status


# ## What the lists have at a moment


def zone_at(zones, moment):
    return [zone for zone in zones if zone.start <= moment][-1]


def ended(window, moment):
    return window.end is not None and window.end <= moment


def window_at(windows, moment):
    active = [window for window in windows if window.start <= moment and not ended(window, moment)]
    return active[0] if active else None


# ## The lines of the text


class Form(NamedTuple):
    """How a line is written: a reader for each word after the first, or the word that has to stand there."""

    make: Callable
    text: str
    note: str
    least: int  # words after the first
    readers: tuple


FORMS = {
    "zone": Form(Zone, 'zone OFFSET from MOMENT "NAME"', "a name may be left out", 3,
                 (read_offset, "from", read_start, read_name)),
    "window": Form(Window, "window OFFSET from MOMENT to MOMENT", "or: to open", 5,
                   (read_offset, "from", read_start, "to", read_end)),
}
WORD = re.compile(r'#.*|("[^"]*"?|[^\s"#]+)')


def read_entry(form, words, told):
    """The entry of a line's words after the first; what is wrong goes to `told`, and then there is none."""
    values = []
    for reader, word in zip(form.readers, words):
        if isinstance(reader, str):
            if word != reader:
                told.append(f'unexpected word {quoted(word)} where "{reader}" belongs: {form.text}')
                return None
            continue
        try:
            values.append(reader(word))
        except Wrong as wrong:
            told.append(str(wrong))
    if len(words) < form.least:
        told.append(f"the line is too short: {form.text} ({form.note})")
    elif len(words) > len(form.readers):
        told.append(f"unexpected word {quoted(words[len(form.readers)])}: {form.text}")
    return None if told else form.make(*values)


def read_text(text):
    """The entries of each kind in a text and what is wrong in it, each beside its line's number.

    An entry that could not be read is None."""
    entries, wrong = {kind: [] for kind in FORMS}, []
    for number, line in enumerate(text.split("\n"), 1):
        told = []
        line = line.rstrip("\r")
        control = next((c for c in line if unicodedata.category(c) == "Cc" and c != "\t"), None)
        if control is not None:
            told.append(f"a control character (U+{ord(control):04X}) stands in the line")
        words = [found[1] for found in WORD.finditer(line) if found[1]]
        if words and words[0] in FORMS:
            entries[words[0]].append((number, read_entry(FORMS[words[0]], joined(words[1:]), told)))
        elif words and not told:
            told.append(f"unexpected word {quoted(words[0])}: a line begins with zone, window or #")
        wrong += [(number, sentence) for sentence in told]
    return entries["zone"], entries["window"], wrong


def load(path, name):
    """The text of a file."""
    try:
        with open(path, "rb") as file:
            data = file.read(LARGEST_FILE + 1)
    except (OSError, ValueError) as error:
        raise Stop(1, f"{name}: cannot be read: {getattr(error, 'strerror', None) or error}") from None
    if len(data) > LARGEST_FILE:
        raise Stop(1, f"{name}: larger than {LARGEST_FILE} bytes, which no lists are")
    try:
        return data.decode("utf-8-sig")
    except UnicodeDecodeError as error:
        line = data.count(b"\n", 0, error.start) + 1
        byte = f"{data[error.start]:#04x}"
        raise Stop(1, f"{name}:{line}: not UTF-8 text (byte {byte}); save it as UTF-8") from None


# ## The record


def zone_bytes(zone):
    name = None if zone.name is None else zone.name.encode("utf-8")
    mark = b"\0" if name is None else bytes([1, len(name)]) + name
    return struct.pack("<iQ", zone.offset, zone.start) + mark


def window_bytes(window):
    mark = b"\0" if window.end is None else b"\1" + struct.pack("<Q", window.end)
    return struct.pack("<iQ", window.offset, window.start) + mark


def record_bytes(zones, windows):
    """Both sections: a count in one byte, then the entries."""
    zone_part = bytes([len(zones)]) + b"".join(map(zone_bytes, zones))
    return zone_part + bytes([len(windows)]) + b"".join(map(window_bytes, windows))

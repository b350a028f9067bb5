"""Moments, offsets and names: how a school's text writes them and how they are shown.

Nothing is guessed: a word that is not as it has to be is wrong, and the message says why."""
import datetime
import re
import unicodedata

SECOND = 1_000_000  # moments are microseconds since 2000-01-01T00:00:00 UTC
MINUTE = 60 * SECOND
HOUR = 60 * MINUTE
DAY = 24 * HOUR
TOP = 2**64 - 1
FIRST = datetime.date(2000, 1, 1)
CYCLE = 146_097  # days in 400 years, after which dates and weekdays repeat
EXAMPLE = "2026-03-29T01:00Z"
MOST_SAID = 70  # characters of a word that a message repeats
MOST_NAME = 64  # bytes that a controller takes
MOST_SENT = 255  # bytes of a name, or entries of a list, that can be sent: their number has one byte


class Wrong(ValueError):
    """A word that cannot be taken, and why."""


# ## As they are shown


def date_text(moment):
    cycles, day = divmod(moment // DAY, CYCLE)
    date = FIRST + datetime.timedelta(days=day)
    year = date.year + 400 * cycles
    return f"{'+' if year > 9999 else ''}{year}-{date.month:02}-{date.day:02}"


def clock_text(moment):
    """Hours and minutes; seconds and their fraction only where they are not 0."""
    seconds, micros = divmod(moment % DAY, SECOND)
    minutes, second = divmod(seconds, 60)
    text = f"{minutes // 60:02}:{minutes % 60:02}"
    text += f":{second:02}" if second or micros else ""
    return text + (f".{micros:06}" if micros else "")


def utc_text(moment):
    return f"{date_text(moment)}T{clock_text(moment)}Z"


def weekday_text(moment):
    return ("Sat", "Sun", "Mon", "Tue", "Wed", "Thu", "Fri")[moment // DAY % 7]


def local_text(moment):
    return f"{weekday_text(moment)} {date_text(moment)} {clock_text(moment)}"


def offset_text(seconds):
    minutes, second = divmod(abs(seconds), 60)
    sign = "-" if seconds < 0 else "+"
    if minutes >= 100 * 60:
        return f"{sign}{abs(seconds)}s"
    return f"{sign}{minutes // 60:02}:{minutes % 60:02}" + (f":{second:02}" if second else "")


def counted(things, noun):
    return f"{len(things) or 'no'} {noun}{'' if len(things) == 1 else 's'}"


def plain(text):
    """Text for a terminal: a character without a look of its own is shown by its number."""
    odd = ("Cc", "Cf", "Cs", "Co", "Cn", "Zl", "Zp")
    return "".join(f"\\u{{{ord(c):x}}}" if unicodedata.category(c) in odd else c for c in text)


def said(word):
    """A word as a message repeats it, cut where it is very long."""
    return plain(word if len(word) <= MOST_SAID else word[:MOST_SAID] + "...")


def quoted(word):
    return said(word) if word.startswith('"') else f'"{said(word)}"'


# ## Moments

DATE_FORM = r"(?:[0-9]{4}|\+[0-9]{5,6})-[0-9]{2}-[0-9]{2}"
TIME_FORM = r"[0-9]{2}:[0-9]{2}(?::[0-9]{2}(?:\.[0-9]{1,6})?)?"
OFFSET_END = r"[+-][0-9]{1,2}(?::?[0-9]{2})?"
IN_UTC = ("Z", "z", "UTC", "GMT")  # ends of a moment that say UTC; only the first is taken
MOMENT = re.compile(rf"({DATE_FORM})T({TIME_FORM})Z")
NUMBERS = re.compile(r"[0-9]+")
# a date and a time of day, with what may stand where T and Z belong
NEARLY = re.compile(rf"({DATE_FORM})( ?[A-Za-z]* ?|[-_/.,])({TIME_FORM})( ?(?:{'|'.join(IN_UTC)}|{OFFSET_END})?)")
DATE_ALONE = re.compile(rf"{DATE_FORM}[TtZz]?")
TIME_ALONE = re.compile(rf"[Tt]?{TIME_FORM}(?:[Zz]|{OFFSET_END})?")


def wrong_between(text):
    """What is wrong with the text between a date and its time of day, or None."""
    if text == "T":
        return None
    if text == "t":
        return "a small t"
    return "a space beside its T" if text.strip() == "T" else "no T between date and time"


def wrong_end(text):
    """What is wrong with the text after a time of day, or None."""
    if text == "Z":
        return None
    known = {"": "no Z at its end", "Z": "a space before its Z", "z": "a small z"}
    other = f"{text.strip()} in place of Z" if text.strip() in IN_UTC else "an offset at its end"
    return known.get(text.strip(), other)


def why_no_moment(word):
    nearly = NEARLY.fullmatch(word)
    if nearly:
        date, between, clock, end = nearly.groups()
        has = " and ".join(filter(None, (wrong_between(between), wrong_end(end))))
        right = f"write {date}T{clock}Z"
        if end.strip() not in IN_UTC:
            right = f"write the moment in UTC (local time less its offset), as one word such as {EXAMPLE}"
        return f"{said(word)} has {has}: {right}"
    for form, missing in ((DATE_ALONE, "time of day"), (TIME_ALONE, "date")):
        if form.fullmatch(word):
            return f"{word} has no {missing}: write date and time as one word, such as {EXAMPLE}"
    return f"{quoted(word)} is no moment: write one in UTC, such as {EXAMPLE}"


def joined(words):
    """The words of a line, where the parts of one moment are one word, so that one message tells of them."""
    made = []
    for word in words:
        if made and NEARLY.fullmatch(f"{made[-1]} {word}"):
            made[-1] += f" {word}"
        else:
            made.append(word)
    return made


def read_moment(word):
    found = MOMENT.fullmatch(word)
    if not found:
        raise Wrong(why_no_moment(word))
    year, month, day = (int(part) for part in NUMBERS.findall(found[1]))
    clock, _, fraction = found[2].partition(".")
    hour, minute, second = (int(part) for part in (clock + ":00").split(":")[:3])
    if year < FIRST.year:
        raise Wrong(f"{word} is before {FIRST.year}, where a controller's time begins")
    if hour > 23 or minute > 59 or second > 59:
        raise Wrong(f"{word} has no possible time of day: that is 00:00 to 23:59:59")
    try:
        date = datetime.date(FIRST.year + year % 400, month, day)
    except ValueError:
        raise Wrong(f"{word} is an impossible date: no such day is in the calendar") from None
    days = (date - FIRST).days + (year - FIRST.year) // 400 * CYCLE
    moment = days * DAY + hour * HOUR + minute * MINUTE + second * SECOND + int(fraction.ljust(6, "0"))
    if moment > TOP:
        raise Wrong(f"{word} is too late: the last moment that fits is {utc_text(TOP)}")
    return moment


def read_start(word):
    return 0 if word == "beginning" else read_moment(word)


def read_end(word):
    return None if word == "open" else read_moment(word)


# ## Offsets and names

OFFSET = re.compile(r"([+-])(?:([0-9]{2}):([0-5][0-9])(?::([0-5][0-9]))?|([0-9]{1,10})s)")
DASHES = ("\u2212", "\u2013", "\u2014")  # a minus sign and two dashes that editors put in the minus's place


def read_offset(word):
    found = OFFSET.fullmatch(word)
    if not found and word[:1] in DASHES:
        raise Wrong(f"the offset {said(word)} begins with a dash: write the plain minus, -")
    if not found and OFFSET.fullmatch("+" + word):
        raise Wrong(f"the offset {word} has no sign: write +{word} or -{word}")
    if not found:
        raise Wrong(f"{said(word)} is no offset: write one as +01:00, -03:30 or +3600s")
    hours, minutes, seconds, plain_seconds = (int(part or 0) for part in found.groups()[1:])
    offset = (hours * 60 + minutes) * 60 + seconds + plain_seconds
    offset = -offset if found[1] == "-" else offset
    if not -(2**31) <= offset < 2**31:
        raise Wrong(f"the offset {word} is too large: 32 bits hold -2147483648s to +2147483647s")
    return offset


def name_size(name):
    return len(name.encode("utf-8"))


def long_name(name):
    return f"the name is {name_size(name)} bytes long in UTF-8, and at most {MOST_NAME} are taken"


def read_name(word):
    if not word.startswith('"'):
        raise Wrong(f'unexpected word {quoted(word)}: a name stands in straight double quotes, as "Europe/Amsterdam"')
    if len(word) < 2 or not word.endswith('"'):
        raise Wrong("the name's closing quote is missing")
    name = word[1:-1]
    if "\t" in name:
        raise Wrong("a tab stands in the name")
    if name_size(name) > MOST_SENT:
        raise Wrong(long_name(name))
    return name

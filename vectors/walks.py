"""The walk through a log's section, as document 01 has it under "The walk" and "Sessions to reproduce", and what crates/walk and crates/replay are to print of it.

Written from that text over whole integers. lists.py finds the section and judges the lists, and frames.py reads frames of kinds I, P and S; events, trials and the search are here. Where a
search from each place ends is worked out once, from the section's end backwards. Not in the text, but the project's reading of it: the limit of H lines counts their line feeds, and
`too long` comes alone, before any refusal; the place of refusal 3 is two numbers, list and round; iteration and time are printed unsigned whatever their sign items; an event prints as many numbers as its
type has, and a slow frame its place and its fields; a cut frame has no line, and is counted as tried and not as rejected.
"""
import re
from typing import NamedTuple

import decoders
import frames
import lists
import sections

KINDS = b"EIPGHS"
SEARCHED = b"EISGH"
CLOSING = b"End of log\0"
CLOSES = 255

# How many numbers an event has, by its type.
NUMBERS = {0: 1, 14: 2, 15: 1, 30: 2}

# The most bytes of H lines, and of a section.
HEADER_MOST = 16384
SECTION_MOST = 65536


class Event(NamedTuple):
    """An event: its type and its numbers."""

    type: int
    numbers: tuple


class Trial(NamedTuple):
    """What became of a kind byte at a place. Of an accepted one, the frame or the event, and the place behind it."""

    kind: str
    place: int
    outcome: str
    found: frames.Frame | Event | None
    end: int | None


# Events.


def event(s):
    """An event behind its kind byte; the closing text is compared byte by byte."""
    kind = int(s.byte(), 2)
    if kind == CLOSES:
        for letter in CLOSING:
            if int(s.byte(), 2) != letter:
                raise decoders.Corrupt
        return Event(kind, ())
    if kind not in NUMBERS:
        raise decoders.Corrupt
    return Event(kind, tuple(decoders.variable(s) for _ in range(NUMBERS[kind])))


def read_event(section, place):
    """An event and the place behind it; in the place of an event `cut` or `corrupt`."""
    s = decoders.Section(section, place)
    try:
        return event(s), s.place
    except decoders.Cut:
        return "cut", None
    except decoders.Corrupt:
        return "corrupt", None


# The walk.


def searches(section):
    """For every place, where a search from there ends: at the next of E I S G H, or where it began if none is left."""
    ends, letter = [len(section)], None
    for place in reversed(range(len(section))):
        if section[place] in SEARCHED:
            letter = place
        ends.append(place if letter is None else letter)
    return ends[::-1]


def read(kind, definition, last, older, section, place):
    """What stands behind a kind byte, and the place behind it; in its place `cut` or `corrupt`."""
    if kind in "GH":
        return "corrupt", None
    if kind == "E":
        return read_event(section, place)
    return frames.read(kind, definition.fields(kind), last, older, section, place)


def tried(definition, last, older, section, place):
    """A trial of the kind byte at a place."""
    kind = chr(section[place])
    found, end = read(kind, definition, last, older, section, place + 1)
    if found == "cut":
        return Trial(kind, place, "cut", None, None)
    if found == "corrupt" or end < len(section) and section[end] not in KINDS:
        return Trial(kind, place, "rejected", None, None)
    return Trial(kind, place, "accepted", found, end)


def closes(trial):
    """Whether a trial accepted the event that ends a log."""
    return trial.outcome == "accepted" and trial.kind == "E" and trial.found.type == CLOSES


def walk(definition, section):
    """The trials of a section in turn, and how it ends."""
    trials, last, older, place = [], None, None, 0
    ends = searches(section)
    while place < len(section):
        if section[place] not in KINDS:
            place = ends[place + 1]
            continue
        trial = tried(definition, last, older, section, place)
        trials.append(trial)
        if trial.outcome == "cut":
            return trials, "cut"
        if closes(trial):
            return trials, "done"
        if trial.outcome == "rejected":
            place = ends[place + 1]
            continue
        if trial.kind in "IP":
            last, older = trial.found, last
        place = trial.end
    return trials, "out of data"


# What the program walk prints.


def columns(rows, count):
    """Rows as columns, also where there is no row."""
    return list(zip(*rows)) or [()] * count


def defined(log, numbers=lists.NO_NUMBERS, settings=lists.PLAIN):
    """The definition that a log's lists make with header numbers and settings, and which fields are signed by the kind of frame."""
    main, slow = lists.define(log, numbers, settings)
    names, p, q, e, f, signs = columns(main[2:], 6)
    _, slow_p, slow_e, slow_signs = columns(slow, 4)
    encodings, predictors = ([list(map(int, codes)) for codes in kinds] for kinds in ((e, f, slow_e), (p, q, slow_p)))
    motor = names.index(b"motor[0]") if b"motor[0]" in names else None
    main_signed, slow_signed = ([lists.sign(item) == "s" for item in items] for items in (signs, slow_signs))
    return sections.define(encodings, predictors, motor, numbers), {"I": main_signed, "P": main_signed, "S": slow_signed}


def line(trial, signed):
    """An accepted trial: letter, place, then iteration, time and fields, or an event's type and numbers."""
    found = trial.found
    if trial.kind == "E":
        numbers = [found.type, *found.numbers]
    else:
        numbers = frames.shown(found._replace(values=map(frames.number, found.values, signed[trial.kind])))
    return " ".join(map(str, [trial.kind, trial.place, *numbers]))


def last_line(trials, ending):
    """How a walk ends, how many frames of each kind it accepted, how many trials it made and how many it rejected."""
    accepted = [trial.kind for trial in trials if trial.outcome == "accepted"]
    main, events, slow = (sum(kind in letters for kind in accepted) for letters in ("IP", "E", "S"))
    rejected = sum(trial.outcome == "rejected" for trial in trials)
    return f"end {ending} main {main} event {events} slow {slow} tried {len(trials)} rejected {rejected}"


def shown(trials, ending, signed):
    """The lines of a walk."""
    return ["kind at values", *(line(trial, signed) for trial in trials if trial.outcome == "accepted"), last_line(trials, ending)]


def section_of(log):
    """What is behind the H lines."""
    _, start = lists.header(log)
    return log[start:]


def too_long(log):
    """Whether there are too many bytes of H lines, or of the section."""
    section = section_of(log)
    return len(log) - len(section) > HEADER_MOST or len(section) > SECTION_MOST


def printed(log, numbers=lists.NO_NUMBERS, settings=lists.PLAIN):
    """The lines that the program prints of a log; only replay has header numbers and settings."""
    if too_long(log):
        return ["too long"]
    try:
        definition, signed = defined(log, numbers, settings)
    except lists.Refused as refused:
        return [str(refused)]
    return shown(*walk(definition, section_of(log)), signed)


# What the program replay is asked, and what it prints.

# The most bytes that it reads, and of a log.
INPUT_MOST = 2**20
LOG_MOST = 8192

LISTS = re.compile("lists (-|[0-9]+) (-|[0-9]+) (-|[0-9]+)(?: (.*))?", re.DOTALL)
SET = re.compile("set (?:plain|interval ([0-9]+) ([0-9]+) ([0-9]+) ?)")
CASE = re.compile("([^ ]+)(?: (.*))?", re.DOTALL)


class Common(NamedTuple):
    """What a line `lists` says of the logs behind it: their header numbers, and the bytes that they begin with; and a line `set`, their settings."""

    numbers: tuple
    start: bytes
    settings: lists.Settings


NOTHING = Common(lists.NO_NUMBERS, b"", lists.PLAIN)


def common_words(text, common):
    """What is common to logs behind a line `lists`, or None where it is not written so."""
    m = LISTS.fullmatch(text)
    numbers = m and lists.header_numbers(m.group(1, 2, 3))
    start = m and lists.unescaped(m[4] or "", LOG_MOST)
    return None if None in (numbers, start) else common._replace(numbers=numbers, start=start)


def set_words(text, common):
    """The same for a line `set`."""
    m = SET.fullmatch(text)
    settings = m and (lists.interval_settings(m.groups()) if m[1] else lists.PLAIN)
    return settings and common._replace(settings=settings)


# The words that are no labels.
WORDS = {"lists": common_words, "set": set_words}


def words(text, common=NOTHING):
    """Label and log of a case, or None where the line is none."""
    m = CASE.fullmatch(text)
    rest = m and lists.unescaped(m[2] or "", LOG_MOST - len(common.start))
    return None if rest is None else (m[1], common.start + rest)


def answers(texts):
    """For each line of a table in turn the lines that the program is to write."""
    common = NOTHING
    for text in texts:
        if text.startswith("#"):
            yield [text]
        elif text.split(" ")[0] in WORDS:
            said = WORDS[text.split(" ")[0]](text, common)
            yield ["? " + text] if said is None else []
            common = said or common
        else:
            case = words(text, common)
            yield ["? " + text] if case is None else [f"= {case[0]}", *printed(case[1], common.numbers, common.settings)]

"""The frames of a section, as document 01 has them under "Predictors", and what crates/frames is to print of them.

Written from that text over whole integers, which wrap or are held only where the text says so; the numbers are read by decoders.py. Values are
32-bit patterns, and what is absent is None. Four answers are not in the text, since such definitions are refused: a header number that is absent
and a motor[0] that is no earlier field count 0, a number that is no predictor gives 0, and one that is no encoding is corrupt.
"""
import itertools
import re
from typing import NamedTuple

import decoders

WORD = 2**32
TOP = 2**64 - 1
PREDICTORS = range(12)
ENCODINGS = (0, 1, 3, 6, 7, 8, 9)
SIZES = {6: 8, 7: 3, 8: 4}

# What a case can hold: fields, and bytes of a section.
MAIN_MOST = 62
SLOW_MOST = 16
SECTION = 512


class Fields(NamedTuple):
    """The fields of one kind of frame; motor is the number of the one named motor[0]."""

    encodings: tuple
    predictors: tuple
    motor: int | None
    numbers: tuple


class Frame(NamedTuple):
    """A frame of kind I, P or S; a slow one has no iteration and no time."""

    kind: str
    iteration: int | None
    time: int | None
    values: tuple


# Predictors.


def is_signed(encoding):
    return encoding not in (1, 9)


def number(pattern, signed):
    """What a 32-bit pattern means."""
    return pattern - WORD if signed and pattern >= WORD // 2 else pattern


def straight(last, older, low, high):
    """Predictor 2 of numbers that go from low to high."""
    if last is None:
        return 0
    if older is None or not low <= 2 * last - older <= high:
        return last
    return 2 * last - older


def mean(last, older):
    """Predictor 3: towards zero, which is downwards for what is unsigned."""
    if last is None:
        return 0
    if older is None:
        return last
    half = abs(last + older) // 2
    return half if last + older >= 0 else -half


def prediction(predictor, signed, last, older, motor, numbers, skipped):
    """What a predictor says of a field, from patterns, as a pattern."""
    throttle, battery, least = (given or 0 for given in numbers)
    if predictor in (2, 3):
        last, older = (None if pattern is None else number(pattern, signed) for pattern in (last, older))
        low = -WORD // 2 if signed else 0
        said = straight(last, older, low, low + WORD - 1) if predictor == 2 else mean(last, older)
    else:
        said = {1: last or 0, 4: throttle, 5: motor, 6: skipped + 1 + (last or 0), 8: 1500, 9: battery, 11: least}.get(predictor, 0)
    return said % WORD


# Frames.


def groups(encodings):
    """The groups of fields: an encoding and how many."""
    for encoding, run in itertools.groupby(encodings):
        left = len(list(run))
        while left > 0:
            size = min(left, SIZES.get(encoding, 1))
            yield encoding, size
            left -= size


def raw_values(encodings, s):
    """The raw numbers of all fields, as patterns."""
    values = []
    for encoding, size in groups(encodings):
        if encoding not in ENCODINGS:
            raise decoders.Corrupt
        values += decoders.numbers(encoding, size, s)[:size]
    return [value % WORD for value in values]


def predicted(fields, own, last, older):
    """The prediction for the next field of a frame, with the values of its earlier ones and the frames that the predictors are given."""
    i = len(own)
    before, long_before = (None if frame is None else frame.values[i] for frame in (last, older))
    motor = own[fields.motor] if fields.motor is not None and fields.motor < i else 0
    return prediction(fields.predictors[i], is_signed(fields.encodings[i]), before, long_before, motor, fields.numbers, 0)


def values_of(fields, raws, last, older):
    """The values of all fields; each sum wraps."""
    own = []
    for raw in raws:
        own.append((raw + predicted(fields, own, last, older)) % WORD)
    return tuple(own)


def intra(fields, last, s):
    iteration = decoders.variable(s)
    time = decoders.variable(s)
    return Frame("I", iteration, time, values_of(fields, raw_values(fields.encodings, s), last, None))


def time_after(last, older, offset):
    """Predictor 2 in 64 bits and an offset, held at both ends; the older frame counts only if the last was inter."""
    before = None if last is None else last.time
    long_before = None if last is None or last.kind != "P" or older is None else older.time
    return min(max(straight(before, long_before, 0, TOP) + offset, 0), TOP)


def inter(fields, last, older, s):
    offset = decoders.variable_signed(s)
    values = values_of(fields, raw_values(fields.encodings, s), last, older)
    iteration = (1 + (0 if last is None else last.iteration)) % WORD
    return Frame("P", iteration, time_after(last, older, offset), values)


def slow(fields, s):
    if not fields.encodings:
        raise decoders.Corrupt
    return Frame("S", None, None, values_of(fields, raw_values(fields.encodings, s), None, None))


def read(kind, fields, last, older, data, place=0):
    """The frame behind a kind byte and the place behind the frame; in the place of a frame `cut` or `corrupt`."""
    s = decoders.Section(data, place)
    try:
        if kind == "I":
            return intra(fields, last, s), s.place
        if kind == "P":
            return inter(fields, last, older, s), s.place
        return slow(fields, s), s.place
    except decoders.Cut:
        return "cut", None
    except decoders.Corrupt:
        return "corrupt", None


# Fields by lists of their own.


def is_sound(fields):
    """Whether refusals 3 and 8 pass the fields: predictors and encodings that there are, and what predictors need."""
    numbers = dict(zip((4, 9, 11), fields.numbers))
    return all(
        predictor in PREDICTORS
        and encoding in ENCODINGS
        and numbers.get(predictor, 0) is not None
        and (predictor != 5 or (fields.motor is not None and fields.motor < i))
        for i, (predictor, encoding) in enumerate(zip(fields.predictors, fields.encodings))
    )


def by_lists(count, fields, data):
    """The first fields of two lists, each with zeros behind it, and no frame before: what they are, or why there are none."""
    if count > MAIN_MOST:
        return "refused 10 0"
    encodings, predictors = (((*codes, *[0] * MAIN_MOST))[:count] for codes in (fields.encodings, fields.predictors))
    fields = fields._replace(encodings=encodings, predictors=predictors)
    if not is_sound(fields):
        return "refused 10 0"
    s = decoders.Section(data, 0)
    try:
        values = values_of(fields, raw_values(encodings, s), None, None)
    except decoders.Cut:
        return "cut"
    except decoders.Corrupt:
        return "corrupt"
    return " ".join(map(str, [*values, "next", s.place]))


# What the program is asked, and what it prints.

NUMBER = "([0-9]+)"
OPTION = "(-|[0-9]+)"
FIELDS = "(-|[0-9]+) (-|[0-9ab]+)"
BEFORE = r"(-|[IP]/[0-9]+/[0-9]+/[0-9,]*)"
BYTES = "(-|(?:[0-9a-f]{2})+)"
OPTIONS = " ".join([OPTION] * 3)

PREDICT = re.compile(f"predict {NUMBER} {NUMBER} {OPTION} {OPTION} {NUMBER} {NUMBER} {NUMBER} {OPTIONS}")
FORMS = {
    "I": re.compile(f"intra ([^ ]*) {FIELDS} {OPTION} {OPTIONS} {BEFORE} {BYTES}"),
    "P": re.compile(f"inter ([^ ]*) {FIELDS} {OPTION} {OPTIONS} {BEFORE} {BEFORE} {BYTES}"),
    "S": re.compile(f"slow ([^ ]*) {FIELDS} {OPTIONS} {BYTES}"),
}
LISTS = re.compile(f"fields ([^ ]*) {NUMBER} (-|[0-9a-f]+) (-|[0-9a-f]+) {OPTION} {OPTIONS} {BYTES}")
WORDS = {"I": "intra", "P": "inter", "S": "slow"}


class Wrong(Exception):
    """A line is no case."""


def decimal(word, most=TOP):
    """A number up to a largest one; a dash is None."""
    if word == "-":
        return None
    if int(word) > most:
        raise Wrong
    return int(word)


def codes(word, most):
    """A field's number of an encoding or a predictor for each character."""
    if word == "-":
        return ()
    if len(word) > most:
        raise Wrong
    return tuple(int(character, 16) for character in word)


def before(word, count):
    """A frame before, with values for so many fields."""
    if word == "-":
        return None
    kind, iteration, time, values = word.split("/")
    patterns = values.split(",") if values else []
    if len(patterns) != count or "" in patterns:
        raise Wrong
    return Frame(kind, decimal(iteration, WORD - 1), decimal(time), tuple(decimal(p, WORD - 1) for p in patterns))


def bytes_of(word):
    data = b"" if word == "-" else bytes.fromhex(word)
    if len(data) > SECTION:
        raise Wrong
    return data


def frame_words(kind, m):
    """Label, fields, the frames before and bytes of a case."""
    label, encodings, predictors, *rest, data = m.groups()
    most = SLOW_MOST if kind == "S" else MAIN_MOST
    encodings, predictors = codes(encodings, most), codes(predictors, most)
    if len(encodings) != len(predictors):
        raise Wrong
    motor = None if kind == "S" else decimal(rest.pop(0))
    numbers = tuple(decimal(word, 65535) for word in rest[:3])
    frames = [before(word, len(encodings)) for word in rest[3:]]
    return label, Fields(encodings, predictors, motor, numbers), *[*frames, None, None][:2], bytes_of(data)


def lists_answer(m):
    """Label, and what the fields are."""
    label, count, encodings, predictors, motor, *numbers, data = m.groups()
    encodings, predictors = codes(encodings, MAIN_MOST), codes(predictors, MAIN_MOST)
    if len(encodings) != len(predictors):
        raise Wrong
    fields = Fields(encodings, predictors, decimal(motor), tuple(decimal(word, 65535) for word in numbers))
    return f"{label} = {by_lists(decimal(count), fields, bytes_of(data))}"


def predict_answer(m):
    predictor, encoding = (decimal(word, 255) for word in m.group(1, 2))
    last, older, raw, skipped, motor = (decimal(word, WORD - 1) for word in m.group(3, 4, 5, 6, 7))
    numbers = tuple(decimal(word, 65535) for word in m.group(8, 9, 10))
    said = prediction(predictor, is_signed(encoding), last, older, motor, numbers, skipped)
    return f"{said} {(raw + said) % WORD}"


def frame_answer(kind, fields, last, older, data):
    """A frame's numbers and the place behind it, or why there is none."""
    frame, place = read(kind, fields, last, older, data)
    if isinstance(frame, str):
        return frame
    return " ".join(map(str, [*shown(frame), "next", place]))


def shown(frame):
    head = [] if frame.kind == "S" else [frame.iteration, frame.time]
    return [*head, *frame.values]


def answered(line):
    """The line that the program is to write for a line of the table."""
    if line.startswith("#"):
        return line
    try:
        m = PREDICT.fullmatch(line)
        if m:
            return f"{line} = {predict_answer(m)}"
        m = LISTS.fullmatch(line)
        if m:
            return lists_answer(m)
        for kind, form in FORMS.items():
            m = form.fullmatch(line)
            if m:
                label, *words = frame_words(kind, m)
                return f"{label} = {frame_answer(kind, *words)}"
    except Wrong:
        pass
    return "? " + line


# How a case is written.


def option(value):
    return "-" if value is None else str(value)


def word_of(frame):
    """A frame before, as a case has it."""
    if frame is None:
        return "-"
    return f"{frame.kind}/{frame.iteration}/{frame.time}/{','.join(map(str, frame.values))}"


def digits(codes):
    return "".join(f"{code:x}" for code in codes) or "-"


def predict_case(predictor, encoding, last, older, raw=0, skipped=0, motor=0, numbers=(None, None, None)):
    return " ".join(["predict", *map(option, (predictor, encoding, last, older, raw, skipped, motor, *numbers))])


def frame_case(kind, label, fields, last, older, data):
    """A case of any kind; a slow one has no motor[0], and only an inter one an older frame."""
    numbers = [option(value) for value in (fields.motor, *fields.numbers)]
    words = {"I": [*numbers, word_of(last)], "P": [*numbers, word_of(last), word_of(older)], "S": numbers[1:]}[kind]
    return " ".join([WORDS[kind], label, digits(fields.encodings), digits(fields.predictors), *words, data.hex() or "-"])

"""Sections of frames under one definition: what becomes of them, up to the first trial that gives no frame, and how they are recorded."""
from typing import NamedTuple

import frames


class Definition(NamedTuple):
    """Fields by the kind of frame; without slow lists there are no slow ones. The kinds have header numbers and motor[0] in common."""

    intra: frames.Fields
    inter: frames.Fields
    slow: frames.Fields

    def fields(self, kind):
        return {"I": self.intra, "P": self.inter, "S": self.slow}[kind]


class Trial(NamedTuple):
    """What became of a kind byte at a place, behind two frames: the frame and the place behind it, or why there is none."""

    kind: str
    place: int
    last: frames.Frame | None
    older: frames.Frame | None
    frame: frames.Frame | str
    end: int | None


def define(encodings, predictors, motor, numbers):
    """A definition from encodings and predictors for each of I, P and S."""
    return Definition(*(frames.Fields(tuple(e), tuple(p), m, numbers) for e, p, m in zip(encodings, predictors, (motor, motor, None))))


def trials(definition, section):
    """The trials of a section, one behind the other, to the first that gives no frame, or to a kind that is not I, P or S."""
    made, last, older, place = [], None, None, 0
    while place < len(section) and section[place] in b"IPS":
        kind = chr(section[place])
        frame, end = frames.read(kind, definition.fields(kind), last, older, section, place + 1)
        made.append(Trial(kind, place, last, older, frame, end))
        if end is None or end < len(section) and section[end] not in b"EIPGHS":
            break
        if kind != "S":
            last, older = frame, last
        place = end
    return made


def outcomes(definition, section):
    """What the trials come to, in words: frames with their places and patterns, then how the section ends, if that can be told here."""
    made = trials(definition, section)
    said = [" ".join(map(str, [t.kind, t.place, *frames.shown(t.frame)])) for t in made if t.end is not None]
    if made and made[-1].end is None:
        return [*said, {"cut": "cut", "corrupt": "rejected"}[made[-1].frame]]
    end = made[-1].end if made else 0
    if end == len(section):
        return [*said, "out of data"]
    if section[end] in b"EIPGHS":
        return said
    return [*said[:-1], "rejected"] if made else []


# A definition and a section, as a line records them.


def asked(definition, section):
    """Encodings and predictors of I, P and S, the field named motor[0], header numbers, section."""
    words = [frames.digits(codes) for fields in definition for codes in (fields.encodings, fields.predictors)]
    words += [frames.option(value) for value in (definition.intra.motor, *definition.intra.numbers)]
    return " ".join([*words, section.hex() or "-"])


def parsed(line):
    """The other way."""
    *words, motor, throttle, battery, least, section = line.split(" ")
    codes = [frames.codes(word, frames.MAIN_MOST) for word in words]
    numbers = tuple(map(frames.decimal, (throttle, battery, least)))
    return define(codes[0::2], codes[1::2], frames.decimal(motor), numbers), frames.bytes_of(section)


def answer(definition, section):
    return ", ".join(outcomes(definition, section))


def cases(definition, section, label):
    """A case of the program frames for every trial: its bytes, and up to two behind them."""
    for k, t in enumerate(trials(definition, section)):
        data = section[t.place + 1 : None if t.end is None else t.end + 2]
        yield frames.frame_case(t.kind, f"{label}-{k}", definition.fields(t.kind), t.last, t.older, data)

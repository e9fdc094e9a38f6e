"""What the Python of vectors/ says of a log: its text, its trials, and what the Rust is to say where the lists are refused.
Header numbers and the frame interval are taken from the log's lines, as the library's `dulimasca_settings` takes them."""
import functools
import io
import re
from typing import NamedTuple

import frames
import lists
import sections
import walks

NUMBER_LINES = (b"minthrottle", b"vbatref", b"motorOutput")
INTERVAL_LINES = INTRA, INTER = b"I interval", b"P interval"


class Lists(NamedTuple):
    """What the H lines of a log come to: a definition and the signs of its fields, or a refusal."""

    values: dict
    numbers: tuple
    definition: sections.Definition | None
    signed: dict | None
    names: tuple
    refused: lists.Refused | None


class Answer(NamedTuple):
    """A log's text, and its trials where it has a definition."""

    text: str
    trials: list


def decimal(text, bits):
    """A number of so many bits, digits behind an optional `+`, or None where the text is none."""
    return int(text) if re.fullmatch(rb"\+?[0-9]+", text) and int(text) < 2**bits else None


def number(name, value):
    """A header number, or None where its line cannot be read; of motorOutput the first of two."""
    parts = value.split(b",", 1) if name == b"motorOutput" else [value]
    numbers = [decimal(part, 16) for part in parts]
    wanted = 2 if name == b"motorOutput" else 1
    return None if len(numbers) != wanted or None in numbers else numbers[0]


def interval(values):
    """The frame interval I, N, D of header lines: N/D, or D alone for 1/D; what cannot be read is 0.
    With no line of its own, I is 1 where N and D are equal, else 0."""
    numerator, slash, denominator = values.get(INTER, b"1/1").partition(b"/")
    ratio = [decimal(part, 32) for part in ((numerator, denominator) if slash else (b"1", numerator))]
    n, d = (0, 0) if None in ratio else ratio
    i = decimal(values[INTRA], 32) or 0 if INTRA in values else int(n == d)
    return i, n, d


def numbers_of(values):
    return tuple(number(name, values[name]) if name in values else None for name in NUMBER_LINES)


@functools.lru_cache(maxsize=64)
def lists_of(lines):
    """What H lines come to."""
    values, _ = lists.header(lines)
    numbers = numbers_of(values)
    try:
        main, slow = lists.define(lines, numbers, lists.Settings(interval(values)))
    except lists.Refused as refused:
        return Lists(values, numbers, None, None, (), refused)
    names, p, q, e, f, signs = walks.columns(main[2:], 6)
    _, slow_p, slow_e, slow_signs = walks.columns(slow, 4)
    encodings, predictors = ([tuple(map(int, codes)) for codes in kinds] for kinds in ((e, f, slow_e), (p, q, slow_p)))
    motor = names.index(b"motor[0]") if b"motor[0]" in names else None
    main_signed, slow_signed = ([lists.sign(item) == "s" for item in items] for items in (signs, slow_signs))
    signed = {"I": main_signed, "P": main_signed, "S": slow_signed}
    return Lists(values, numbers, sections.define(encodings, predictors, motor, numbers), signed, names, None)


def lines_in(lines):
    """Each line with its line feed. A carriage return ends none."""
    return list(io.BytesIO(lines))


def split(log):
    """A log's H lines, and its section."""
    if not log.startswith(b"H "):
        return b"", log
    end = 0
    while log.startswith(b"H ", end):
        feed = log.find(b"\n", end)
        if feed < 0:
            return log, b""
        end = feed + 1
    return log[:end], log[end:]


def text_of(lines):
    return "".join(line + "\n" for line in lines)


def answer(known, section):
    """The text of a section under lists."""
    if known.refused:
        return Answer(f"{known.refused}\n", [])
    trials, ending = walks.walk(known.definition, section)
    return Answer(text_of(walks.shown(trials, ending, known.signed)), trials)


def rust_words(known, lines):
    """What the Rust is to say of refused lists."""
    return lists.rust_verdict(lines, known.numbers) + "\n"


def short_form(lines):
    """Lists in a few words, for reports: intra predictor / inter predictor / intra encoding / inter encoding of each field, and slow ones as predictor / encoding."""
    known = lists_of(lines)
    if known.refused:
        return "lists " + (lists.escaped(lines) or "none at all")
    intra, inter, slow = known.definition
    words = ["/".join(map(str, codes)) for codes in zip(intra.predictors, inter.predictors, intra.encodings, inter.encodings)]
    said = "fields " + " ".join(words) if words else "no fields"
    if intra.motor is not None:
        said += f", motor[0] {intra.motor}"
    if slow.encodings:
        said += ", slow " + " ".join("/".join(map(str, codes)) for codes in zip(slow.predictors, slow.encodings))
    if any(given is not None for given in known.numbers):
        said += ", numbers " + " ".join(map(frames.option, known.numbers))
    return said

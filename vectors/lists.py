"""The definition lists of a log, as document 01 has them under "Definition lists", and what crates/lists is to print of them.

Written with Python's own iterators: `zip`, as the Rust's, takes an item from each list in turn and drops what it took where a later list
ends. So nothing here knows which list may be longer: the lists are zipped as in the Rust, and then asked for what they have left.
Lines are text of one character a byte (latin-1), logs and items are bytes.
"""
import io
import itertools
import re
from typing import NamedTuple

# Lists 0 to 5, by the lines that carry them; the slow ones have no 2 and no 4.
MAIN = (b"Field I name", b"Field I predictor", b"Field P predictor", b"Field I encoding", b"Field P encoding", b"Field I signed")
SLOW = {0: b"Field S name", 1: b"Field S predictor", 3: b"Field S encoding", 5: b"Field S signed"}

PREDICTORS = [b"%d" % n for n in range(12)]
ENCODINGS = [b"0", b"1", b"3", b"6", b"7", b"8", b"9"]
BLANKS = b"\t\n\v\f\r "
MAIN_MOST = 64
SLOW_MOST = 16

# The Rust's words for some refusals. It has no limits, so none for 2.
REASONS = {
    1: "MissingHeader",
    2: "too many fields",
    4: 'MissingField { frame: Intra, field: "loopIteration" }',
    5: 'MissingField { frame: Intra, field: "time" }',
}

# The most bytes that the program reads, and of a text of a case.
INPUT_MOST = 2**17
TEXT = 2048
NO_NUMBERS = (None, None, None)


class Settings(NamedTuple):
    """What is chosen beside the lists and the header numbers: the intra interval, and the frame interval's two numbers."""

    interval: tuple = (1, 1, 1)


PLAIN = Settings()


class Refused(Exception):
    """A refusal: number, place and, for 3, the round. Which lists it is about only the Rust tells."""

    def __init__(self, number, place, round=None, frame="Intra"):
        super().__init__(number, place, round)
        self.number, self.place, self.round, self.frame = number, place, round, frame

    def __str__(self):
        return " ".join(["refused", *(str(part) for part in self.args if part is not None)])


def header(log):
    """The values of the header's lines by what stands before the first colon, and the place of the section."""
    values, place = {}, 0
    for line in io.BytesIO(log):
        if not line.startswith(b"H "):
            break
        name, colon, value = line[2:].removesuffix(b"\n").partition(b":")
        if colon:
            values[name] = value
        place += len(line)
    return values, place


def items(text):
    return iter(text.split(b","))


def zipped(names, predictors, inter_predictors, encodings, inter_encodings, signs):
    """The rounds of six lists, in the Rust's order."""
    return zip(zip(zip(names, signs), zip(predictors, inter_predictors)), zip(encodings, inter_encodings))


def count(rounds):
    return sum(1 for _ in rounds)


def is_met(predictor, earlier, numbers):
    """Whether a predictor has its header number, or an earlier field named motor[0]."""
    if predictor == b"5":
        return b"motor[0]" in earlier
    return dict(zip((b"4", b"9", b"11"), numbers)).get(predictor, 0) is not None


def main_fields(values, numbers):
    """Name, predictors, encodings and sign of every round."""
    texts = [values.get(name) for name in MAIN]
    if None in texts:
        raise Refused(1, texts.index(None))
    n = count(zipped(*map(items, texts)))
    if n > MAIN_MOST:
        raise Refused(2, n)

    lists = [items(text) for text in texts]
    fields = []
    for (((name, sign), (p, q)), (e, f)) in zipped(*lists):
        k = len(fields)
        for number, item, known in ((1, p, PREDICTORS), (2, q, PREDICTORS), (3, e, ENCODINGS), (4, f, ENCODINGS)):
            if item not in known:
                raise Refused(3, number, k, "Intra" if number in (1, 3) else "Inter")
        if k == 0 and [name, p, q, e, f] != [b"loopIteration", b"0", b"6", b"1", b"9"]:
            raise Refused(4, 0)
        if k == 1 and [name, p, q, e, f] != [b"time", b"0", b"2", b"1", b"0"]:
            raise Refused(5, 1)
        fields.append((name, p, q, e, f, sign))
    if n < 2:
        raise Refused(5, 1)

    left = [next(items, None) is not None for items in lists]
    if left[0] or left[1] or left[3] or left[5]:
        raise Refused(6, n)
    if left[2] or left[4]:
        raise Refused(7, n, frame="Inter")

    names = [name for name, *_ in fields]
    for k, (_, p, q, *_) in enumerate(fields[2:], 2):
        for predictor, frame in ((p, "Intra"), (q, "Inter")):
            if not is_met(predictor, names[2:k], numbers):
                raise Refused(8, k, frame=frame)
    return fields


def slow_fields(values, numbers):
    """Name, predictor, encoding and sign of every round; no fields where there is no list."""
    texts = {number: values.get(name) for number, name in SLOW.items()}
    absent = [number for number, text in texts.items() if text is None]
    if len(absent) == len(texts):
        return []
    if absent:
        raise Refused(1, absent[0], frame="Slow")
    n = count(zip(*map(items, texts.values())))
    if n > SLOW_MOST:
        raise Refused(2, n, frame="Slow")

    for k, (_, p, e, _) in enumerate(zip(*map(items, texts.values()))):
        for number, item, known in ((1, p, PREDICTORS), (3, e, ENCODINGS)):
            if item not in known:
                raise Refused(3, number, k, "Slow")
    try:
        fields = list(zip(*map(items, texts.values()), strict=True))
    except ValueError:
        raise Refused(6, n, frame="Slow") from None
    for k, (_, p, _, _) in enumerate(fields):
        if not is_met(p, [], numbers):
            raise Refused(8, k, frame="Slow")
    return fields


def define(log, numbers=NO_NUMBERS, settings=PLAIN):
    """The fields of main and slow frames, or a refusal: main lists first, slow ones next, then the interval."""
    values, _ = header(log)
    main = main_fields(values, numbers)
    slow = slow_fields(values, numbers)
    intra, *every = settings.interval
    if intra < 1 or every != [1, 1]:
        raise Refused(9, 0)
    return main, slow


def name_of(fields, k, text):
    """A field's name in a lent list, and where it stands, or None."""
    names = text.split(b",")
    if k >= len(fields) or k >= len(names):
        return None
    start = len(b",".join([*names[:k], b""]))
    return names[k], start, start + len(names[k])


# What the Rust says.


def rust_text(text):
    """A text as the Rust shows one."""
    short = {"\0": "\\0", "\t": "\\t", "\n": "\\n", "\r": "\\r", '"': '\\"', "\\": "\\\\"}
    return '"' + "".join(short.get(c) or (c if c.isprintable() else f"\\u{{{ord(c):x}}}") for c in text.decode("utf-8", "replace")) + '"'


def rust_verdict(log, numbers):
    """What the Rust is to say of a log. It cannot tell 6 from 8, or 7 from 8, of one kind of frame."""
    values, _ = header(log)
    try:
        define(log, numbers)
    except Refused as refused:
        reason = REASONS.get(refused.number, f"MalformedFrameDef({refused.frame})")
        if refused.number == 3:
            name = (SLOW if refused.frame == "Slow" else MAIN)[refused.place]
            item = values[name].split(b",")[refused.round]
            reason = f'InvalidHeader {{ header: "{name.decode("ascii")}", value: {rust_text(item)} }}'
        return f"refused {reason}"
    return "accepted"


# What the program prints, and what it is asked.


def quoted(text):
    """A text between quotes, escaped."""
    plain = {10: "\\n", 13: "\\r", 92: "\\\\"} | {b: chr(b) for b in range(32, 127) if b not in (34, 92)}
    return '"' + "".join(plain.get(b, f"\\x{b:02x}") for b in text) + '"'


def sign(item):
    return "u" if item.strip(BLANKS) == b"0" else "s"


def shown(*parts):
    return "/".join(part if isinstance(part, str) else part.decode("ascii") for part in parts)


def names_to(fields, text):
    """The names of all fields, and of one more."""
    names = [name_of(fields, k, text) for k in range(len(fields) + 1)]
    return ["none" if name is None else quoted(name[0]) for name in names]


def define_answer(numbers, settings, log):
    values, section = header(log)
    try:
        main, slow = define(log, numbers, settings)
    except Refused as refused:
        return f"section {section} {refused}"
    names = [name for name, *_ in main[2:]]
    words = ["section", section, "main", len(main), "motor", [*names, b"motor[0]"].index(b"motor[0]"), "fields"]
    words += [shown(p, q, e, f, sign(s)) for _, p, q, e, f, s in main[2:]]
    words += ["slow", len(slow), "fields", *(shown(p, e, sign(s)) for _, p, e, s in slow)]
    words += ["numbers", *("-" if number is None else number for number in numbers)]
    words += ["names", *names_to(main, values[MAIN[0]]), "slow", *names_to(slow, values.get(SLOW[0], b""))]
    words += ["interval", *settings.interval]
    return " ".join(map(str, words))


def name_answer(kind, k, main_names, slow_names, log):
    try:
        main, slow = define(log)
    except Refused:
        return "none"
    name = name_of(main, k, main_names) if kind == "main" else name_of(slow, k, slow_names)
    if name is None:
        return "none"
    text, start, end = name
    return f"{quoted(text)} {start} {end}"


def shapes():
    """A character for every number of items from 1 to 5 in lists 0 to 5: a dot where they pass, else the refusal."""
    lists = (b"loopIteration,time,a,a,a", b"0,0,0,0,0", b"6,2,0,0,0", b"1,1,0,0,0", b"9,0,0,0,0", b"0,0,0,0,0")
    cuts = [[b",".join(text.split(b",")[:n]) for n in range(1, 6)] for text in lists]
    text = ""
    for shape in itertools.product(*cuts):
        try:
            main_fields(dict(zip(MAIN, shape)), NO_NUMBERS)
            text += "."
        except Refused as refused:
            text += str(refused.number)
    return "\n".join(text[at : at + 125] for at in range(0, len(text), 125))


def unescaped(text, most=TEXT):
    """The bytes of a text in which \\n, \\r, \\\\ and \\xHH are escapes, or None where it is none or too long."""
    if not re.fullmatch(r"(?:[^\\]|\\[nr\\]|\\x[0-9a-f]{2})*", text, re.DOTALL):
        return None
    letters = {"n": "\n", "r": "\r", "\\": "\\"}
    raw = re.sub(r"\\(?:x(..)|(.))", lambda m: chr(int(m[1], 16)) if m[1] else letters[m[2]], text, flags=re.DOTALL)
    return None if len(raw) > most else raw.encode("latin-1")


def escaped(text):
    """The other way."""
    return quoted(text)[1:-1].replace("\\x22", '"')


def header_numbers(words):
    """Minimum throttle, battery reference and minimum motor, or None where one is too large."""
    numbers = tuple(None if word == "-" else int(word) for word in words)
    return None if any(number is not None and number >= 2**16 for number in numbers) else numbers


def interval_settings(words):
    """The settings with an interval, or None where one of its numbers is too large."""
    interval = tuple(map(int, words))
    return None if max(interval) >= 2**32 else Settings(interval)


def define_words(line):
    """Label, header numbers, settings and log of a case `define`, or None where the line is none."""
    m = re.fullmatch(r"define ([^ ]*) (-|[0-9]+) (-|[0-9]+) (-|[0-9]+) ([0-9]+) ([0-9]+) ([0-9]+)(?: (.*))?", line, re.DOTALL)
    if not m:
        return None
    numbers, settings, log = header_numbers(m.group(2, 3, 4)), interval_settings(m.group(5, 6, 7)), unescaped(m[8] or "")
    return None if None in (numbers, settings, log) else (m[1], numbers, settings, log)


def name_words(line):
    """Label, kind, number, lent lists and log of a case `name`."""
    m = re.fullmatch(r"name ([^ ]*) (main|slow) ([0-9]+) ([^ ]+) ([^ ]+)(?: (.*))?", line, re.DOTALL)
    if not m:
        return None
    main_names, slow_names = (b"" if word == "-" else unescaped(word) for word in m.group(4, 5))
    log = unescaped(m[6] or "")
    if None in (main_names, slow_names, log) or int(m[3]) >= 2**64:
        return None
    return m[1], m[2], int(m[3]), main_names, slow_names, log


def answered(line):
    """The line, or the lines, that the program is to write for a line of the table."""
    if line.startswith("#"):
        return line
    if line == "shapes":
        return shapes()
    for words_of, answer in ((define_words, define_answer), (name_words, name_answer)):
        words = words_of(line)
        if words:
            return f"{words[0]} = {answer(*words[1:])}"
    return "? " + line

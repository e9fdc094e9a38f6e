#!/usr/bin/env python3
"""Compares frames.py, or the program frames, with the Rust: every frame of whole sections, with its place, iteration, time and values.

oracle_frames.py BINARY [--frames PROGRAM] [--cases N] [--seed N] [--record FILE]

BINARY is the oracle, the Rust's walk over a log. A section has frames in any order, one behind the other, so that each is accepted, and many of its values lie
at the ends of the 32-bit types; the frames before are those of the section, as frames.py has them. In some sections the last frame is spoiled: it
is then cut or rejected, or is another one. A section counts as outside the domain of equality if a trial of it is.
With PROGRAM, the command that runs the program frames, the proved frames too are compared with frames.py, one trial after the other. N sections in the
domain, fewer outside. FILE gets some of the Rust's answers, for make.py --check.
"""
import collections
import itertools
import random
import sys

sys.dont_write_bytecode = True

import decoders
import encoders
import frames
import sections
from frames import WORD
from list_cases import field, header, main, slow
from oracle import any_reading, departure, parsed, printed, walked
from oracle_lists import asked

SLOW = "slow frames"
NONE = (None, None, None)
NUMBERS = (None, 0, 1, 1000, 32768, 65535)

# How a section ends, if that can be told here: not behind a kind byte E, G or H, nor where nothing is tried at the first byte.
ENDS = (["cut"], ["rejected"], ["out of data"])

# The numbers before the fields, as groups.
HEADS = {"I": [(1, 0), (1, 0)], "P": [(0, 0)], "S": []}

# The ends of the types, their halves and quarters, and near.
PAIRED = sorted({(2**k * m + d) % WORD for k in (29, 30, 31) for m in (0, 1, 3) for d in (-1, 0, 1)} | set(encoders.EDGES) | {3, 7, 10, 30, WORD - 7})

# How many of a section's last trials go to the program, and how many sections of each class are recorded.
LAST_TRIALS = 300
RECORDED = 24
RECORDED_LENGTH = 64


# Definitions.


def any_encodings(rng, count, full):
    """Runs of encodings, of 7 and 8 in full groups if so asked."""
    encodings = []
    while len(encodings) < count:
        encoding = rng.choice(frames.ENCODINGS)
        size = {7: 3, 8: 4}.get(encoding, 1) if full else 1
        run = size * rng.choice((1, 1, 1, 2, 3, 9))
        if len(encodings) + run <= count:
            encodings += [encoding] * run
    return tuple(encodings)


def any_predictors(rng, encodings, motor, numbers, straight_9=False, home=False):
    """A predictor for each field that has what it needs."""
    always = [0, 1, 1, 2, 2, 2, 3, 3, 6, 8, 10, *[7] * home, *(p for p, given in zip((4, 9, 11), numbers) if given is not None)]
    chosen = []
    for i, encoding in enumerate(encodings):
        able = [*always, *[5, 5] * (motor is not None and motor < i)]
        chosen.append(rng.choice([p for p in able if straight_9 or encoding != 9 or p not in (2, 3)]))
    return tuple(chosen)


def any_definition(rng, counts=(0, 1, 1, 2, 2, 3, 4, 5, 6, 8, 12, 20, 62), full=True, slow_fields=0, given=NUMBERS, **also):
    count = rng.choice(counts)
    motor = rng.randrange(count) if count and rng.randrange(3) else None
    numbers = tuple(rng.choice(given) for _ in NONE)
    encodings = [any_encodings(rng, n, full) for n in (count, count, slow_fields)]
    predictors = [any_predictors(rng, e, m, numbers, **also) for e, m in zip(encodings, (motor, motor, None))]
    return sections.define(encodings, predictors, motor, numbers)


def plain(*encodings):
    """Fields without prediction."""
    predictors = [0] * len(encodings)
    return sections.define((encodings, encodings, ()), (predictors, predictors, ()), None, NONE)


# Sections.


def aimed(rng, fields, last, older):
    """Raw numbers of any size, or such that the value comes to an edge, where the encoding has such numbers."""
    raws, own = [], []
    for encoding in fields.encodings:
        said = frames.predicted(fields, own, last, older)
        to_an_edge = encoding in (0, 1, 6, 7) and rng.randrange(2)
        raws.append((rng.choice(encoders.EDGES) - said) % WORD if to_an_edge else encoders.any_raw(rng, encoding))
        own.append((raws[-1] + said) % WORD)
    return raws


def any_seven(rng):
    """A number of up to 32 bits, now and then padded."""
    return encoders.seven(encoders.any_word(rng), rng.choice((0, 0, 0, 0, 0, 0, 2, 5)))


def any_frame(rng, definition, kind, last, older):
    """The bytes of a frame."""
    given = {"I": (last, None), "P": (last, older), "S": (None, None)}[kind]
    fields = definition.fields(kind)
    head = b"".join(any_seven(rng) for _ in HEADS[kind])
    return kind.encode("ascii") + head + encoders.fields(rng, fields.encodings, aimed(rng, fields, *given))


def any_section(rng, definition, kinds="IPP"):
    """Some frames of a definition, in any order."""
    section, last, older = b"", None, None
    for _ in range(rng.choice((1, 2, 3, 3, 4, 5, 6, 8))):
        kind = rng.choice(kinds)
        data = any_frame(rng, definition, kind, last, older)
        if kind != "S":
            frame, _ = frames.read(kind, definition.fields(kind), last, older, data, 1)
            last, older = frame, last
        section += data
    return section


def spoiled(rng, section):
    """A section whose end is cut, changed or has something behind it."""
    kind = rng.randrange(4)
    if kind == 0:
        return section[: rng.randrange(max(0, len(section) - 12), len(section))]
    if kind == 1:
        return section + bytes([rng.choice(b"EIPGHSQ\x00\xff")])
    at = rng.randrange(max(0, len(section) - 8), len(section))
    changed = bytes([rng.choice((rng.randrange(256), section[at] ^ 128))])
    return section[:at] + changed + section[at + 1 :]


def any_case(rng, kinds="IPP", **also):
    definition = any_definition(rng, **also)
    section = any_section(rng, definition, kinds)
    return definition, spoiled(rng, section) if rng.randrange(4) == 0 else section


def domain(rng, count):
    for _ in range(count):
        yield any_case(rng)


def pairs_of(rng, predictor, encoding):
    """Every pair of edges as last and older of a field, behind an intra frame and behind an inter one, a group of fields at a time."""
    count = 3 if encoding == 7 else 4
    pairs = list(itertools.product(PAIRED, repeat=2))
    definition = sections.define(([1] * count, [encoding] * count, ()), ([0] * count, [predictor] * count, ()), None, NONE)

    def intra(values):
        return b"I\x00\x00" + b"".join(map(encoders.seven, values))

    def inter(raws):
        return b"P\x00" + encoders.fields(rng, definition.inter.encodings, raws)

    for at in range(0, len(pairs), count):
        older, last = zip(*(pairs[k % len(pairs)] for k in range(at, at + count)))
        for raw in (0,) if encoding == 9 else (0, 1, WORD - 1):
            yield definition, intra(older) + intra(last) + inter([raw] * count)
        if encoding in (0, 1, 6, 7):
            said = [frames.prediction(predictor, True, value, None, 0, NONE, 0) for value in older]
            yield definition, intra(older) + inter([(b - a) % WORD for a, b in zip(said, last)]) + inter([0] * count)


def pairs(rng, count):
    for predictor, encoding in itertools.product((2, 3), (0, 1, 3, 6, 7, 8)):
        yield from pairs_of(rng, predictor, encoding)


def pairs_9(rng, count):
    for predictor in (2, 3):
        yield from pairs_of(rng, predictor, 9)


def faulty(rng, count, **also):
    """One frame of a few fields, whose numbers may be too long, and which may be cut; before these the smallest sections that lie outside the domain."""
    yield plain(), b"P\x80\x80\x80\x80\x10"
    yield plain(3), b"P\x00\x80\x80\x01"
    yield plain(6, 6), b"P\x00\x05"
    for _ in range(count):
        definition = any_definition(rng, (1, 1, 2, 3, 4, 7), **also)
        kind = rng.choice("IP")
        groups = [*HEADS[kind], *frames.groups(definition.fields(kind).encodings)]
        data = kind.encode("ascii") + b"".join(b"" if encoding == 9 else any_reading(rng, encoding, size) for encoding, size in groups)
        yield definition, data[: rng.randint(1, len(data))] if rng.randrange(3) == 0 else data


def top_of_time(rng, count):
    """Inter frames with the largest offset, until the time is held at its top and then falls again."""
    yield plain(), b"P\xfe\xff\xff\xff\x0f" * 131800 + b"P\xff\xff\xff\xff\x0f" * 40 + b"P\x00P\x01P\x02" * 8


def with_7(rng, count):
    for _ in range(count // 20):
        yield any_case(rng, home=True)


def short_groups(rng, count):
    for _ in range(count // 4):
        yield any_case(rng, full=False)


def straight_9(rng, count):
    for _ in range(count // 10):
        yield any_case(rng, straight_9=True)


def slow_frames(rng, count):
    for _ in range(count // 4):
        yield any_case(rng, kinds="IPSS", slow_fields=rng.choice((1, 2, 3, 5, 16)))


# A name, whether it is inside the domain, the sections, and what the Rust is told.
GROUPS = (
    ("sections of any frames", True, domain, ()),
    ("every pair of edges, predictors 2 and 3", True, pairs, ()),
    ("single frames", True, faulty, ()),
    ("the time at its top", True, top_of_time, ()),
    ("predictor 7, with a GPS home definition there", False, with_7, ("--home",)),
    ("short groups of 7 and 8", False, short_groups, ()),
    ("encoding 9 with predictors 2 and 3", False, straight_9, ()),
    ("every pair of edges, encoding 9", False, pairs_9, ()),
    (SLOW, False, slow_frames, ()),
)


# What the Rust is asked, and says.


def log(rng, definition, section):
    """A section behind a header of its definition. Signs, and names but for the first motor[0], are any."""
    motor = definition.intra.motor
    names = [f"f{k}" if motor is None or k < motor or k > motor and rng.randrange(4) else "motor[0]" for k in range(len(definition.intra.encodings))]
    codes = [map(str, column) for kind in definition for column in (kind.predictors, kind.encodings)]
    intra_p, intra_e, inter_p, inter_e, slow_p, slow_e = codes
    rounds = [field(*texts, rng.choice("01")) for texts in zip(names, intra_p, inter_p, intra_e, inter_e)]
    slow_rounds = [("s", p, e, rng.choice("01")) for p, e in zip(slow_p, slow_e)]
    text = header(main(*rounds), slow(*slow_rounds) if slow_rounds else None)
    return asked(text.encode("ascii"), definition.intra.numbers, section)


def patterns(line):
    """A frame as the Rust prints it, its values as patterns."""
    kind, *numbers = line.split(" ")
    head = 1 if kind == "S" else 3
    return " ".join([kind, *numbers[:head], *(str(int(value) % WORD) for value in numbers[head:])])


def told(rust, made):
    """The Rust's answer in the words of sections.outcomes: its frames up to the last trial here, and how that ends."""
    head, *lines, end = rust.splitlines() or [""]
    if head != "kind at values" or not end.startswith("end "):
        return [rust.strip()]
    stop = made[-1].place if made else 0
    said = [patterns(line) for line in lines if int(line.split(" ")[1]) <= stop]
    if end.startswith("end cut ") and f" tried {len(said) + 1} " in end:
        return [*said, "cut"]
    if end.startswith("end out of data ") and end.endswith(f" tried {len(said)} rejected 0"):
        return [*said, "out of data"]
    return [*said, "rejected"]


def trial_departure(fields, kind, section, place):
    """Why document 01 leaves a trial out of the domain of equality, or None."""
    s = decoders.Section(section, place + 1)
    for encoding, size in [*HEADS[kind], *frames.groups(fields.encodings)]:
        why = departure(encoding, size, section[s.place :])
        if why:
            return why
        try:
            decoders.numbers(encoding, size, s)
        except (decoders.Cut, decoders.Corrupt):
            return None
    return None


def section_departure(case, made):
    """The same of a section with some trials. No trial of a slow frame is in the domain."""
    definition, section = case
    reasons = [trial_departure(definition.fields(t.kind), t.kind, section, t.place) for t in made]
    return next(filter(None, reasons), SLOW if any(t.kind == "S" for t in made) else None)


class Tally:
    """Sections of one class: how many, their trials, the accepted frames and their values, how many ends can be told here, and where the answers differ."""

    def __init__(self, inside):
        self.inside = inside
        self.counts = collections.Counter()
        self.equal = []
        self.different = []

    def add(self, case, made, rust, here):
        self.counts["sections"] += 1
        self.counts["trials"] += len(made)
        told_end = here[-1:] in ENDS
        accepted = made[: len(here) - told_end]
        self.counts["frames"] += len(accepted)
        self.counts["values"] += sum(len(t.frame.values) for t in accepted)
        self.counts["ends"] += told_end
        if rust == here:
            self.equal.append((case, rust))
        else:
            self.different.append((case, rust, here))

    def line(self):
        return ", ".join(f"{count} {name}" for name, count in self.counts.items()) + f", {len(self.different)} different"


def hold(program, cases):
    """Holds the program to frames.py, trial by trial; how many it has room for, and how many not."""
    lines = []
    for case in cases:
        lines += list(sections.cases(*case, "x"))[-LAST_TRIALS:]
    fitting = [line for line in lines if not frames.answered(line).startswith("?")]
    for line, answer in zip(fitting, printed(program, fitting)):
        said = frames.answered(line).partition(" = ")[2]
        if answer != said:
            sys.exit(f"oracle_frames.py: for {line} frames.py says {said}, the program {answer}")
    return f"{len(fitting)} trials by the program, {len(lines) - len(fitting)} too long for it"


def compared(binary, rng, cases, flags, add):
    """Hands each case on with its trials, the Rust's answer and the one here."""
    for at in range(0, len(cases), 5000):
        some = cases[at : at + 5000]
        there = walked(binary, [log(rng, *case) for case in some], *flags)
        for case, rust in zip(some, there):
            made = sections.trials(*case)
            here = sections.outcomes(*case)
            said = told(rust, made)
            add(case, made, said if here[-1:] in ENDS else said[:-1], here)


def by_size(row):
    definition, section = row[0]
    return len(section), len(definition.intra.encodings), section, sections.asked(definition, section)


def chosen(rows, count):
    """Some of the rows, evenly, from the smallest section to the largest that is not too long."""
    rows = sorted((row for row in rows if len(row[0][1]) <= RECORDED_LENGTH), key=by_size)
    return rows if len(rows) <= count else [rows[k * (len(rows) - 1) // (count - 1)] for k in range(count)]


def record(path, tallies):
    lines = ["# Answers of the Rust, recorded by oracle_frames.py: encodings and predictors of I, P and S, motor[0], header numbers, SECTION = its trials"]
    classes = [(name, chosen(tally.equal, RECORDED)) for name, tally in tallies.items()]
    classes += [(f"Different: {name}", chosen([row[:2] for row in tally.different], RECORDED // 4)) for name, tally in tallies.items()]
    for name, rows in classes:
        if rows:
            lines += [f"# {name}", *(f"{sections.asked(*case)} = {', '.join(rust)}" for case, rust in rows)]
    with open(path, "w", encoding="ascii", newline="\n") as f:
        f.writelines(line + "\n" for line in lines)


def run():
    options = parsed(__doc__, "frames", 20000)
    tallies = {}
    for name, inside, make, flags in GROUPS:
        rng = random.Random(options.seed)
        cases = list(make(rng, options.cases))

        def add(case, made, rust, here):
            why = section_departure(case, made)
            tallies.setdefault(why or name, Tally(inside and not why)).add(case, made, rust, here)

        if options.program:
            print(f"{name}: {hold(options.program, cases)}")
        compared(options.binary, rng, cases, flags, add)
    for name, tally in sorted(tallies.items(), key=lambda item: not item[1].inside):
        print(f"{'in the domain' if tally.inside else 'outside'}: {name}: {tally.line()}")
        for case, rust, here in sorted(tally.different, key=by_size)[:1]:
            print(f"    smallest: {sections.asked(*case)}\n        there {rust}\n        here  {here}")
    if options.record:
        record(options.record, tallies)
    if any(tally.inside and tally.different for tally in tallies.values()):
        sys.exit(1)


if __name__ == "__main__":
    run()

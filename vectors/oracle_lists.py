#!/usr/bin/env python3
"""Compares lists.py, or the program lists, with the Rust: what is accepted, what is refused and why, and the definition itself.

oracle_lists.py BINARY [--lists PROGRAM] [--cases N] [--seed N] [--record FILE]

BINARY is the oracle, the Rust's walk over a log. Each case is a log with a section of one intra and one inter frame. The raw numbers of
the first are -1 and those of the second 0, in the bytes that the definition's encodings take: the frames then show each field's predictors
and sign, and with another encoding or another number of fields they are lost. Where the Rust refuses a log it gives a reason, from which the
refusal can be told, but for 6 and 8, or 7 and 8, of one kind of frame.
With PROGRAM, the command that runs the program lists, it is the proved definition that is compared with the Rust, and with lists.py too. N cases in the domain
of equality, fewer outside. FILE gets what the Rust says of the logs of the program's table, for make.py --check.
"""
import collections
import itertools
import random
import re
import sys

sys.dont_write_bytecode = True

import list_cases
import lists
from list_cases import field, header, item, longer, main, shorter, slow, without
from oracle import parsed, printed, walked

DOMAIN = "main lists, in the domain of equality where they are accepted"
NO_LIMIT = "over 64 rounds, and no limit here"
NUMBER_LINES = ("minthrottle:{}", "vbatref:{}", "motorOutput:{},2000")


# What the Rust is to say.


def raw(encodings, number):
    """The bytes of fields that are all -1, or all 0, and their values: encoding 9 has no bytes and is 0."""
    data, values = b"", []
    for encoding, run in itertools.groupby(encodings):
        left = len(list(run))
        values += [0 if encoding == b"9" else number] * left
        while left > 0:
            size = min(left, {b"6": 8, b"7": 3, b"8": 4}.get(encoding, 1))
            left -= size
            if encoding == b"9":
                continue
            if number == 0:
                data += b"\x00"
            elif encoding == b"6" and size > 1:
                data += bytes([2**size - 1]) + b"\x01" * size
            else:
                data += {b"1": b"\xff\xff\xff\xff\x0f", b"7": b"\x3f", b"8": b"\x55\xff\xff"}.get(encoding, b"\x01")
    return data, values


def predicted(names, predictors, values, last, numbers):
    """The fields of a frame that has no older frame."""
    frame = []
    for value, predictor, before in zip(values, map(int, predictors), last):
        if predictor in (1, 2, 3):
            value += before
        elif predictor == 5:
            value += frame[names.index(b"motor[0]")]
        elif predictor in (4, 9, 11):
            value += numbers[(4, 9, 11).index(predictor)]
        else:
            value += {6: 1 + before, 8: 1500}.get(predictor, 0)
        frame.append(value % 2**32)
    return frame


def walk(fields, numbers):
    """A section of an intra and an inter frame, and the walk over it."""
    names, p, q, e, f, signs = zip(*fields[2:]) if fields[2:] else [()] * 6
    intra, values = raw(e, -1)
    inter, more = raw(f, 0)
    one = predicted(names, p, values, [0] * len(values), numbers)
    two = predicted(names, q, more, one, numbers)

    def line(*head_and_frame):
        *head, frame = head_and_frame
        shown = [value - 2**32 * (value >= 2**31 and lists.sign(sign) == "s") for value, sign in zip(frame, signs)]
        return " ".join(map(str, [*head, *shown])) + "\n"

    said = "kind at values\n" + line("I", 0, 0, 0, one) + line("P", 3 + len(intra), 1, 0, two)
    return b"I\x00\x00" + intra + b"P\x00" + inter, said + "end out of data main 2 event 0 slow 0 tried 2 rejected 0\n"


def expected(log, numbers):
    """The section for a log, what the Rust is to say of both, and what becomes of the log here."""
    try:
        main_fields, _ = lists.define(log, numbers)
    except lists.Refused as refused:
        return b"", lists.rust_verdict(log, numbers) + "\n", f"refused {refused.number}"
    return *walk(main_fields, numbers), "accepted"


def asked(log, numbers, section):
    """A log's header, with lines for the header numbers, before another section."""
    lines = [f"H {line.format(number)}\n" for line, number in zip(NUMBER_LINES, numbers) if number is not None]
    _, end = lists.header(log)
    header = "".join(lines).encode("ascii") + log[:end]
    return header + (b"\n" if header and not header.endswith(b"\n") else b"") + section


# The cases: logs and header numbers.

FIXED = slow(("s", "0", "1", "0"))
NONE = lists.NO_NUMBERS
NAMES = ("a", "b", "motor[0]", "motor[0]", "motor[1]", "", "time", "gyroADC[0]", "accSmooth[0]", "amperageLatest", "loopIteration", "a b")
SIGNS = ("0", "1", "0", "1", "", " 0", "0 ", "\t0\r", "00", "x", "0 0", "-0")
UNKNOWN = ("", "00", "01", "+1", "-1", " 0", "0 ", "12", "2", "4", "5", "10", "110", "x", "1.", "\t1", "0\r", "256", "9999999999", "'", '"', "\\")
ZIPPED = (0, 5, 1, 2, 3, 4)


def any_numbers(rng):
    return tuple(rng.choice((None, 0, 1150, 65535)) if rng.randrange(2) else 1000 for _ in NONE)


def any_fields(rng, count, predictors):
    pick = rng.choice
    return [(pick(NAMES), pick(predictors), pick(predictors), pick("0136789"), pick("0136789"), pick(SIGNS)) for _ in range(count)]


def spoiled(rng, texts):
    """Lists with something changed."""
    k = rng.choice([k for k, text in texts.items() if text is not None])
    round = min(rng.choice((0, 1, 2, 99)), texts[k].count(","))
    unknown = rng.choice(UNKNOWN)
    before = [j for j in ZIPPED[: ZIPPED.index(k)] if texts.get(j) is not None]
    kind = rng.randrange(16)
    if kind < 2:
        return longer(texts, k, by="," + unknown)
    if kind < 5:
        return longer(texts, *before, by="," + unknown)
    if kind < 7:
        return shorter(texts, k) if "," in texts[k] else texts
    if kind < 10:
        return item(texts, k, round, unknown)
    if kind < 13:
        return item(texts, k, round, rng.choice("012345689"))
    if kind < 15:
        return item(texts, 0, min(round, texts[0].count(",")), rng.choice(NAMES)) if texts[0] else texts
    return without(texts, k)


def any_lists(rng, predictors=("0", "1", "2", "3", "4", "5", "6", "8", "9", "10", "11")):
    """Lists that pass, or nearly."""
    texts = main(*any_fields(rng, rng.choice((0, 1, 1, 2, 2, 3, 4, 5, 8, 12, 61)), predictors))
    for _ in range(rng.choice((0, 0, 1, 1, 2, 3))):
        texts = spoiled(rng, texts)
    return texts


def any_shape(rng):
    """Lists that would pass but for their lengths."""
    n = rng.randint(1, 9)
    return {k: ",".join(text.split(",")[: max(1, n + rng.choice((0, 0, 0, 1, 1, 2, -1)))]) for k, text in main(*[field()] * 12).items()}


def any_motor(rng):
    """Fields of which some are predicted by 5, and some named motor[0]."""
    return main(*(field(rng.choice(("a", "motor[0]")), rng.choice("005"), rng.choice("005")) for _ in range(rng.randint(1, 6))))


def any_needs(rng):
    """Fields that are predicted by header numbers."""
    return main(*(field("a", rng.choice(("0", "4", "9", "11")), rng.choice(("0", "4", "9", "11"))) for _ in range(rng.randint(1, 4))))


def repeated(rng, log):
    """A log some of whose lines come again."""
    lines = re.findall(r".*\n", log)
    return "".join([*rng.choices(lines, k=2), *lines, *rng.choices(lines, k=2)])


def domain(rng, count):
    """Main lists that vary, slow lists that do not."""
    for _ in range(count):
        log = header(rng.choice((any_lists, any_lists, any_lists, any_shape, any_motor, any_needs))(rng), FIXED)
        yield repeated(rng, log) if rng.randrange(8) == 0 else log, any_numbers(rng)


def over_64(rng, count):
    yield header(main(*[field()] * 63), FIXED), NONE
    for _ in range(count // 100):
        texts = main(*any_fields(rng, rng.randint(63, 70), ("0", "1", "8")))
        yield header(spoiled(rng, texts) if rng.randrange(2) else texts, FIXED), any_numbers(rng)


def with_7(rng, count):
    for p, q in (("7", "0"), ("0", "7")):
        yield header(main(field("a", p, q)), FIXED), NONE
    for _ in range(count // 20):
        yield header(any_lists(rng, ("0", "7", "8")), FIXED), any_numbers(rng)


def acc_smooth(rng, count):
    for name in ("accSmooth", "accSmooth[0]", "accSmooth[", "acc", "AccSmooth[0]"):
        yield header(main(field(name)), FIXED), NONE


def no_slow(rng, count):
    yield header(main()), NONE


def p_lines(rng, count):
    """Lists beside lines that the rules pass over."""
    for name, value in itertools.product(("name", "signed"), ("", "0,0", "1,1", "loopIteration,time", "0")):
        yield header(main(), FIXED) + f"H Field P {name}:{value}\n", NONE
        yield header(without(main(), 0 if name == "name" else 5), FIXED) + f"H Field P {name}:{value}\n", NONE


def not_ascii(rng, count):
    for text in ("\x85", "\xa0", "\u1680", "\u2003", "\u2028", "\u202f", "\u205f", "\u3000", "\u200b", "\ufeff", "\xe9"):
        text = text.encode("utf-8").decode("latin-1")
        for fields in (field(sign=text + "0"), field(sign="0" + text), field(text), field(p=text)):
            yield header(main(fields), FIXED), NONE
    for byte in ("\x80", "\xc3", "\xff"):
        yield header(main(field(byte)), FIXED), NONE


def slow_lists(rng, count):
    """Slow lists that vary, beside main lists that pass."""
    for k in (0, 1, 3, 5):
        yield header(main(), longer(FIXED, k)), NONE
        yield header(main(), without(FIXED, k)), NONE
    yield header(main(field("motor[0]")), slow(("s", "0", "0", "0"), ("s", "5", "0", "0"))), NONE
    yield header(main(), slow(*[("s", "0", "0", "0")] * 17)), NONE
    for _ in range(count // 20):
        predictors = ("0", "1", "3", "4", "5", "8", "11")
        texts = slow(*(("s", rng.choice(predictors), rng.choice("0136789"), rng.choice("01")) for _ in range(rng.choice((1, 2, 3, 16, 17)))))
        for _ in range(rng.randrange(3)):
            texts = spoiled(rng, texts)
        yield header(main(field("motor[0]")), texts), any_numbers(rng)


def main_8(rng, count):
    """Main lists that 8 refuses, beside slow lists that are refused too."""
    for wrong in (without(FIXED, 0), item(FIXED, 1, 0, "x"), longer(FIXED, 1), item(FIXED, 1, 0, "4")):
        yield header(main(field("a", "4")), wrong), NONE
        yield header(main(field("a", "0", "4")), wrong), NONE


GROUPS = (
    (DOMAIN, domain, ()),
    ("over 64 rounds", over_64, ()),
    (NO_LIMIT, over_64, ()),
    ("predictor 7", with_7, ()),
    ("predictor 7, with a GPS home definition there", with_7, ("--home",)),
    ("accSmooth without acc_1G", acc_smooth, ("--bare",)),
    ("no slow lists", no_slow, ("--bare",)),
    ("lines `H Field P name:` and `H Field P signed:`", p_lines, ()),
    ("not ASCII", not_ascii, ()),
    ("slow lists", slow_lists, ()),
    ("main lists that 8 refuses, with slow lists refused before 8", main_8, ()),
)


def hold(program, cases):
    """Holds the program to lists.py, in the cases that it has room for."""
    lines = []
    for log, numbers in cases:
        words = " ".join("-" if number is None else str(number) for number in numbers)
        if len(log) <= lists.TEXT:
            lines.append(list_cases.define("x", log.decode("latin-1"), numbers=words))
    for line, answer in zip(lines, printed(program, lines)):
        if f"x = {answer}" != lists.answered(line):
            sys.exit(f"oracle_lists.py: for {line} lists.py says {lists.answered(line)}, the program x = {answer}")
    return len(lines)


def verdict(rust):
    """What the Rust says of a log, but for the walk."""
    return rust.strip() if rust.startswith("refused ") else "accepted"


def compared(binary, cases, options=()):
    """What the Rust says of each log, what it is to say, and what becomes of the log here."""
    here = [expected(log, numbers) for log, numbers in cases]
    there = walked(binary, [asked(log, numbers, section) for (log, numbers), (section, _, _) in zip(cases, here)], *options)
    return [(rust, said, kind) for rust, (_, said, kind) in zip(there, here)]


def recorded(binary):
    """What the Rust says of the logs of the program's table, those that differ last."""
    cases = list(list_cases.logs())
    lines = {False: [], True: []}
    for (label, _, _), (rust, said, _) in zip(cases, compared(binary, [case[1:] for case in cases])):
        lines[rust != said].append(f"{label} = {verdict(rust)}")
    return ["# What the Rust says of the logs of crates/lists, recorded by oracle_lists.py", *lines[False], "# Different", *lines[True]]


def run():
    options = parsed(__doc__, "lists", 200000)

    for name, make, flags in GROUPS:
        cases = [(log.encode("latin-1"), numbers) for log, numbers in make(random.Random(options.seed), options.cases)]
        held = f", {hold(options.program, cases)} by the program" if options.program else ""
        most = lists.MAIN_MOST
        if name == NO_LIMIT:
            lists.MAIN_MOST = 10**6
        rows = compared(options.binary, cases, flags)
        lists.MAIN_MOST = most
        equal, kinds, unlike = 0, collections.Counter(), collections.defaultdict(list)
        for (log, numbers), (rust, said, kind) in zip(cases, rows):
            kinds[kind] += 1
            if rust == said:
                equal += 1
            else:
                unlike[kind, verdict(rust).partition(" {")[0]].append((len(log), log, numbers, rust, said))
        print(f"{name}: {len(cases)} cases, {equal} equal, {len(cases) - equal} different{held}")
        print("    here " + ", ".join(f"{count} {kind}" for kind, count in sorted(kinds.items())))
        for (here, there), rows in sorted(unlike.items()):
            _, log, numbers, rust, said = min(rows, key=lambda row: row[:2])
            print(f"    {len(rows)} {here} here, {there} there; smallest with numbers {numbers}: {lists.escaped(log)}")
            if here == there:
                print(f"        here {said.splitlines()[1:3]}, there {rust.splitlines()[1:3]}")
        if name == DOMAIN and unlike:
            sys.exit(1)
    if options.record:
        with open(options.record, "w", encoding="utf-8", newline="\n") as f:
            f.writelines(line + "\n" for line in recorded(options.binary))


if __name__ == "__main__":
    run()

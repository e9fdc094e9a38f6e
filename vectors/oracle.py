#!/usr/bin/env python3
"""Compares the readers, or the decoders here, with the Rust's, through whole sections.

oracle.py BINARY [--numbers PROGRAM] [--cases N] [--seed N] [--record FILE]

BINARY is the oracle, the Rust's walk over a section. Each case is the section `49 00 00 BYTES` under a definition whose fields
after time are one full group of the encoding, without prediction, so that the frame's line shows the values that BYTES hold.
With PROGRAM, the built program numbers, it is the proved readers that are compared with the Rust, and with the decoders too; without it
only the decoders are. N cases for each encoding, besides the edges. FILE gets some of the Rust's answers, for make.py --check.
"""
import argparse
import collections
import itertools
import random
import shlex
import subprocess
import sys

sys.dont_write_bytecode = True

import decoders
from encoders import ROOM, seven, size_7, size_8

GROUPS = [(1, 0), (0, 0), (3, 0), *((6, n) for n in range(1, 9)), (7, 0), (8, 0)]

FIFTH_LOW = "a fifth byte of 16 to 127"
FIFTH_HIGH = "a fifth byte of 128 to 255"
LONG_3 = "encoding 3 over 16383"
BEYOND = "a head bit beyond the group"

SEVEN_BIT_EDGES = sorted({max(0, 2**k + d) for k in (0, 7, 13, 14, 15, 16, 21, 28, 31) for d in (-2, -1, 0, 1)} | {2**32 - 2, 2**32 - 1})

# How many lines are recorded: of each group inside the domain, and of each departure from it.
RECORDED_INSIDE = {"frame": 8, "cut": 2, "rejected": 2}
RECORDED_OUTSIDE = 5


def departure(encoding, n, data):
    """Why document 01 leaves a case out of the domain of equality, or None."""
    s = decoders.Section(data, 0)
    try:
        decoders.numbers(encoding, n, s)
    except decoders.Cut:
        return None
    except decoders.Corrupt:
        if encoding == 6 and n > 1 and s.place == 1:
            return BEYOND
        return FIFTH_LOW if data[s.place - 1] < 128 else FIFTH_HIGH
    if encoding == 3 and decoders.variable(decoders.Section(data, 0)) > 16383:
        return LONG_3
    return None


def fields(encoding, n):
    return {6: n, 7: 3, 8: 4}.get(encoding, 1)


def section(encoding, n, data):
    """The headers and the section, as the oracle takes them."""
    count = fields(encoding, n)
    sign = "0" if encoding == 1 else "1"

    def line(name, first, item):
        return f"H Field {name}:{','.join([*first, *[item] * count])}\n"

    names = ",".join(["loopIteration", "time", *(f"f{k}" for k in range(count))])
    text = f"H Field I name:{names}\n"
    text += line("I signed", "00", sign)
    text += line("I predictor", "00", "0") + line("I encoding", "11", str(encoding))
    text += line("P predictor", "62", "0") + line("P encoding", "90", str(encoding))
    return text.encode("ascii") + b"I\x00\x00" + data


def walked(binary, logs, *options):
    """What the Rust says of each log."""
    framed = b"".join(len(log).to_bytes(4, "little") + log for log in logs)
    run = subprocess.run([binary, "--walk", "--batch", *options], input=framed, stdout=subprocess.PIPE, check=True)
    answers = run.stdout.decode("utf-8").split("--\n")
    if answers.pop() or len(answers) != len(logs):
        sys.exit("oracle: the Rust did not answer every case")
    return answers


def asked(binary, cases):
    """What the Rust makes of the first trial of each case."""
    return [first_trial(answer) for answer in walked(binary, [section(*case) for case in cases])]


def first_trial(answer):
    head, *frames, end = answer.splitlines()
    if head != "kind at values" or not end.startswith("end "):
        sys.exit(f"oracle.py: {answer!r} is no answer of a walk")
    for frame in frames:
        if frame.startswith("I 0 0 0 "):
            return "frame " + frame.removeprefix("I 0 0 0 ")
    if end.startswith("end cut ") and " tried 1 " in end:
        return "cut"
    return "rejected"


def printed(program, lines):
    """What a program answers to each case of its table, asked for as many at a time as it has room for."""
    answers, batch, size = [], [], 0
    for line in [*lines, None]:
        if batch and (line is None or size + len(line) >= ROOM):
            run = subprocess.run(shlex.split(program), input="".join(batch).encode("ascii"), stdout=subprocess.PIPE, check=True)
            answers += [out.partition(" = ")[2] for out in run.stdout.decode("ascii").splitlines()]
            batch, size = [], 0
        if line is not None:
            batch.append(line + "\n")
            size += len(line) + 1
    if len(answers) != len(lines):
        sys.exit("oracle: the program did not answer every case")
    return answers


def read_by(program, cases):
    """What the program numbers reads in each case."""
    return printed(program, [f"{encoding} {n} 0 {data.hex() or '-'}" for encoding, n, data in cases])


def any_seven(rng):
    """A number of up to 32 bits, now and then padded or with a fifth byte that is too large."""
    kind = rng.randrange(20)
    if kind == 0:
        return rng.randbytes(4).translate(bytes(b | 128 for b in range(256))) + bytes([rng.randrange(256)])
    return seven(rng.getrandbits(rng.randint(1, 32)), rng.randint(1, 5) if kind < 3 else 0)


def any_reading(rng, encoding, n):
    if encoding in (0, 1, 3):
        if encoding == 3 and rng.randrange(4):
            return seven(rng.randrange(16384))
        return any_seven(rng)
    if encoding == 6:
        if n == 1:
            return any_seven(rng)
        head = rng.randrange(256 if rng.randrange(8) == 0 else 2**n)
        return bytes([head]) + b"".join(any_seven(rng) for _ in range(head.bit_count()))
    head = rng.randrange(256)
    return bytes([head]) + rng.randbytes((size_7 if encoding == 7 else size_8)(head) - 1)


def any_case(rng, encoding, n):
    """Mostly whole readings; some cut, some with bytes behind, some of any bytes."""
    kind = rng.randrange(8)
    if kind == 0:
        return rng.randbytes(rng.randint(0, 8))
    data = any_reading(rng, encoding, n)
    if kind == 1:
        return data[: rng.randrange(len(data))]
    if kind == 2:
        return data + bytes([rng.choice(b"EIPGHSQ\x00")])
    return data


def edges(rng, encoding, n):
    """No byte, every single byte, and for a group every head with any bytes of its length."""
    yield b""
    for b in range(256):
        yield bytes([b])
    if encoding in (0, 1, 3) or n == 1:
        for k in SEVEN_BIT_EDGES:
            yield seven(k)
            yield seven(k, 5)
        for b in range(256):
            yield b"\x80\x80\x80\x80" + bytes([b])
            yield b"\xff\xff\xff\xff" + bytes([b])
        for pair in itertools.product(range(0, 256, 5), repeat=2):
            yield bytes(pair)
    elif encoding == 6:
        for head in range(256):
            yield bytes([head]) + bytes(head.bit_count())
            yield bytes([head]) + b"\x03" * (head % 2**n).bit_count()
    else:
        for head in range(256):
            size = (size_7 if encoding == 7 else size_8)(head)
            for fill in (b"\x00", b"\x7f", b"\x80", b"\xff"):
                yield bytes([head]) + fill * (size - 1)
            if size > 1:
                yield bytes([head]) + rng.randbytes(size - 2)


def cases(rng, encoding, n, count):
    return [(encoding, n, d) for d in itertools.chain(edges(rng, encoding, n), (any_case(rng, encoding, n) for _ in range(count)))]


class Tally:
    def __init__(self):
        self.equal = 0
        self.different = []

    def add(self, case, rust, here):
        if rust == here:
            self.equal += 1
        else:
            self.different.append((len(case[2]), case[2], case, rust, here))

    def line(self):
        return f"{self.equal + len(self.different)} cases, {self.equal} equal, {len(self.different)} different"


def shown(case, answer):
    encoding, n, data = case
    return f"{encoding} {n} {data.hex() or '-'} = {answer}"


def chosen(rows, count):
    """Some of the rows, evenly, from the smallest bytes to the largest."""
    rows = sorted(set(rows), key=lambda row: (len(row[0][2]), row[0][2], row[0][1]))
    return [rows[k * (len(rows) - 1) // (count - 1)] for k in range(count)]


def record(path, inside, outside):
    lines = [
        "# Answers of the Rust, recorded by oracle.py: ENCODING GROUP BYTES = what became of the frame `49 00 00 BYTES`.",
        "# In the domain of equality",
    ]
    for rows in inside.values():
        for kind, count in RECORDED_INSIDE.items():
            lines += [shown(*row) for row in chosen([r for r in rows if r[1].split()[0] == kind], count)]
    for name, tally in outside.items():
        if tally.different:
            lines.append(f"# Different: {name}")
            lines += [shown(*row) for row in chosen([d[2:4] for d in tally.different], RECORDED_OUTSIDE)]
    with open(path, "w", encoding="ascii", newline="\n") as f:
        f.writelines(line + "\n" for line in lines)


def parsed(text, program, cases):
    """The options of a run against the Rust; the program of crates/ that is held to it goes by its own name."""
    parser = argparse.ArgumentParser(description=text, formatter_class=argparse.RawDescriptionHelpFormatter)
    parser.add_argument("binary")
    parser.add_argument("--" + program, dest="program", metavar="PROGRAM")
    parser.add_argument("--cases", type=int, default=cases)
    parser.add_argument("--seed", type=int, default=1)
    parser.add_argument("--record")
    return parser.parse_args()


def main():
    options = parsed(__doc__, "numbers", 40000)
    rng = random.Random(options.seed)

    domain = collections.defaultdict(Tally)
    inside = collections.defaultdict(list)
    outside = collections.defaultdict(Tally)
    for encoding, n in GROUPS:
        todo = cases(rng, encoding, n, options.cases // (8 if encoding == 6 else 1))
        read = read_by(options.program, todo) if options.program else [decoders.answer(e, k, 0, d) for e, k, d in todo]
        for case, rust, answer in zip(todo, asked(options.binary, todo), read):
            if answer != decoders.answer(encoding, n, 0, case[2]):
                sys.exit(f"oracle.py: for {shown(case, answer)} the decoders say {decoders.answer(encoding, n, 0, case[2])}")
            here = decoders.trial_of(answer, case[2])
            why = departure(*case)
            if why:
                outside[f"{why}, encoding {encoding}"].add(case, rust, here)
            else:
                domain[encoding].add(case, rust, here)
                inside[encoding, n].append((case, rust))

    print("In the domain of equality")
    for encoding, tally in domain.items():
        print(f"  encoding {encoding}: {tally.line()}")
        for _, _, case, rust, here in sorted(tally.different)[:5]:
            print(f"    {shown(case, rust)}, here {here}")
    print("Outside it")
    for name, tally in outside.items():
        print(f"  {name}: {tally.line()}")
        for _, _, case, rust, here in sorted(tally.different)[:1]:
            print(f"    smallest: {shown(case, rust)}, here {here}")
    if options.record:
        record(options.record, inside, outside)
    if any(tally.different for tally in domain.values()):
        sys.exit(1)


if __name__ == "__main__":
    main()

"""The table of crates/frames: the predictions of predictor_cases.py, and frames of each kind behind the frames that a section can have before them.

The answers come from frames.py.
"""
import random
from pathlib import Path

import encoders
import frames
import sections
from encoders import seven, zigzag
from frames import TOP, WORD, Fields, Frame, predict_case
from predictor_cases import PREDICTIONS

RECORDED = Path(__file__).resolve().parent / "oracle-frames.txt"
NONE = (None, None, None)

# Answers that document 01 gives in so many words, or that its sessions show.
DOCUMENT = [
    (predict_case(2, 1, 10, 30), "10 10"),
    (predict_case(2, 0, 10, 30), f"{WORD - 10} {WORD - 10}"),
    (predict_case(2, 0, 2147483647, WORD - 1), "2147483647 2147483647"),
    (predict_case(3, 0, WORD - 7, 0), f"{WORD - 3} {WORD - 3}"),
    (predict_case(3, 1, 7, 0), "3 3"),
    ("intra a-0 0 8 0 - - - - 056414500a", "5 100 1510 next 3"),
    ("inter a-4 0 1 0 - - - I/5/100/1510 - 0a025000", "6 105 1511 next 2"),
    ("inter a-7 0 1 0 - - - P/6/105/1511 I/5/100/1510 000145ff", "7 110 1510 next 2"),
    ("intra i-at-5 0 8 0 - - - - 066514", "6 101 1510 next 3"),
    ("inter p-at-1 0 1 0 - - - - - 0a02", "1 5 1 next 2"),
    ("intra i-cut 0 8 0 - - - - -", "cut"),
    ("inter time-3-and-5-back 0 1 0 - - - I/0/3/0 - 0900", "1 0 0 next 2"),
]


def made(kind, label, encodings, predictors, data, last=None, older=None, motor=None, numbers=NONE):
    """A case from digits for encodings and predictors, and bytes."""
    fields = Fields(frames.codes(encodings or "-", 99), frames.codes(predictors or "-", 99), motor, numbers)
    return frames.frame_case(kind, label, fields, last, older, bytes.fromhex(data) if isinstance(data, str) else data)


def intra(label, encodings, predictors, data, last=None, **also):
    return made("I", label, encodings, predictors, data, last, **also)


def inter(label, encodings, predictors, data, last=None, older=None, **also):
    return made("P", label, encodings, predictors, data, last, older, **also)


def slow(label, encodings, predictors, data, numbers=NONE):
    return made("S", label, encodings, predictors, data, numbers=numbers)


def was(kind, time, *values, iteration=7):
    return Frame(kind, iteration, time, values)


# Frames.


def times():
    far = "feffffff0f", "ffffffff0f"
    for name, last, older, data in (
        ("no-last", None, None, "06"),
        ("no-last-back", None, None, "05"),
        ("no-last-but-older", None, was("P", 100), "06"),
        ("at-the-top", was("I", TOP), None, "00"),
        ("over-the-top", was("I", TOP), None, "02"),
        ("under-the-top", was("I", TOP), None, "01"),
        ("far-over-the-top", was("I", TOP - 2**31 + 2), None, far[0]),
        ("just-the-top", was("I", TOP - 2**31 + 1), None, far[0]),
        ("just-0", was("I", 2**31), None, far[1]),
        ("under-0", was("I", 2**31 - 1), None, far[1]),
        ("far-from-32-bits", was("P", 2**32), was("P", 1), "00"),
        ("top-and-top", was("P", TOP), was("P", TOP), "02"),
        ("line-over-the-top", was("P", TOP), was("P", TOP - 1), "01"),
        ("line-to-the-top", was("P", TOP - 1), was("P", TOP - 2), "00"),
        ("line-over-half", was("P", 2**63), was("P", 0), "00"),
        ("line-to-half", was("P", 2**63), was("P", 1), "00"),
        ("line-over-and-held", was("P", 2**64 - 9), was("P", 5), far[0]),
        ("line-to-0", was("P", 5), was("P", 10), "00"),
        ("line-under-0", was("P", 5), was("P", 11), "00"),
        ("line-under-0-and-back", was("P", 5), was("P", 11), "0b"),
        ("line-far-under-0", was("P", 0), was("P", TOP), "00"),
        ("older-intra-behind-inter", was("P", 110), was("I", 100), "00"),
        ("older-behind-intra", was("I", 110), was("P", 100), "00"),
        ("older-intra-behind-intra", was("I", 110), was("I", 100), "00"),
        ("no-older-behind-inter", was("P", 110), None, "00"),
    ):
        yield inter(f"time-{name}", "", "", data, last, older)
    yield intra("time-intra", "", "", "05ffffffff0f", was("P", TOP))
    yield intra("time-intra-0", "", "", "ffffffff0f00")


def iterations():
    for value in (0, 2**31 - 1, 2**32 - 2, 2**32 - 1):
        yield inter(f"iteration-{value}", "", "", "00", was("I", 0, iteration=value), was("I", 0, iteration=3))
    yield inter("iteration-older-alone", "", "", "00", None, was("I", 9, iteration=3))


def histories():
    """Fields of predictors 1, 2, 3 and 6, signed and then unsigned."""
    zeros = {"I": b"\0\0" + bytes(8), "P": b"\0" + bytes(8)}
    frames_before = [(None, None)]
    for last in "IP":
        frames_before.append((was(last, 50, *[30, 30, 31, 40] * 2), None))
        for older in "IP":
            frames_before.append((was(last, 50, *[30, 30, 31, 40] * 2), was(older, 10, *[99, 10, WORD - 10, 99] * 2)))
    for last, older in frames_before:
        names = "-".join(frame.kind if frame else "none" for frame in (last, older))
        yield inter(f"inter-{names}", "00001111", "12361236", zeros["P"], last, older)
        if older is None:
            yield intra(f"intra-{names}", "00001111", "12361236", zeros["I"], last)
    yield inter("older-alone", "00001111", "12361236", zeros["P"], None, frames_before[-1][1])
    edges = was("P", 50, 10, 10, 2**31 - 1, 2**31, 2**32 - 7, 2**32 - 7), was("I", 10, 30, 30, 2**32 - 1, 1, 0, 0)
    yield inter("edges", "010001", "222233", bytes(7), *edges)
    yield inter("raws-wrap", "010111", "112368", b"\0" + zigzag(2**31) + seven(2**32 - 11) + zigzag(9) + seven(2**31) * 2 + seven(2**32 - 1500), *edges)


def all_predictors():
    every, encodings = "0123456789ab", "0" * 12
    last, older = was("P", 60, *range(100, 112)), was("P", 50, *range(50, 62))
    raws = b"".join(map(zigzag, range(12)))
    for numbers in ((1000, 2000, 3000), NONE):
        name = "given" if numbers[0] else "absent"
        yield intra(f"every-predictor-{name}", encodings, every, b"\x05\x06" + raws, last, motor=1, numbers=numbers)
        yield inter(f"every-predictor-inter-{name}", encodings, every, b"\x05" + raws, last, older, motor=1, numbers=numbers)
        yield slow(f"every-predictor-slow-{name}", encodings, every, raws, numbers)
    yield inter("every-predictor-unsigned", "1" * 12, every, b"\x05" + bytes(range(12)), last, older, motor=0, numbers=(65535, 0, 1))


def motors():
    data = "05060203040506"
    for name, place, predictors in (
        ("first", 0, "05555"),
        ("third", 2, "55055"),
        ("last", 4, "55555"),
        ("too-far", 5, "55555"),
        ("far-too-far", TOP, "55555"),
        ("none", None, "55555"),
        ("itself-predicted", 1, "85585"),
    ):
        yield intra(f"motor-{name}", "11111", predictors, data, was("I", 0, 10, 20, 30, 40, 50), motor=place)
    yield inter("motor-inter", "1111", "1551", "0001020304", was("I", 0, 10, 20, 30, 40), motor=0)
    yield inter("motor-wraps", "11", "15", b"\0" + seven(2**32 - 1) * 2, was("I", 0, 2**32 - 1, 0), motor=0)


def groups():
    """Neighbouring fields of one encoding, from fewer than a group to more."""
    rng = random.Random(6)
    for encoding, most in ((6, 10), (7, 5), (8, 5)):
        for count in range(1, most + 1):
            raws = [(k + 1) * (-1) ** k * (1, 60, 9000)[k % 3] % WORD for k in range(count)]
            yield intra(f"{count}-of-{encoding}", str(encoding) * count, "0" * count, b"\0\0" + encoders.fields(rng, [encoding] * count, raws))
    for count in (2, 8, 9, 10):
        yield inter(f"{count}-of-6-zeros", "6" * count, "0" * count, bytes(1 + (count + 7) // 8))
    mixed = ("0606", "66066", "6696", "66166", "7677", "77788887", "8877", "6678", "878787", "99", "909", "133")
    for encodings in (*mixed, "6666666666666666", "777777", "88888888", "888889888"):
        raws = [encoders.any_raw(rng, int(e)) for e in encodings]
        yield intra(f"mixed-{encodings}", encodings, "0" * len(encodings), b"\5\6" + encoders.fields(rng, map(int, encodings), raws))


def short_groups():
    yield intra("short-7", "7", "0", "05061b")
    yield intra("short-7-whole", "7", "0", "0506c0010203")
    yield intra("short-7-in-the-second", "7", "0", "0506c0")
    yield intra("short-7-in-the-first-dropped", "7", "0", "0506c001")
    yield intra("short-7-in-the-last-dropped", "7", "0", "0506c00102")
    yield intra("short-7-of-four", "7777", "0000", "05061bc101020304")
    yield intra("short-7-of-four-cut", "7777", "0000", "05061bc1010203")
    yield intra("short-7-then-0", "70", "00", "05064f8f02")
    yield intra("short-8", "8", "0", "05060150")
    yield intra("short-8-dropped", "8", "0", "0506fd71020304050607")
    yield intra("short-8-cut-in-the-dropped", "8", "0", "0506fd710203040506")
    yield intra("short-8-half-bytes", "88", "00", "05065512344900")
    yield intra("short-8-of-five", "88888", "00000", "05060d212340021149")
    yield intra("short-8-of-five-cut", "88888", "00000", "05060d2123400a11")
    yield intra("beyond-6", "66", "00", "050604")
    yield intra("beyond-6-with-numbers", "66", "00", "0506070203040506")
    yield intra("beyond-6-of-ten", "6" * 10, "0" * 10, "0506000402")
    yield intra("beyond-6-of-nine", "6" * 9, "0" * 9, "05060004")
    yield inter("beyond-6-inter", "666", "000", "0008")
    yield intra("within-6-of-ten", "6" * 10, "0" * 10, "05068002030405")


def faults():
    long = "ffffffff10"
    cut = ("", "80", "05", "0580", "0506", "050680", "05060708", "05060780")
    for k, data in enumerate((*cut, long, "05" + long, "0506" + long, "050607" + long, long + "80", "80" * 5)):
        yield intra(f"intra-fault-{k}", "01", "00", data)
    for k, data in enumerate(("", "80", "05", "0506", "050680", long, "05" + long, "0506" + long, "ffffffff0f0000")):
        yield inter(f"inter-fault-{k}", "01", "00", data)
    for k, data in enumerate(("", "80", "05", "0580", long, "05" + long, "0506")):
        yield slow(f"slow-fault-{k}", "01", "00", data)
    for encoding in "245":
        yield intra(f"no-encoding-{encoding}", encoding, "0", "050607")
    yield intra("no-encoding-no-byte", "2", "0", "0506")
    yield intra("no-encoding-time-cut", "2", "0", "05")
    yield intra("no-encoding-behind-a-cut", "04", "00", "0506")
    yield intra("no-encoding-before-a-cut", "40", "00", "0506")
    yield intra("no-encoding-behind-a-field", "05", "00", "050607")
    yield inter("no-encoding-inter", "5", "0", "00")
    yield slow("no-encoding-slow", "4", "0", "00")


def sizes():
    yield intra("62-fields", "1" * 62, "0" * 62, b"\5\6" + bytes(range(62)))
    yield inter("62-fields-inter", "9" * 62, "6" * 62, "00", was("I", 0, *range(62)))
    yield inter("62-fields-cut", "0" * 62, "1" * 62, bytes(62))
    yield intra("62-of-6", "6" * 62, "8" * 62, b"\5\6" + b"\x80\x02" * 7 + b"\x20\x02")
    yield intra("62-of-7", "7" * 62, "0" * 62, b"\5\6" + b"\x1b" * 21)
    yield intra("62-of-8", "8" * 62, "5" * 62, b"\5\6" + b"\0" * 15 + b"\x55\x12\x34", motor=61)
    yield intra("62-of-1-longest", "1" * 62, "1" * 62, b"\xff\xff\xff\xff\x0f" * 64, was("P", 0, *[1] * 62))
    yield intra("no-fields", "", "", "0506")
    yield inter("no-fields-inter", "", "", "05", was("P", 9), was("I", 3))
    yield intra("no-fields-bytes-behind", "", "", "0506ff49")
    yield slow("16-slow-fields", "0136789013678901", "0" * 16, "030405060708020304020a0b0c0d0e0f101112")
    yield slow("16-of-9", "9" * 16, "8" * 16, "")
    yield slow("1-slow-field", "1", "6", "80014900")
    yield slow("slow-groups", "66677788886", "00000000000", "0502031b0d212340" + "03")
    yield slow("no-slow-fields", "", "", "")
    yield slow("no-slow-fields-with-bytes", "", "", "0000", (1, 2, 3))


def lists():
    """Fields by lists of their own: what a walk's definition would be refused for is refused."""
    none = "- - -"
    for name, rest in (
        ("62", f"62 - - - {none} 00"),
        ("63", f"63 - - - {none} 00"),
        ("zeros-behind", f"3 1 0 - {none} 050203"),
        ("predictor-12", f"1 0 c - {none} 02"),
        ("predictor-12-behind", f"1 00 0c - {none} 02"),
        ("encoding-2", f"1 2 0 - {none} 02"),
        ("encoding-2-last", f"2 02 00 - {none} 02"),
        ("4-absent", "1 0 4 - - 7 7 02"),
        ("9-absent", "1 0 9 - 7 - 7 02"),
        ("11-absent", "1 0 b - 7 7 - 02"),
        ("given", "3 000 49b - 7 8 9 020202"),
        ("5-at-itself", f"2 00 05 1 {none} 0202"),
        ("5-behind", f"2 00 05 0 {none} 0202"),
        ("5-none", f"1 0 5 - {none} 02"),
        ("cut", f"1 0 8 - {none} -"),
        ("corrupt", f"1 6 0 - {none} ffffffff10"),
        ("refused-first", f"2 02 00 - {none} -"),
    ):
        yield f"fields by-{name} {rest}"


# Frames of any kind.


def any_before(rng, count):
    """A frame before, or none."""
    if rng.randrange(4) == 0:
        return None
    values = tuple(encoders.any_word(rng) for _ in range(count))
    return Frame(rng.choice("IP"), encoders.any_word(rng), rng.choice((encoders.any_word(rng), rng.getrandbits(64), TOP - rng.randrange(9))), values)


def any_frame(rng, label):
    """A frame of any definition and history; some are cut, or have a byte changed."""
    kind = rng.choice("IPPS")
    count = rng.randint(1, 7)
    encodings = tuple(rng.choice((0, 1, 3, 6, 6, 7, 7, 8, 8, 9)) for _ in range(count))
    encodings = tuple(sorted(encodings)) if rng.randrange(2) else encodings
    predictors = tuple(rng.choice((0, 1, 2, 2, 3, 3, 4, 5, 6, 7, 8, 9, 10, 11)) for _ in range(count))
    motor = None if kind == "S" or rng.randrange(2) else rng.randrange(count)
    fields = Fields(encodings, predictors, motor, tuple(rng.choice((None, rng.getrandbits(16))) for _ in range(3)))
    data = b"".join(seven(encoders.any_word(rng)) for _ in range({"I": 2, "P": 1, "S": 0}[kind]))
    data += encoders.fields(rng, encodings, [encoders.any_raw(rng, encoding) for encoding in encodings])
    spoil = rng.randrange(8)
    if spoil == 0:
        data = data[: rng.randrange(len(data) + 1)]
    elif spoil == 1 and data:
        at = rng.randrange(len(data))
        data = data[:at] + bytes([data[at] ^ 128]) + data[at + 1 :]
    return frames.frame_case(kind, label, fields, any_before(rng, count), any_before(rng, count), data)


def any_frames():
    rng = random.Random(1)
    for k in range(18):
        yield any_frame(rng, f"any-{k}")


def asked_of_the_rust():
    """The last trial of some of the sections."""
    lines = [line.split(" = ")[0] for line in RECORDED.read_text("ascii").splitlines() if not line.startswith("#")]
    for k, line in enumerate(lines):
        if k % 9 == 0:
            yield from list(sections.cases(*sections.parsed(line), f"rust-{k}"))[-1:]


# How cases are written.


def small_matters():
    yield "predict 02 001 0000000000010 30 00 0 000 00065535 - 0"
    yield "intra  - - - - - - - 0506"
    yield "intra - - - - - - - - 0506"
    yield "inter zeros 1 1 00 00 - - I/007/0100/0030 P/0/00000000000000000000000018446744073709551615/4294967295 0001"
    yield f"intra longest - - - - - - - 0506{'00' * (frames.SECTION - 2)}"


def no_cases():
    yield from ("", "predict", "predict 1 1 - - 0 0 0 - -", "predict 1 1 - - 0 0 0 - - - ", "predict 1 1 - - 0 0 0 - - - -", "predict  1 1 - - 0 0 0 - - -")
    yield from (f"predict {codes} - - 0 0 0 - - -" for codes in ("- 1", "1 -", "256 1", "1 256", "a 1"))
    for k in range(5):
        words = ["-", "-", "0", "0", "0"]
        yield from (" ".join(["predict 1 1", *words[:k], wrong, *words[k + 1 :], "- - -"]) for wrong in ("4294967296", "-1" if k < 2 else "-"))
    yield from (f"predict 1 1 - - 0 0 0 {numbers}" for numbers in ("65536 - -", "- 65536 -", "- - 65536", "- - x"))
    yield "Predict 1 1 - - 0 0 0 - - -"
    yield from (f"intra x {codes} - - - - - 050600" for codes in ("0 -", "- 0", "00 0", "0 00", "a 0", "0 c", "0 A", "0- 00"))
    yield from (f"intra x {'9' * n} {'0' * m} - - - - - 0506" for n, m in ((63, 63), (62, 63)))
    yield from (f"slow x {'9' * 17} {'0' * 17} - - - -", "slow x 0 0 - - - - 00", "slow x 0 0 - - 00", "slows x 0 0 - - - 00", "slow")
    yield from (f"intra x 0 0 {motor} - - - - 050600" for motor in ("x", "-1", TOP + 1))
    yield from (f"intra x 0 0 - {numbers} - 050600" for numbers in ("65536 - -", "- 65536 -", "- - 65536", "- -", "- - - -"))
    befores = ("I", "I/", "I/1", "I/1/2", "I/1/2/", "I/1/2/3/", "I/1/2/3,4", "I/1/2/3,", "I/1/2/,3", "I/1/2/x", "I//2/3", "I/1//3")
    befores += ("S/1/2/3", "i/1/2/3", "/1/2/3", "I/4294967296/2/3", f"I/1/{TOP + 1}/3", "I/1/2/4294967296", "I/1/2/-3", "--", "P/1/2/3/4", "II/1/2/3")
    yield from (f"intra x 0 0 - - - - {word} 050600" for word in befores)
    yield from (f"inter x 0 0 - - - - - {word} 0000" for word in befores[::4])
    yield from (f"intra x - - - - - - {word} 0506" for word in ("I/1/2/0", "I/1/2/,"))
    yield from (f"intra x 11 00 - - - - {word} 05060000" for word in ("I/1/2/3", "I/1/2/3,,4"))
    yield from (f"intra x - - - - - - - {word}" for word in ("", "0", "050", "0g", "FF", "--", "05 06", "0506 ", "00" * (frames.SECTION + 1)))
    yield from ("intra x - - - - - - 0506", "inter x - - - - - - - 05", "inter x - - - - - - - - - 05", "Intra x - - - - - - - 0506")
    yield from (" intra x - - - - - - - 0506", "intra", "inter", "frame", "? x")
    yield from ("fields x - 0 0 - - - - 02", "fields x 1 0 - - - - - 02", "fields x 1 0 g - - - - 02", "fields x 1 0 0 - - - - - 02", "fields")


SECTIONS = (
    ("What document 01 gives", lambda: (line for line, _ in DOCUMENT)),
    *PREDICTIONS,
    ("The time", times),
    ("The iteration", iterations),
    ("The two frames before", histories),
    ("Every predictor in each kind of frame", all_predictors),
    ("motor[0] in its frame", motors),
    ("Groups", groups),
    ("Short groups", short_groups),
    ("Faults, in reading order", faults),
    ("Most fields, and none", sizes),
    ("Fields by lists", lists),
    ("Any frame", any_frames),
    ("What the Rust was asked (vectors/oracle-frames.txt)", asked_of_the_rust),
    ("How cases are written", small_matters),
    ("Lines that are no case", no_cases),
)


def table():
    return [line for heading, cases in SECTIONS for line in (f"# {heading}", *cases())]

"""The logs of the recorded list that are made for it: numbers at their edges, heads, every predictor with and without earlier frames, and the walk's ways.
Each chapter gives header numbers, H lines and a section; what the Rust is told stands beside the chapter."""
import itertools

import list_cases
import oracle_frames
import reference
import short_cases
import walks
from encoders import EDGES, seven, zigzag
from list_cases import field, header, main, slow
from oracle import SEVEN_BIT_EDGES

NONE = (None, None, None)
NUMBERS = ((0, 0, 0), (1, 2, 3), (1070, 420, 48), (65535, 65535, 65535))


def lines_of(fields, slow_fields=()):
    return header(main(*fields), slow(*slow_fields) if slow_fields else None).encode("ascii")


def one(p="0", q="0", encoding="0", sign="1", name="a"):
    """Lists of one field."""
    return lines_of([field(name, p, q, encoding, encoding, sign)])


def numbers(rng):
    """Encodings 0, 1 and 3: edges, padded, with every kind of fifth byte, cut at every byte."""
    for encoding in "013":
        for k, n in enumerate(SEVEN_BIT_EDGES):
            yield NONE, one(encoding=encoding, sign="01"[k % 2]), b"I\x00\x00" + seven(n) + b"P\x00" + seven(n, rng.choice((0, 0, 5)))
        for start, byte in itertools.product((b"I\x00\x00", b"P\x00"), (0, 15, 16, 127, 128, 255)):
            yield NONE, one(encoding=encoding), start + b"\xff\xff\xff\xff" + bytes([byte])
        for start, length in itertools.product((b"I\x00\x00", b"P\x00"), range(5)):
            yield NONE, one(encoding=encoding), start + b"\xff\xff\xff\xff\x0f"[:length]
    for start, fifth in itertools.product((b"I", b"I\x00", b"P"), (0, 15, 16, 128)):
        yield from ((NONE, lines_of([]), start + b"\x80\x80\x80\x80" + bytes([fifth]) + behind) for behind in (b"", b"\x00", b"\x00P\x00"))


def heads(rng):
    """Heads of encodings 6, 7 and 8, some of each group's readings, whole and cut; short groups too."""
    for groups, most in ((short_cases.FULL, 44), (short_cases.SHORT, 16)):
        for encoding, size, fills in groups:
            lines = short_cases.signed_fields([encoding] * size)
            logs = list(short_cases.readings(encoding, size, fills))
            for k in sorted(rng.sample(range(len(logs)), most + 50 * (encoding != 6 and groups is short_cases.FULL))):
                yield NONE, lines, logs[k][len(lines) :]


def runs(rng):
    """Runs of an encoding that are longer than a group, and encodings side by side."""
    for encodings in ("6" * 9, "6" * 10, "6" * 16, "6" * 17, "7" * 6, "7" * 4, "8" * 8, "8" * 5, "6666777", "0613", "68888", "99169", "306", "1" * 12, "9" * 20, "6" * 62, "01" * 31):
        fields = [field("a", "0", "1", e, e, rng.choice("01")) for e in encodings]
        for kinds in ("I", "P", "IP"):
            codes = tuple(map(int, encodings))
            definition = oracle_frames.plain(*codes)
            section = b"".join(oracle_frames.any_frame(rng, definition, kind, None, None) for kind in kinds)
            yield NONE, lines_of(fields), section
            yield NONE, lines_of(fields), section[: rng.randrange(1, len(section))]


# Frames before a frame: none, one or two, intra or inter.
ORDERS = ("I", "II", "P", "PP", "IP", "IPP", "IIP", "PPP", "PI", "PIP")


def frames_in(rng, order, encoding):
    """Frames of one field with any small numbers before it, and edges as raw numbers."""
    write = {"0": zigzag, "1": seven, "3": lambda raw: seven(raw % 16384)}[encoding]
    heads = {
        "I": lambda: seven(rng.choice((0, 5, 2**32 - 1))) + seven(rng.choice((0, 100, 2**32 - 1))),
        "P": lambda: zigzag(rng.choice((0, 5, -5 % 2**32))),
    }
    return b"".join(kind.encode("ascii") + heads[kind]() + write(rng.choice((*EDGES, 7, 2**32 - 7))) for kind in order)


def predictors(rng):
    """Every predictor but 7 in intra and in inter, signed and unsigned by the encoding, shown signed or not, behind frames in every order."""
    for p, encoding, order in itertools.product((0, 1, 2, 3, 4, 6, 8, 9, 10, 11), "01", ORDERS):
        given = rng.choice(NUMBERS) if p in (4, 9, 11) else NONE
        yield given, one(str(p), str(p), encoding, rng.choice("01")), frames_in(rng, order, encoding)
    for p, encoding in itertools.product((1, 2, 3, 6), "3"):
        yield from ((NONE, one(str(p), str(p), encoding), frames_in(rng, order, encoding)) for order in ORDERS)


def with_home(rng):
    """Predictor 7, which gives 0."""
    for order, encoding in itertools.product(ORDERS, "01"):
        yield NONE, one("7", "7", encoding), frames_in(rng, order, encoding)


def motors(rng):
    """Predictor 5: motor[0] in different places, a later one of that name, and itself predicted."""
    for at, count in ((0, 2), (0, 5), (1, 3), (3, 5)):
        for again in (False, True):
            fields = [field("motor[0]" if k == at or again and k > at else f"f{k}", *["5" if k > at else "8"] * 2, "1", "0", "1") for k in range(count)]
            lines = lines_of(fields)
            yield NONE, lines, b"I\x01\x02" + b"".join(seven(rng.choice((0, 1, 300, 2**32 - 1))) for _ in fields)
            yield NONE, lines, b"P\x02" + b"".join(zigzag(rng.choice((0, 1, 300, 2**32 - 1))) for _ in fields)


def pairs(rng):
    """Edges as last and older under predictors 2 and 3."""
    for predictor, encoding in itertools.product((2, 3), (0, 1, 3, 6, 7, 8, 9)):
        cases = list(oracle_frames.pairs_of(rng, predictor, encoding))
        for definition, section in rng.sample(cases, 10):
            count = len(definition.intra.encodings)
            yield NONE, lines_of([field("a", "0", str(predictor), "1", str(encoding), "01"[k % 2]) for k in range(count)]), section


def times(rng):
    """The time: behind intra and inter frames, held at 0, beyond 32 bits; the iteration wraps."""
    large = seven(2**32 - 2), seven(2**32 - 1)
    for first in (0, 1, 3, 100, 2**31, 2**32 - 1):
        intra = b"I" + seven(2**32 - 1) + seven(first)
        for offset in (b"\x00", b"\x01", b"\x09", b"\x0a", *large):
            yield NONE, lines_of([]), intra + b"P" + offset
            yield NONE, lines_of([]), intra + (b"P" + offset) * 3
    yield from ((NONE, lines_of([]), b"P" + a + b"P" + b + b"I\x00\x05" + b"P" + b + b"P" + a) for a, b in itertools.product((b"\x00", b"\x07", *large), repeat=2))


def walks_of(rng):
    """Rejected trials of each kind, searches that pass over P, barren ones, and what may stand behind a frame."""
    slow_lines = lines_of([], [("s", "8", "0", "1")])
    frames = (b"I\x05d", b"P\n", b"G", b"H", b"S\x02", b"E\x00\x05", b"E\xff" + walks.CLOSING)
    for frame, behind in itertools.product(frames, (*walks.KINDS, *b"X\x00\xff")):
        yield NONE, slow_lines, frame + bytes([behind]) + b"\x00"
    for frame, gap, then in itertools.product(frames[:5], (b"X", b"XP\x00", b"\x00PPX", b"Q\xfe"), (b"", b"P\x00", b"I\x01\x01", b"I\x01\x01P\x00")):
        yield NONE, lines_of([]), frame + gap + then


def events(rng):
    """Events of every type, whole and cut, with edges as numbers."""
    for kind in (*range(17), 30, 31, 40, 254):
        for behind in (b"", b"\x00", b"\x05\x06", b"\xff\xff\xff\xff\x0f\x00", b"\x80", b"\x80\x80\x80\x80\x10\x00"):
            if kind in (0, 13, 14, 15, 30, 40) or not behind:
                yield NONE, lines_of([]), b"E" + bytes([kind]) + behind
                yield NONE, lines_of([]), b"I\x05d" + b"E" + bytes([kind]) + behind + b"P\x00"


def closings(rng):
    """The closing text: whole, cut at every byte, changed, with something behind, and as newer firmware writes it."""
    whole = b"E\xff" + walks.CLOSING
    for before in (b"", b"I\x05d", b"I\x05dXP\x00"):
        yield NONE, lines_of([]), before + whole
        yield from ((NONE, lines_of([]), before + whole + bytes([behind])) for behind in b"EIPX\x00")
    yield from ((NONE, lines_of([]), whole[:length]) for length in range(1, len(whole)))
    yield from ((NONE, lines_of([]), whole[:at] + b"?" + whole[at + 1 :]) for at in range(2, len(whole)))
    yield NONE, lines_of([]), b"E\xffEnd of log (disarm reason:\x04)\x00"


def slow_frames(rng):
    """Slow frames of every encoding and predictor, whole and cut, between main frames."""
    fields = {"0": 1, "1": 1, "3": 1, "6": 2, "7": 3, "8": 4, "9": 1}
    for encoding, count in fields.items():
        lines = lines_of([], [("s", "0", encoding, rng.choice("01"))] * count)
        data = b"S" + {"6": b"\x03\x05\x82\x01", "7": b"\xd5\x01\x80\x02\x80\x03\xff", "8": b"\xed\x12\x34\x56\x78\x9a\xbc\xde", "9": b""}.get(encoding, b"\x85\x01")
        yield from ((NONE, lines, data[:length]) for length in range(1, len(data)))
        yield from ((NONE, lines, section) for section in (data, data + data, b"I\x05d" + data + b"P\x00" + data, data + b"X"))
    for predictor in (0, 1, 2, 3, 4, 6, 8, 9, 10, 11):
        given = NUMBERS[2] if predictor in (4, 9, 11) else NONE
        yield given, lines_of([], [("s", str(predictor), "0", "1")]), b"I\x05dS\x03S\x04"


def refusals(rng):
    """Lists that are refused, and some that nearly are, from the table of crates/lists."""
    rows = [(numbers, *reference.split(log)) for _, log, numbers in list_cases.logs() if len(log) <= 300]
    skipped = (*reference.INTERVAL_LINES, *reference.NUMBER_LINES)
    return (row for row in rows if not any(name in reference.lists_of(row[1]).values for name in skipped))


# A heading, the maker and what the Rust is told.
CHAPTERS = (
    ("Encodings 0, 1 and 3", numbers, ()),
    ("Heads of encodings 6, 7 and 8, short groups too", heads, ()),
    ("Runs of encodings", runs, ()),
    ("Predictors behind frames in every order", predictors, ()),
    ("Predictor 7; the Rust was given a GPS home definition", with_home, ("--home",)),
    ("Predictor 5", motors, ()),
    ("Edges as last and older under predictors 2 and 3", pairs, ()),
    ("Time and iteration", times, ()),
    ("Trials, rejections and searches", walks_of, ()),
    ("Events", events, ()),
    ("Closing texts", closings, ()),
    ("Slow frames", slow_frames, ()),
    ("Refusals, and lists that nearly are refused", refusals, ()),
)

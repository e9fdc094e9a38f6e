"""Logs by enumeration: every section of a few bytes, every head of encodings 6, 7 and 8, every shape of six lists.
A group comes in parts, so that the work can be shared; which logs a part has does not depend on who makes it."""
import itertools

import encoders
import lists
import oracle_frames
from list_cases import field, header, main, slow

LETTERS = b"EIPGHSX\x00\x01"
WITHOUT_E_AND_S = b"IPGHX\x00\x01\x02\x80"
MIXED = b"EIPSGH\x00\x01\x0d\x80\xffX"

ONE = header(main(field("a", "8", "1", "0", "0", "1")))
TWO_OF_6 = header(main(*[field("a", "8", "1", "9", "6", "1")] * 2))
BARE = header(main())


def lines_of(text):
    return text.encode("ascii")


# Definitions for every section of a few bytes. The last two have slow frames, of one byte and of none.
DEFINITIONS = [
    lines_of(text)
    for text in (BARE, ONE, TWO_OF_6, header(main(), slow(("s", "0", "0", "1"))), header(main(), slow(("s", "8", "9", "0"))))
]


def every_section(letters, most, definitions):
    """A part for each definition and first byte: that byte with every section of the other bytes behind it."""

    def part(rng, k):
        lines, first = definitions[k // len(letters)], k % len(letters)
        if first == 0:
            yield lines
        for length in range(most):
            for rest in itertools.product(letters, repeat=length):
                yield lines + letters[first : first + 1] + bytes(rest)

    return part, len(definitions) * len(letters)


def signed_fields(encodings):
    """Lists of fields without prediction, all signed, of one encoding in both kinds of frames."""
    return lines_of(header(main(*[field("a", "0", "0", str(e), str(e), "1") for e in encodings])))


def numbers_behind(encoding, head, fill):
    """The bytes behind a head, for one of several fills."""
    if encoding == 6:
        small, mixed = (1, 2, 3, 126, 127, 5, 6, 0), (1, 128, 2**32 - 1, 2, 16384, 0, 2**31, 300)
        chosen = (small, mixed)[fill]
        return b"".join(encoders.seven(n) for n, bit in zip(chosen, range(8)) if head >> bit & 1)
    size = (encoders.size_7 if encoding == 7 else encoders.size_8)(head) - 1
    return [bytes(size), b"\x7f" * size, b"\x80" * size, bytes(37 * k % 256 for k in range(1, size + 1))][fill]


def readings(encoding, size, fills):
    """Every head with the bytes behind it cut at every length, whole, and with a letter or another byte behind, in intra and inter frames."""
    lines = signed_fields([encoding] * size)
    for head, fill in itertools.product(range(256), range(fills)):
        data = bytes([head]) + numbers_behind(encoding, head, fill)
        for start in (b"I\x00\x00", b"P\x00"):
            yield from (lines + start + data[:length] for length in range(len(data) + 1))
            yield from (lines + start + data + behind for behind in (b"P\x00", b"X"))


# Encodings, fields and fills: full groups, and short ones, alone or behind a full one.
FULL = [*((6, n, 2) for n in range(1, 9)), (7, 3, 4), (8, 4, 4)]
SHORT = [(7, 1, 2), (7, 2, 2), (8, 1, 2), (8, 2, 2), (8, 3, 2)]


def heads(groups):
    """A part for each group."""
    return lambda rng, k: readings(*groups[k]), len(groups)


def shape_logs():
    """A log for every number of items from 1 to 5 in lists 0 to 5, in the order of shapes.txt."""
    texts = ("loopIteration,time,a,a,a", "0,0,0,0,0", "6,2,0,0,0", "1,1,0,0,0", "9,0,0,0,0", "0,0,0,0,0")
    cuts = [[",".join(text.split(",")[:n]) for n in range(1, 6)] for text in texts]
    for shape in itertools.product(*cuts):
        yield lines_of(header(dict(enumerate(shape)))) + b"I\x00\x00P\x00"


def shapes():
    """Five parts, by the number of items in list 0."""
    return lambda rng, k: itertools.islice(shape_logs(), 3125 * k, 3125 * (k + 1)), 5


def pairs():
    """Every pair of edges as last and older under predictors 2 and 3, of every encoding: a part for each."""
    both = list(itertools.product((2, 3), (0, 1, 3, 6, 7, 8, 9)))

    def part(rng, k):
        return (oracle_frames.log(rng, *case) for case in oracle_frames.pairs_of(rng, *both[k]))

    return part, len(both)


# What the Rust says where the file of shapes has a refusal's number, as far as its words tell it.
SHAPE_WORDS = {
    "4": lists.REASONS[4],
    "5": lists.REASONS[5],
    "6": "MalformedFrameDef(Intra)",
    "7": "MalformedFrameDef(Inter)",
}


def shape_of(answer):
    """The characters of shapes.txt that an answer of the Rust can stand for."""
    if not answer.startswith("refused "):
        return "."
    words = answer.strip().removeprefix("refused ")
    return "".join(character for character, said in SHAPE_WORDS.items() if said == words)

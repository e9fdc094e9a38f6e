"""Logs of flights under any definition: whole, damaged, cut off and with the tail of another flight behind; events, slow frames, and the largest sections.
Each maker takes a generator of random numbers and how many logs it is to make."""
import itertools

import oracle_frames
import sections
import walk_cases
import walks
from damages import COUNTS, any_bytes, any_log, damaged, dropped, tail
from list_cases import header, main
from oracle_frames import NUMBERS, any_definition, any_section, any_seven, faulty, log, plain

# The limits of the program walk, as document 01 has them. The library has none.
MOST = 65536
HEADER_MOST = 16384

# Logs of one flight: it is the making that takes the time.
FAMILY = 10


# What sections are made of.


def any_event(rng):
    """An event that the rules know."""
    kind = rng.choice(list(walks.NUMBERS))
    return bytes([ord("E"), kind]) + b"".join(any_seven(rng) for _ in range(walks.NUMBERS[kind]))


def any_other_event(rng):
    """An event that the rules do not know, but perhaps the Rust."""
    kind = rng.choice((13, 13, 40, rng.randrange(256)))
    return bytes([ord("E"), kind]) + b"".join(any_seven(rng) for _ in range(rng.randrange(3)))


def any_closing(rng):
    """The event that ends a log, or nearly so."""
    text = rng.choice((walks.CLOSING, walks.CLOSING, b"End of log (disarm reason:\x04)\0", b"End of log\n", b"end of log\0"))
    kind = rng.randrange(6)
    if kind == 0:
        text = text[: rng.randrange(len(text))]
    elif kind == 1:
        at = rng.randrange(len(text))
        text = text[:at] + rng.randbytes(1) + text[at + 1 :]
    return b"E\xff" + text


def any_slow(rng):
    return b"S" + rng.randbytes(rng.randrange(3))


# Random groups.


def family(rng, drop, **also):
    """A flight with any header numbers; damaged, cut off, and up to some place with the tail of another one behind."""
    definition = any_definition(rng, COUNTS, given=NUMBERS, **also)
    kinds = "IPPSS" if definition.slow.encodings else "IPP"
    lines = log(rng, definition, b"")
    flight = any_section(rng, definition, kinds) + any_section(rng, definition, kinds)
    yield lines + dropped(flight, drop)
    for _ in range(FAMILY // 2):
        section = flight
        for _ in range(rng.choice((1, 1, 2, 3))):
            section = damaged(rng, section)
        yield lines + dropped(section, drop)
    for _ in range(2):
        yield lines + dropped(flight[: rng.randrange(len(flight))], drop)
    for _ in range(FAMILY - FAMILY // 2 - 3):
        yield lines + dropped(flight[: rng.randrange(len(flight))] + tail(rng, definition), drop)


def families(rng, count, drop=b"ES", **also):
    for _ in range(count // FAMILY):
        yield from family(rng, drop, **also)


def with_any_bytes(rng, count):
    return families(rng, count, drop=b"")


def with_slow_lists(rng, count):
    for _ in range(count // FAMILY):
        yield from family(rng, b"E", slow_fields=rng.choice((1, 2, 3, 5, 16)))


def with_home(rng, count):
    yield log(rng, plain(), b"HP\x00G")
    yield from families(rng, count - 1, home=True)


def no_home(rng, count):
    return families(rng, count, home=True)


def short_groups(rng, count):
    return families(rng, count, full=False)


def straight_9(rng, count):
    return families(rng, count, straight_9=True)


def a_few_bytes(rng, count):
    """Letters and small numbers in any order, under definitions of a few fields, some sections under each."""
    for _ in range(count // FAMILY):
        definition = any_definition(rng, (0, 0, 1, 1, 2, 3), given=(None,))
        lines = log(rng, definition, b"")
        for _ in range(FAMILY):
            few = rng.choice((b"IP\x00X", b"IIPPPGH\x00\x00\x01\x02\x05\x14\x80Xabc", b"IPGH\x00\x01\xff"))
            yield lines + bytes(rng.choices(few, k=rng.randrange(60)))


def events(rng, count):
    for _ in range(count):
        yield any_log(rng, between=(any_event, any_event, any_event, any_other_event, any_closing))


def slow_frames(rng, count):
    for _ in range(count):
        yield any_log(rng, kinds="IPSS", between=(any_slow, any_bytes), slow_fields=rng.choice((1, 2, 3, 5, 16)))


def no_slow_frames(rng, count):
    for _ in range(count):
        yield any_log(rng, between=(any_slow, any_bytes))


def long_numbers(rng, count):
    """Frames whose numbers may be too long, alone and in a section; then two with a head bit beyond the group of 6."""
    for definition, frame in faulty(rng, count // 2, given=(None,)):
        yield log(rng, definition, frame)
        yield log(rng, definition, frame + any_section(rng, definition) + frame)
    for encodings, section in ((((), (), (6, 6)), b"S\x05"), (([9] * 7, [6] * 7, ()), b"P\x00\xff\x49\x00\x00")):
        yield log(rng, sections.define(encodings, [[0] * len(codes) for codes in encodings], None, oracle_frames.NONE), section)


# Fixed groups.


def closing_texts(rng):
    """The closing text cut at every byte, with every byte changed, and with something behind."""
    empty = log(rng, plain(), b"")
    whole = b"E\xff" + walks.CLOSING
    newer = b"E\xffEnd of log (disarm reason:"
    for before, at in itertools.product((b"", b"I\x05d", b"P\x00"), range(1, len(whole))):
        for byte in (whole[at] ^ 32, whole[at] ^ 1, 0, 32, 69, 73, 80):
            changed = whole[:at] + bytes([byte])
            yield from (empty + before + changed + behind for behind in (b"", whole[at + 1 :], b"I\x00\x00", whole[at + 1 :] + b"P\x00"))
    for behind in (*walks.KINDS, *b"X\x00\xff "):
        yield empty + whole + bytes([behind])
        yield empty + b"I\x05d" + whole + bytes([behind]) + b"\x00\x00P\x00"
    yield from (empty + whole[:length] for length in range(len(whole) + 1))
    for byte in range(256):
        yield empty + newer + bytes([byte]) + b")\x00"
        yield empty + newer + bytes([byte]) + b")\x00I\x00\x00"


def repeated(data):
    """A section of the most bytes."""
    return (data * (MOST // len(data) + 1))[:MOST]


def long_flight(rng, definition):
    """A section of the most bytes with frames."""
    section = b""
    while len(section) < MOST:
        section += any_section(rng, definition)
    return section[:MOST]


def largest(rng):
    """Sections of 65,536 bytes; and one until the time is held at its top."""
    one = log(rng, sections.define(((0,), (0,), ()), ((8,), (1,), ()), 0, oracle_frames.NONE), b"")
    bare = log(rng, plain(), b"")
    yield from (one + bytes(MOST), one + b"P" * MOST, one + repeated(bytes.fromhex("50000050ffffffffff")))
    yield from (bare + repeated(letter) for letter in (b"G", b"H", b"I", b"E", b"S", b"PX", b"GP", b"P\x00P\x00\x00", b"I\x80\x80\x80\x80\x80"))
    plainly = [byte for byte in range(256) if byte not in walks.KINDS]
    yield one + bytes(rng.choices(plainly, k=MOST))
    yield one + bytes(rng.choices([*plainly, ord("P")], k=MOST))
    yield one + bytes(rng.choices([*plainly, *b"IPGH"], k=MOST))
    yield one + rng.randbytes(MOST)
    for fields in (0, 1, 6, 20, 62):
        definition = any_definition(rng, (fields,), given=(None,))
        section = long_flight(rng, definition)
        yield log(rng, definition, section)
        for _ in range(20):
            section = damaged(rng, section, kinds=5)
        yield log(rng, definition, dropped(section[:MOST], b"ES"))
    yield from (log(rng, *case) for case in oracle_frames.top_of_time(rng, 1))


def of_the_table(rng):
    return walk_cases.logs()


def padded(size, head=header(main())):
    """H lines of so many bytes: those of a head, with others before."""
    left = size - len(head)
    return ("H " + "x" * (left - 3) + "\n" + head).encode("ascii")


def limits(rng):
    """Logs at the limits of the program walk and beyond."""
    frame, most = b"P\x00", HEADER_MOST
    full = main(*[("a", "0", "0", "9", "9", "0")] * 62)
    for size in (most - 1, most, most + 1, MOST, 100000):
        yield padded(size) + frame
        yield padded(size)
        yield padded(size)[:-1]
        yield padded(size, header(main() | {1: "0,x"})) + frame
        yield padded(size, header(full)) + frame
    for length in (MOST - 1, MOST, MOST + 1, MOST + most):
        yield padded(most) + (frame * length)[:length]
        yield (frame * length)[:length]
    yield padded(most) + b"\x00" * MOST
    yield b"H" * 100000
    yield b"H \n" * 6000 + frame
    yield header(main(("a" * 16000, "0", "0", "0", "0", "0"))).encode("ascii") + b"I\x00\x00\x02"
    yield header(main(*[("a" * 250, "0", "0", "9", "9", "1")] * 62)).encode("ascii") + b"I\x01\x02P\x00"

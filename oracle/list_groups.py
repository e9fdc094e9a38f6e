"""Logs whose lists or header numbers are at stake; vectors/oracle_lists.py makes most of the lists.
Behind accepted lists stands a section of one intra and one inter frame that shows each field's predictors, encodings and sign."""
import itertools

import lists
import oracle_lists
from encoders import seven
from list_cases import field, header, main
from oracle_lists import FIXED, asked

# Values of a header line: None for no line at all.
SINGLE = (None, "0", "1", "1150", "65535", "65536", "70000", "99999999999", "", "x", "+5", "+", "-1", "007", " 5", "5 ", "5\r", "0x10")
DOUBLE = (None, "0,0", "5,2047", "65535,65535", "65536,1", "1,65536", "5", "5,", ",5", "x,1", "1,x", ",", "1,2,3", "+7,+8", "5, 7", "007,1", "")
INTRA = (None, "1", "32", "0", "", "x", "+1", "01", " 1", "1 ", "1\r", "-1", "1/1", "65536", "4294967295", "4294967296", "18446744073709551617")
INTER = (None, "1", "1/1", "1/2", "2/1", "2/2", "2", "0", "0/0", "", "x", "1/", "/1", "+1/+1", "01/1", "1/1/1", " 1", "1/x", "65536", "1/65537", "1/4294967297")
NUMBER_LINES = (("minthrottle", "4", SINGLE), ("vbatref", "9", SINGLE), ("motorOutput", "11", DOUBLE))


def with_section(log, numbers):
    """A log of lists, with lines for header numbers, before a section for its fields."""
    log = log.encode("latin-1")
    try:
        fields, _ = lists.define(log, numbers)
    except lists.Refused:
        return asked(log, numbers, b"I\x00\x00P\x00")
    return asked(log, numbers, oracle_lists.walk(fields, numbers)[0])


def made_by(make):
    """A maker of some logs from a maker of lists."""
    return lambda rng, count: (with_section(*case) for case in make(rng, count))


def main_lists(rng, count):
    """Main lists that pass or nearly, half of them with slow lists that do not vary."""
    for log, numbers in oracle_lists.domain(rng, count):
        yield (log if rng.randrange(2) else log.replace(header(main(), FIXED).removeprefix(header(main())), "")), numbers


def all_of(make):
    """A maker of all logs from a maker of lists that makes a fixed number."""
    return lambda rng: (with_section(*case) for case in make(rng, 0))


def over_64(rng, count):
    return oracle_lists.over_64(rng, 100 * count)


def with_7(rng, count):
    return oracle_lists.with_7(rng, 20 * count)


def slow_lists(rng, count):
    return oracle_lists.slow_lists(rng, 20 * count)


def intervals(rng):
    """Lines of the frame interval: each alone, both, and repeated."""
    def line(name, value):
        return "" if value is None else f"H {name} interval:{value}\n"

    section = b"I\x00\x00P\x00"
    for intra, inter in itertools.product(INTRA, INTER):
        yield f"{line('I', intra)}{header(main())}{line('P', inter)}".encode("ascii") + section
    for first, last in itertools.permutations(("1", "2", "x"), 2):
        for name in "IP":
            yield f"{line(name, first)}{line(name, last)}{header(main())}".encode("ascii") + section


def header_numbers(rng):
    """Lines of a header number: absent, at the ends of 16 bits and beyond, unreadable, repeated, before the lists and behind.
    A field needs it in intra frames, in inter frames, or not at all."""
    section = b"I\x00\x00\x01P\x00\x02"
    for name, predictor, values in NUMBER_LINES:
        for p, q in ((predictor, "0"), ("0", predictor), ("0", "0")):
            text = header(main(field("a", p, q, "0", "0", "1")))
            for first, second in itertools.product(values, repeat=2):
                one, two = ("" if value is None else f"H {name}:{value}\n" for value in (first, second))
                yield (one + text + two).encode("ascii") + section
        both = header(main(field("a", predictor, predictor, "1", "1", "0")))
        for number in (0, 1, 32767, 32768, 65534, 65535):
            value = f"{number},2047" if name == "motorOutput" else number
            for raw in (0, 1, 2**31 - 1, 2**31, 2**32 - 65535, 2**32 - 1):
                yield f"H {name}:{value}\n{both}".encode("ascii") + b"I\x00\x00" + seven(raw) + b"P\x00" + seven(raw)

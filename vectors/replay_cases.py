"""The table of crates/replay: the logs of walk_cases.py, those that stand elsewhere too, lines that many logs go by, and how lines are written.

The answers come from walks.py.
"""
from pathlib import Path

from list_cases import BARE, MOTOR, at_the_end, header, item, slow, without
from lists import unescaped
from walk_cases import SECTION_A, STATES, WALKS, bare, case, fields, walk
from walks import LOG_MOST

HERE = Path(__file__).resolve().parent
RECORDED = HERE / "oracle-walks.txt"
EXAMPLES = HERE.parent / "examples"

# The examples of two flights: which of the lists in crates/cases/specs/Pairs.antt make up their sections.
FLIGHTS = {"older-flight": ("older", "between", "tail"), "newer-flight": ("newer", "tail"), "power-cut": ("cut_off", "between", "tail")}


def example(name):
    return (EXAMPLES / f"{name}.log").read_bytes()


def examples():
    """The logs of examples/, as their files are, but for section A, which document 01 gives."""
    for name in FLIGHTS:
        yield case(name, example(name).decode("latin-1"))


def asked_of_the_rust():
    """Some of the logs that the Rust was asked."""
    lines = [line.split(" = ")[0] for line in RECORDED.read_text("ascii").splitlines() if not line.startswith("#")]
    for k, line in enumerate(lines):
        if k % 9 == 0:
            yield case(f"rust-{k}", unescaped(line).decode("latin-1"))


def differences():
    """Smallest inputs on which the Rust answers otherwise (docs/DIFFERENCES.md), where no other case has just these bytes."""
    lines = header(BARE)
    yield case("line-without-colon", "H x\n" + lines)
    yield case("line-without-space", lines.replace("H Field I name", "HField I name", 1))
    yield case("section-like-a-line", lines + "H:\n")
    yield bare("long-number-in-event", "45 00 80 80 80 80 10")
    yield walk("head-beyond-6-before-i", "50 49 47 00", fields("99", inter_encodings="66"))
    yield bare("h-p-g", "48 50 47")
    yield walk("7-beside-8", "49", fields("0", "7", "4"))


def behind(label, section):
    """A case from a section's hexadecimal digits, whose lists the last line `lists` has."""
    return case(label, bytes.fromhex(section).decode("latin-1"))


def common(numbers, lists, slow_lists=None):
    """A line `lists`."""
    return f"lists {numbers}{at_the_end(header(lists, slow_lists))}"


def common_lists():
    """Lists and header numbers that more than one log has."""
    three, frames = fields("000", "49b", "b49"), "49 05 64 02 04 06 50 00 01 03 05"
    yield common("1150 410 1064", three)
    yield behind("numbers", frames)
    yield behind("numbers-of-an-inter-frame", "50 00 01 03 05")
    yield "numbers-and-no-section"
    yield "numbers-and-a-space "
    yield case("numbers-and-a-list-anew", "H Field P predictor:6,2,0,0,0\n" + bytes.fromhex(frames).decode("latin-1"))
    yield common("- 410 1064", three)
    yield behind("no-throttle", frames)
    yield common("1150 - 1064", three)
    yield behind("no-battery", frames)
    yield common("1150 410 -", three)
    yield behind("no-motor", frames)
    yield common("0 65535 0065535", three)
    yield behind("numbers-at-the-ends", frames)
    yield common("7 8 9", BARE, slow(("s", "4", "1", "0"), ("t", "9", "0", "1"), ("u", "11", "0", "1")))
    yield behind("numbers-of-slow-frames", "53 01 02 01 49 05 64 53 00 00 00")
    wrong = ("", " ", " -", " - -", " - - ", "  - - -", " -  - -", " 65536 - -", " - 70000 -", " - - 99999999999999999999")
    wrong += (" -1 - -", " - + -", " - - x", " - - - \\q")
    yield from (f"lists{words}" for words in wrong)
    yield f"lists - - - {'a' * (LOG_MOST + 1)}"
    yield behind("lists-in-a-label", "53 01 02 01")
    yield "lists 1150 410 1064"
    yield walk("numbers-and-lists-of-its-own", frames, three)
    yield behind("no-lists", frames)
    yield "lists - - -"
    yield walk("no-numbers", frames, three)
    yield common("- - -", BARE) + "I"
    yield behind("section-begun-before", "05 64")
    yield f"lists - - - H {'a' * (LOG_MOST - 9)}\\n"
    yield "lists-and-rest-longest abcdef"
    yield "lists-and-rest-too-long abcdefg"
    yield f"lists - - - {'a' * LOG_MOST}"
    yield "lists-longest"
    yield "lists-longest-and-more a"
    yield "lists - - -"


def settings():
    """The interval, which 9 judges behind all that is found of the lists; a line `lists` leaves it as it is."""
    yield common("- - -", MOTOR)
    for words in ("1 1 1", "32 1 1", "4294967295 1 1", "0 1 1", "1 2 1", "1 1 2", "1 2 2", "1 0 0", "32 1 2"):
        yield f"set interval {words}"
        yield behind(f"interval-{words.replace(' ', '-')}", SECTION_A)
    yield "set interval 01 0001 1 "
    yield behind("interval-and-a-space", SECTION_A)
    yield "set interval 1 1 2"
    yield "lists - - -"
    yield walk("interval-of-other-lists", SECTION_A)
    yield walk("9-behind-8", SECTION_A, fields("0", "4"))
    yield bare("9-behind-slow-8", "49", item(STATES, 1, 1, "5"))
    yield bare("9-behind-slow-1", "49", without(STATES, 5))
    yield case("9-behind-1", "I")
    yield from (f"set{words}" for words in ("", " ", " plain ", "  plain", " Plain", " plain 1"))
    yield from (f"set interval{words}" for words in ("", " 1", " 1 1", "  1 1 1"))
    yield from (f"set interval {words}" for words in ("1 1 1 1", "1 1 1  ", "1 - 1", "1 1 +1", "4294967296 1 1", "1 4294967297 1", "1 1 99999999999999999999"))
    yield from ("set intervals 1 1 1", "set every 1 1 1", "set 1 1 1")
    yield walk("set-in-a-label", SECTION_A)
    yield "set plain"
    yield walk("plain-again", SECTION_A)


def small_matters():
    yield "label-alone"
    yield "one-space "
    yield "two-spaces  H "
    yield "escapes H \\x5c\\\\x5c\\r\\x0d\\n\\x0aI"
    yield "as-it-is H a\xc3\xa9\t"
    yield f"longest H {'a' * (LOG_MOST - 4)}\\x0a\\n"


def no_cases():
    yield from ("", " ", " section-a")
    yield from (f"a H {wrong}" for wrong in ("\\", "\\q", "\\x", "\\x4", "\\xg0", "\\xAB", "\\N", "\\\\\\"))
    yield f"a {'a' * (LOG_MOST + 1)}"


SECTIONS = (
    *WALKS,
    ("Two flights, one behind the other (examples/)", examples),
    ("Smallest inputs on which the Rust answers otherwise (docs/DIFFERENCES.md)", differences),
    ("What the Rust was asked (vectors/oracle-walks.txt)", asked_of_the_rust),
    ("Lists and header numbers of more than one log", common_lists),
    ("Settings of more than one log", settings),
    ("How cases are written", small_matters),
    ("Lines that are no case", no_cases),
)


def table():
    return [line for heading, cases in SECTIONS for line in (f"# {heading}", *cases())]

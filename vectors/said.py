"""What a log's own header lines say beside its lists, and the cases `said` of crates/lists.

Written from these sentences, and not from the code. The last line of each name counts. Header numbers, `H minthrottle:`, `H vbatref:` and
`H motorOutput:` (two numbers parted by a comma, both readable: the first counts; else absent): at most 65535; what cannot be read is absent.
Intervals: `H I interval:` a number; `H P interval:` `N/D`, or `D` alone for 1/D; no P line: 1/1; no I line: 1 where N = D, else 0; what cannot
be read, or is over 32 bits, is 0, and where one of N and D is so, both are. A number is digits behind an optional `+`.
"""
import random
import re

from lists import escaped, unescaped

NAMES = ("minthrottle", "vbatref", "motorOutput", "I interval", "P interval")
THROTTLE, BATTERY, MOTOR, INTRA, INTER = NAMES

# A log that says nothing.
PLAIN = "numbers - - - interval 1 1 1"


def lines_of(log):
    """The lines before the first that does not begin with `H` and a space."""
    return re.match(rb"(?:H [^\n]*(?:\n|\Z))*", log)[0].split(b"\n")


def last(log, name):
    """What stands behind the name in its last line, or None."""
    prefix = b"H %s:" % name.encode("ascii")
    return ([None] + [line.removeprefix(prefix) for line in lines_of(log) if line.startswith(prefix)])[-1]


def header_number(text):
    m = re.fullmatch(rb"\+?([0-9]+)", text or b"")
    return int(m[1]) if m and int(m[1]) <= 65535 else None


def first_of_two(text):
    numbers = [header_number(part) for part in (text or b"").split(b",")]
    return numbers[0] if len(numbers) == 2 and None not in numbers else None


def decimal(text):
    return int(text) if re.fullmatch(rb"\+?[0-9]+", text) and int(text) < 2**32 else None


def inter(text):
    if text is None:
        return 1, 1
    numbers = [decimal(part) for part in text.split(b"/")]
    if None in numbers or len(numbers) > 2:
        return 0, 0
    return numbers[0] if numbers[1:] else 1, numbers[-1]


def intra(text, n, d):
    if text is None:
        return int(n == d)
    return decimal(text) or 0


def answer(log):
    numbers = header_number(last(log, THROTTLE)), header_number(last(log, BATTERY)), first_of_two(last(log, MOTOR))
    n, d = inter(last(log, INTER))
    words = ["numbers", *("-" if number is None else number for number in numbers), "interval", intra(last(log, INTRA), n, d), n, d]
    return " ".join(map(str, words))


def label(line):
    return line.split(" ")[1]


def answered(line):
    """What the program is to print for a case, or None where the line is none."""
    m = re.fullmatch(r"said [^ ]*(?: (.*))?", line, re.DOTALL)
    log = unescaped(m[1] or "") if m else None
    return None if log is None else f"{label(line)} = {answer(log)}"


# The table.


def said(label, *lines, end="\n"):
    """A case of some header lines, each a name and a value; a byte a character."""
    log = "\n".join(f"H {name}:{value}" for name, value in lines) + end
    return of(label, log)


def of(label, log):
    text = escaped(log.encode("latin-1"))
    return f"said {label} {text}" if not text.endswith(" ") else f"said {label} {text[:-1]}\\x20"


# Worked out by hand.
GIVEN = [
    (of("no-lines", ""), PLAIN),
    (
        said("all-five", (THROTTLE, "1150"), (BATTERY, "4095"), (MOTOR, "158,2047"), (INTRA, "32"), (INTER, "1/2")),
        "numbers 1150 4095 158 interval 32 1 2",
    ),
    (said("twice-then-unreadable", (THROTTLE, "1150"), (THROTTLE, "x")), PLAIN),
    (said("unreadable-then-good", (THROTTLE, "x"), (THROTTLE, "1150")), "numbers 1150 - - interval 1 1 1"),
    (said("two-numbers", (MOTOR, "158,2047")), "numbers - - 158 interval 1 1 1"),
    (said("one-number", (MOTOR, "158")), PLAIN),
    (said("no-intra-line", (INTER, "1/2")), "numbers - - - interval 0 1 2"),
    (said("d-alone", (INTRA, "32"), (INTER, "2")), "numbers - - - interval 32 1 2"),
    (said("inter-unreadable", (INTER, "x")), "numbers - - - interval 1 0 0"),
]

NUMBERS = ("", "0", "7", "007", "+7", "+07", "+", "++7", "-7", "-0", "7+", " 7", "7 ", "7\r", "7\t", "\r", "7,8", "7/8", ":7", "7:", "7x", "x7", "1.5", "1e3")
NUMBERS += ("0x7", "\x00", "7\x00", "\xb2", "\xd9\xa3", "65535", "65536", "+65535", "+65536", "00065535", "99999", "131071", "4294967296", "4294967303")
NUMBERS += ("18446744073709551615", "18446744073709551616", "18446744073709551623", "0" * 40 + "7", "9" * 40)

TWO = (",", "7,", ",8", "7,8,", ",7,8", "7,8,9", "7,,8", "7;8", "7.8", "7 8", "7, 8", "7 ,8", "7,8 ", "7,8\r", "+7,+8", "7,-8", "-7,8", "7,x", "x,8")
TWO += ("65535,65535", "65536,0", "0,65536", "0,0", "8,7", "007,08", "7/8", "7,8/9")

WHOLES = ("", "0", "1", "32", "032", "+1", "-1", " 1", "1 ", "1\r", "1/1", "1/", "x", "1.0", "65535", "65536", "4294967295", "4294967296", "4294967297")
WHOLES += ("18446744073709551616", "18446744073709551617", "0" * 40 + "1")

RATIOS = ("", "/", "1/", "/1", "1/1", "1/2", "2/1", "2/2", "0/0", "0/1", "1/0", "1", "2", "0", "1/2/3", "1//2", "/1/2", "1/2/", "01/002", "+1/2", "1/+2", "+2")
RATIOS += (" 1/2", "1/2 ", "1 / 2", "1/2\r", "2\r", "1:2", "1,2", "x", "1/x", "x/2", "4294967295/4294967295", "4294967295", "4294967296", "1/4294967296")
RATIOS += ("4294967296/1", "4294967296/4294967296", "18446744073709551617/1", "1/18446744073709551617", "65536/65537")


def numbers():
    for k, value in enumerate(NUMBERS):
        yield said(f"throttle-{k}", (THROTTLE, value))
    for k, value in enumerate(NUMBERS[:8] + NUMBERS[29:33]):
        yield said(f"battery-{k}", (BATTERY, value))
        yield said(f"motor-{k}", (MOTOR, value))
        yield said(f"motor-first-{k}", (MOTOR, f"{value},1"))
        yield said(f"motor-second-{k}", (MOTOR, f"1,{value}"))
    for k, value in enumerate(TWO):
        yield said(f"two-{k}", (MOTOR, value))


def intervals():
    for k, value in enumerate(WHOLES):
        yield said(f"intra-line-{k}", (INTRA, value))
    for k, value in enumerate(RATIOS):
        yield said(f"inter-{k}", (INTER, value))
    for k, value in enumerate(("1/1", "2/2", "1/2", "x", "0/1", "4294967296")):
        yield said(f"intra-unreadable-{k}", (INTRA, "x"), (INTER, value))
        yield said(f"intra-empty-{k}", (INTER, value), (INTRA, ""))
        yield said(f"both-{k}", (INTRA, "3"), (INTER, value))


def repeated():
    for name, good in zip(NAMES, ("7", "7", "7,8", "7", "7/8")):
        key = name.replace(" ", "-")
        yield said(f"last-{key}", (name, "1"), (name, "1,2"), (name, "1/2"), (name, good))
        yield said(f"last-{key}-unreadable", (name, good), (name, "x"))
        yield said(f"last-{key}-empty", (name, good), (name, ""))
        yield said(f"last-{key}-apart", (name, good), ("Product", "x"), (INTRA, "5"), (name, good.replace("7", "6")))
        yield said(f"last-{key}-cr", (name, good), (name, good + "\r"))
    yield said("crossed", (THROTTLE, "1"), (BATTERY, "2"), (THROTTLE, "3"), (MOTOR, "4,5"), (BATTERY, "x"), (INTER, "1/2"), (MOTOR, "6,7"), (INTER, "3"))


def lines():
    every = "".join(f"H {name}:{value}\n" for name, value in zip(NAMES, ("7", "8", "9,1", "2", "1/3")))
    yield of("every", every)
    yield of("every-without-its-end", every[:-1])
    yield of("every-with-cr", every.replace("\n", "\r\n"))
    yield of("every-with-cr-alone", every.replace("\n", "\r"))
    yield of("behind-a-section", "I\n" + every)
    yield of("behind-a-line-feed", "\n" + every)
    yield of("behind-h", "H\n" + every)
    yield of("behind-hx", "Hx\n" + every)
    yield of("behind-h-space", "H \n" + every)
    yield of("before-a-section", every + "I\x00\n" + every.replace("7", "6"))
    yield of("before-h", every + "H\n" + every.replace("7", "6"))
    yield of("every-no-space", every.replace("H ", "H"))
    yield of("every-two-spaces", every.replace("H ", "H  "))
    yield of("every-small-h", every.replace("H ", "h "))
    yield of("space-before-colon", every.replace(":", " :"))
    yield of("two-colons", every.replace(":", "::"))
    yield of("no-colon", every.replace(":", ""))
    yield of("space-behind-colon", every.replace(":", ": "))
    yield of("other-case", "H minThrottle:7\nH MINTHROTTLE:7\nH vbatRef:8\nH motoroutput:9,1\nH i interval:2\nH p interval:1/3\nH I Interval:4\n")
    yield of("other-names", "H minthrottle1:7\nH xminthrottle:7\nH vbat:8\nH vbatref_:8\nH S interval:2\nH interval:3\nH  I interval:2\nH P  interval:2\n")
    yield of("names-in-values", "H Craft name:H minthrottle:7\nH Board:\rH vbatref:8\n")
    yield of("not-ascii", "H \x80\nH \xff:\n" + every)
    yield of("nothing-behind", "H minthrottle:\nH vbatref:\nH motorOutput:\nH I interval:\nH P interval:")
    yield of("half-a-name", every + "H minthrottle")


def some_value(rng, name):
    """A value that is often good for the name, and often nearly."""
    ends = (0, 1, 9, 65534, 65535, 65536, 2**32 - 1, 2**32, 2**64 - 1, 2**64)

    def number():
        text = str(rng.choice(ends) if rng.random() < 0.2 else rng.randrange(10 ** rng.randrange(1, 5)))
        return rng.choice(("",) * 9 + ("+", "0", "-", " ")) + text + rng.choice(("",) * 20 + ("\r", " ", "x", ",", "/"))

    if rng.random() < 0.1:
        return "".join(rng.choice("0123456789+-/, x\r") for _ in range(rng.randrange(6)))
    parts = rng.choice({MOTOR: (2, 2, 2, 1, 3), INTER: (2, 2, 1, 3)}.get(name, (1, 1, 1, 1, 2)))
    return {MOTOR: ",", INTER: "/"}.get(name, rng.choice(",/")).join(number() for _ in range(parts))


def some(rng, count):
    for k in range(count):
        names = [rng.choice(NAMES) for _ in range(rng.randrange(1, 6))]
        yield said(f"some-{k}", *((name, some_value(rng, name)) for name in names), end=rng.choice(("\n", "\n", "", "\nI\x00", "\nH\n")))


def small_matters():
    yield "said log-missing"
    yield "said log-empty "
    yield "said log-behind-a-space  H minthrottle:7"
    yield f"said longest-text H minthrottle:7\\n{'a' * (2048 - 16)}"


def no_cases():
    yield from ("Said a", "said: a", "saida", " said a", "said a \\q", "said a H minthrottle:7\\", "said a \\x4")
    yield f"said a {'H' * 2049}"


SECTIONS = (
    ("What header lines say, by hand", lambda: [line for line, _ in GIVEN]),
    ("Header numbers from lines", numbers),
    ("Intervals from lines", intervals),
    ("Lines repeated", repeated),
    ("Lines in every form", lines),
    ("Lines at random", lambda: some(random.Random(1), 200)),
    ("How cases of lines are written", small_matters),
    ("Lines that are no case of lines", no_cases),
)


def table():
    return [line for heading, cases in SECTIONS for line in (f"# {heading}", *cases())]

"""The table of crates/lists: lists in every shape that document 01 speaks of. The answers come from lists.py."""
import lists
from lists import TEXT, escaped

# The lines in the order that logs have them.
MAIN_LINES = ((0, "I name"), (5, "I signed"), (1, "I predictor"), (3, "I encoding"), (2, "P predictor"), (4, "P encoding"))
SLOW_LINES = ((0, "S name"), (5, "S signed"), (1, "S predictor"), (3, "S encoding"))

# A round is what lists 0 to 5 say in it.
ITERATION = ("loopIteration", "0", "6", "1", "9", "0")
TIME = ("time", "0", "2", "1", "0", "0")
PLAIN = ("a", "0", "0", "0", "0", "0")

# What document 01 says of some cases, as the answers have it.
DOCUMENT = {
    "session": "main 3 motor 0 fields 8/1/0/0/u ",
    "names-4": "main 3 ",
    "names-5": "refused 6 3",
    "signs-4": "refused 6 3",
    "last-4": "refused 7 3",
    "rounds-64": "main 64 ",
    "rounds-65": "refused 2 65",
}


def field(name="a", p="0", q="0", e="0", f="0", sign="0"):
    return name, p, q, e, f, sign


def main(*fields, first=ITERATION, second=TIME):
    """The six lists of some fields, by their numbers; None stands for an absent one."""
    return dict(enumerate(map(",".join, zip(first, second, *fields))))


def slow(*fields):
    """The four lists of fields of name, predictor, encoding and sign."""
    return dict(zip((0, 1, 3, 5), map(",".join, zip(*fields))))


def header(main_lists, slow_lists=None):
    """The header of a log, a byte a character."""
    lines = [(kind, main_lists[k]) for k, kind in MAIN_LINES]
    if slow_lists:
        lines += [(kind, slow_lists[k]) for k, kind in SLOW_LINES]
    return "".join(f"H Field {kind}:{text}\n" for kind, text in lines if text is not None)


def at_the_end(log):
    """A log behind the words of a case; no line ends with a space."""
    text = escaped(log.encode("latin-1"))
    return " " + text.removesuffix(" ") + "\\x20" * text.endswith(" ") if text else ""


def define(label, log, numbers="- - -", interval="1 1 1"):
    return f"define {label} {numbers} {interval}{at_the_end(log)}"


def of(label, main_lists, slow_lists=None, **words):
    return define(label, header(main_lists, slow_lists), **words)


def word(text):
    """A text as a word of its own: a dash is an empty one."""
    return {"": "-", "-": "\\x2d"}.get(text) or escaped(text.encode("latin-1")).replace(" ", "\\x20")


def name(label, kind, k, main_names, slow_names, log):
    return f"name {label} {kind} {k} {word(main_names)} {word(slow_names)}{at_the_end(log)}"


BARE = main()
THREE = main(PLAIN)
MOTOR = main(field("motor[0]", "8", "1"))
STATE = ("s", "0", "1", "0")
SESSION = "I\x05d\x14P\n\x02P\x00\x01E\xffEnd of log\x00"


def longer(texts, *which, by=",0"):
    """Some of the lists with one item more."""
    return texts | {k: texts[k] + by for k in which}


def shorter(texts, k):
    return texts | {k: texts[k].rpartition(",")[0]}


def without(texts, *which):
    return texts | dict.fromkeys(which)


def item(texts, k, round, text):
    """Another item in a list."""
    items = texts[k].split(",")
    items[round] = text
    return texts | {k: ",".join(items)}


def document():
    yield define("session", header(MOTOR) + SESSION)
    yield of("names-4", longer(MOTOR, 0))
    yield of("names-5", longer(MOTOR, 0, by=",b,c"))
    yield of("signs-4", longer(MOTOR, 5))
    yield of("last-4", longer(MOTOR, 4))
    yield of("rounds-64", main(*[PLAIN] * 62))
    yield of("rounds-65", main(*[PLAIN] * 63))


def limits():
    full = main(*[PLAIN] * 62)
    yield of("names-65", longer(full, 0, by=",b"))
    yield of("all-but-the-last-65", longer(full, 0, 1, 2, 3, 5))
    yield of("65-and-an-unknown-item", item(main(*[PLAIN] * 63), 1, 0, "x"))
    yield of("64-and-an-unknown-item", item(full, 4, 63, "x"))
    yield of("slow-16", BARE, slow(*[STATE] * 16))
    yield of("slow-17", BARE, slow(*[STATE] * 17))
    yield of("slow-17-and-an-unknown-item", BARE, item(slow(*[STATE] * 17), 3, 0, "x"))
    yield of("slow-17-and-an-absent-list", BARE, without(slow(*[STATE] * 17), 3))
    yield of("slow-16-and-signs-17", BARE, longer(slow(*[STATE] * 16), 5))


def lengths():
    for k in range(6):
        yield of(f"list-{k}-longer", longer(THREE, k))
    for k in (0, 1, 4):
        yield of(f"list-{k}-shorter", shorter(THREE, k))
    yield of("0-and-5-longer", longer(THREE, 0, 5))
    yield of("0-5-and-1-longer", longer(THREE, 0, 5, 1))
    yield of("all-but-3-longer", longer(THREE, 0, 5, 1, 2, 4))
    yield of("all-but-4-longer", longer(THREE, 0, 5, 1, 2, 3))
    yield of("6-before-7", longer(THREE, 2, 3))


def absent():
    for k in range(6):
        yield of(f"no-{k}", without(BARE, k))
    for which in ((4, 5), (2, 3, 5), (0, 2), (1, 2, 3, 4, 5)):
        yield of("no-" + "-".join(map(str, which)), without(BARE, *which))
    two = slow(STATE, STATE)
    for k in (0, 1, 3, 5):
        yield of(f"no-slow-{k}", BARE, without(two, k))
    for which in ((3, 5), (1, 3), (0, 5), (1, 3, 5), (0, 3, 5), (0, 1, 5), (0, 1, 3)):
        yield of("no-slow-" + "-".join(map(str, which)), BARE, without(two, *which))
    yield of("no-5-and-no-slow-0", without(BARE, 5), without(two, 0))
    yield of("no-main-list", without(BARE, *range(6)), two)
    yield of("empty-names", BARE | {0: ""})
    yield of("six-empty-lists", dict.fromkeys(range(6), ""))
    yield of("four-empty-slow-lists", BARE, dict.fromkeys((0, 1, 3, 5), ""))


def unknown():
    for k in (1, 2, 3, 4):
        for round in (0, 1, 2):
            yield of(f"list-{k}-round-{round}", item(THREE, k, round, "x"))
    for k, text in enumerate(("00", "+1", " 0", "0 ", "", "12", "-1", "0\r", "110", "\x00", "\xc2\xb2")):
        yield of(f"predictor-{k}", item(THREE, 1, 2, text))
    for k, text in enumerate(("2", "4", "5", "10", "00", "", " 1", "\xef\xbc\x91")):
        yield of(f"encoding-{k}", item(THREE, 3, 2, text))
    yield of("inter-predictor-empty", item(THREE, 2, 2, ""))
    yield of("inter-predictor-12", item(THREE, 2, 2, "12"))
    yield of("inter-encoding-empty", item(THREE, 4, 2, ""))
    yield of("inter-encoding-2", item(THREE, 4, 2, "2"))
    yield of("lists-3-and-2", item(item(THREE, 3, 2, "x"), 2, 2, "x"))
    yield of("rounds-2-and-1", item(item(THREE, 1, 2, "x"), 4, 1, "x"))
    yield of("swallowed", longer(THREE, 0, 5, 1, by=",x"))
    yield of("swallowed-encoding", longer(THREE, 0, 5, 1, 2, 3, by=",x"))
    yield of("left-over", longer(THREE, 1, by=",x"))
    yield of("3-before-6", longer(item(THREE, 4, 2, "x"), 1))
    yield of("all-predictors", main(field("motor[0]"), *(field("a", str(p), str(11 - p)) for p in range(12))), numbers="1 2 3")
    yield of("all-encodings", main(*(field("a", "0", "0", e, f) for e, f in zip("0136789", "9876310"))))


def first_rounds():
    for k, text in enumerate(("loopiteration", "1", "0", "0", "0")):
        yield of(f"iteration-{k}", item(THREE, k, 0, text))
    for k, text in enumerate(("Time", "8", "0", "0", "1")):
        yield of(f"time-{k}", item(THREE, k, 1, text))
    yield of("iteration-with-a-space", BARE | {0: " loopIteration,time"})
    yield of("time-with-a-space", BARE | {0: "loopIteration,time "})
    yield of("both-signed", BARE | {5: "1,1"})
    yield of("bare", BARE)
    yield of("0-unknown-and-wrong", item(BARE, 4, 0, "x") | {0: "x,time"})
    yield of("0-wrong-1-unknown", item(BARE | {0: "x,time"}, 1, 1, "x"))
    yield of("1-unknown-and-wrong", item(BARE | {0: "loopIteration,x"}, 4, 1, "x"))
    yield of("1-wrong-2-unknown", item(item(THREE, 0, 1, "x"), 1, 2, "x"))
    yield of("0-wrong-and-a-length", longer(item(THREE, 0, 0, "x"), 4))
    yield of("1-wrong-and-a-length", longer(item(THREE, 0, 1, "x"), 1))
    one = {k: text.split(",")[0] for k, text in THREE.items()}
    yield of("one-round", one)
    yield of("one-round-wrong", item(one, 0, 0, "x"))
    yield of("one-round-unknown", item(one, 3, 0, "x"))
    yield of("one-round-lists-longer", THREE | {4: "9"})
    yield of("one-round-then-unknown", item(THREE, 1, 1, "x") | {4: "9"})


def needs():
    for p, own in (("4", "0 - -"), ("9", "- 0 -"), ("11", "- - 0")):
        others = own.replace("-", "1").replace("0", "-")
        every = main(field("a", p, p)), slow(("s", p, "0", "0"))
        yield of(f"{p}-intra", main(PLAIN, field("b", p)))
        yield of(f"{p}-inter", main(PLAIN, field("b", "0", p)))
        yield of(f"{p}-slow", THREE, slow(STATE, ("s", p, "0", "0")))
        yield of(f"{p}-and-the-others", *every, numbers=others)
        yield of(f"{p}-and-0", *every, numbers=own)
        yield of(f"{p}-and-65535", *every, numbers=own.replace("0", "65535"))
    yield define("4-and-a-line", header(main(field("a", "4"))) + "H minthrottle:1000\n")
    yield of("by-field", main(PLAIN, field("b", "0", "4"), field("c", "4")))
    yield of("8-behind-7", longer(main(field("a", "4")), 4))
    yield of("8-and-slow-1", main(field("a", "4")), without(slow(STATE), 0))
    yield of("slow-8-behind-6", THREE, longer(slow(("s", "4", "0", "0")), 5))


def motor():
    m = field("motor[0]")
    for kind, by_5 in (("intra", field("b", "5")), ("inter", field("b", "0", "5"))):
        yield of(f"{kind}-no-motor", main(PLAIN, by_5))
        yield of(f"{kind}-before-motor", main(by_5, m))
        yield of(f"{kind}-at-motor", main(PLAIN, ("motor[0]", *by_5[1:])))
        yield of(f"{kind}-behind-motor", main(PLAIN, m, PLAIN, by_5))
    yield of("second-motor", main(m, PLAIN, field("motor[0]", "5", "5"), field("b", "5", "5")))
    yield of("motor-not-first", main(PLAIN, PLAIN, m, m))
    yield of("motor-for-iteration", main(field("a", "5"), first=("motor[0]", *ITERATION[1:])))
    yield of("motor-for-time", main(field("a", "5"), second=("motor[0]", *TIME[1:])))
    yield of("motor-swallowed", longer(main(PLAIN), 0, by=",motor[0]"))
    for k, text in enumerate(("motor[1]", "motor[0] ", "Motor[0]")):
        yield of(f"nearly-motor-{k}", main(field(text), field("b", "5")))
    yield of("slow-5", MOTOR, slow(("motor[0]", "0", "0", "0"), ("s", "5", "0", "0")))


def interval():
    for n, d in ((1, 2), (2, 1), (0, 0), (0, 1), (2, 2), (1, 2**32 - 1)):
        yield of(f"{n}-of-{d}", BARE, interval=f"1 {n} {d}")
    yield of("01-of-001", BARE, interval="0001 01 001")
    for intra in (0, 2, 32, 2**32 - 1):
        yield of(f"intra-{intra}", BARE, interval=f"{intra} 1 1")
    yield of("intra-32-and-1-of-2", BARE, interval="32 1 2")
    yield of("9-behind-8", main(field("a", "4")), interval="1 1 2")
    yield of("9-behind-8-intra", main(field("a", "4")), interval="0 1 1")
    yield of("9-behind-slow-3", BARE, slow(("s", "x", "0", "0")), interval="1 1 2")
    yield of("9-behind-slow-8", BARE, slow(("s", "9", "0", "0")), interval="1 2 2")


def signs():
    blank = ("0", "1", " 0", "0 ", "\t0", "0\t", "\v0\f", "0\r", " \t\r0 \v", "\r\r0", "0\f\f")
    other = ("", " ", "00", "0 0", "-0", "+0", "2", "\x00", "\x080", "0\x0e", "\x1f0", "0\x1c", "\x850", "\xa00", "\xc2\xa00", "0\xe2\x80\x83", "\xe3\x80\x80" + "0")
    yield of("blanks", main(*(field("a", sign=text) for text in blank)))
    yield of("no-blanks", main(*(field("a", sign=text) for text in other)))
    yield of("slow-signs", BARE, slow(*(("s", "0", "1", text) for text in (*blank, *other[:5]))))
    yield of("last-sign-with-cr", BARE | {5: "0,0\r"}, slow(("s", "0", "1", "0\r")))


def slow_lists():
    two = slow(STATE, ("b", "8", "9", "1"))
    yield of("slow", BARE, two)
    for k in (0, 1, 3, 5):
        yield of(f"slow-{k}-longer", BARE, longer(two, k))
    yield of("slow-shorter", BARE, shorter(two, 1))
    yield of("slow-unknown-and-uneven", BARE, longer(item(two, 3, 1, "x"), 0))
    yield of("slow-left-over", BARE, longer(two, 1, by=",x"))
    yield of("slow-3-and-1", BARE, item(item(two, 3, 0, "2"), 1, 0, ""))
    yield of("slow-rounds", BARE, item(item(two, 1, 1, "12"), 3, 0, "x"))
    yield of("slow-not-looked-at", item(BARE, 0, 1, "x"), item(two, 1, 0, "x"))
    yield of("slow-all-encodings", BARE, slow(*(("s", "0", e, "0") for e in "0136789")))
    yield of("slow-all-predictors", BARE, slow(*(("s", str(p), "0", "0") for p in (0, 1, 2, 3, 4, 6, 7, 8, 9, 10, 11))), numbers="7 8 9")


def header_lines():
    bare = header(BARE)
    names = "H Field I name:loopIteration,time\n"
    yield define("empty-log", "")
    yield define("section-alone", "I\x00\x00")
    yield define("line-feed-first", "\n" + bare)
    yield define("h-alone", bare + "H")
    yield define("h-line-feed", bare + "H\n" + names)
    yield define("hx", bare + "Hx\n")
    yield define("h-space", bare + "H ")
    yield define("h-space-line-feed", bare + "H \nI")
    yield define("h-first", "H\n" + bare)
    yield define("small-h", "h" + bare[1:])
    yield define("no-last-line-feed", bare[:-1])
    yield define("no-last-line-feed-cr", bare[:-1] + "\r")
    yield define("cr-line-feed", bare.replace("\n", "\r\n"))
    yield define("cr-behind-names", bare.replace("time\n", "time\r\n"))
    yield define("cr-alone", bare.replace("\n", "\r", 1))
    yield define("behind-the-section", bare.replace(names, "I\n" + names))
    yield define("p-name", bare + "H Field P name:x\nH Field P signed:1\n")
    yield define("only-p-name", bare.replace("I name", "P name"))
    yield define("other-lines", "H Product:a\nH \x80\nH ::\nH P interval:1/2\nH Field I name\n" + bare + "H Field G name:x\nH Field I width:1\n")
    yield define("nearly-names", bare.replace(names, "H  Field I name:a\nH Field I names:a\nH field I name:a\nH Field I name :a\n"))
    yield define("repeated", "H Field I name:x\nH Field P encoding:\n" + bare)
    yield define("repeated-empty", bare + "H Field I name:\n")
    yield define("repeated-unknown", bare + "H Field P predictor:6,x\n")
    yield define("repeated-unlike", bare + "H Field I signed:0\n" + "H Field I signed:1,1\n")
    yield define("repeated-slow", header(BARE, slow(STATE)) + "H Field S name:b,c\n")
    yield define("colons", header(main(field("a:b"), field(":"), field("c:")), slow(("s::", "0", "1", "0"))))
    yield define("commas", bare + "H Field I name:,\n")
    yield define("spaces-behind", bare.replace("9,0\n", "9,0 \n"))
    yield define("a-header-in-a-name", header(main(field("H Field I name:x"))))
    yield define("section-like-a-header", bare + " H Field I name:x\n")


def names():
    yield of("empty-name", main(field(""), field("b"), field("")))
    yield of("strange-names", main(field("\xc3\xa9"), field("\xff\x00"), field('"'), field("\\"), field(" b\t"), field("\r")))
    yield of("slow-names", BARE, slow(("", "0", "1", "0"), ("\xe2\x82\xac", "0", "1", "0")))
    log = header(main(field(""), field("b")))
    both = header(BARE, slow(STATE, ("b", "0", "1", "0")))
    lent = "loopIteration,time,,b"
    for k in (0, 1, 2, 3, 4, 2**64 - 1):
        yield name(f"main-{k}", "main", k, lent, "x,y", log)
    for k in (0, 1, 2):
        yield name(f"slow-{k}", "slow", k, "x,y,z", "s,b", both)
    yield name("no-slow-lists", "slow", 0, "x", "s", log)
    yield name("exchanged-main", "main", 1, "s,b", lent, both)
    yield name("exchanged-slow", "slow", 1, "s,b", lent, both)
    yield name("swallowed-name", "main", 3, "loopIteration,time,a,b", "", header(longer(THREE, 0, by=",b")))
    yield name("lent-shorter", "main", 2, "loopIteration,time", "", log)
    yield name("lent-shorter-last", "main", 1, "loopIteration,time", "", log)
    yield name("lent-empty-0", "main", 0, "", "", log)
    yield name("lent-empty-1", "main", 1, "", "", log)
    yield name("lent-comma", "main", 1, ",", "", log)
    yield name("lent-longer", "main", 3, lent + ",c,d", "", log)
    yield name("lent-others", "main", 2, "\xe9 ,\\,\"\x7f~\",-", "", log)
    yield name("lent-dash", "main", 0, "-", "", log)
    yield name("refused-log", "main", 0, lent, "s", header(without(THREE, 5)))
    yield name("no-log", "main", 0, lent, "s", "")
    yield name("refused-slow", "main", 0, lent, "s", header(BARE, longer(slow(STATE), 5)))


def no_cases():
    yield from ("", "define", "define a", "define a - - - 1", "define a - - - 1 1", "define a - - 1 1 1", "define a  - - 1 1 1", "defined a - - - 1 1 1", " define a - - - 1 1 1")
    yield from ("define a 65536 - - 1 1 1", "define a - 65536 - 1 1 1", "define a - - 65536 1 1 1", "define a - -- - 1 1 1", "define a - - +1 1 1 1")
    yield from ("define a - - - 4294967296 1 1", "define a - - - 1 4294967296 1", "define a - - - 1 1 4294967296")
    yield from ("define a - - - - 1 1", "define a - - - 1 - 1", "define a - - - 1 1 -1", "define a - - - 1 1 1x")
    yield from (f"define a - - - 1 1 1 H {wrong}" for wrong in ("\\", "\\q", "\\x", "\\x4", "\\xg0", "\\x0g", "\\xAB", "\\X41", "\\N", "\\0", "\\x0\\n", "\\\\\\"))
    yield from ("name", "name a", "name a main", "name a main 0", "name a main 0 -", "name a main 0 - ", "name a main 0  - -")
    yield from ("name a Main 0 - -", "name a gps 0 - -", "name a main - - -", f"name a main {2**64} - -", "name a main 0 \\q - ", "name a main 0 - \\x -")
    yield from ("name a main 0 - - \\", "shapes ", "shapes 1", "Shapes", "names a main 0 - -", "? a", "\xc3\xa9")
    yield f"define a - - - 1 1 1 {'a' * (TEXT + 1)}"


def small_matters():
    yield "define  - - - 1 1 1"
    yield "define none - - - 1 1 1"
    yield "define one-space - - - 1 1 1 "
    yield "define two-spaces - - - 1 1 1  H "
    yield "define zeros 00000000000000000000065535 - 000 0001 1 01"
    yield "define as-it-is - - - 1 1 1 H a\xc3\xa9\t"
    yield "define escapes - - - 1 1 1 H \\x5c\\\\x5c\\r\\x0d\\n\\x0aI"
    yield f"define longest - - - 1 1 1 H {'a' * (TEXT - 4)}\\x0a\\n"
    yield "name missing-log main 0 - -"
    yield "name -- main 0 -- --"


SECTIONS = (
    ("What document 01 gives", document),
    ("The limits: 64 rounds, 16 slow ones", limits),
    ("Lengths", lengths),
    ("Absent lists", absent),
    ("Unknown items", unknown),
    ("Rounds 0 and 1", first_rounds),
    ("Header numbers", needs),
    ("Predictor 5 and motor[0]", motor),
    ("The frame interval", interval),
    ("Signs", signs),
    ("Slow lists", slow_lists),
    ("Header lines", header_lines),
    ("Names", names),
    ("Every shape of one to five items (oracle/shapes.txt)", lambda: ["shapes"]),
    ("How cases are written", small_matters),
    ("Lines that are no case", no_cases),
)


def table():
    return [line for heading, cases in SECTIONS for line in (f"# {heading}", *cases())]


def logs():
    """The cases of the table that the Rust can be asked: label, log and header numbers."""
    for line in table():
        case = lists.define_words(line)
        if case and case[2] == lists.PLAIN and case[3]:
            label, numbers, _, log = case
            yield label, log, numbers

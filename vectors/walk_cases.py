"""Logs for every sentence of document 01 about the walk and about the program walk: most of the table of crates/replay.

The answers come from walks.py. rereads.py and oracle/ take these logs too, without their labels.
"""
import walks
from list_cases import BARE, MOTOR, at_the_end, field, header, item, longer, main, shorter, slow, without

END_OF_LOG = "45 ff 45 6e 64 20 6f 66 20 6c 6f 67 00"
SECTION_A = "49 05 64 14 50 0a 02 50 00 01 " + END_OF_LOG

# What document 01 says of some cases, as the answers have it; the counts of trials follow from its rules.
DOCUMENT = {
    "section-a": ["kind at values", "I 0 5 100 1510", "P 4 6 105 1511", "P 7 7 110 1510", "E 10 255", "end done main 3 event 1 slow 0 tried 4 rejected 0"],
    "first-rejected": ["kind at values", "I 5 6 101 1510", "end out of data main 1 event 0 slow 0 tried 2 rejected 1"],
    "p-at-1": ["kind at values", "P 1 1 5 1", "end out of data main 1 event 0 slow 0 tried 1 rejected 0"],
    "p-passed-over": ["kind at values", "end cut main 0 event 0 slow 0 tried 1 rejected 0"],
    "predictor-2": ["kind at values", "I 0 0 0 30 30", "I 5 0 0 10 10", "P 10 1 0 10 -10", "end out of data main 3 event 0 slow 0 tried 3 rejected 0"],
    "predictor-2-top": [
        "kind at values",
        "I 0 0 0 -1",
        "I 4 0 0 2147483647",
        "P 12 1 0 2147483647",
        "end out of data main 3 event 0 slow 0 tried 3 rejected 0",
    ],
    "predictor-3": ["kind at values", "I 0 0 0 0 0", "I 5 0 0 7 -7", "P 10 1 0 3 -3", "end out of data main 3 event 0 slow 0 tried 3 rejected 0"],
    "encoding-6": ["kind at values", "I 0 0 0 1 0 -2", "end out of data main 1 event 0 slow 0 tried 1 rejected 0"],
    "encoding-7": ["kind at values", "I 0 0 0 1 -2 -1", "I 4 0 0 7 -8 -1", "end out of data main 2 event 0 slow 0 tried 2 rejected 0"],
    "encoding-8": ["kind at values", "I 0 0 0 2 4660 0 0", "end out of data main 1 event 0 slow 0 tried 1 rejected 0"],
    "names-4": ["kind at values", "I 0 5 100 1510", "P 4 6 105 1511", "P 7 7 110 1510", "E 10 255", "end done main 3 event 1 slow 0 tried 4 rejected 0"],
    "names-5": ["refused 6 3"],
    "signs-4": ["refused 6 3"],
    "last-4": ["refused 7 3"],
    "rounds-64": ["kind at values", "I 0 5 6" + " 0" * 62, "end out of data main 1 event 0 slow 0 tried 1 rejected 0"],
    "rounds-65": ["refused 2 65"],
    "empty-section": ["kind at values", "end out of data main 0 event 0 slow 0 tried 0 rejected 0"],
    "time-3-and-5-back": ["kind at values", "I 0 0 3", "P 3 1 0", "end out of data main 2 event 0 slow 0 tried 2 rejected 0"],
}


def case(label, log):
    """A case from a log, a byte a character."""
    return label + at_the_end(log)


def walk(label, section, lists=MOTOR, slow_lists=None):
    """A case with the lists before its section."""
    return case(label, header(lists, slow_lists) + bytes.fromhex(section).decode("latin-1"))


def bare(label, section, slow_lists=None):
    """The same with no fields."""
    return walk(label, section, BARE, slow_lists)


def fields(encodings, intra=None, inter=None, signs=None, inter_encodings=None):
    """Lists from a digit a field: encodings, predictors (`a` is 10, `b` is 11), signs; without prediction and signed unless said."""
    zeros = "0" * len(encodings)
    columns = (encodings, intra or zeros, inter or zeros, inter_encodings or encodings, signs or "1" * len(encodings))
    return main(*(field("a", str(int(p, 16)), str(int(q, 16)), e, f, sign) for e, p, q, f, sign in zip(*columns)))


NINES = field("a", "0", "0", "9", "9")
STATES = slow(("s", "0", "1", "0"), ("t", "8", "0", "1"))


def document():
    yield walk("section-a", SECTION_A)
    yield walk("first-rejected", "49 05 64 14 58 49 06 65 14")
    yield walk("p-at-1", "58 50 0a 02")
    yield walk("p-passed-over", "58 50 0a 02 49")
    yield walk("predictor-2", "49 00 00 1e 3c 49 00 00 0a 14 50 00 00 00", fields("10", inter="22", signs="01"))
    yield walk("predictor-2-top", "49 00 00 01 49 00 00 fe ff ff ff 0f 50 00 00", fields("0", inter="2"))
    yield walk("predictor-3", "49 00 00 00 00 49 00 00 07 0d 50 00 00 00", fields("10", inter="33", signs="01"))
    yield walk("encoding-6", "49 00 00 05 02 03", fields("666"))
    yield walk("encoding-7", "49 00 00 1b 49 00 00 47 8f", fields("777"))
    yield walk("encoding-8", "49 00 00 0d 21 23 40", fields("8888"))
    yield walk("names-4", SECTION_A, longer(MOTOR, 0))
    yield walk("names-5", SECTION_A, longer(MOTOR, 0, by=",b,c"))
    yield walk("signs-4", SECTION_A, longer(MOTOR, 5))
    yield walk("last-4", SECTION_A, longer(MOTOR, 4))
    yield walk("rounds-64", "49 05 06", main(*[NINES] * 62))
    yield walk("rounds-65", "49 05 06", main(*[NINES] * 63))
    yield walk("empty-section", "")
    yield bare("time-3-and-5-back", "49 00 03 50 09")


def header_lines():
    lines = header(BARE)
    frame = "I\x05d"
    names = "H Field I name:loopIteration,time\n"
    yield case("empty-log", "")
    yield case("section-alone", frame)
    yield case("cr-line-feed", lines.replace("\n", "\r\n") + frame)
    yield case("cr-behind-signs", lines.replace("signed:0,0\n", "signed:0,0\r\n") + frame)
    yield case("cr-behind-encodings", lines.replace("9,0\n", "9,0\r\n") + frame)
    yield case("cr-alone", lines.replace("\n", "\r", 1) + frame)
    yield case("h-alone", lines + "H")
    yield case("h-line-feed", lines + "H\n" + names + frame)
    yield case("h-then-frame", lines + "H" + frame)
    yield case("h-space", lines + "H ")
    yield case("h-space-frame", lines + "H " + frame)
    yield case("h-space-line-feed", lines + "H \n" + frame)
    yield case("no-last-line-feed", lines[:-1])
    yield case("no-last-line-feed-cr", lines[:-1] + "\r")
    yield case("small-h", lines + "h " + frame)
    yield case("line-feed-first", "\n" + lines + frame)
    yield case("line-feed-behind", lines + "\n" + frame)
    yield case("lines-in-the-section", lines + frame + "\n" + names)
    yield case("repeated", "H Field I name:x\nH Field P encoding:\n" + lines + frame)
    yield case("repeated-empty", lines + "H Field I name:\n" + frame)
    yield case("repeated-unknown", lines + "H Field P predictor:6,x\n" + frame)
    yield case("repeated-signs", header(MOTOR) + "H Field I signed:0,0,1\nI\x05d\xd5\xff\xff\xff\x0f")
    before, after = "H Product:a\nH \nH ::\nH Field I name\nH P interval:1/2\n", "H Field P name:x\nH Field P signed:1\nH Field G name:x\n"
    yield case("other-lines", before + lines + after + frame)
    yield case("nearly-names", lines.replace(names, "H  Field I name:a\nH field I name:a\nH Field I name :a\n") + frame)
    yield case("colons", header(main(field("a:b"))) + "I\x05d\x02")
    yield case("number-lines", "H minthrottle:1000\n" + header(main(field("a", "4"))) + frame)
    yield case("interval-line", lines + "H P interval:1/2\n" + frame)


def refusals():
    """Each refusal that the program can print, of main lists and of slow ones; the section is not looked at."""
    yield bare("no-slow-lists", "53 00 49 05 64", without(STATES, 0, 1, 3, 5))
    yield walk("1-main", "49", without(BARE, 4, 2))
    yield bare("1-slow", "49", without(STATES, 5, 3))
    yield bare("2-slow", "53", slow(*[("s", "0", "9", "0")] * 17))
    yield bare("16-slow", "53", slow(*[("s", "0", "9", "0")] * 16))
    yield walk("3-main", "49", item(MOTOR, 3, 2, "2"))
    yield bare("3-slow", "49", item(STATES, 1, 1, "12"))
    yield walk("4-wrong", "49", item(MOTOR, 2, 0, "0"))
    yield walk("5-wrong", "49", item(MOTOR, 0, 1, "Time"))
    yield walk("5-none", "49", {k: text.split(",")[0] for k, text in MOTOR.items()})
    yield walk("6-main", "49", longer(MOTOR, 1))
    yield walk("6-but-swallowed", "49 05 64", shorter(MOTOR, 4))
    yield bare("6-slow", "49", longer(STATES, 0))
    yield walk("7-main", "49", longer(MOTOR, 2))
    for predictor in "49b5":
        yield walk(f"8-{int(predictor, 16)}", "49", fields("00", "0" + predictor))
    yield walk("8-inter", "49", fields("000", "004", "040"))
    yield bare("8-slow", "49", item(STATES, 1, 1, "5"))
    yield walk("8-before-slow-1", "49", fields("0", "4"), without(STATES, 0))


def kinds():
    """A byte of each kind, and bytes of none."""
    for letter, frame in (("g", "47"), ("h", "48"), ("s", "53")):
        yield bare(f"{letter}-only", frame)
        yield bare(f"{letter}-then-p", f"{frame} 50 02")
        yield bare(f"{letter}-then-p-and-i", f"{frame} 50 02 49 05 64")
    yield bare("g-g-g", "47 47 47")
    yield bare("every-letter-in-turn", "47 48 53 45 49 05 64 50 02")
    yield bare("i-alone", "49")
    yield bare("p-alone", "50")
    yield bare("e-alone", "45")
    yield bare("small-letters", "65 69 70 67 68 73")
    yield bare("high-bits", "c5 c9 d0 c7 c8 d3")
    yield bare("neighbours", "44 46 4a 4f 51 52 54 40")
    yield bare("no-byte-but-zeros", "00 00 00 00")


def followers():
    """What may stand behind a frame: one of the six bytes, or the end."""
    yield bare("every-kind-behind", "49 05 64 47 49 06 65 48 49 07 66 53 49 08 67 50 02 49 09 68 49 0a 69 45")
    yield bare("no-kind-behind", "49 05 64 00 49 06 65 44 49 07 66 58 49 08 67 69 49 09 68 c9 49 0a 69 ff")
    yield bare("no-kind-behind-p", "50 02 00")
    yield bare("no-kind-behind-an-event", "45 0f 04 58 45 0f 05 51")
    yield walk("end-behind", "50 0a 02")
    yield walk("a-field-as-a-kind", "50 0a 49 50 0a 50")


def searches():
    yield bare("to-e", "58 50 02 50 02 45 0f 05")
    yield bare("to-i", "58 50 02 50 02 49 05 64")
    yield bare("to-g", "58 50 02 47")
    yield bare("to-h", "58 50 02 48")
    yield bare("to-s", "58 50 02 53")
    yield bare("to-the-nearest", "58 00 47 49 05 64")
    yield bare("nothing-left", "58 59 50 02 50 04")
    yield bare("nothing-left-and-cut", "58 59 50")
    yield bare("nothing-left-behind-p", "50 02 58 50 04 58 50 06")
    yield bare("rejected-then-p", "50 02 58 00 50 04")
    yield bare("rejected-then-p-and-g", "50 02 58 00 50 04 47")
    yield bare("rejected-then-p-and-g-and-p", "50 02 58 00 50 04 47 00 50 06")
    yield bare("last-byte-no-kind", "50 02 49 05 64 58")
    yield bare("letter-behind-letter", "58 47 48 49 05 64")
    yield bare("i-behind-the-search", "00 00 00 49 05 64 50 02 50 02")


def resumed():
    """A rejected trial is resumed behind its first byte, not where decoding stopped."""
    yield bare("letter-in-the-frame", "49 49 05 58")
    yield bare("letter-in-the-number", "49 05 49 58 64")
    yield bare("two-letters-in-the-frame", "49 49 49 58 64")
    yield bare("i-in-i-in-i", "49 49 49 49 49 49 58")
    yield bare("p-in-the-frame", "49 50 02 58")
    yield bare("p-in-the-frame-and-g-behind", "49 50 02 58 47")
    yield bare("e-in-p", "50 45 00 05")
    yield bare("g-in-p", "50 47 58 50 02")
    yield bare("letter-in-a-long-number", "49 80 80 49 80 10 64")
    yield bare("corrupt-at-a-letter", "49 ff ff ff ff 49 05 64")
    yield bare("corrupt-at-e", "50 ff ff ff ff 45 00 05")
    yield bare("rejected-to-the-end", "49 05 64 58 49 05 64 58 49 05 64 58")
    yield walk("field-in-the-frame", "49 05 64 49 58 49 06 65 14")


def events():
    for number, digits in (("0", "00 05"), ("14", "0e 05 64"), ("15", "0f 04"), ("30", "1e 05 03"), ("255", END_OF_LOG[3:])):
        yield bare(f"event-{number}-then-p", f"49 05 64 45 {digits} 50 02")
        yield bare(f"event-{number}-then-junk", f"45 {digits} 58 50 02")
        yield bare(f"event-{number}-cut", f"45 {digits}"[:-3])
    yield bare("every-event", f"45 00 05 45 0e 05 64 45 0f 04 45 1e 05 03 {END_OF_LOG}")
    yield bare("no-events", "45 01 45 0a 45 0c 45 10 45 1d 45 1f 45 7f 45 fe")
    yield bare("event-13", "45 0d 00 00 45 0d")
    yield bare("event-40", "45 28 00 45 28")
    yield bare("event-0-largest", "45 00 ff ff ff ff 0f")
    yield bare("event-14-largest", "45 0e ff ff ff ff 0f fe ff ff ff 0f")
    yield bare("event-0-too-large", "45 00 ff ff ff ff 10 50 02")
    yield bare("event-14-second-too-large", "45 0e 05 80 80 80 80 10")
    yield bare("event-30-in-the-second", "45 1e 05 80 80")
    yield bare("event-30-five-bytes-with-bit-7", "45 1e 05 80 80 80 80 80")
    yield bare("event-15-padded", "45 0f 84 80 80 80 00")
    yield bare("event-a-letter", "45 49 05 64")
    yield bare("event-e", "45 45 00 05")
    yield bare("event-in-the-history", "49 05 64 50 02 45 0f 04 50 02")


def closing():
    whole = END_OF_LOG
    yield bare("done-with-bytes-behind", f"{whole} 49 05 64 50 02 58")
    yield bare("done-twice", f"{whole} {whole}")
    yield bare("done-and-half-a-frame", f"49 05 64 {whole} 49 05")
    yield bare("done-behind-a-rejection", f"49 05 64 58 {whole}")
    yield bare("done-then-no-kind", f"{whole} 00 49 05 64")
    yield bare("done-then-no-kind-then-done", f"{whole} 00 {whole}")
    yield bare("closing-one", f"{whole[:-2]}01")
    yield bare("closing-line-feed", f"{whole[:-2]}0a 49 05 64")
    yield bare("closing-small", f"45 ff 65 {whole[9:]}")
    yield bare("closing-large", f"{whole[:27]}4c {whole[30:]}")
    yield bare("closing-reason", f"{whole[:-2]}20 28 64 69 73 61 72 6d 20 72 65 61 73 6f 6e 3a 34 29 00")
    yield bare("closing-first-letter", "45 ff 45")
    yield bare("closing-type-alone", "45 ff")
    yield bare("closing-another-letter", "45 ff 49")
    yield bare("closing-another-letter-and-more", "45 ff 49 05 64 50 02")
    yield bare("closing-letter-too-early", "45 ff 45 6e 49")
    yield bare("closing-a-kind-in-the-text", "45 ff 45 00 05")
    yield bare("closing-p-in-the-text", "45 ff 50 02")


def faults():
    """Cut and corrupt: the fault met first decides, and bytes are asked for one at a time."""
    six = fields("66")
    yield walk("head-beyond-6", "50 00 05", six)
    yield walk("head-beyond-6-with-numbers", "50 00 07 02 02 50 00 00", six)
    yield walk("head-of-6-cut", "50 00 03 02", six)
    yield walk("head-of-6-missing", "50 00", six)
    yield walk("head-of-6-numbers-with-letters", "50 00 ff 49 00 00 00", six)
    yield bare("fifth-byte-16", "50 80 80 80 80 10")
    yield bare("fifth-byte-15", "50 80 80 80 80 0f")
    yield bare("fifth-byte-128", "50 80 80 80 80 80")
    yield bare("fifth-byte-missing", "50 80 80 80 80")
    yield bare("cut-in-the-iteration", "49 80")
    yield bare("cut-in-the-time", "49 05 80")
    yield bare("cut-behind-frames", "49 05 64 50 02 50")
    yield bare("cut-behind-a-rejection", "49 05 64 58 49 05")
    yield bare("corrupt-iteration-then-the-end", "49 ff ff ff ff 7f")
    yield bare("corrupt-time-in-i", "49 05 ff ff ff ff 10 49 06 65")
    yield walk("corrupt-then-cut", "50 00 80 80 80 80 10", fields("00"))
    yield walk("cut-before-the-head", "50 00 02", fields("06666"))
    yield walk("cut-in-a-field", "49 05 64")
    yield walk("cut-in-the-dropped-7", "49 05 64 c0 01 02", fields("7"))
    yield walk("whole-dropped-7", "49 05 64 c0 01 02 03", fields("7"))
    yield walk("cut-in-the-dropped-8", "49 05 64 fd 71 02 03", fields("8"))
    yield walk("short-8", "49 05 64 01 50 49 06 65 00", fields("8"))
    yield walk("nine-of-6", "49 05 64 00 03 49 06 65 80 02 01", fields("666666666"))
    yield walk("encoding-3", "49 05 64 01 49 05 64 80 40 49 05 64 80 80 01", fields("3"))


def slow_frames():
    yield bare("slow", "53 05 02", STATES)
    yield bare("slow-signs", "53 ff ff ff ff 0f ff ff ff ff 0f 53 80 80 80 80 08 ba 17", STATES)
    yield bare("slow-unsigned", "53 ff ff ff ff 0f 01", slow(("s", "0", "1", " 0\t"), ("t", "0", "0", "0")))
    yield bare("slow-negative", "53 ff ff ff ff 0f 01", slow(("s", "0", "1", "1"), ("t", "0", "0", "")))
    yield bare("slow-cut", "53 05", STATES)
    yield bare("slow-alone", "53", STATES)
    yield bare("slow-corrupt", "53 80 80 80 80 10 02 53 05 02", STATES)
    yield bare("slow-then-junk", "53 05 02 58 53 06 04", STATES)
    yield bare("slow-no-bytes", "53 53 53", slow(("s", "8", "9", "0")))
    yield bare("slow-no-bytes-then-junk", "53 58 53", slow(("s", "8", "9", "0")))
    yield bare("slow-groups", "53 05 02 03 1b 0d 21 23 40", slow(*(("s", "0", e, "1") for e in "6667778888")))
    yield bare("slow-short-group", "53 80 3f 3f", slow(("s", "0", "7", "1")))
    yield bare("slow-no-history", "53 05 05 05 05 05 53 05 05 05 05 05", slow(*(("s", p, "1", "0") for p in "12368")))
    yield bare("slow-in-the-history", "49 05 64 50 02 53 05 02 50 02", STATES)
    yield bare("slow-and-all-kinds", f"49 05 64 53 05 02 50 02 45 0f 04 47 48 53 06 04 {END_OF_LOG}", STATES)
    yield walk("slow-beside-fields", "49 05 64 14 53 05 02 50 0a 02", MOTOR, STATES)


def histories():
    every = "1236"
    both = fields("0000", inter=every)
    yield walk("no-history", "50 0a 02 02 02 02", both)
    yield walk("no-history-i", "49 05 64 02 02 02 02", fields("0000", every))
    yield walk("one-frame", "49 05 64 14 14 14 14 50 0a 02 02 02 02", both)
    yield walk("older-behind-an-intra-frame", "49 05 64 14 14 14 14 49 06 6e 1e 1e 1e 1e 50 0a 00 00 00 00", both)
    yield walk("older-behind-an-inter-frame", "49 05 64 14 14 14 14 50 0a 02 02 02 02 50 00 00 00 00 00 50 00 00 00 00 00", both)
    yield walk("intra-behind-two", "49 05 64 02 02 02 02 49 06 65 04 04 04 04 49 07 66 00 00 00 00", fields("0000", every))
    yield walk("intra-behind-inter", "49 05 64 02 02 02 02 50 02 04 04 04 04 49 07 66 00 00 00 00", fields("0000", every, every))
    yield walk("unsigned-history", "49 05 64 1e 1e 07 49 06 65 0a 0a 00 50 02 00 00 00", fields("111", inter="123", signs="000"))
    yield bare("time-behind-i", "49 05 64 49 06 6e 50 00 50 00 50 00")
    yield bare("time-line", "49 05 64 50 14 50 00 50 03 50 00")
    yield bare("time-line-under-0", "49 05 0a 50 0f 50 00 50 00")
    yield bare("time-held-at-0", "49 05 02 50 ff ff ff ff 0f 50 02")
    yield bare("time-over-32-bits", "49 05 ff ff ff ff 0f 50 fe ff ff ff 0f 50 00")
    yield bare("time-first-p", "50 0a 50 00 50 00")
    yield bare("iteration-wraps", "49 ff ff ff ff 0f 00 50 00 50 00")
    yield bare("iteration-largest", "49 fe ff ff ff 0f 00 50 00")
    yield bare("iteration-falls", "49 05 64 50 02 49 03 64 50 02")
    yield walk("rejection-keeps-the-history", "49 05 64 14 50 0a 02 58 50 0a 02")
    yield walk("rejections-keep-the-history", "49 05 64 14 50 0a 02 58 47 53 00 45 01 49 80 80 80 80 10 50 0a 02 50 0a 02")
    yield walk("rejected-i-keeps-the-history", "49 05 64 14 50 0a 02 49 63 63 63 58 50 0a 02 50 00 00")
    yield walk("cut-behind-a-history", "49 05 64 14 50 0a 02 50 0a")
    yield walk("motor-0", "49 05 64 14 02 04 50 00 02 02 02", main(field("a"), field("motor[0]", "8", "1"), field("b", "5", "5")))
    yield walk("second-motor-0", "49 05 64 0a 14 02", main(field("motor[0]"), field("motor[0]", "5"), field("b", "5")))
    yield walk("every-predictor", "49 05 64 02 02 02 02 02 02 02 02 50 02 02 02 02 02 02 02 02 02", fields("00000000", "0123678a", "a8763210"))
    yield walk("sums-wrap", "49 05 64 ff ff ff ff 0f ff ff ff ff 0f 50 00 01 ff ff ff ff 0f", fields("10", inter="11", signs="01"))


def printing():
    most = "ff ff ff ff 0f"
    yield bare("no-fields", "49 05 64")
    yield walk("fields-by-sign", f"49 05 64 {most} {most} {most} {most}", fields("1111", signs="0123"))
    signs = ("0", " 0", "0 ", "\t0", "", "00", "0 0")
    yield walk("sign-items", f"49 05 64 {' '.join([most] * 7)}", main(*(field("a", "0", "0", "1", "1", sign) for sign in signs)))
    yield walk("sign-not-by-encoding", "49 05 64 01 01", fields("00", signs="01"))
    yield walk("sign-ends", "49 05 64 80 80 80 80 08 ff ff ff ff 07 80 80 80 80 08 ff ff ff ff 07", fields("1111", signs="1100"))
    yield walk("iteration-and-time-signed", f"49 {most} {most} 50 00", BARE | {5: "1,1"})
    many = main(*(field("a", "0", "1", "1", "9", str(k % 2)) for k in range(62)))
    yield walk("62-fields", "49 05 64 " + " ".join(f"{k:02x}" for k in range(1, 63)) + " 50 02", many)


def counts():
    yield bare("main-event-slow", f"49 05 64 45 0f 04 53 05 02 50 02 {END_OF_LOG}", STATES)
    yield bare("trials-as-many-as-bytes", "47 53 48 45 47 45 48")
    yield bare("cut-is-tried-and-not-rejected", "47 47 49 05")
    yield bare("passed-over-is-not-tried", "00 50 50 50 47")
    yield bare("tail-of-another-flight", f"49 05 64 50 02 {END_OF_LOG} 50 02 49 63 63 50 02")
    yield bare("tail-with-no-end-before", f"49 05 64 50 02 0a 02 50 02 49 63 63 50 02 {END_OF_LOG}")


WALKS = (
    ("What document 01 gives", document),
    ("Header lines", header_lines),
    ("Refusals", refusals),
    ("Kinds", kinds),
    ("Behind a frame", followers),
    ("Searches", searches),
    ("Rejected trials are resumed behind their first byte", resumed),
    ("Events", events),
    ("The closing text", closing),
    ("Cut and corrupt", faults),
    ("Slow frames", slow_frames),
    ("Histories", histories),
    ("Fields by their signs", printing),
    ("Counts", counts),
)


def logs():
    """The logs alone."""
    for _, cases in WALKS:
        for line in cases():
            _, log = walks.words(line)
            yield log

#!/usr/bin/env python3
"""Writes the tables of crates/numbers, crates/lists, crates/frames and crates/replay and the log of crates/reread, the stdin and the stdout of each.

make.py            write the files
make.py --check    compare them with what would be written, and the answers recorded from the Rust with those here
"""
import re
import sys
from pathlib import Path

sys.dont_write_bytecode = True

import decoders
import frame_cases
import frames
import list_cases
import lists
import number_cases
import replay_cases
import rereads
import said
import sections
import walk_cases
import walks
from encoders import ROOM

HERE = Path(__file__).resolve().parent
TOP = HERE.parent
CRATES = TOP / "crates"
SHAPES = TOP / "oracle" / "shapes.txt"
RECORDED_WALKS = TOP / "oracle" / "recorded.in", TOP / "oracle" / "recorded.out"
RECORDED_LISTS = HERE / "oracle-lists.txt"


def hold_to_document(pairs, answered):
    """Holds cases to what document 01 says of them."""
    for line, said in pairs:
        if answered(line).partition(" = ")[2] != said:
            sys.exit(f"make.py: document 01 says {said}, here it is {answered(line)}")


def labels_of(lines, answered, others):
    """The labels of cases, their second words; others tells the lines that have none."""
    return [line.split(" ")[1] for line in lines if answered(line)[0] not in "#?" and not line.startswith(others)]


def hold_labels(crate, labels):
    """No two cases have one label."""
    if len(labels) != len(set(labels)):
        sys.exit(f"make.py: two cases of crates/{crate} have one label")


def numbers_table():
    hold_to_document(number_cases.DOCUMENT, decoders.answered)
    return number_cases.table()


def list_answered(line):
    return said.answered(line) or lists.answered(line)


def lists_table():
    lines = list_cases.table()
    hold_labels("lists", labels_of(lines, lists.answered, "shapes") + [said.label(line) for line in said.table() if said.answered(line)])
    for line in lines:
        label, _, answer = lists.answered(line).partition(" = ")
        if list_cases.DOCUMENT.get(label, "") not in answer:
            sys.exit(f"make.py: document 01 says {list_cases.DOCUMENT[label]}, lists.py says {answer}")
    if lists.shapes() != SHAPES.read_text("ascii").removesuffix("\n"):
        sys.exit("make.py: the shapes of lists.py are not those of oracle/shapes.txt")
    return lines + said_table()


def said_table():
    for line, answer in said.GIVEN:
        if said.answered(line).partition(" = ")[2] != answer:
            sys.exit(f"make.py: of {line} it is given {answer}, said.py says {said.answered(line)}")
    return said.table()


def frames_table():
    lines = frame_cases.table()
    hold_labels("frames", labels_of(lines, frames.answered, "predict"))
    hold_to_document(frame_cases.DOCUMENT, frames.answered)
    return lines


def walks_table():
    lines = replay_cases.table()
    answers = list(walks.answers(lines))
    hold_labels("replay", [answer[0] for answer in answers if answer and answer[0].startswith("= ")])
    for label, said in walk_cases.DOCUMENT.items():
        if [f"= {label}", *said] not in answers:
            sys.exit(f"make.py: of {label} document 01 says {said}, walks.py says otherwise")
    return lines


def hold_pairs():
    """The bytes of crates/cases/specs/Pairs.antt are those of the logs in examples/."""
    text = (CRATES / "cases" / "specs" / "Pairs.antt").read_text("utf-8")

    def bytes_of(name):
        body = re.search(rf"^{name} =\s(.*?)\n\n", text, re.M | re.S)[1]
        parts = re.findall(r'0x(..)|ascii "(.*?)"|^(\w+) \+\+', body)
        return b"".join(bytes.fromhex(byte) or word.encode("ascii") or bytes_of(other) for byte, word, other in parts)

    lines = replay_cases.example("section-a").removesuffix(bytes.fromhex(walk_cases.SECTION_A))
    for name, parts in replay_cases.FLIGHTS.items():
        if replay_cases.example(name) != lines + b"".join(map(bytes_of, parts)):
            sys.exit(f"make.py: examples/{name}.log is not the section that crates/cases/specs/Pairs.antt is about")


def files(crate, lines, printed, room=ROOM):
    """The two files of a program, a byte a character: its cases and its answers."""
    made = {CRATES / crate / "stdin": ended(lines), CRATES / crate / "stdout": ended(printed)}
    if len(made[CRATES / crate / "stdin"]) > room:
        sys.exit(f"make.py: the program {crate} has no room for its table")
    return made


def ended(lines):
    return "".join(line + "\n" for line in lines)


def recorded_walks():
    """The lines of replay that are recorded with the Rust's answers, and the lines that it is to print of them; none where there is no record."""
    if not all(path.exists() for path in RECORDED_WALKS):
        return [], []
    return [path.read_bytes().decode("latin-1").removesuffix("\n").split("\n") for path in RECORDED_WALKS]


def replay_files(lines):
    """The table of replay, and behind it what is recorded, to which no line `lists` and no line `set` of the table may reach."""
    asked, said = recorded_walks()
    printed = [line for answer in walks.answers(lines) for line in answer]
    return files("replay", [*lines, "lists - - -", "set plain", *asked], printed + said, walks.INPUT_MOST)


def hold_walks():
    """Holds walks.py to the recorded walks, and counts them."""
    asked, said = recorded_walks()
    at = counted = 0
    for line, answer in zip(asked, walks.answers(asked)):
        if said[at : at + len(answer)] != answer:
            sys.exit(f"make.py: for {line} recorded.out has {said[at : at + len(answer)]}, walks.py says {answer}")
        at += len(answer)
        counted += bool(answer) and answer[0].startswith("= ")
    if at != len(said):
        sys.exit("make.py: recorded.out goes on where recorded.in has ended")
    return counted


def reread_files():
    """The log of the program reread, and what it prints of it."""
    log = rereads.stored()
    return {CRATES / "reread" / "stdin": log.decode("latin-1"), CRATES / "reread" / "stdout": "".join(line + "\n" for line in rereads.printed(log))}


def answers_of(path):
    """The Rust's recorded answers: what was asked, the answer, and whether it is known to differ here."""
    differs = False
    for line in path.read_text("utf-8").splitlines():
        if line.startswith("#"):
            differs = line.startswith("# Different")
        else:
            yield *line.split(" = "), differs


def replay():
    """Holds what is here to the Rust's recorded answers: equal in the domain of equality, different where it was recorded so."""
    rows = [(asked, rust, decoders.trial(*number_cases.parsed(asked)), differs) for asked, rust, differs in answers_of(number_cases.RECORDED)]
    verdicts = {label: lists.rust_verdict(log, numbers) for label, log, numbers in list_cases.logs()}
    answers = list(answers_of(RECORDED_LISTS))
    if {label for label, _, _ in answers} != set(verdicts):
        sys.exit(f"make.py: {RECORDED_LISTS.name} is not about the table's logs; oracle_lists.py records it anew")
    rows += [(label, rust, verdicts[label], differs) for label, rust, differs in answers]
    rows += [(asked, rust, sections.answer(*sections.parsed(asked)), differs) for asked, rust, differs in answers_of(frame_cases.RECORDED)]
    rows += [(asked, rust, ", ".join(walks.printed(lists.unescaped(asked))), differs) for asked, rust, differs in answers_of(replay_cases.RECORDED)]
    counts = [0, 0]
    for asked, rust, here, differs in rows:
        if (here != rust) != differs:
            sys.exit(f"make.py: for {asked} the Rust says {rust}, here it is {here}")
        counts[differs] += 1
    return counts


def main():
    number_lines, list_lines, frame_lines, walk_lines = numbers_table(), lists_table(), frames_table(), walks_table()
    made = files("numbers", number_lines, map(decoders.answered, number_lines)) | files("lists", list_lines, map(list_answered, list_lines), lists.INPUT_MOST)
    made |= files("frames", frame_lines, map(frames.answered, frame_lines)) | replay_files(walk_lines) | reread_files()
    counted = f"{count(number_lines)} vectors of numbers, {count(list_lines)} of lists, {count(frame_lines)} of frames and {count(walk_lines)} of walks"
    if sys.argv[1:] == ["--check"]:
        for path, text in made.items():
            if not path.exists() or path.read_bytes() != text.encode("latin-1"):
                sys.exit(f"make.py: {path.relative_to(TOP)} is not what make.py writes")
        hold_pairs()
        equal, different = replay()
        print(f"make.py: {counted} as stored; of the Rust's answers {equal} equal, {different} different as recorded; {hold_walks()} recorded walks equal")
    elif not sys.argv[1:]:
        for path, text in made.items():
            path.parent.mkdir(exist_ok=True)
            path.write_bytes(text.encode("latin-1"))
        print(f"make.py: {counted} written")
    else:
        sys.exit(__doc__)


def count(lines):
    return sum(not line.startswith(("#", "lists ", "set ")) for line in lines)


if __name__ == "__main__":
    main()

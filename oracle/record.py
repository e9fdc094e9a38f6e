"""Writes recorded.in and recorded.out: logs that cover every rule, with the Rust's own answers, for crates/replay.
Where the Rust's answer differs, or where its words do not tell a refusal's number, a heading before the case has its answer, and recorded.out ours."""
import collections
import itertools
import random
import re
import sys
from pathlib import Path
from typing import NamedTuple

import domain
import groups
import judge
import lists
import programs
import record_cases
import reference
from list_cases import at_the_end

HERE = Path(__file__).resolve().parent

# The longest section, and the longest log, which is what crates/replay has room for. Long lists are for those that are refused by 2.
SECTION_MOST = 160
LINES_MOST = 250
REFUSED_MOST = 1200
LOG_MOST = lists.TEXT

# Logs of a group's first parts: in the domain, more of those that are enumerated; of each refusal; in each class outside it that agree; and that differ, of each kind.
PARTS = 4
TAKEN = {"enumerated": 110, "random": 16, "refused": 2, "equal": 8, "different": 3}

# Groups that the chapters, or the table of crates/replay itself, have already.
ELSEWHERE = ("every pair of edges, predictors 2 and 3", "the logs of the table of walks")

# Refusals whose number the Rust's words do not tell: 6 to 8 of one kind of frame are alike to it, and it has no 2.
UNTOLD = (2, 6, 7, 8)


class Entry(NamedTuple):
    """Header numbers, H lines without those numbers, a section, and what the Rust is told."""

    numbers: tuple
    lines: bytes
    section: bytes
    flags: tuple

    def number_lines(self):
        forms = (b"H minthrottle:%d\n", b"H vbatref:%d\n", b"H motorOutput:%d,2047\n")
        return b"".join(form % number for form, number in zip(forms, self.numbers) if number is not None)

    def log(self):
        return self.number_lines() + self.lines + self.section


class Answered(NamedTuple):
    """An entry, its row in the comparison, what the Rust and the reference say, and the kind of difference, if any."""

    entry: Entry
    row: str
    rust: str
    here: str
    kind: str | None


def entry_of(log, flags):
    """A log of the comparison, its header numbers taken out of the lines; None where the list cannot have it."""
    lines, section = reference.split(log)
    kept = [line for line in reference.lines_in(lines) if line[2:].partition(b":")[0] not in reference.NUMBER_LINES]
    entry = Entry(reference.lists_of(lines).numbers, b"".join(kept), section, flags)
    refused = reference.lists_of(lines).refused
    fits = len(section) <= SECTION_MOST and len(entry.log()) <= LOG_MOST and (len(lines) <= LINES_MOST or refused and refused.number == 2 and len(lines) <= REFUSED_MOST)
    # The program takes header numbers from the list and an interval of 1, 1/1, so lines that say otherwise mean something else there.
    plain = not domain.unreadable(lines) and not any(name in reference.lists_of(lines).values for name in reference.INTERVAL_LINES)
    return entry if fits and plain else None


def answered(entries):
    """What the Rust says of entries; the library has to say what the reference does."""
    made = []
    for flags, some in itertools.groupby(entries, key=lambda entry: entry.flags):
        some = list(some)
        logs = [entry.log() for entry in some]
        for entry, log, rust, library in zip(some, logs, programs.answers(programs.rust(flags), logs), programs.answers(programs.driver(), logs)):
            lines, section = reference.split(log)
            verdict = judge.judge(lines, section, flags, rust, library)
            here = reference.answer(reference.lists_of(lines), section).text
            if library != here or any(row in judge.FAULTS for row, _ in verdict.kinds):
                sys.exit(f"compare: a difference where none may be, for {lists.escaped(log)}")
            made.append(Answered(entry, verdict.row, rust, here, verdict.kinds[0][1] if verdict.kinds else None))
    return made


# What is taken of the groups of the comparison.


def size(one):
    entry = one.entry
    return len(entry.section), len(entry.lines), entry.section, entry.lines, number_words(entry.numbers)


def evenly(rows, count):
    """Some rows, from the smallest to the largest."""
    rows = sorted(rows, key=size)
    return rows if len(rows) <= count else [rows[k * (len(rows) - 1) // (count - 1)] for k in range(count)]


def stratum(one, group):
    """What a log is taken for: its group's part in the domain, its refusal, or its class with the kind of difference."""
    if one.row == judge.INSIDE:
        return ("enumerated" if isinstance(group.parts, int) else "random", one.row)
    if one.row == judge.REFUSED:
        return ("refused", one.here)
    return ("different", one.row, one.kind) if one.kind else ("equal", one.row)


def pool(seed, group):
    """The logs of a group's first parts that the list can have."""
    for part in range(min(PARTS, group.parts) if isinstance(group.parts, int) else PARTS):
        for log in group.logs(seed, part):
            entry = len(log) <= 2 * LOG_MOST and entry_of(log, group.flags)
            if entry:
                yield entry


def of_groups(seed):
    """Logs from every group, in the domain and refused; then the classes outside it, from all groups together."""
    outside, refusals = collections.defaultdict(list), set()
    for group in (group for group in groups.GROUPS if group.name not in ELSEWHERE):
        strata = collections.defaultdict(list)
        for one in answered(pool(seed, group)):
            known = stratum(one, group)
            (outside if known[0] in ("equal", "different") else strata)[known].append(one)
        chosen = [one for known, rows in strata.items() if known not in refusals for one in evenly(rows, TAKEN[known[0]])]
        refusals |= {known for known in strata if known[0] == "refused"}
        if chosen:
            yield f"From the group: {group.name}", chosen
    for why in domain.CLASSES:
        chosen = [one for known, rows in outside.items() if known[1] == why for one in evenly(rows, TAKEN[known[0]])]
        if chosen:
            yield f"Outside the domain of equality: {why}", chosen


def of_chapters(seed):
    for name, make, flags in record_cases.CHAPTERS:
        rng = random.Random(f"{seed} {name}")
        yield name, answered([Entry(*case, flags) for case in make(rng)])


# The two files.


def number_words(numbers):
    return " ".join("-" if number is None else str(number) for number in numbers)


def remark(one):
    """The heading before a case whose answer is not the Rust's own, or None."""
    said = " / ".join(one.rust.splitlines()).encode("ascii", "backslashreplace").decode("ascii")
    if one.kind:
        return f"# the Rust: {said} ({one.row})"
    untold = re.match(r"refused (\d+) ", one.here)
    if untold and int(untold[1]) in UNTOLD:
        return f"# the Rust: {said} (which refusal it is, its words do not tell)"
    return None


def by_lists(one):
    """Cases under the same lists together, refused lists by their header numbers alone."""
    refused = one.here.startswith("refused")
    return refused, number_words(one.entry.numbers), b"" if refused else one.entry.lines


class Files:
    """The lines of both files."""

    def __init__(self, head):
        self.asked, self.told = [head], [head]
        self.lists = None
        self.counts = collections.Counter()
        self.seen = set()

    def heading(self, text):
        self.asked.append(text)
        self.told.append(text)

    def case(self, one):
        entry = one.entry
        if entry[:3] in self.seen:
            return
        self.seen.add(entry[:3])
        # Lists that are refused are mostly met once: they go with the case.
        text, rest = (b"", entry.lines + entry.section) if one.here.startswith("refused") else (entry.lines, entry.section)
        if self.lists != (entry.numbers, text):
            self.lists = entry.numbers, text
            self.asked.append(f"lists {number_words(entry.numbers)}{at_the_end(text.decode('latin-1'))}")
        said = remark(one)
        if said:
            self.heading(said)
        self.counts["different" if one.kind else "untold" if said else "own"] += 1
        label = f"r{self.counts.total()}"
        self.asked.append(label + at_the_end(rest.decode("latin-1")))
        self.told += [f"= {label}", *one.here.splitlines()]

    def chapter(self, name, rows):
        fresh = [one for one in rows if one.entry[:3] not in self.seen]
        if fresh:
            self.heading(f"# {name}")
            for one in sorted(fresh, key=by_lists):
                self.case(one)


def replayed(asked):
    """The logs of a list, header numbers as lines of the log, by their labels: the list read again."""
    numbers, text = (), b""
    for line in asked:
        if line.startswith("#"):
            continue
        word, _, rest = line.partition(" ")
        if word == "lists":
            *given, rest = [*rest.split(" ", 3), ""][:4]
            numbers, text = tuple(None if one == "-" else int(one) for one in given), lists.unescaped(rest)
        else:
            yield word, Entry(numbers, text, lists.unescaped(rest), ())


def hold(asked, told):
    """Holds the two files to the library and to the reference once more, as read again."""
    cases = list(replayed(asked))
    ours = programs.answers(programs.driver(), [entry.log() for _, entry in cases])
    for (label, entry), library in zip(cases, ours):
        lines, section = reference.split(entry.log())
        if reference.answer(reference.lists_of(lines), section).text != library:
            sys.exit(f"compare: {label} is not what the reference says")
    said = "".join(f"= {label}\n{text}" for (label, _), text in zip(cases, ours)).splitlines()
    if said != [line for line in told if not line.startswith("#")]:
        sys.exit("compare: recorded.out is not what the library says")


def write(seed):
    files = Files(f"# Answers of the Rust, recorded by oracle/compare --record --seed {seed}")
    for name, rows in itertools.chain(of_chapters(seed), of_groups(seed)):
        files.chapter(name, rows)
    hold(files.asked, files.told)
    for name, lines in (("recorded.in", files.asked), ("recorded.out", files.told)):
        (HERE / name).write_text("".join(line + "\n" for line in lines), "ascii", newline="\n")
    counts = files.counts
    print(f"recorded: {counts.total():,} cases; {counts['own']:,} in the Rust's own words,", end=" ")
    print(f"{counts['untold']:,} refusals whose number its words do not tell, {counts['different']:,} that differ")

"""One log and three texts: in the domain, refused, or in a class outside it; and whether the texts agree.
Then the sums over many logs, which can be added up in any order."""
import collections
import re
from typing import NamedTuple

import domain
import programs
import reference

INSIDE = "in the domain"
REFUSED = "refused"
BEFORE = "before the first trial outside the domain"
LIBRARY = "the library and the reference"

# What a log shows that has trials of two classes with differences. It is counted under the first, and not reduced.
MIXED = "two classes at once"

# Where any difference is a fault of one of the two.
FAULTS = (INSIDE, REFUSED, BEFORE, LIBRARY)

# Differing logs that are kept of each kind of difference, the smallest.
KEPT = 6


class Verdict(NamedTuple):
    """The row that a log counts in; the kinds of differences that it shows; and how many lines stand before its first trial outside."""

    row: str
    kinds: tuple
    lines_before: int


class Case(NamedTuple):
    """A log and what the Rust is told. The order is from the smallest section to the largest."""

    section_length: int
    lines_length: int
    section: bytes
    lines: bytes
    flags: tuple


def case_of(lines, section, flags):
    return Case(len(section), len(lines), section, lines, flags)


def before(lines, place):
    """The lines of frames before a place."""
    return [line for line in lines[1:-1] if int(line.split(" ", 2)[1]) < place]


def told(line):
    """What kind of line this is, in a word or two."""
    if line.startswith("end "):
        return line.partition(" main ")[0]
    if line.startswith("refused "):
        return "refused " + re.match(r"\w+", line.removeprefix("refused "))[0]
    return {"E": "event", "k": "accepted"}.get(line[:1], "frame")


def symptom(rust, here):
    """How two texts differ, in a few words: the first two lines that do."""
    there_lines, here_lines = rust.splitlines(), here.splitlines()
    first = next((k for k, pair in enumerate(zip(there_lines, here_lines)) if pair[0] != pair[1]), 0)
    return f"{told(there_lines[first])} there, {told(here_lines[first])} here"


def judge(lines, section, flags, rust, library):
    """The verdict on a log, by what the Rust and the library say of it. The reference tells which trials lie outside, and the Rust's words for a refusal; equal are the Rust and the library."""
    known = reference.lists_of(lines)
    here = reference.answer(known, section)
    wrong = [(LIBRARY, symptom(library, here.text))] if library != here.text else []
    why, place, pure = domain.log_departure(lines, section, here.trials, flags)
    row = why or (REFUSED if known.refused else INSIDE)
    if rust == library or known.refused and library == here.text and rust == reference.rust_words(known, lines):
        return Verdict(row, tuple(wrong), len(before(here.text.splitlines(), place)) if why and place else 0)
    wrong.append((row, symptom(rust, library) if pure else MIXED))
    ours = before(library.splitlines(), place) if why and place else []
    if ours and before(rust.splitlines(), place) != ours:
        wrong.append((BEFORE, symptom(rust, library)))
    return Verdict(row, tuple(wrong), len(ours))


class Tally:
    """Sums over logs: how many in each row, how many of these differ, and the smallest that do, by kinds of differences."""

    def __init__(self):
        self.rows = collections.Counter()
        self.different = collections.Counter()
        self.lines_before = 0
        self.smallest = {}

    def add(self, case, verdict):
        self.rows[verdict.row] += 1
        self.lines_before += verdict.lines_before
        for kind in verdict.kinds:
            self.different[kind[0]] += 1
            if kind[1] != MIXED:
                self.keep(kind, [case])

    def keep(self, kind, cases):
        self.smallest[kind] = sorted({*self.smallest.get(kind, ()), *cases})[:KEPT]

    def take(self, other):
        """The sums of both."""
        self.rows.update(other.rows)
        self.different.update(other.different)
        self.lines_before += other.lines_before
        for kind, cases in other.smallest.items():
            self.keep(kind, cases)

    def faults(self):
        return sum(self.different[row] for row in FAULTS)


def compare(logs, flags):
    """Asks both programs for logs, and adds up the verdicts."""
    logs, tally = list(logs), Tally()
    theirs = programs.answers(programs.rust(flags), logs)
    ours = programs.answers(programs.driver(), logs)
    for log, rust, library in zip(logs, theirs, ours):
        lines, section = reference.split(log)
        tally.add(case_of(lines, section, flags), judge(lines, section, flags, rust, library))
    return tally

"""What a run prints: the groups, the classes outside the domain, and every kind of difference by its smallest input."""
import domain
import judge
import lists
import reducer
import reference
from short_cases import DEFINITIONS

# Smallest inputs that are printed of a class, at most.
SHOWN = 8
BARE = DEFINITIONS[0]


def total(tallies):
    everything = judge.Tally()
    for _, tally in tallies:
        everything.take(tally)
    return everything


def group_line(name, tally):
    inside, refused = (tally.rows[row] for row in (judge.INSIDE, judge.REFUSED))
    outside = sum(tally.rows[why] for why in domain.CLASSES)
    differ = sum(tally.different[why] for why in domain.CLASSES)
    words = [f"{tally.rows.total():>9,}", f"{inside:>9,}", f"{inside - tally.different[judge.INSIDE]:>9,}"]
    words += [f"{refused:>8,}", f"{refused - tally.different[judge.REFUSED]:>8,}", f"{outside:>9,}", f"{differ:>8,}", f"{tally.lines_before:>9,}"]
    return "  ".join([*words, name])


def show_groups(tallies, everything):
    heads = [f"{word:>{width}}" for word, width in (("cases", 9), ("domain", 9), ("equal", 9), ("refused", 8), ("equal", 8), ("outside", 9), ("differ", 8), ("lines", 9))]
    print("\n" + "  ".join([*heads, "group (lines: before the first trial outside the domain, compared by themselves)"]))
    for name, tally in tallies:
        print(group_line(name, tally))
    print(group_line("in total", everything))


def in_short(text):
    """An answer on one line, but for the first line of a walk."""
    return " / ".join(line for line in text.splitlines() if line != "kind at values")[-300:]


def by_lines(lines):
    """Lists by the lines in which they differ from those of no fields."""
    plain = [line + b"\n" for line in BARE.split(b"\n")[:-1]]
    found = reference.lines_in(lines)
    missing = [line.partition(b":")[0] for line in plain if not any(other.startswith(line.partition(b":")[0] + b":") for other in found)]
    words = [lists.escaped(line) for line in found if line not in plain]
    words += ["no line " + name.decode("ascii") for name in missing]
    return "lists of no fields, and " + " ".join(words) if words else "lists of no fields"


def show_case(case, other, here, symptom, row):
    listed = case.flags or domain.lists_departure(case.lines, ()) or reference.lists_of(case.lines).refused
    lines = by_lines(case.lines) if listed else reference.short_form(case.lines)
    print(f"    {symptom}: {lines[:600]}; section {case.section.hex(' ')[:300] or 'empty'}{''.join(' ' + flag for flag in case.flags)}")
    sides = ("the library", "the reference") if row == judge.LIBRARY else ("the Rust", "here")
    print(f"        {sides[0]}: {in_short(other)}\n        {sides[1]}: {in_short(here)}", flush=True)


def show_smallest(row, everything, asked):
    """The smallest inputs of a row's kinds of differences, reduced."""
    found = {}
    for kind, cases in everything.smallest.items():
        if kind[0] == row:
            for case in cases:
                small, other, here = asked.reduced(case, kind)
                found.setdefault((small.lines, small.section), (small, other, here, kind[1]))
    best = {}
    for shown in sorted(found.values(), key=lambda shown: shown[0]):
        best.setdefault(shown[3], shown)
    for shown in sorted(best.values(), key=lambda shown: shown[0])[:SHOWN]:
        show_case(*shown, row)


def show(tallies):
    """Prints all, and says how many differences there are where none may be."""
    everything = total(tallies)
    show_groups(tallies, everything)
    asked = reducer.Reducer()
    print("\nOutside the domain: cases, different, class")
    for why in domain.CLASSES:
        if everything.rows[why]:
            print(f"{everything.rows[why]:>9,}  {everything.different[why]:>8,}  {why}", flush=True)
            show_smallest(why, everything, asked)
    print("\nWhere no difference may be")
    for row in judge.FAULTS:
        print(f"{everything.different[row]:>9,}  {row}", flush=True)
        show_smallest(row, everything, asked)
    asked.close()
    return everything.faults()

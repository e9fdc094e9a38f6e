"""Which logs, and which trials of a section, lie outside the domain of equality, and why.
The domain is document 01's, narrowed by what docs/DIFFERENCES.md names: definitions that are accepted here and refused by the Rust."""
import decoders
import frames
import lists
import oracle_frames
import reference
import walks
from oracle import BEYOND, FIFTH_HIGH, FIFTH_LOW, LONG_3, departure

# Of a log, whatever its section.
P_LINES = "lines `H Field P name:` and `H Field P signed:`"
NOT_ASCII = "lists that are not ASCII"
BAD_NUMBER = "a header number that cannot be read"
NO_SLOW_LISTS = "no slow lists, and none added there"
ACC_SMOOTH = "accSmooth without acc_1G there"
OVER_64 = "over 64 rounds"
OTHER_INTERVAL = "a frame interval that 9 refuses"
SLOW_LISTS = "slow lists that are refused"
MAIN_8 = "main lists that 8 refuses, slow lists refused too"
NO_HOME = "predictor 7 without a GPS home definition there"
WITH_HOME = "a GPS home definition there, no trial of H"

# Of a trial.
HOME = "H with a GPS home definition there"
OTHER_TYPES = "events of types 13 and 40"
OTHER_TEXT = "type 255 with another text"
NO_SLOW = "S without slow lists"
SLOW = "S with slow lists"
EVENT = "events of types 0, 14, 15 and 30"
CLOSING = "type 255 with the closing text"
UNKNOWN = "E with another type, or with none"
SHORT = "short groups of 7 and 8"
STRAIGHT_9 = "encoding 9 with predictors 2 and 3"

# A log counts under the first of these that it, or a trial of it, has: what makes a difference comes first.
OF_LISTS = (P_LINES, NOT_ASCII, BAD_NUMBER, NO_SLOW_LISTS, ACC_SMOOTH, OVER_64, OTHER_INTERVAL, SLOW_LISTS, MAIN_8, NO_HOME)
OF_TRIALS = (FIFTH_LOW, LONG_3, BEYOND, OTHER_TYPES, OTHER_TEXT, HOME, FIFTH_HIGH, SHORT, STRAIGHT_9, SLOW, NO_SLOW, EVENT, CLOSING, UNKNOWN)
CLASSES = (*OF_LISTS, *OF_TRIALS, WITH_HOME)

# The classes of trials that have differences.
DIFFER = (FIFTH_LOW, LONG_3, BEYOND, OTHER_TYPES, OTHER_TEXT, HOME)

# The most bytes that a group of fields can look at: a head and eight numbers of five.
REACH = 41


def slow_refused(values, numbers):
    try:
        lists.slow_fields(values, numbers)
        return False
    except lists.Refused:
        return True


def unreadable(lines):
    """Whether a line of a header number, the last one or an earlier one, cannot be read."""
    for line in reference.lines_in(lines):
        name, colon, value = line[2:].removesuffix(b"\n").partition(b":")
        if colon and name in reference.NUMBER_LINES and reference.number(name, value) is None:
            return True
    return False


def has_7(known):
    """Whether a round of main or slow lists is predicted by 7."""
    if known.definition:
        return any(7 in fields.predictors for fields in known.definition)
    names = (*lists.MAIN[1:3], lists.SLOW[1])
    return any(b"7" in known.values.get(name, b"").split(b",") for name in names)


def lists_departure(lines, flags):
    """Why a log lies outside whatever its section, or None."""
    known = reference.lists_of(lines)
    values, refused = known.values, known.refused
    if b"Field P name" in values or b"Field P signed" in values:
        return P_LINES
    if not lines.isascii():
        return NOT_ASCII
    if unreadable(lines):
        return BAD_NUMBER
    if "--bare" in flags and not any(name in values for name in lists.SLOW.values()):
        return NO_SLOW_LISTS
    if "--bare" in flags and any(name.startswith(b"accSmooth") for name in known.names):
        return ACC_SMOOTH
    if refused and refused.frame == "Slow":
        return SLOW_LISTS
    if refused and refused.number == 2:
        return OVER_64
    if refused and refused.number == 9:
        return OTHER_INTERVAL
    if refused and refused.number == 8 and slow_refused(values, known.numbers):
        return MAIN_8
    if "--home" not in flags and (not refused or refused.number == 8) and has_7(known):
        return NO_HOME
    return None


def event_departure(section, place):
    """Why a trial of an event lies outside. Each does."""
    kind = section[place + 1] if place + 1 < len(section) else None
    if kind in walks.NUMBERS:
        at = place + 2
        for _ in range(walks.NUMBERS[kind]):
            why = departure(1, 0, section[at : at + 5])
            if why:
                return why
            at += 1 + next((k for k, byte in enumerate(section[at : at + 5]) if byte < 128), 5)
        return EVENT
    if kind == walks.CLOSES:
        text = section[place + 2 : place + 2 + len(walks.CLOSING)]
        return CLOSING if text == walks.CLOSING else OTHER_TEXT
    return OTHER_TYPES if kind in (13, 40) else UNKNOWN


def fields_departure(fields):
    """Why every trial with such fields lies outside, or None."""
    if any(encoding in (7, 8) and size < frames.SIZES[encoding] for encoding, size in frames.groups(fields.encodings)):
        return SHORT
    if any(encoding == 9 and predictor in (2, 3) for encoding, predictor in zip(fields.encodings, fields.predictors)):
        return STRAIGHT_9
    return None


def number_departures(fields, kind, section, place):
    """Why numbers of a frame lie outside. Behind a long number of encoding 3 the frame goes on, behind the others it does not."""
    s, reasons = decoders.Section(section, place), []
    for encoding, size in [*oracle_frames.HEADS[kind], *frames.groups(fields.encodings)]:
        why = departure(encoding, size, section[s.place : s.place + REACH])
        if why:
            reasons.append(why)
        try:
            decoders.numbers(encoding, size, s)
        except (decoders.Cut, decoders.Corrupt):
            break
    return reasons


def trial_departures(definition, section, trial, home):
    """Why document 01 leaves a trial out of the domain: mostly no reason, or one."""
    if trial.kind == "E":
        return [event_departure(section, trial.place)]
    if trial.kind in "GH":
        return [HOME] if home and trial.kind == "H" else []
    fields = definition.fields(trial.kind)
    reasons = number_departures(fields, trial.kind, section, trial.place + 1)
    if reasons:
        return reasons
    of_kind = NO_SLOW if not fields.encodings else SLOW
    why = of_kind if trial.kind == "S" else fields_departure(fields)
    return [why] if why else []


def log_departure(lines, section, trials, flags):
    """The class of a log outside the domain, the place from which on it is outside, and whether it has differences of one class alone; or None and the section's end."""
    whole = lists_departure(lines, flags)
    if whole:
        return whole, 0, True
    home = "--home" in flags
    definition = reference.lists_of(lines).definition
    reasons = [(why, trial.place) for trial in trials for why in trial_departures(definition, section, trial, home)]
    classes = {why for why, _ in reasons}
    if reasons:
        return min(classes, key=CLASSES.index), 0 if home else reasons[0][1], len(classes & {*DIFFER}) < 2
    return (WITH_HOME, 0, True) if home else (None, len(section), True)

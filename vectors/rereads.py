#!/usr/bin/env python3
"""What the program reread prints of a log: each main frame of the walk with its raw numbers and its values, and the two frames of the history behind it.

rereads.py PROGRAM [--cases N] [--seed N]

PROGRAM is the command that runs reread. It is compared with what is here on the logs of the table of walks and on others: N flights, damaged, and fewer of two other kinds.
"""
import argparse
import random
import subprocess
import sys

sys.dont_write_bytecode = True

import damages
import decoders
import frames
import lists
import walk_cases
import walks
from encoders import ROOM
from oracle_frames import any_definition, any_section, log as log_of

# What stands before the fields.
HEADS = {"I": [decoders.variable] * 2, "P": [decoders.variable_signed]}


def raws(fields, trial, section):
    """The raw numbers of an accepted frame, read again."""
    s = decoders.Section(section, trial.place + 1)
    for head in HEADS[trial.kind]:
        head(s)
    return frames.raw_values(fields.encodings, s)


def held(frame):
    return "none" if frame is None else f"{frame.kind} {frame.iteration}"


def words(*parts):
    return " ".join(map(str, parts))


def printed(log):
    """The lines that the program prints of a log."""
    try:
        definition, signed = walks.defined(log)
    except lists.Refused:
        return ["refused"]
    section, lines, last = walks.section_of(log), [], None
    for trial in walks.walk(definition, section)[0]:
        if trial.outcome != "accepted" or trial.kind not in "IP":
            continue
        fields, found = definition.fields(trial.kind), trial.found
        numbers = map(frames.number, raws(fields, trial, section), map(frames.is_signed, fields.encodings))
        values = map(frames.number, found.values, signed[trial.kind])
        lines.append(words(trial.kind, trial.place, found.iteration, found.time, "raw", *numbers, "values", *values, "next", trial.end))
        lines.append(words("last", held(found), "older", held(last)))
        last = found
    return [*lines, "62 fields next 0", "63 fields refused 10 0"]


def stored():
    """The log that the program is tested on: frames of every encoding and of every predictor that needs no header number but 7, damaged here and there."""
    rng = random.Random(7)
    while True:
        definition = any_definition(rng, (20,), given=(None,), slow_fields=2)
        both = [definition.fields(kind) for kind in "IP"]
        section = b"".join(any_section(rng, definition, "IPPPS") for _ in range(12))
        for _ in range(6):
            section = damages.damaged(rng, section, kinds=5)
        log = log_of(rng, definition, section)
        encodings = {code for fields in both for code in fields.encodings}
        predictors = {code for fields in both for code in fields.predictors}
        if len(encodings) == 7 and predictors >= {0, 1, 2, 3, 5, 6, 8, 10}:
            return log


def run():
    options = argparse.ArgumentParser(description=__doc__, formatter_class=argparse.RawDescriptionHelpFormatter)
    options.add_argument("program")
    options.add_argument("--cases", type=int, default=1000)
    options.add_argument("--seed", type=int, default=1)
    asked = options.parse_args()
    rng, made = random.Random(asked.seed), (damages.without_e_and_s, damages.with_any_bytes, damages.short_groups)
    logs = [stored(), *walk_cases.logs(), *(log for kind in made for log in kind(rng, asked.cases))]
    logs = [log for log in logs if len(log) <= ROOM]
    read = 0
    for log in logs:
        told = subprocess.run(asked.program, shell=True, input=log, capture_output=True, check=True).stdout.decode("ascii").splitlines()
        lines = printed(log)
        if told != lines:
            sys.exit(f"rereads.py: {log!r}: the program prints {told}, here it is {lines}")
        read += sum(line.startswith("last") for line in lines)
    print(f"rereads.py: {len(logs)} logs, {read} main frames and no difference")


if __name__ == "__main__":
    run()

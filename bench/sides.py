"""The sides of bench/run: how each is built, asked for a log's session, and measured.

Each program takes the CPU time around its walks alone: starting it, reading the log and its header lines are not in it."""
import collections
import os
import re
import subprocess

ARCHIVE = "target/native/libdulimasca.a"
ORACLE = "target/oracle/oracle"
FLAGS = "-std=c11 -Wall -Wextra -Wpedantic -Werror -O3 -Iinclude -Ihost".split()
MEASURED = ("rust", "rows", "count", "limit")
A_ROUND = 300_000_000  # nanoseconds of the Rust in a round, about

Measured = collections.namedtuple("Measured", "nanoseconds frames sum")
programs = {}


class Differs(Exception):
    """Two sides that should agree do not."""


def run(command, **more):
    return subprocess.run(command, check=True, **more)


def compile_c(out, *sources):
    run([os.environ.get("CC", "cc"), *FLAGS, *sources, "-o", out])


def build(out):
    """What is there of the library and the Rust is taken as it is; the C is compiled anew, which takes a second."""
    os.makedirs(out, exist_ok=True)
    if not os.path.exists(ARCHIVE):
        run(["host/library"])
    if not os.path.exists(ORACLE):
        run(["oracle/build"])
    for name in ("import", "walk", "limit"):
        programs[name] = "%s/%s" % (out, name)
    compile_c(programs["import"], "host/import.c", "host/session.c", "host/log.c", ARCHIVE)
    compile_c(programs["walk"], "bench/walk.c", "host/log.c", ARCHIVE)
    compile_c(programs["limit"], "bench/limit.c", "bench/fields.c")


def output(command, log=None):
    """What a program prints; a log by its path is lent on standard input."""
    if log is None:
        return run(command, stdout=subprocess.PIPE).stdout
    with open(log, "rb") as text:
        return run(command, stdin=text, stdout=subprocess.PIPE).stdout


def check_texts(log, expected=None):
    """The sessions, byte for byte, with that of the generator where there is one; answers their number of lines."""
    rust = output([ORACLE, "--walk"], log)
    if expected is not None and rust != expected:
        raise Differs("%s: the Rust's session is not the generator's" % log)
    if output([programs["import"], "--rows", log]) != rust:
        raise Differs("%s: the library's session is not the Rust's" % log)
    if output([programs["limit"], "--session"], log) != rust:
        raise Differs("%s: the session of limit.c is not the Rust's" % log)
    return rust.count(b"\n")


def rust_measured(log, walks):
    told = output([ORACLE, "--bench", str(walks)], log).decode()
    frames = int(re.search(r"^rounds .* frames (\d+) ", told, re.M).group(1))
    nanoseconds = int(re.search(r"^cpu (\d+) ns", told, re.M).group(1))
    return Measured(nanoseconds, frames * walks, int(re.search(r"^sum (\d+)", told, re.M).group(1)))


def c_measured(text):
    return Measured(*map(int, re.fullmatch(rb"cpu (\d+) frames (\d+) sum (\d+)\n", text).groups()))


def walks_for(log):
    return max(1, round(A_ROUND / (rust_measured(log, 3).nanoseconds / 3)))


def turn(log, walks):
    """Every side once, one behind the other. They have to count the same frames, and all but count the same sum."""
    told = {
        "rust": rust_measured(log, walks),
        "rows": c_measured(output([programs["walk"], str(walks), log])),
        "count": c_measured(output([programs["walk"], "--count", str(walks), log])),
        "limit": c_measured(output([programs["limit"], str(walks)], log)),
    }
    for side, measured in told.items():
        if measured.frames != told["rust"].frames:
            raise Differs("%s: %s counts other frames than the Rust" % (log, side))
        if side != "count" and measured.sum != told["rust"].sum:
            raise Differs("%s: the sum of %s is not the Rust's" % (log, side))
    return told

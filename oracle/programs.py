"""The two programs that are compared: the Rust oracle and the driver over the proved library.
Both take logs as a length of 4 bytes and the bytes, and answer each with its text and a line `--`."""
import subprocess
import sys
from pathlib import Path

HERE = Path(__file__).resolve().parent
BUILT = HERE.parent / "target" / "oracle"
ENDS = "--\n"

# What is sent before the answers are read has to fit into a pipe, or both sides would wait.
AT_ONCE = 40000


def build(source):
    """Builds what is missing; where it cannot be built, the scripts say why."""
    for command in ([HERE / "build", *source], [HERE / "build-driver"]):
        status = subprocess.run(command, stdout=subprocess.DEVNULL).returncode
        if status:
            sys.exit(2)


def rust(flags=()):
    return [BUILT / "oracle", "--walk", "--batch", *flags]


def driver():
    return [BUILT / "driver"]


def framed(logs):
    return b"".join(len(log).to_bytes(4, "little") + log for log in logs)


def answers(command, logs):
    """What a program says of each log."""
    run = subprocess.run(command, input=framed(logs), stdout=subprocess.PIPE, check=True)
    texts = run.stdout.decode("utf-8").split(ENDS)
    if texts.pop() or len(texts) != len(logs):
        sys.exit(f"compare: {command[0].name} did not answer every case")
    return texts


class Asked:
    """A program that is kept running and asked a few logs at a time."""

    def __init__(self, command):
        self.process = subprocess.Popen(command, stdin=subprocess.PIPE, stdout=subprocess.PIPE)

    def answers(self, logs):
        texts, some, size = [], [], 0
        for log in logs:
            if some and size + len(log) > AT_ONCE:
                texts += self.answers_at_once(some)
                some, size = [], 0
            some.append(log)
            size += len(log) + 4
        return texts + self.answers_at_once(some) if some else texts

    def answers_at_once(self, logs):
        self.process.stdin.write(framed(logs))
        self.process.stdin.flush()
        return [self.answer() for _ in logs]

    def answer(self):
        lines = []
        while True:
            line = self.process.stdout.readline().decode("utf-8")
            if not line:
                sys.exit("compare: a program ended before it answered")
            if line == ENDS:
                return "".join(lines)
            lines.append(line)

    def close(self):
        self.process.stdin.close()
        self.process.wait()
        self.process.stdout.close()

#!/usr/bin/env python3
"""terminal.py SECONDS COMMAND..: runs a command whose standard error is a terminal, and prints what comes to it, control characters as \\r and the like.

Its standard output is not read before SECONDS have gone by, so that a command that writes much takes as long.
"""
import os
import pty
import subprocess
import sys
import threading
import time


def main():
    ours, theirs = pty.openpty()
    seen = []

    def watch():
        try:
            while some := os.read(ours, 4096):
                seen.append(some)
        except OSError:  # how Linux tells that nobody has the other side any more
            pass

    with subprocess.Popen(sys.argv[2:], stdout=subprocess.PIPE, stderr=theirs) as command:
        os.close(theirs)
        watcher = threading.Thread(target=watch)
        watcher.start()
        time.sleep(float(sys.argv[1]))
        command.stdout.read()
        watcher.join()
    print(b"".join(seen).decode("latin-1").encode("unicode_escape").decode("ascii"))
    return command.wait()


if __name__ == "__main__":
    sys.exit(main())

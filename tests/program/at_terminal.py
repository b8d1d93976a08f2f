#!/usr/bin/env python3
"""Runs a program with some of its standard streams at a terminal, and writes what the terminal got, byte for byte.

Usage: at_terminal.py STREAMS PROGRAM WORD ..

STREAMS are some of `input`, `output` and `errors`, with commas. The other streams are those of this program. What is on
standard input is typed at the terminal, and then Ctrl-D, if `input` is one of them. It ends with the program's status.
"""

import os
import pty
import subprocess
import sys
import termios

# The terminal is to pass all bytes on as they are, and not to print what is typed.
OUTPUT_MODES, LOCAL_MODES = 1, 3
CTRL_D = b"\x04"


def main():
    streams = sys.argv[1].split(",")
    ours, theirs = pty.openpty()
    modes = termios.tcgetattr(theirs)
    modes[OUTPUT_MODES] &= ~termios.OPOST
    modes[LOCAL_MODES] &= ~termios.ECHO
    termios.tcsetattr(theirs, termios.TCSANOW, modes)
    typed = sys.stdin.buffer.read() + CTRL_D if "input" in streams else b""
    process = subprocess.Popen(
        sys.argv[2:],
        stdin=theirs if "input" in streams else None,
        stdout=theirs if "output" in streams else None,
        stderr=theirs if "errors" in streams else None,
    )
    os.close(theirs)
    os.write(ours, typed)
    sys.stdout.buffer.write(everything(ours))
    return process.wait()


def everything(terminal):
    """What the terminal gets until nobody writes to it any more."""
    parts = []
    while True:
        try:
            part = os.read(terminal, 65536)
        except OSError:
            return b"".join(parts)
        if not part:
            return b"".join(parts)
        parts.append(part)


if __name__ == "__main__":
    sys.exit(main())

#!/usr/bin/env python3
"""Runs a command where Linux on x86-64 refuses each call that Linux 3.5 does not have, such as statx.

Usage: tests/release/old_kernel.py COMMAND ..

A refused call fails as one that the kernel does not know (ENOSYS). The status is the command's.
"""

import ctypes
import errno
import os
import signal
import struct
import sys

# The first call that came after Linux 3.5, by its number on x86-64. statx is number 332.
FIRST_REFUSED = 312

PR_SET_SECCOMP = 22
PR_SET_NO_NEW_PRIVS = 38
SECCOMP_MODE_FILTER = 2
LOAD_NUMBER, IF_AT_LEAST, RETURN = 0x20, 0x35, 0x06
ALLOW, REFUSE = 0x7FFF0000, 0x00050000 | errno.ENOSYS

# Each instruction: what it does, how many to skip if it holds and if not, and its number.
FILTER = (
    (LOAD_NUMBER, 0, 0, 0),
    (IF_AT_LEAST, 0, 1, FIRST_REFUSED),
    (RETURN, 0, 0, REFUSE),
    (RETURN, 0, 0, ALLOW),
)


class Program(ctypes.Structure):
    """Linux's struct sock_fprog."""

    _fields_ = [("count", ctypes.c_ushort), ("instructions", ctypes.c_char_p)]


def refuse_new_calls():
    instructions = b"".join(struct.pack("HBBI", *it) for it in FILTER)
    program = Program(len(FILTER), instructions)
    prctl = ctypes.CDLL(None, use_errno=True).prctl
    for words in ((PR_SET_NO_NEW_PRIVS, 1, 0, 0, 0), (PR_SET_SECCOMP, SECCOMP_MODE_FILTER, ctypes.byref(program), 0, 0)):
        if prctl(*words) != 0:
            raise OSError(ctypes.get_errno(), "the kernel takes no filter")


def main():
    if len(sys.argv) < 2 or sys.argv[1] == "--help":
        print(__doc__.strip(), file=sys.stderr)
        return 2
    refuse_new_calls()
    # which Python ignores, and what it runs would too
    signal.signal(signal.SIGPIPE, signal.SIG_DFL)
    os.execvp(sys.argv[1], sys.argv[1:])


if __name__ == "__main__":
    sys.exit(main())

"""A shell that a person types into, on a terminal of its own."""

import os
import pty
import select
import signal
import time

# How long a shell may think, in seconds.
PATIENCE = 10


class Silent(Exception):
    """The shell gave no answer in time."""


class Shell:
    """What is typed here, `words_of` tells as the words that the shell would hand to a program."""

    def __init__(self, words, folder, environment):
        self.folder = folder
        self.shown = b""
        self.pid, self.terminal = pty.fork()
        if self.pid == 0:
            os.chdir(folder)
            os.execvpe(words[0], words, environment)

    def type(self, keys):
        for key in keys:
            os.write(self.terminal, key.encode())

    def words_of(self, line):
        """The words of a line after the keys in it were pressed, as a program gets them."""
        told = os.path.join(self.folder, "told")
        # to the end of the line, and away with what may be left; a mark in the place of the line says when the keys were done
        self.type(["\x05\x15", line])
        self.wait_for(self.dump(), "nothing was completed")
        self.type(["\x01", "tell ", "\r"])
        try:
            self.wait_for(told, "the line did not end")
        except Silent:
            # perhaps it was left inside quotation marks
            self.type(["\x03"])
            raise
        with open(told, "rb") as file:
            words = file.read().decode("utf-8", "surrogateescape").split("\0")[:-1]
        os.remove(told)
        return words

    def dump(self):
        """Presses the key that makes the file `seen`."""
        self.type(["\x18p"])
        return os.path.join(self.folder, "seen")

    def wait_for(self, path, complaint):
        """Waits until a file is there."""
        end = time.monotonic() + PATIENCE
        while not os.path.exists(path):
            if time.monotonic() > end:
                raise Silent(f"{complaint}; the terminal shows {self.shown[-600:]!r}")
            self.read(0.005)
        if os.path.basename(path) == "seen":
            os.remove(path)

    def read(self, seconds):
        """Reads what the shell shows for some time."""
        if select.select([self.terminal], [], [], seconds)[0]:
            try:
                self.shown += os.read(self.terminal, 65536)
            except OSError:
                raise Silent(f"the shell ended; the terminal shows {self.shown[-600:]!r}") from None

    def end(self):
        try:
            os.kill(self.pid, signal.SIGKILL)
        except ProcessLookupError:
            pass
        os.waitpid(self.pid, 0)
        os.close(self.terminal)

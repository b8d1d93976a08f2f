"""A file and its journal on disk, read and stored as the program does.

The journal of ``F`` is ``F.bibkeep``. A symbolic link to F is followed, and a link in the place of the journal is not. Whoever
stores F locks it first (``flock``), and so waits for others that do.
"""

from __future__ import annotations

import errno
import fcntl
import os
import stat

TYPE_CHECKING = False
if TYPE_CHECKING:
    from typing import Tuple, Union

    Bytes = Union[bytes, memoryview]
    # The bytes of a file and of its journal, or None where there is no journal.
    Stored = Tuple[bytes, Union[bytes, None]]

JOURNAL = ".bibkeep"
NEW = ".bibkeep-new"
# A file is opened so often at most, if others go on to replace it between opening and locking.
ATTEMPTS = 100_000
# So much of a file is in memory at a time while it is compared.
PART = 1 << 18


class Locked:
    """The file at the path, open and locked, for a block. If the file system has no locks, it is not locked."""

    def __init__(self, path: str) -> None:
        self._path = path

    def __enter__(self) -> int:
        self._descriptor = _open_locked(self._path)
        return self._descriptor

    def __exit__(self, *why: object) -> None:
        os.close(self._descriptor)


def _open_locked(path: str) -> int:
    for _ in range(ATTEMPTS):
        descriptor = os.open(path, os.O_RDONLY | os.O_CLOEXEC)
        try:
            opened = os.fstat(descriptor)
            if not stat.S_ISREG(opened.st_mode) or not _lock(descriptor) or os.path.samestat(opened, os.stat(path)):
                return descriptor
        except BaseException:
            os.close(descriptor)
            raise
        os.close(descriptor)
    raise OSError(errno.EBUSY, os.strerror(errno.EBUSY), path)


def _lock(descriptor: int) -> bool:
    try:
        fcntl.flock(descriptor, fcntl.LOCK_EX)
    except OSError:
        return False
    return True


def read(descriptor: int, path: str, journal: bool = True) -> Stored:
    """The bytes of the open file, and of its journal if that is asked for."""
    return _whole(descriptor), read_journal(path + JOURNAL) if journal else None


def is_as(stored: Stored, descriptor: int, path: str, journal: bool) -> bool:
    """Whether read would give these bytes. Only a part of the file is in memory at a time."""
    file, part, at = stored[0], memoryview(bytearray(PART)), 0
    while True:
        count = os.readv(descriptor, [part])
        if not file.startswith(part[:count], at):
            return False
        if not count:
            break
        at += count
    return at == len(file) and (read_journal(path + JOURNAL) if journal else None) == stored[1]


def read_journal(path: str) -> bytes | None:
    """The bytes of the journal, or None if there is none. A link is read as an empty text, which is no journal."""
    try:
        found = os.lstat(path)
    except FileNotFoundError:
        return None
    if stat.S_ISLNK(found.st_mode):
        return b""
    if not stat.S_ISREG(found.st_mode):
        raise OSError(errno.EINVAL, "the place of the journal has no file", path)
    descriptor = os.open(path, os.O_RDONLY | os.O_CLOEXEC | os.O_NOFOLLOW)
    try:
        return _whole(descriptor)
    finally:
        os.close(descriptor)


def _whole(descriptor: int) -> bytes:
    parts: list[bytes] = []
    while True:
        part = os.read(descriptor, 1 << 24)
        if not part:
            return b"".join(parts)
        parts.append(part)


def store(descriptor: int, path: str, file: Bytes, journal: Bytes | None) -> None:
    """Writes the file, and the journal if there is one, beside their places, and renames them, the file first. The permissions
    of the open file are kept, without its set-user-ID, set-group-ID and sticky bits."""
    old = os.fstat(descriptor)
    _expect_room(old, path, journal is not None)
    mode = stat.S_IMODE(old.st_mode) & 0o777
    pairs: tuple[tuple[str, Bytes | None], ...] = ((path, file), (path + JOURNAL, journal))
    written: list[str] = []
    held: list[int] = []
    try:
        for place, data in pairs:
            if data is not None:
                written.append(place)
                held.append(_write(place + NEW, data, mode))
        # Whoever opens the new file from here on waits until the journal is in place too.
        while written:
            os.replace(written[0] + NEW, written[0])
            written.pop(0)
    finally:
        for place in written:
            _remove(place + NEW)
        for new in held:
            os.close(new)


def _remove(path: str) -> None:
    """Removes a file, if that can be done."""
    try:
        os.unlink(path)
    except OSError:
        pass


def _expect_room(old: os.stat_result, path: str, has_journal: bool) -> None:
    if not stat.S_ISREG(os.lstat(path).st_mode):
        raise OSError(errno.EINVAL, "only a regular file is replaced", path)
    if not has_journal:
        return
    try:
        found = os.lstat(path + JOURNAL)
    except FileNotFoundError:
        return
    if not (stat.S_ISREG(found.st_mode) or stat.S_ISLNK(found.st_mode)) or os.path.samestat(found, old):
        raise OSError(errno.EINVAL, "the place of the journal has no file of its own", path + JOURNAL)


def _write(path: str, data: Bytes, mode: int) -> int:
    """Writes a new file, and returns it open and locked."""
    try:
        # What an earlier run left is removed, even if it is a link: its target must not be written to.
        os.unlink(path)
    except FileNotFoundError:
        pass
    descriptor = os.open(path, os.O_WRONLY | os.O_CREAT | os.O_EXCL | os.O_CLOEXEC, 0o600)
    try:
        _lock(descriptor)
        left = memoryview(data)
        while left:
            left = left[os.write(descriptor, left) :]
        os.fchmod(descriptor, mode)
        os.fsync(descriptor)
    except BaseException:
        os.close(descriptor)
        raise
    return descriptor

"""Files that appear under their name only when they are whole.

A file is written under a temporary name in the folder of its final one, `.malletfern-HOST-PID-RANDOM.part`, and is
renamed when all of it is on the disk. Its writer holds a lock (`flock`) on it until then, which ends with the writer
however that ends. So a temporary file of this machine whose lock can be taken belongs to no live writer.
"""

import contextlib
import errno
import fcntl
import os
import re
import secrets
import socket
import stat
from collections.abc import Iterator
from pathlib import Path
from typing import BinaryIO

PART_NAME = re.compile(r"\.malletfern-(?P<host>.+)-(?P<process>[0-9]+)-(?P<random>[0-9a-f]+)\.part")

# What `flock` fails with on a file system that has no locks. There no lock is ever taken, and nothing is removed.
NO_LOCKS = frozenset({errno.EINVAL, errno.ENOSYS, errno.EOPNOTSUPP})


@contextlib.contextmanager
def whole_file(path: Path) -> Iterator[BinaryIO]:
    """A new binary file that gets the name `path` when the block ends, in place of what has it then.

    Where the block ends with an exception the file is removed, and `path` stays as it was. Raises OSError where the
    file can't be made, written or renamed.
    """
    part, file = _new_part(path.parent)
    try:
        with file:
            yield file
            file.flush()
            os.fsync(file.fileno())
            os.replace(part, path)
    except BaseException:
        part.unlink(missing_ok=True)
        raise
    _sync_folder(path.parent)


def check_writable(folder: Path) -> None:
    """Raises OSError where no file can be made in the folder."""
    part, file = _new_part(folder)
    file.close()
    part.unlink(missing_ok=True)


def remove_dead_parts(folder: Path) -> int:
    """Removes the temporary files of this machine that no live writer holds; how many these were.

    Those of other machines stay, since not every file system that machines share has locks between them.
    """
    names = [match[0] for match in map(PART_NAME.fullmatch, os.listdir(folder)) if match and match["host"] == _host()]
    return sum(_removed_if_dead(folder / name) for name in names)


def _new_part(folder: Path) -> tuple[Path, BinaryIO]:
    """A new temporary file of the folder, locked, by a name that no other writer takes."""
    while True:
        part = folder / f".malletfern-{_host()}-{os.getpid()}-{secrets.token_hex(8)}.part"
        file = open(os.open(part, os.O_RDWR | os.O_CREAT | os.O_EXCL, 0o666), "wb")
        try:
            _lock(file)
            if _has_name(file, part):
                return part, file
            # A run that began in this moment took the lock first, and removed the file.
            file.close()
        except BaseException:
            file.close()
            part.unlink(missing_ok=True)
            raise


def _lock(file: BinaryIO) -> None:
    try:
        fcntl.flock(file, fcntl.LOCK_EX)
    except OSError as fault:
        if fault.errno not in NO_LOCKS:
            raise


def _has_name(file: BinaryIO, path: Path) -> bool:
    try:
        return os.path.samestat(os.fstat(file.fileno()), os.stat(path))
    except FileNotFoundError:
        return False


def _removed_if_dead(part: Path) -> bool:
    try:
        file = os.open(part, os.O_RDWR | os.O_NOFOLLOW | os.O_NONBLOCK)
    except OSError:
        return False
    try:
        if not stat.S_ISREG(os.fstat(file).st_mode):
            return False
        fcntl.flock(file, fcntl.LOCK_EX | fcntl.LOCK_NB)
        part.unlink()
        return True
    except OSError:
        return False
    finally:
        os.close(file)


def _sync_folder(folder: Path) -> None:
    """Puts the folder's new name on the disk, where the file system can."""
    file = os.open(folder, os.O_RDONLY | os.O_DIRECTORY)
    try:
        os.fsync(file)
    except OSError as fault:
        if fault.errno not in NO_LOCKS:
            raise
    finally:
        os.close(file)


def _host() -> str:
    return socket.gethostname()

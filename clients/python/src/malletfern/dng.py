"""The size of the developed plane as a frame's tags suggest it. Only the directories are read.

It is a suggestion: opcode lists, which may trim the plane, are passed over, and the program's rules of refusal aren't
repeated here (docs/PROFILE.md). `Session.size` asks the program about it.
"""

import contextlib
import os
import stat
import struct
from collections.abc import Iterator, Sequence
from pathlib import Path

LONGEST_SIDE = 8192

# TIFF 6.0, section 2, and TIFF Technical Note 1 (IFD): the bytes of a number of a type, and its letter.
SHORT, LONG, RATIONAL, IFD = 3, 4, 5, 13
NUMBERS = {SHORT: (2, "H"), LONG: (4, "I"), RATIONAL: (8, "II"), IFD: (4, "I")}

NEW_SUB_FILE_TYPE = 254
IMAGE_WIDTH, IMAGE_LENGTH = 256, 257
SUB_IFDS = 330
DEFAULT_CROP_ORIGIN, DEFAULT_CROP_SIZE = 50719, 50720
ACTIVE_AREA = 50829

ENTRY_BYTES = 12
MOST_SUB_IFDS = 64


def suggested_size(frame: Path) -> tuple[int, int] | None:
    """The columns and rows of the default crop, clipped to the active area; None where they can't be read, or where no
    such plane can be."""
    try:
        with _opened(frame) as file:
            columns, rows = _crop_size(_Tiff(file))
    except (_Unreadable, OSError):
        return None
    return (columns, rows) if 0 < columns <= LONGEST_SIDE and 0 < rows <= LONGEST_SIDE else None


class _Unreadable(Exception):
    """The file doesn't say it, or not in a form that is read here."""


class _Tiff:
    """A TIFF file, read where an offset says."""

    def __init__(self, file: int) -> None:
        self._file = file
        orders = {b"II*\0": "<", b"MM\0*": ">"}
        head = self.bytes_at(0, 8)
        if head[:4] not in orders:
            raise _Unreadable
        self.order = orders[head[:4]]
        (self.first,) = self.numbers("I", head[4:])

    def bytes_at(self, at: int, count: int) -> bytes:
        data = os.pread(self._file, count, at)
        if len(data) != count:
            raise _Unreadable
        return data

    def numbers(self, letters: str, data: bytes) -> tuple[int, ...]:
        return struct.unpack(self.order + letters, data)

    def directory(self, at: int) -> "_Directory":
        (count,) = self.numbers("H", self.bytes_at(at, 2))
        return _Directory(self, self.bytes_at(at + 2, count * ENTRY_BYTES))


class _Directory:
    """The entries of a directory, by their tags. Of a tag that stands there several times the first counts."""

    def __init__(self, tiff: _Tiff, data: bytes) -> None:
        self._tiff = tiff
        self._entries: dict[int, tuple[int, int, bytes]] = {}
        for at in range(0, len(data), ENTRY_BYTES):
            tag, kind, count = tiff.numbers("HHI", data[at : at + 8])
            self._entries.setdefault(tag, (kind, count, data[at + 8 : at + ENTRY_BYTES]))

    def whole(self, tag: int, count: int, default: Sequence[int] | None = None) -> Sequence[int]:
        """So many numbers under a tag, fractions rounded down; the default where the tag isn't there."""
        if tag not in self._entries and default is not None:
            return default
        numbers = self.all_whole(tag, count)
        if len(numbers) != count:
            raise _Unreadable
        return numbers

    def all_whole(self, tag: int, most: int) -> Sequence[int]:
        """All numbers under a tag, which may be `most`."""
        kind, count, value = self._entries.get(tag, (0, 0, b""))
        if kind not in NUMBERS or not 1 <= count <= most:
            raise _Unreadable
        size, letters = NUMBERS[kind]
        if size * count > len(value):
            (at,) = self._tiff.numbers("I", value)
            value = self._tiff.bytes_at(at, size * count)
        numbers = self._tiff.numbers(letters * count, value[: size * count])
        return numbers if kind != RATIONAL else _rounded_down(numbers)


@contextlib.contextmanager
def _opened(frame: Path) -> Iterator[int]:
    """The descriptor of the frame's file, where it is a plain one. A pipe is opened without waiting for its writer."""
    file = os.open(frame, os.O_RDONLY | os.O_NONBLOCK)
    try:
        if not stat.S_ISREG(os.fstat(file).st_mode):
            raise _Unreadable
        yield file
    finally:
        os.close(file)


def _rounded_down(numbers: Sequence[int]) -> Sequence[int]:
    if 0 in numbers[1::2]:
        raise _Unreadable
    return [n // d for n, d in zip(numbers[::2], numbers[1::2])]


def _crop_size(tiff: _Tiff) -> tuple[int, int]:
    raw = _raw_directory(tiff)
    (width,), (length,) = raw.whole(IMAGE_WIDTH, 1), raw.whole(IMAGE_LENGTH, 1)
    top, left, bottom, right = raw.whole(ACTIVE_AREA, 4, (0, 0, length, width))
    across, down = raw.whole(DEFAULT_CROP_ORIGIN, 2, (0, 0))
    columns, rows = right - left - across, bottom - top - down
    wide, high = raw.whole(DEFAULT_CROP_SIZE, 2, (columns, rows))
    return min(wide, columns), min(high, rows)


def _raw_directory(tiff: _Tiff) -> _Directory:
    """Directory 0, or else the first SubIFD that is a raw image's."""
    first = tiff.directory(tiff.first)
    if _is_raw(first):
        return first
    for at in first.all_whole(SUB_IFDS, MOST_SUB_IFDS):
        directory = tiff.directory(at)
        if _is_raw(directory):
            return directory
    raise _Unreadable


def _is_raw(directory: _Directory) -> bool:
    return tuple(directory.whole(NEW_SUB_FILE_TYPE, 1, (0,))) == (0,)

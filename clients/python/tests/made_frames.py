"""DNG frames for the tests, of 16 bits a sample, and the pixels that they are developed to.

A frame is a ramp: the sample of row r and column c is START + DOWN r + ACROSS c. Black is 0 and white 65535, so linear
values are the samples; and the weights of Malvar, He and Cutler leave a ramp as it is, wherever no row or column
outside the plane is read. So each pixel that is at least 2 from the edges has the ramp's value in all three colours.
"""

import struct
from collections.abc import Iterable, Sequence
from dataclasses import dataclass
from typing import TypeAlias

import numpy as np
import numpy.typing as npt

START, DOWN, ACROSS = 1000, 300, 70

# TIFF 6.0, section 2: types, with the letters of one number.
BYTE, SHORT, LONG, RATIONAL, UNDEFINED = 1, 3, 4, 5, 7
LETTERS = {BYTE: "B", SHORT: "H", LONG: "I", RATIONAL: "II", UNDEFINED: "B"}

NEW_SUB_FILE_TYPE, SUB_IFDS, DNG_VERSION = 254, 330, 50706
STRIP_OFFSETS = 273


@dataclass(frozen=True)
class Entry:
    """A directory entry: a tag, a type and the numbers, two for a fraction."""

    tag: int
    kind: int
    numbers: Sequence[int]

    def value(self, order: str) -> bytes:
        return struct.pack(order + LETTERS[self.kind] * self.count, *self.numbers)

    @property
    def count(self) -> int:
        return len(self.numbers) // len(LETTERS[self.kind])


Samples: TypeAlias = npt.NDArray[np.uint16]


def ramp(columns: int, rows: int, shift: int = 0, period: int = 65536) -> Samples:
    """The samples of a ramp, shifted and taken modulo a period, of shape (rows, columns)."""
    r, c = np.indices((rows, columns))
    return np.asarray((START + DOWN * r + ACROSS * c + shift) % period, np.uint16)


def ramp_pixels(x: int, y: int, w: int, h: int) -> Samples:
    """The pixels of a rectangle of a developed ramp that stays 2 from its edges, of shape (h, w, 3)."""
    return np.repeat(ramp(x + w, y + h)[y:, x:, np.newaxis], 3, axis=2)


def frame(samples: Samples, extra: Iterable[Entry] = (), order: str = "<", in_sub_ifd: bool = False) -> bytes:
    """The bytes of a frame: directory 0, which is the raw image's or names its SubIFD, and one strip."""
    rows, columns = samples.shape
    strip = samples.astype(order + "u2").tobytes()
    raw = {
        entry.tag: entry
        for entry in (
            Entry(256, LONG, [columns]),
            Entry(257, LONG, [rows]),
            Entry(258, SHORT, [16]),
            Entry(262, SHORT, [32803]),
            Entry(STRIP_OFFSETS, LONG, [0]),
            Entry(279, LONG, [len(strip)]),
            Entry(33421, SHORT, [2, 2]),
            Entry(33422, BYTE, [0, 1, 1, 2]),
            *extra,
        )
    }
    version = Entry(DNG_VERSION, BYTE, [1, 4, 0, 0])
    head = (b"II" if order == "<" else b"MM") + struct.pack(order + "HI", 42, 8)
    if not in_sub_ifd:
        raw[DNG_VERSION] = version
        return head + _directory(8, raw, order, strip)
    main = [Entry(NEW_SUB_FILE_TYPE, LONG, [1]), Entry(SUB_IFDS, LONG, [0]), version]
    at = 8 + len(_directory(8, {entry.tag: entry for entry in main}, order))
    main[1] = Entry(SUB_IFDS, LONG, [at])
    return head + _directory(8, {entry.tag: entry for entry in main}, order) + _directory(at, raw, order, strip)


def trim_list(top: int, left: int, bottom: int, right: int) -> list[int]:
    """The bytes of an opcode list with one TrimBounds (DNG 1.6, chapter 7)."""
    return list(struct.pack(">I4I4I", 1, 6, 0x01030000, 0, 16, top, left, bottom, right))


def _directory(at: int, entries: dict[int, Entry], order: str, strip: bytes = b"") -> bytes:
    """A directory that stands at an offset, its longer values, and then a strip."""
    values_at = at + 2 + 12 * len(entries) + 4
    strip_at = values_at + sum(len(v) for v in (e.value(order) for e in entries.values()) if len(v) > 4)
    data, behind = struct.pack(order + "H", len(entries)), b""
    for tag in sorted(entries):
        entry = entries[tag] if tag != STRIP_OFFSETS else Entry(tag, LONG, [strip_at])
        value = entry.value(order)
        if len(value) > 4:
            behind, value = behind + value, struct.pack(order + "I", values_at + len(behind))
        data += struct.pack(order + "HHI", tag, entry.kind, entry.count) + value.ljust(4, b"\0")
    return data + bytes(4) + behind + strip

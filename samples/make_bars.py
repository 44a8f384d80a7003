#!/usr/bin/env python3
"""Writes bars.dng beside this script: a CinemaDNG frame of 96 by 64 pixels, of a form that rawdev develops today.

Rows 0 to 39 are colour bars, rows 40 to 51 a grey ramp, rows 52 to 63 a slanted edge from dark to bright. The picture
is mosaiced with the pattern red, green / green, blue, into one strip of 16-bit samples.
"""

import struct
from pathlib import Path

WIDTH, HEIGHT = 96, 64
RED, GREEN, BLUE = 0, 1, 2
PATTERN = (RED, GREEN, GREEN, BLUE)

DARK, BRIGHT = 2048, 49152

# White, yellow, cyan, green, magenta, red, blue, black, by what is lit.
BARS = [(1, 1, 1), (1, 1, 0), (0, 1, 1), (0, 1, 0), (1, 0, 1), (1, 0, 0), (0, 0, 1), (0, 0, 0)]

# TIFF 6.0, section 2: types, and the bytes of one number of each.
BYTE, SHORT, LONG = 1, 3, 4
SIZES = {BYTE: 1, SHORT: 2, LONG: 4}
LETTERS = {BYTE: "B", SHORT: "H", LONG: "I"}

HEADER_BYTES = 8
ENTRY_BYTES = 12


def colour(row, column):
    """Red, green and blue of the picture at a pixel."""
    if row < 40:
        return [BRIGHT if lit else 0 for lit in BARS[column * len(BARS) // WIDTH]]
    if row < 52:
        return [65535 * column // (WIDTH - 1)] * 3
    return [BRIGHT if 3 * column >= 144 + (row - 58) else DARK] * 3


def samples():
    """The one sample that the mosaic keeps of each pixel, row by row."""
    return [
        colour(row, column)[PATTERN[row % 2 * 2 + column % 2]]
        for row in range(HEIGHT)
        for column in range(WIDTH)
    ]


def entry(tag, kind, numbers):
    """A directory entry whose value stands in the entry itself, left-justified."""
    value = struct.pack("<" + LETTERS[kind] * len(numbers), *numbers)
    assert len(value) == SIZES[kind] * len(numbers) <= 4
    return struct.pack("<HHI", tag, kind, len(numbers)) + value.ljust(4, b"\0")


def frame():
    """The bytes of the file: header, directory 0, the strip."""
    tags = 9
    strip_at = HEADER_BYTES + 2 + tags * ENTRY_BYTES + 4
    strip = struct.pack(f"<{WIDTH * HEIGHT}H", *samples())
    entries = [
        entry(256, SHORT, [WIDTH]),  # ImageWidth
        entry(257, SHORT, [HEIGHT]),  # ImageLength
        entry(258, SHORT, [16]),  # BitsPerSample
        entry(262, SHORT, [32803]),  # PhotometricInterpretation: a colour filter array
        entry(273, LONG, [strip_at]),  # StripOffsets
        entry(279, LONG, [len(strip)]),  # StripByteCounts
        entry(33421, SHORT, [2, 2]),  # CFARepeatPatternDim
        entry(33422, BYTE, PATTERN),  # CFAPattern
        entry(50706, BYTE, [1, 4, 0, 0]),  # DNGVersion
    ]
    assert len(entries) == tags
    header = b"II" + struct.pack("<HI", 42, HEADER_BYTES)
    directory = struct.pack("<H", tags) + b"".join(entries) + struct.pack("<I", 0)
    return header + directory + strip


if __name__ == "__main__":
    Path(__file__).with_name("bars.dng").write_bytes(frame())

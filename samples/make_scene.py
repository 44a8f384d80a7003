#!/usr/bin/env python3
"""Writes scene.dng beside this script: a CinemaDNG frame of 240 by 160 pixels, of the form that a camera writes.

The picture is a sky over a meadow with a sun, and a card of patches before them: six colours and six greys. Its
colours are linear light of sRGB's primaries. They are taken to the camera's colours by DNG's forward form the other
way round, mosaiced with the pattern red, green / green, blue, and packed as 12 bits between a black and a white
level, in one strip.
"""

import struct
from pathlib import Path

WIDTH, HEIGHT = 240, 160
MARGIN = 4
RED, GREEN, BLUE = 0, 1, 2
PATTERN = (RED, GREEN, GREEN, BLUE)

BLACK, WHITE = 256, 4095

# Linear light of sRGB's primaries to XYZ under D50, adapted after Bradford.
TO_XYZ = [
    [0.4360747, 0.3850649, 0.1430804],
    [0.2225045, 0.7168786, 0.0606169],
    [0.0139322, 0.0971045, 0.7141733],
]

# The camera's forward matrix, whose rows sum to the white of D50, and its neutral: made up, and like those of cameras.
FORWARD = [[0.7000, 0.2000, 0.0642], [0.2800, 0.7800, -0.0600], [0.0200, -0.1200, 0.9249]]
NEUTRAL = [0.5, 1.0, 0.625]

# ColorMatrix1 of the made-up camera, from XYZ to its colours. It is read and checked.
COLOR = [[0.8, -0.2, -0.1], [-0.3, 1.2, 0.1], [0.0, 0.1, 0.7]]

SKY_TOP, SKY_LOW = (0.05, 0.14, 0.42), (0.42, 0.60, 0.80)
MEADOW_TOP, MEADOW_LOW = (0.10, 0.20, 0.03), (0.03, 0.07, 0.01)
SUN = (1.0, 0.86, 0.45)
CARD = (0.02, 0.02, 0.02)
PATCHES = [
    [
        (0.40, 0.03, 0.03), (0.60, 0.25, 0.02), (0.70, 0.55, 0.03),
        (0.05, 0.30, 0.06), (0.03, 0.10, 0.40), (0.30, 0.05, 0.25),
    ],
    [(g, g, g) for g in (0.90, 0.59, 0.36, 0.19, 0.09, 0.03)],
]

# TIFF 6.0, section 2: types, and the bytes of one number of each.
BYTE, SHORT, LONG, RATIONAL, SRATIONAL = 1, 3, 4, 5, 10
LETTERS = {BYTE: "B", SHORT: "H", LONG: "I", RATIONAL: "I", SRATIONAL: "i"}

HEADER_BYTES = 8
ENTRY_BYTES = 12


def blend(one, other, part):
    return tuple(a + (b - a) * part for a, b in zip(one, other))


def scene(row, column):
    """Red, green and blue of the picture at a pixel, in linear light."""
    if 88 <= row < 140 and 36 <= column < 204:
        patch_row, patch_column = (row - 92) // 24, (column - 42) // 26
        inside = (row - 92) % 24 < 20 and (column - 42) % 26 < 22 and row >= 92 and column >= 42
        return PATCHES[patch_row][patch_column] if inside and patch_row < 2 and patch_column < 6 else CARD
    if (row - 34) ** 2 + (column - 186) ** 2 < 14**2:
        return SUN
    hill = 78 + (column - 120) ** 2 // 900
    if row < hill:
        return blend(SKY_TOP, SKY_LOW, row / hill)
    return blend(MEADOW_TOP, MEADOW_LOW, (row - hill) / (HEIGHT - hill))


def times(matrix, vector):
    return [sum(m * v for m, v in zip(line, vector)) for line in matrix]


def inverse(m):
    """The inverse of a matrix of 3 by 3, by its cofactors."""
    cofactors = [
        [
            m[(i + 1) % 3][(j + 1) % 3] * m[(i + 2) % 3][(j + 2) % 3]
            - m[(i + 1) % 3][(j + 2) % 3] * m[(i + 2) % 3][(j + 1) % 3]
            for j in range(3)
        ]
        for i in range(3)
    ]
    determinant = sum(m[0][j] * cofactors[0][j] for j in range(3))
    return [[cofactors[j][i] / determinant for j in range(3)] for i in range(3)]


FROM_XYZ = inverse(FORWARD)


def camera(colour):
    """The camera's red, green and blue of a colour."""
    return [n * v for n, v in zip(NEUTRAL, times(FROM_XYZ, times(TO_XYZ, colour)))]


def samples():
    """The one sample that the mosaic keeps of each pixel, row by row, with a margin round the picture."""
    for row in range(-MARGIN, HEIGHT + MARGIN):
        for column in range(-MARGIN, WIDTH + MARGIN):
            colour = scene(min(max(row, 0), HEIGHT - 1), min(max(column, 0), WIDTH - 1))
            value = camera(colour)[PATTERN[row % 2 * 2 + column % 2]]
            yield min(max(round(BLACK + value * (WHITE - BLACK)), 0), WHITE)


def packed(values):
    """Samples of 12 bits, the most significant bit first. A row has an even number of them, so it ends at a byte."""
    values = list(values)
    pairs = zip(values[::2], values[1::2])
    return b"".join((a << 12 | b).to_bytes(3, "big") for a, b in pairs)


def fractions(matrix):
    return [n for line in matrix for v in line for n in (round(v * 10000), 10000)]


def frame():
    """The bytes of the file: header, directory 0, the longer values, the strip."""
    rows, columns = HEIGHT + 2 * MARGIN, WIDTH + 2 * MARGIN
    strip = packed(samples())
    # Tag, type, numbers; the strip's offset is put in when all else has its place.
    tags = [
        (254, LONG, [0]),  # NewSubFileType
        (256, SHORT, [columns]),  # ImageWidth
        (257, SHORT, [rows]),  # ImageLength
        (258, SHORT, [12]),  # BitsPerSample
        (259, SHORT, [1]),  # Compression
        (262, SHORT, [32803]),  # PhotometricInterpretation: a colour filter array
        (273, LONG, [0]),  # StripOffsets
        (277, SHORT, [1]),  # SamplesPerPixel
        (278, SHORT, [rows]),  # RowsPerStrip
        (279, LONG, [len(strip)]),  # StripByteCounts
        (33421, SHORT, [2, 2]),  # CFARepeatPatternDim
        (33422, BYTE, PATTERN),  # CFAPattern
        (50706, BYTE, [1, 4, 0, 0]),  # DNGVersion
        (50714, SHORT, [BLACK]),  # BlackLevel
        (50717, SHORT, [WHITE]),  # WhiteLevel
        (50719, SHORT, [MARGIN, MARGIN]),  # DefaultCropOrigin
        (50720, SHORT, [WIDTH, HEIGHT]),  # DefaultCropSize
        (50721, SRATIONAL, fractions(COLOR)),  # ColorMatrix1
        (50728, RATIONAL, [n for v in NEUTRAL for n in (round(v * 1000), 1000)]),  # AsShotNeutral
        (50829, SHORT, [0, 0, rows, columns]),  # ActiveArea
        (50964, SRATIONAL, fractions(FORWARD)),  # ForwardMatrix1
    ]
    values_at = HEADER_BYTES + 2 + len(tags) * ENTRY_BYTES + 4
    values = [struct.pack(f"<{len(numbers)}{LETTERS[kind]}", *numbers) for _, kind, numbers in tags]
    strip_at = values_at + sum(len(v) for v in values if len(v) > 4)
    entries, behind = b"", b""
    for (tag, kind, numbers), value in zip(tags, values):
        if tag == 273:
            value = struct.pack("<I", strip_at)
        count = len(numbers) // 2 if kind in (RATIONAL, SRATIONAL) else len(numbers)
        if len(value) > 4:
            at = values_at + len(behind)
            behind += value
            value = struct.pack("<I", at)
        entries += struct.pack("<HHI", tag, kind, count) + value.ljust(4, b"\0")
    header = b"II" + struct.pack("<HI", 42, HEADER_BYTES)
    directory = struct.pack("<H", len(tags)) + entries + struct.pack("<I", 0)
    return header + directory + behind + strip


if __name__ == "__main__":
    Path(__file__).with_name("scene.dng").write_bytes(frame())

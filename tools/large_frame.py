#!/usr/bin/env python3
"""Writes a frame of 4096 by 2160 pixels and compares what a built `rawdev` writes of it with pixels computed here:
`large_frame.py RAWDEV [FRAME]`. The frame is left as FRAME, where that is given.

It has the form that cameras write: samples of 12 bits, packed, in one strip of 13,271,040 bytes, levels, a crop,
colours, a time code and a frame rate. Pixels come from the formulas: linear values of `linear_values.py`, demosaiced by
`malvar_table.py`, cropped, balanced, mapped by the forward matrix and a tone curve. Each step but the curve rounds a
half up, and is held within 0 and 65535; the root is rounded down. Ends with status 1 where a byte differs.
"""

import argparse
import functools
import math
import struct
import subprocess
import sys
import tempfile
from pathlib import Path

import malvar_table
from compare_linear import packed, program
from linear_values import Levels, values
from tiff import ASCII, BYTE, LONG, RATIONAL, SHORT, SRATIONAL, STRIP_OFFSETS, over, written

ROWS, COLS = 2160, 4096
BLACK, WHITE = 256, 4095
MARGIN, WIDTH, HEIGHT = 8, 4080, 2144
PATTERN = (0, 1, 1, 2)

# In 10000ths: from XYZ to the camera's colours (it is read and checked), and from balanced samples to XYZ under D50.
COLOUR = [8000, -2000, -1000, -3000, 12000, 1000, 0, 1000, 7000]
FORWARD = [7000, 2000, 642, 2800, 7800, -600, 200, -1200, 9249]
# From XYZ under D50 to linear light of sRGB's primaries, adapted after Bradford, in 10000ths.
TO_RGB = [31339, -16169, -4906, -9788, 19161, 335, 719, -2290, 14052]
NEUTRAL = [500, 1000, 625]

SCRIPT = b"region 0 0 64 64 ppm\nregion 4079 2143 1 1 tiff\nregion 4080 0 1 1 ppm\n\nregion 2000 1000 10 10 ppm"


def sample(r, c):
    """A wave across the rows and columns, and on it steps that have each value from 0 to 4095."""
    return ((r * c >> 3) + 5 * (r + c) + 677 * (r % 5) * (c % 7)) % 4096


def tags(strip):
    """Tag, type and numbers of each entry of directory 0, with the number of the strip in place of its offset."""
    return [
        (254, LONG, [0]),  # NewSubFileType
        (256, SHORT, [COLS]),  # ImageWidth
        (257, SHORT, [ROWS]),  # ImageLength
        (258, SHORT, [12]),  # BitsPerSample
        (259, SHORT, [1]),  # Compression
        (262, SHORT, [32803]),  # PhotometricInterpretation: a colour filter array
        (271, ASCII, b"Malletfern\0"),  # Make
        (272, ASCII, b"Large\0"),  # Model
        (STRIP_OFFSETS, LONG, [0]),
        (274, SHORT, [1]),  # Orientation
        (277, SHORT, [1]),  # SamplesPerPixel
        (278, SHORT, [ROWS]),  # RowsPerStrip
        (279, LONG, [len(strip)]),  # StripByteCounts
        (33421, SHORT, [2, 2]),  # CFARepeatPatternDim
        (33422, BYTE, PATTERN),  # CFAPattern
        (50706, BYTE, [1, 4, 0, 0]),  # DNGVersion
        (50707, BYTE, [1, 1, 0, 0]),  # DNGBackwardVersion
        (50708, ASCII, b"Malletfern Large\0"),  # UniqueCameraModel
        (50714, SHORT, [BLACK]),  # BlackLevel
        (50717, SHORT, [WHITE]),  # WhiteLevel
        (50719, SHORT, [MARGIN, MARGIN]),  # DefaultCropOrigin
        (50720, SHORT, [WIDTH, HEIGHT]),  # DefaultCropSize
        (50721, SRATIONAL, over(COLOUR, 10000)),  # ColorMatrix1
        (50728, RATIONAL, over(NEUTRAL, 1000)),  # AsShotNeutral
        (50778, SHORT, [23]),  # CalibrationIlluminant1: D50
        (50829, SHORT, [0, 0, ROWS, COLS]),  # ActiveArea
        (50964, SRATIONAL, over(FORWARD, 10000)),  # ForwardMatrix1
        (51043, BYTE, [0x12, 0x34, 0x56, 0x01, 0, 0, 0, 0]),  # TimeCodes: 01:56:34, picture 12
        (51044, SRATIONAL, [24000, 1001]),  # FrameRate
    ]


@functools.cache
def linear_of():
    """The linear value of each sample of 12 bits."""
    return values(Levels([256 * BLACK], WHITE), 1, 4096, range(4096))


@functools.cache
def linear_row(r):
    return [linear_of()[sample(r, c)] for c in range(COLS)]


class Linear:
    """The plane of linear values, whose rows are computed as they are asked for."""

    def __len__(self):
        return ROWS

    def __getitem__(self, r):
        return linear_row(r)


def held(number):
    return min(max(number, 0), 65535)


def forward_matrix():
    """The matrix from balanced samples to linear light of sRGB's primaries, in 65536ths."""
    parts = [(2 * 65536 * n + 10000) // 20000 for n in FORWARD]
    return [
        [(sum(TO_RGB[3 * i + k] * parts[3 * k + j] for k in range(3)) + 5000) // 10000 for j in range(3)]
        for i in range(3)
    ]


def pixel(plane, y, x, exposure, tone):
    """Red, green and blue of the pixel in column x of row y of the crop."""
    demosaiced = malvar_table.pixel(malvar_table.MALVAR, plane, PATTERN, y + MARGIN, x + MARGIN)
    gains = [(2 * 4096 * NEUTRAL[1] + n) // (2 * n) for n in NEUTRAL]
    balanced = [held((v * gain * exposure + 2**21) // 2**22) for v, gain in zip(demosaiced, gains)]
    rows = forward_matrix()
    return [tone(held((sum(m * v for m, v in zip(row, balanced)) + 32768) // 65536)) for row in rows]


def tiff_image(w, h, samples):
    """TIFF 6.0, sections 2 and 6: an image of three samples of 16 bits, which follow a head of 180 bytes."""
    entries = [
        (256, LONG, [w]),  # ImageWidth
        (257, LONG, [h]),  # ImageLength
        (258, SHORT, [16, 16, 16]),  # BitsPerSample
        (259, SHORT, [1]),  # Compression
        (262, SHORT, [2]),  # PhotometricInterpretation: RGB
        (STRIP_OFFSETS, LONG, [0]),
        (277, SHORT, [3]),  # SamplesPerPixel
        (278, LONG, [h]),  # RowsPerStrip
        (279, LONG, [6 * w * h]),  # StripByteCounts
        (282, RATIONAL, [72, 1]),  # XResolution
        (283, RATIONAL, [72, 1]),  # YResolution
        (296, SHORT, [2]),  # ResolutionUnit: the inch
    ]
    return written(entries, [struct.pack(f"<{len(samples)}H", *samples)])


def reply(plane, line, exposure, tone):
    """What is answered to a line of the script."""
    words = line.split()
    if not words:
        return b"no word\n"
    x, y, w, h = map(int, words[1:5])
    if x + w > WIDTH or y + h > HEIGHT:
        return b"no region\n"
    samples = [s for r in range(y, y + h) for c in range(x, x + w) for s in pixel(plane, r, c, exposure, tone)]
    if words[5] == b"ppm":
        image = b"P6\n%d %d\n65535\n" % (w, h) + struct.pack(f">{len(samples)}H", *samples)
    else:
        image = tiff_image(w, h, samples)
    return b"image %d\n" % len(image) + image


SETTINGS = {
    "standard settings": ("", 1024, lambda v: v),
    "more light and the root curve": ('exposure = 1448\ntone = "root"\n', 1448, lambda v: math.isqrt(v * 65535)),
}


def differences(rawdev, name, folder, text, exposure, tone):
    """How many bytes of the replies to the script differ under settings, and how many there are too many or too few. A
    status other than 0 counts too."""
    settings = folder / "settings.toml"
    settings.write_text(text)
    run = subprocess.run([rawdev, name, "--settings", settings], input=SCRIPT, stdout=subprocess.PIPE)
    got, plane, at = run.stdout, Linear(), 0
    differing = abs(run.returncode)
    for line in SCRIPT.split(b"\n"):
        wanted = reply(plane, line, exposure, tone)
        part = got[at : at + len(wanted)]
        wrong = [i for i in range(len(wanted)) if part[i : i + 1] != wanted[i : i + 1]]
        said = wanted[: wanted.index(b"\n")].decode()
        print(f"  {line.decode()!r}: {said}, {len(wanted)} bytes, {len(wrong)} differ")
        at, differing = at + len(wanted), differing + len(wrong)
    print(f"  status {run.returncode}, {len(got)} bytes, {at} wanted")
    return differing + abs(len(got) - at)


def main():
    parser = argparse.ArgumentParser(description="Compares what a built rawdev writes of a large frame with formulas.")
    parser.add_argument("rawdev", metavar="RAWDEV", type=program, help="the built program")
    parser.add_argument("frame", metavar="FRAME", type=Path, nargs="?", help="where the frame is left")
    options = parser.parse_args()
    strip = b"".join(packed([sample(r, c) for c in range(COLS)]) for r in range(ROWS))
    assert len(strip) == 13271040
    differing = 0
    with tempfile.TemporaryDirectory() as folder:
        name = options.frame or Path(folder) / "large.dng"
        name.write_bytes(written(tags(strip), [strip]))
        for said, (text, exposure, tone) in SETTINGS.items():
            print(said)
            differing += differences(options.rawdev, name, Path(folder), text, exposure, tone)
    return 1 if differing else 0


if __name__ == "__main__":
    sys.exit(main())

#!/usr/bin/env python3
"""Compares what a built `rawdev` writes with the linear values of `linear_values.py`: `compare_linear.py RAWDEV`.

A frame of 12 bits has 4 rows of 4096 samples, and each row has every value once. It has no forward matrix and no
neutral, so that each pixel's own colour in the image is the linear value of its sample (DNG 1.6, chapter 5): red where
row and column are even, blue where both are odd, else green. Ends with status 1 where a sample differs.
"""

import argparse
import shutil
import struct
import subprocess
import sys
import tempfile

from linear_values import Levels, values
from tiff import BYTE, LONG, RATIONAL, SHORT, SRATIONAL, STRIP_OFFSETS, over, written

ROWS, COLS = 4, 4096
LEVELS = {
    "black 256, white 4095": Levels([65536], 4095),
    "a pattern with deltas of both kinds": Levels(
        [65536, 66000, 64000, 65537], 4000, 2, 2, [c % 601 - 300 for c in range(COLS)], [512, 0, -513, 100]
    ),
    "a table": Levels([768], 58000, table=[v * v // 273 for v in range(4000)]),
}


def samples():
    """Each row has all values of 12 bits, in an order of its own."""
    return [(c * (2 * r + 1) * 5 + 1000 * r) % COLS for r in range(ROWS) for c in range(COLS)]


def packed(numbers):
    """The bytes of samples of 12 bits, of which there is an even number in each row."""
    pairs = zip(numbers[::2], numbers[1::2])
    return b"".join((a << 12 | b).to_bytes(3, "big") for a, b in pairs)


def frame(levels, strip):
    """A file in little-endian order that has these levels: 256ths as fractions."""
    entries = [
        (256, SHORT, [COLS]),  # ImageWidth
        (257, SHORT, [ROWS]),  # ImageLength
        (258, SHORT, [12]),  # BitsPerSample
        (259, SHORT, [1]),  # Compression
        (262, SHORT, [32803]),  # PhotometricInterpretation: a colour filter array
        (STRIP_OFFSETS, LONG, [0]),
        (279, LONG, [len(strip)]),  # StripByteCounts
        (33421, SHORT, [2, 2]),  # CFARepeatPatternDim
        (33422, BYTE, [0, 1, 1, 2]),  # CFAPattern
        (50706, BYTE, [1, 4, 0, 0]),  # DNGVersion
        (50713, SHORT, [levels.black_rows, levels.black_cols]),  # BlackLevelRepeatDim
        (50714, RATIONAL, over(levels.black, 256)),  # BlackLevel
        (50717, SHORT, [levels.white]),  # WhiteLevel
    ]
    lists = [
        (50712, SHORT, levels.table),  # LinearizationTable
        (50715, SRATIONAL, over(levels.delta_h, 256)),  # BlackLevelDeltaH
        (50716, SRATIONAL, over(levels.delta_v, 256)),  # BlackLevelDeltaV
    ]
    return written(entries + [entry for entry in lists if entry[2]], [strip])


def image(rawdev, data):
    """The samples that the program writes of the whole frame."""
    with tempfile.NamedTemporaryFile(suffix=".dng") as file:
        file.write(data)
        file.flush()
        script = f"region 0 0 {COLS} {ROWS} ppm\n".encode()
        reply = subprocess.run([rawdev, file.name], input=script, stdout=subprocess.PIPE, check=True).stdout
    head = b"P6\n%d %d\n65535\n" % (COLS, ROWS)
    count = 6 * ROWS * COLS
    assert reply[:-count] == b"image %d\n" % (len(head) + count) + head, reply[:80]
    return struct.unpack(f">{3 * ROWS * COLS}H", reply[-count:])


def program(word):
    """The program of a word of the command line."""
    found = shutil.which(word)
    if found is None:
        raise argparse.ArgumentTypeError(f"{word} can't be run")
    return found


def main():
    parser = argparse.ArgumentParser(description="Compares what a built rawdev writes with linear values.")
    parser.add_argument("rawdev", metavar="RAWDEV", type=program, help="the built program")
    rawdev = parser.parse_args().rawdev
    raw = samples()
    differing = 0
    for name, levels in LEVELS.items():
        wanted, got = values(levels, ROWS, COLS, raw), image(rawdev, frame(levels, packed(raw)))
        own = [got[3 * (r * COLS + c) + r % 2 + c % 2] for r in range(ROWS) for c in range(COLS)]
        wrong = [k for k in range(ROWS * COLS) if own[k] != wanted[k]]
        differing += len(wrong)
        print(f"{name}: {len(own)} samples, {len(set(own))} values, {len(wrong)} differ")
        for k in wrong[:3]:
            print(f"  row {k // COLS}, column {k % COLS}: sample {raw[k]}, linear {wanted[k]}, written {own[k]}")
    return 1 if differing else 0


if __name__ == "__main__":
    sys.exit(main())

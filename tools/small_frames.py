#!/usr/bin/env python3
"""Prints the small frames of `segments` in `frame_tests`: 6 rows of 7 samples, of each depth, in strips and in tiles.

The sample at row r, column c is (4099 * (r % period) + 641 * c) % 2 ** depth, and padding is ones. The bits of a row
are a string of binary digits (TIFF 6.0, sections 8 and 15; DNG 1.6, chapter 4).
"""

from tiff import BYTE, LONG, SHORT, STRIP_OFFSETS, TILE_OFFSETS, written

ROWS, COLS = 6, 7


def row_bytes(samples, depth, order):
    if depth == 16:
        return b"".join(s.to_bytes(2, order) for s in samples)
    digits = "".join(f"{s:0{depth}b}" for s in samples)
    digits += "1" * (-len(digits) % 8)
    return bytes(int(digits[i : i + 8], 2) for i in range(0, len(digits), 8))


def frame(depth, order, rows, cols, shared=False, short=0):
    """A frame in strips of `rows` rows, or in tiles where `cols` is given. `shared`: all segments are the last one.
    `short`: how many bytes the last byte count lacks."""
    period = rows if shared else ROWS
    width = cols or COLS

    def sample(r, c):
        inside = r < ROWS and c < COLS
        return (4099 * (r % period) + 641 * c) % 2**depth if inside else 2**depth - 1

    segments = []
    for top in range(0, ROWS, rows):
        for left in range(0, COLS, width):
            bottom = top + rows if cols else min(top + rows, ROWS)
            samples = [[sample(r, c) for c in range(left, left + width)] for r in range(top, bottom)]
            segments.append(b"".join(row_bytes(row, depth, order) for row in samples))

    entries = [
        (256, LONG, [COLS]),  # ImageWidth
        (257, LONG, [ROWS]),  # ImageLength
        (258, SHORT, [depth]),  # BitsPerSample
        (262, SHORT, [32803]),  # PhotometricInterpretation: a colour filter array
        (33421, SHORT, [2, 2]),  # CFARepeatPatternDim
        (33422, BYTE, [0, 1, 1, 2]),  # CFAPattern
        (50706, BYTE, [1, 4, 0, 0]),  # DNGVersion
    ]
    count = len(segments)
    numbers = [count - 1] * count if shared else list(range(count))
    lengths = [len(segment) for segment in segments]
    lengths[-1] -= short
    if cols:
        entries += [(322, SHORT, [cols]), (323, SHORT, [rows]), (TILE_OFFSETS, LONG, numbers), (325, SHORT, lengths)]
    else:
        entries += [(278, SHORT, [rows]), (STRIP_OFFSETS, LONG, numbers), (279, SHORT, lengths)]
    return written(entries, segments, "<" if order == "little" else ">")


def literal(data):
    lines = ["".join(f"\\x{b:02X}" for b in data[i : i + 24]) for i in range(0, len(data), 24)]
    return 'b"' + "\\\n        ".join(lines) + '"'


# Depth, byte order, and the rows and columns of a segment: 0 columns for strips.
CASES = [
    (8, "little", 2, 0),
    (9, "big", 4, 4),
    (10, "big", 4, 0),
    (11, "little", 3, 5),
    (12, "little", 4, 4),
    (13, "little", 1, 0),
    (14, "big", 6, 0),
    (15, "little", 16, 16),
    (16, "little", 4, 0),
    (16, "big", 5, 3),
]


def main():
    for case in CASES:
        print(f"depth {case[0]}, period 6:\n{literal(frame(*case))}")
    print(f"depth 16, period 3:\n{literal(frame(16, 'little', 3, 0, shared=True))}")
    print(f"Segment 1, Short 22 21:\n{literal(frame(12, 'little', 4, 0, short=1))}")


if __name__ == "__main__":
    main()

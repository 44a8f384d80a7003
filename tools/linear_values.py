#!/usr/bin/env python3
"""Prints linear values of raw ones (DNG 1.6, chapter 5), straight from the formula: the table of `linear` in
`stage_tests`.

The black level of a place is that of the pattern, and what its column and its row add. The white level stands `span`
above the greatest black level of the area. A sample v, after the linearisation table, over a black level b becomes
(2 * 65535 * (256 * v - b) + span) / (2 * span), rounded down, held within 0 and 65535.
"""

from collections.abc import Sequence
from typing import NamedTuple

ROWS, COLS = 4, 5
SAMPLES = [0, 255, 256, 2048, 4095, 1, 257, 300, 1000, 65535, 511, 512, 513, 2, 3, 1023, 3000, 4094, 4, 40000]


class Levels(NamedTuple):
    """The levels of an area. Black levels and what is added to them are in 256ths; white levels, the table and the
    levels of settings are sample values."""

    black: Sequence[int]
    white: int
    black_rows: int = 1
    black_cols: int = 1
    delta_h: Sequence[int] = ()
    delta_v: Sequence[int] = ()
    table: Sequence[int] = ()
    black_setting: int | None = None
    white_setting: int | None = None


BAYER = Levels([65536, 66000, 64000, 65537], 4095, 2, 2, [0, -300, 256, 7, -1], [512, 0, -513, 100])
CASES = {
    "level 256 to 4095": Levels([65536], 4095),
    "a pattern with deltas of both kinds": BAYER,
    "a pattern of 3 by 2, rows alone": Levels([0, 256, 512, 768, 1024, -1280], 1000, 3, 2, delta_v=[1, 2, 3, 4]),
    "columns alone, a black below 0": Levels([-16777216], 65535, delta_h=[1, 2, 3, 4, 5]),
    "a table shorter than the samples": Levels([25600], 4000, table=[7, 100, 2000, 1, 3900]),
    "black of a setting, no deltas": BAYER._replace(black_setting=128),
    "white of a setting": BAYER._replace(white_setting=3000),
    "black and white of settings": Levels(
        [0], 4095, delta_v=[9, 9, 9, 9], table=[5, 6], black_setting=3, white_setting=8
    ),
    "halves": Levels([0], 65535, white_setting=30),
    "a span of one 256th": Levels([65535], 256),
}


def black_at(levels, r, c):
    """The black level of a place, in 256ths."""
    if levels.black_setting is not None:
        return 256 * levels.black_setting
    black = levels.black[r % levels.black_rows * levels.black_cols + c % levels.black_cols]
    return black + (levels.delta_h[c] if levels.delta_h else 0) + (levels.delta_v[r] if levels.delta_v else 0)


def values(levels, rows=ROWS, cols=COLS, samples=SAMPLES):
    """The linear values of the samples of an area of so many rows and columns, row by row."""
    white = levels.white if levels.white_setting is None else levels.white_setting
    blacks = [black_at(levels, r, c) for r in range(rows) for c in range(cols)]
    span = 256 * white - max(blacks)
    assert span > 0
    out = []
    for v, b in zip(samples, blacks):
        v = levels.table[min(v, len(levels.table) - 1)] if levels.table else v
        out.append(max(0, min(65535, (2 * 65535 * (256 * v - b) + span) // (2 * span))))
    return out


def main():
    for name, levels in CASES.items():
        print(name, values(levels))


if __name__ == "__main__":
    main()

#!/usr/bin/env python3
"""Prints pixels after Malvar, He and Cutler (2004, figure 2), and by means of the nearest samples, straight from the
formula: the table of `demosaic` in `stage_tests`, whose columns are the kind, the number of the pattern, the row, the
column and the pixel; and then the four pixels of `bright_red` there, of a plane that is dark but for one red site, as
row, column and the pixel in hexadecimal.

Each missing colour is a weighted sum in sixteenths, rounded to the nearest (a half up), held within 0 and 65535. A
row or column outside the plane is read at its mirror image, -1 at 1 and n at n - 2.
"""

RED, GREEN, BLUE = 0, 1, 2
PATTERNS = [(0, 1, 1, 2), (2, 1, 1, 0), (1, 0, 2, 1), (1, 2, 0, 1)]

# figure 2, in sixteenths: the filter's rows, two above to two below
GREEN_AT_COLOUR = [(0, 0, -2, 0, 0), (0, 0, 4, 0, 0), (-2, 4, 8, 4, -2), (0, 0, 4, 0, 0), (0, 0, -2, 0, 0)]
COLOUR_IN_ROW = [(0, 0, 1, 0, 0), (0, -2, 0, -2, 0), (-2, 8, 10, 8, -2), (0, -2, 0, -2, 0), (0, 0, 1, 0, 0)]
COLOUR_IN_COLUMN = [tuple(row[i] for row in COLOUR_IN_ROW) for i in range(5)]
OPPOSITE = [(0, 0, -3, 0, 0), (0, 4, 0, 4, 0), (-3, 0, 12, 0, -3), (0, 4, 0, 4, 0), (0, 0, -3, 0, 0)]

MALVAR = (GREEN_AT_COLOUR, COLOUR_IN_ROW, COLOUR_IN_COLUMN, OPPOSITE)


def filter_of(weights):
    rows = [[0] * 5 for _ in range(5)]
    for (i, j), weight in weights.items():
        rows[i + 2][j + 2] = weight
    return rows


# the means: of the four nearest, of the two in the row, of the two in the column, of the four diagonal ones
BILINEAR = (
    filter_of({(0, -1): 4, (0, 1): 4, (-1, 0): 4, (1, 0): 4}),
    filter_of({(0, -1): 8, (0, 1): 8}),
    filter_of({(-1, 0): 8, (1, 0): 8}),
    filter_of({(-1, -1): 4, (-1, 1): 4, (1, -1): 4, (1, 1): 4}),
)


def mirrored(i, n):
    return -i if i < 0 else 2 * (n - 1) - i if i >= n else i


def colour(cfa, r, c):
    return cfa[r % 2 * 2 + c % 2]


def sample(filters, plane, cfa, r, c, wanted):
    own = colour(cfa, r, c)
    if own == wanted:
        return plane[r][c]
    at_colour, in_row, in_column, opposite = filters
    if wanted == GREEN:
        filter_rows = at_colour
    elif own == GREEN:
        filter_rows = in_row if wanted in (colour(cfa, r, c - 1), colour(cfa, r, c + 1)) else in_column
    else:
        filter_rows = opposite
    total = sum(
        weight * plane[mirrored(r + i - 2, len(plane))][mirrored(c + j - 2, len(plane[0]))]
        for i, row in enumerate(filter_rows)
        for j, weight in enumerate(row)
    )
    return min(max((total + 8) // 16, 0), 65535)


def pixel(filters, plane, cfa, r, c):
    return [sample(filters, plane, cfa, r, c, wanted) for wanted in (RED, GREEN, BLUE)]


def main():
    small = [
        [60000, 51, 1023, 40000, 40000],
        [18, 3000, 65535, 9, 60000],
        [700, 41000, 5, 12345, 60],
        [2, 777, 50000, 65535, 1901],
    ]
    for name, filters in (("Malvar", MALVAR), ("Bilinear", BILINEAR)):
        for k, cfa in enumerate(PATTERNS):
            for r, c in ((0, 0), (0, 4), (3, 0), (3, 4), (1, 2)):
                print(f"(Kind::{name}, {k}, {r}, {c}, {pixel(filters, small, cfa, r, c)}),")
    bright = [[1600 if (r, c) == (4, 4) else 0 for c in range(8)] for r in range(8)]
    for r, c in ((4, 4), (4, 5), (4, 6), (5, 5)):
        print(r, c, [f"{v:04X}" for v in pixel(MALVAR, bright, PATTERNS[0], r, c)])


if __name__ == "__main__":
    main()

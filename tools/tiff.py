"""Writes a TIFF file of one directory (TIFF 6.0, section 2), for the other scripts."""

import itertools
import struct

BYTE, ASCII, SHORT, LONG, RATIONAL, SRATIONAL = 1, 2, 3, 4, 5, 10
LETTERS = {BYTE: "B", ASCII: "B", SHORT: "H", LONG: "I", RATIONAL: "I", SRATIONAL: "i"}
FRACTIONS = (RATIONAL, SRATIONAL)

STRIP_OFFSETS, TILE_OFFSETS = 273, 324


def written(entries, segments, order="<"):
    """The bytes of a file: header, directory 0, its longer values, each from an even offset on, and the segments.

    An entry is a tag, a type and the numbers, two for a fraction. The numbers under a tag of offsets are those of the
    segments, from 0 on, whose offsets stand in their place. `order` is `struct`'s letter of the byte order.
    """
    entries = sorted(entries, key=lambda entry: entry[0])
    values_at = 8 + 2 + 12 * len(entries) + 4
    sizes = [len(numbers) * struct.calcsize(f"={LETTERS[kind]}") for _, kind, numbers in entries]
    segments_at = values_at + sum(size + size % 2 for size in sizes if size > 4)
    places = list(itertools.accumulate((len(segment) for segment in segments), initial=segments_at))
    directory, behind = struct.pack(order + "H", len(entries)), b""
    for tag, kind, numbers in entries:
        if tag in (STRIP_OFFSETS, TILE_OFFSETS):
            numbers = [places[number] for number in numbers]
        value = struct.pack(f"{order}{len(numbers)}{LETTERS[kind]}", *numbers)
        if len(value) > 4:
            place = struct.pack(order + "I", values_at + len(behind))
            behind, value = behind + value + bytes(len(value) % 2), place
        count = len(numbers) // 2 if kind in FRACTIONS else len(numbers)
        directory += struct.pack(order + "HHI", tag, kind, count) + value.ljust(4, b"\0")
    head = (b"II" if order == "<" else b"MM") + struct.pack(order + "HI", 42, 8)
    return head + directory + bytes(4) + behind + b"".join(segments)


def over(numbers, denominator):
    """The numbers of fractions that have one denominator."""
    return [n for number in numbers for n in (number, denominator)]

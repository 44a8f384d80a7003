#!/usr/bin/env python3
"""Prints the file that `written` in `frame_tests` compares with, in both byte orders: directory 0 with values of each
kind, a further directory whose entry lies about its count, and two bytes of data. TIFF 6.0, section 2."""

import struct


def made(mark, order):
    def shorts(*numbers):
        return struct.pack(order + "%dH" % len(numbers), *numbers)

    def longs(*numbers):
        return struct.pack(order + "%dI" % len(numbers), *[n & 0xFFFFFFFF for n in numbers])

    def directory(at, fields):
        behind = at + 6 + 12 * len(fields)
        entries, values = b"", b""
        for tag, kind, count, value in fields:
            entries += shorts(tag, kind) + longs(count)
            if len(value) <= 4:
                entries += value + bytes(4 - len(value))
            else:
                entries += longs(behind + len(values))
                values += value
        return shorts(len(fields)) + entries + longs(0) + values

    first = [
        (1, 1, 3, bytes([7, 8, 9])),
        (2, 3, 3, shorts(258, 3, 4)),
        (10, 10, 1, longs(-1, 2)),
        (5, 5, 1, longs(3, 2)),
    ]
    # with the two entries below, directory 0 has 6 entries, and values of 6, 8, 8 and 8 bytes behind it
    second_at = 8 + 6 + 12 * 6 + 6 + 8 + 8 + 8
    data_at = second_at + 6 + 12
    first += [(330, 4, 1, longs(second_at)), (273, 4, 2, longs(data_at + 1, 5))]
    second = [(12, 3, 4294967295, shorts(16))]
    header = mark + shorts(42) + longs(8)
    return header + directory(8, first) + directory(second_at, second) + bytes([9, 8])


def main():
    for mark, order in ((b"II", "<"), (b"MM", ">")):
        file = made(mark, order)
        print(mark.decode(), len(file))
        for at in range(0, len(file), 16):
            print("    " + ", ".join("0x%02X" % byte for byte in file[at : at + 16]) + ",")


if __name__ == "__main__":
    main()

"""The size that a frame's tags suggest, of frames and of files that are none."""

import os
import random
import struct
from pathlib import Path

import pytest
from made_frames import BYTE, LONG, RATIONAL, SHORT, Entry, frame, ramp

from malletfern.dng import suggested_size


def suggested(tmp_path: Path, data: bytes) -> tuple[int, int] | None:
    path = tmp_path / "frame.dng"
    path.write_bytes(data)
    return suggested_size(path)


@pytest.mark.parametrize("order", ["<", ">"])
@pytest.mark.parametrize("in_sub_ifd", [False, True])
@pytest.mark.parametrize(
    ("extra", "size"),
    [
        ([], (12, 9)),
        ([Entry(50829, SHORT, [1, 2, 8, 10])], (8, 7)),
        ([Entry(50829, SHORT, [1, 2, 8, 10]), Entry(50719, LONG, [3, 1])], (5, 6)),
        ([Entry(50720, SHORT, [5, 4])], (5, 4)),
        ([Entry(50720, SHORT, [5000, 4000])], (12, 9)),
        ([Entry(50719, RATIONAL, [5, 2, 1, 2]), Entry(50720, RATIONAL, [11, 2, 17, 3])], (5, 5)),
        # What suggests nothing: denominators of 0, crops outside, other types and counts.
        ([Entry(50720, RATIONAL, [5, 0, 4, 1])], None),
        ([Entry(50719, SHORT, [12, 0])], None),
        ([Entry(50829, SHORT, [8, 0, 1, 12])], None),
        ([Entry(50720, BYTE, [5, 4])], None),
        ([Entry(50720, SHORT, [5, 4, 3])], None),
        ([Entry(50829, SHORT, [1, 2, 8])], None),
        ([Entry(256, LONG, [8193])], None),
        ([Entry(256, LONG, [0])], None),
    ],
)
def test_sizes(tmp_path: Path, order: str, in_sub_ifd: bool, extra: list[Entry], size: tuple[int, int] | None) -> None:
    assert suggested(tmp_path, frame(ramp(12, 9), extra, order, in_sub_ifd)) == size


def test_samples(bars: Path, scene: Path) -> None:
    assert suggested_size(bars) == (96, 64)
    assert suggested_size(scene) == (240, 160)


@pytest.mark.parametrize(
    "data",
    [
        b"",
        b"II*\0",
        b"II*\0\x08\0\0",
        b"II*\0\xff\xff\xff\xff",
        b"MM*\0\0\0\0\x08",
        # A directory that passes the end, one of no entry, one that is its own SubIFD, and values far outside.
        b"II*\0\x08\0\0\0\xff\xff",
        b"II*\0\x08\0\0\0\0\0",
        b"II*\0\x08\0\0\0" + struct.pack("<HHHIIHHII", 2, 254, 4, 1, 1, 330, 4, 1, 8),
        b"II*\0\x08\0\0\0" + struct.pack("<HHHIIHHII", 2, 254, 4, 1, 1, 330, 4, 64, 2**32 - 1),
        b"II*\0\x08\0\0\0" + struct.pack("<HHHII", 1, 256, 5, 2**32 - 1, 2**32 - 1),
    ],
)
def test_what_is_no_frame(tmp_path: Path, data: bytes) -> None:
    assert suggested(tmp_path, data) is None


def test_what_is_no_file(tmp_path: Path) -> None:
    pipe = tmp_path / "pipe.dng"
    os.mkfifo(pipe)
    assert suggested_size(pipe) is None
    assert suggested_size(tmp_path) is None
    assert suggested_size(tmp_path / "none.dng") is None
    assert suggested_size(Path("/dev/zero")) is None


def test_bytes_at_random() -> None:
    """Whatever the bytes are, the answer is a size of a plane or none."""
    numbers = random.Random(1)
    whole = frame(ramp(4, 4), [Entry(50719, RATIONAL, [0, 1, 0, 1]), Entry(50829, SHORT, [0, 0, 4, 4])], "<", True)
    sizes = set()
    with open(os.memfd_create("frame"), "r+b", buffering=0) as file:
        for _ in range(3000):
            data = bytearray(whole)
            for _ in range(numbers.randint(1, 4)):
                data[numbers.randrange(len(data))] = numbers.choice([0, 1, 2, 4, 127, 255, numbers.randrange(256)])
            file.truncate(numbers.randint(0, 2 * len(data)))
            os.pwrite(file.fileno(), data[: os.fstat(file.fileno()).st_size], 0)
            sizes.add(suggested_size(Path(f"/proc/self/fd/{file.fileno()}")))
    assert {None, (4, 4)} < sizes
    assert all(1 <= columns <= 8192 and 1 <= rows <= 8192 for columns, rows in sizes - {None})  # type: ignore[misc]

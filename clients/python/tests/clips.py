"""A clip of twelve frames, and the command over it in another process."""

import contextlib
import signal
import subprocess
import sys
import time
from collections.abc import Callable, Iterator
from pathlib import Path

from helpers import names
from made_frames import frame, ramp

COLUMNS, ROWS = 60, 40

GOOD = ["a 01.dng", "a 02.dng", "b.DNG", "c.dng", "d.dng", "e.dng", "f.dng", "ähre.dng", "雪.dng", "ящик 1.dng"]
CUT, NO_FRAME = "d2.dng", "e2.dng"
IMAGES = sorted(Path(name).with_suffix(".tiff").name for name in GOOD)
CAUSES = [f"{CUT}: refused Outside 0", f"{NO_FRAME}: refused NotTiff"]


def samples(number: int) -> bytes:
    return frame(ramp(COLUMNS, ROWS, shift=17 * number))


def command(*words: str | Path) -> list[str | Path]:
    return [sys.executable, "-m", "malletfern", "clip", *words]


def run(environment: dict[str, str], *words: str | Path) -> "subprocess.CompletedProcess[str]":
    return subprocess.run(command(*words), env=environment, capture_output=True, text=True, timeout=120)


def make_clip(folder: Path) -> None:
    """Makes a folder of 12 frames, of which two are damaged, and of what is no frame."""
    folder.mkdir()
    for number, name in enumerate(GOOD):
        (folder / name).write_bytes(samples(number))
    (folder / CUT).write_bytes(samples(1)[:-1])
    (folder / NO_FRAME).write_bytes(b"no frame\n")
    for name in (".hidden.dng", "notes.txt", "dng"):
        (folder / name).write_bytes(b"")
    (folder / "folder.dng").mkdir()


def own_image(rawdev: Path, name: Path, *options: str) -> bytes:
    """The image of a frame's plane in the program's own reply, without a session."""
    script = b"region 0 0 %d %d tiff\n" % (COLUMNS, ROWS)
    return subprocess.run([rawdev, *options, name], input=script, stdout=subprocess.PIPE).stdout.split(b"\n", 1)[1]


def assert_whole(rawdev: Path, clip: Path, out: Path) -> None:
    """Each accepted frame has the program's own image, and nothing else is there."""
    assert names(out) == IMAGES
    for name in GOOD:
        assert (out / name).with_suffix(".tiff").read_bytes() == own_image(rawdev, clip / name)


def _as_from_a_terminal() -> None:
    """Signals that a run in the background is started with as ignored are taken again."""
    for number in (signal.SIGINT, signal.SIGTERM):
        signal.signal(number, signal.SIG_DFL)


@contextlib.contextmanager
def running(environment: dict[str, str], *words: str | Path) -> Iterator["subprocess.Popen[str]"]:
    process = subprocess.Popen(
        command(*words),
        env=environment,
        stdout=subprocess.PIPE,
        stderr=subprocess.PIPE,
        text=True,
        preexec_fn=_as_from_a_terminal,
    )
    try:
        yield process
    finally:
        process.kill()
        process.communicate()


def wait_for(holds: Callable[[], bool]) -> None:
    end = time.monotonic() + 30
    while not holds():
        assert time.monotonic() < end, "it took too long"
        time.sleep(0.01)


def images(out: Path) -> list[str]:
    return [name for name in names(out) if name.endswith(".tiff")] if out.is_dir() else []

"""What the tests share: the program, sample frames, and programs that speak out of turn."""

import collections
import os
import sys
from collections.abc import Callable
from pathlib import Path
from typing import Any

import pytest
from clips import make_clip
from helpers import PACKAGE, executable

from malletfern.errors import NotInstalled
from malletfern.installed import VARIABLE, find_program

SAMPLES = PACKAGE.parents[1] / "samples"

STAND_IN = """#!{python}
import os, signal, sys

for reply, line in zip({replies!r}, sys.stdin.buffer):
    sys.stdout.buffer.write(reply)
    sys.stdout.buffer.flush()
if {status} < 0:
    os.kill(os.getpid(), -{status})
sys.exit({status})
"""


def pytest_terminal_summary(terminalreporter: Any) -> None:
    """One line for each reason for which tests were skipped."""
    reports = terminalreporter.getreports("skipped")
    reasons = collections.Counter(str(report.longrepr[2]).removeprefix("Skipped: ") for report in reports)
    for reason, count in reasons.items():
        terminalreporter.write_line(f"{count} skipped: {reason}")


@pytest.fixture(scope="session")
def rawdev() -> Path:
    """The program. Where there is none, the tests that need it are skipped, and fail where the environment names it."""
    try:
        return find_program()
    except NotInstalled as missing:
        if os.environ.get(VARIABLE):
            pytest.fail(str(missing), pytrace=False)
        pytest.skip(str(missing))


@pytest.fixture
def stand_in(tmp_path: Path) -> Callable[..., Path]:
    """Makes a program that answers each line by the next of some replies, and then ends with a status, or by the signal
    of a negative one."""

    def made(*replies: bytes, status: int = 0) -> Path:
        text = STAND_IN.format(python=sys.executable, replies=replies, status=status)
        return executable(tmp_path / "stand_in", text)

    return made


@pytest.fixture
def slow_rawdev(rawdev: Path, tmp_path: Path) -> Path:
    """The program after three tenths of a second, so that a run over a few small frames takes time."""
    return executable(tmp_path / "slow_rawdev", f'#!/bin/sh\nsleep 0.3\nexec "{rawdev}" "$@"\n')


@pytest.fixture
def environment(rawdev: Path) -> dict[str, str]:
    """The environment of a process that runs the package from here, with the program."""
    return {**os.environ, "PYTHONPATH": str(PACKAGE / "src"), VARIABLE: str(rawdev)}


@pytest.fixture(scope="session")
def bars() -> Path:
    """The sample frame of 96 by 64 pixels: bars, a ramp and an edge."""
    return SAMPLES / "bars.dng"


@pytest.fixture(scope="session")
def scene() -> Path:
    """The sample frame of 240 by 160 pixels, packed, with levels, a crop and colours."""
    return SAMPLES / "scene.dng"


@pytest.fixture
def clip(tmp_path: Path) -> Path:
    """A folder of 12 frames, of which two are damaged, and of what is no frame."""
    folder = tmp_path / "the clip"
    make_clip(folder)
    return folder


@pytest.fixture
def out(tmp_path: Path) -> Path:
    """The folder of its images, which isn't there yet."""
    return tmp_path / "images"

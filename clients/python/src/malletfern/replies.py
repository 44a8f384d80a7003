"""What the program's lines say (docs/SCRIPT.md). A line that isn't known is an `UnknownReply`."""

import re
from dataclasses import dataclass

from malletfern.errors import FrameRefused, LineRefused, MalletfernError, SettingsRefused, UnknownReply, UsageRefused

LINE_FAULTS = frozenset({"line", "word", "key", "value", "region", "matrix", "levels"})

_COUNTS = re.compile(r"stat (0|[1-9][0-9]*) (0|[1-9][0-9]*) (0|[1-9][0-9]*) (0|[1-9][0-9]*)")
_IMAGE = re.compile(r"image (0|[1-9][0-9]*)")
_REFUSAL = re.compile(r"(refused|settings)((?: [^ ]+)+)")


@dataclass(frozen=True)
class Counts:
    """What a session did since its frame was opened: the strips or tiles that were decoded (`fetched`), the cells that
    stages made (`ran`), the samples that are kept now, and the budget in samples, which `kept` never passes."""

    fetched: int
    ran: int
    kept: int
    budget: int


@dataclass(frozen=True)
class Opening:
    """A line that comes in place of the first reply: the exception that it is, and the program's status with it."""

    refusal: MalletfernError
    status: int


def refused_opening(line: str) -> Opening | None:
    """The refusal of the command line, of the frame or of the settings file, or None where the line is none."""
    if line.startswith("usage: "):
        return Opening(UsageRefused(line), 1)
    match = _REFUSAL.fullmatch(line)
    if match is None:
        return None
    name, *fields = match[2].split()
    if match[1] == "refused":
        return Opening(FrameRefused(name, tuple(fields)), 2)
    return Opening(SettingsRefused(name, tuple(fields)), 3)


def check_refusal(line: str) -> None:
    """Raises LineRefused where the line is `no` and the name of a fault."""
    word, _, name = line.partition(" ")
    if word == "no" and name in LINE_FAULTS:
        raise LineRefused(name)


def counts_in(line: str) -> Counts:
    """The four numbers of a `stat` reply."""
    match = _COUNTS.fullmatch(line)
    if match is None:
        raise UnknownReply(line)
    return Counts(*map(int, match.groups()))


def check_done(line: str) -> None:
    """Passes exactly the reply to an accepted change."""
    if line != "ok":
        raise UnknownReply(line)


def check_image(line: str, length: int) -> None:
    """Passes exactly the line before an image of `length` bytes."""
    match = _IMAGE.fullmatch(line)
    if match is None or int(match[1]) != length:
        raise UnknownReply(line)

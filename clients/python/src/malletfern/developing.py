"""The work on one frame of a clip, the same for a thread of this process and for a worker of a cluster."""

import contextlib
import enum
import errno
import threading
from collections.abc import Iterator
from dataclasses import dataclass
from pathlib import Path

from malletfern.errors import (
    FrameRefused,
    LineRefused,
    MalletfernError,
    NotInstalled,
    ProgramEnded,
    SettingsRefused,
    UsageRefused,
)
from malletfern.images import Format, Image
from malletfern.session import Session
from malletfern.wholefile import whole_file

# The cells are the largest that there are, and none is kept. A band then makes again what it shares with the one
# before, which mostly takes less time than to copy each cell: a plane of 4080 by 2144 pixels from one packed strip was
# made in 488 cells and 0.34 seconds, and with room for 2^26 samples in 280 cells and 0.48. It is the other way round
# for tiles of lossless JPEG that each band decodes again: 0.86 seconds and 0.67 for two tiles as high as the frame.
BUDGET = 0
CELL = 512

# The refusals of a settings file that are the same for every frame (docs/SCRIPT.md, Settings files).
WRONG_SETTINGS = frozenset({"TooLong", "NotToml", "Key", "Value"})

FULL = frozenset({errno.ENOSPC, errno.EDQUOT})


@dataclass(frozen=True)
class Job:
    """One frame to develop. All paths are absolute; on a cluster they are those of storage that the workers share."""

    frame: Path
    image: Path
    settings: Path | None
    program: Path


class Ending(enum.Enum):
    """How the work on a frame ended."""

    DEVELOPED = enum.auto()
    THERE = enum.auto()  # Its image was there before.
    REFUSED = enum.auto()  # The program refuses it.
    FAILED = enum.auto()  # It can't be read, its image can't be written, or the program was lost.
    FULL = enum.auto()  # There is no room for its image, nor for others.
    WRONG = enum.auto()  # The settings or the program are wrong for each frame.


@dataclass(frozen=True)
class Outcome:
    """How the work on a frame ended, and why, where no image is there. A refusal stands as the program printed it."""

    ending: Ending
    cause: str = ""


class OpenSessions:
    """The sessions that threads have open, which another thread can end."""

    def __init__(self) -> None:
        self._lock = threading.Lock()
        self._open: set[Session] = set()
        self._ended = False

    @property
    def ended(self) -> bool:
        return self._ended

    @contextlib.contextmanager
    def having(self, session: Session) -> Iterator[None]:
        """Has the session among the open ones during the block."""
        with self._lock:
            self._open.add(session)
            if self._ended:
                session.kill()
        try:
            yield
        finally:
            with self._lock:
                self._open.remove(session)

    def end(self) -> None:
        """Kills the programs of the sessions that are open, and of those that open later."""
        with self._lock:
            self._ended = True
            for session in self._open:
                session.kill()


def develop(job: Job, sessions: OpenSessions | None = None) -> Outcome:
    """Develops a frame to an image that gets its name when it is whole, and says how that ended.

    Where the image is there, nothing is done. A program that was killed, as where memory is short, is started once
    more. `sessions` has the session while it is open.
    """
    if job.image.is_file():
        return Outcome(Ending.THERE)
    sessions = sessions or OpenSessions()
    try:
        try:
            _write_image(job, sessions)
        except ProgramEnded as ended:
            if ended.status >= 0 or sessions.ended:
                raise
            _write_image(job, sessions)
    except (MalletfernError, OSError) as fault:
        return Outcome(_ending(fault), str(fault))
    return Outcome(Ending.DEVELOPED)


def _write_image(job: Job, sessions: OpenSessions) -> None:
    """The image gets its name after the program has ended well."""
    with (
        whole_file(job.image) as file,
        Session(job.frame, job.settings, BUDGET, CELL, program=job.program) as session,
        sessions.having(session),
    ):
        columns, rows = session.size()
        session.write(file, Image(Format.TIFF, 0, 0, columns, rows))


def _ending(fault: MalletfernError | OSError) -> Ending:
    match fault:
        case NotInstalled():
            return Ending.WRONG
        case SettingsRefused() if fault.name in WRONG_SETTINGS:
            return Ending.WRONG
        case FrameRefused() | SettingsRefused() | UsageRefused() | LineRefused():
            return Ending.REFUSED
        case OSError() if fault.errno in FULL:
            return Ending.FULL
    return Ending.FAILED

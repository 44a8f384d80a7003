"""Sessions of `rawdev`, the raw developer for CinemaDNG frames, from Python.

Nothing of this package is proved. It starts the program, asks it, and hands on what it answers.
"""

from malletfern.errors import (
    FrameRefused,
    LineRefused,
    MalletfernError,
    NotInstalled,
    ProgramEnded,
    SessionEnded,
    SessionFull,
    SettingsRefused,
    UnknownReply,
    UsageRefused,
)
from malletfern.images import Format, Image
from malletfern.replies import Counts
from malletfern.session import Session

__all__ = [
    "Counts",
    "Format",
    "FrameRefused",
    "Image",
    "LineRefused",
    "MalletfernError",
    "NotInstalled",
    "ProgramEnded",
    "Session",
    "SessionEnded",
    "SessionFull",
    "SettingsRefused",
    "UnknownReply",
    "UsageRefused",
]

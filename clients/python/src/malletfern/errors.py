"""What can go wrong, one exception for each. All are `MalletfernError`s, and all can be pickled."""

import signal

STATUS_TEXTS = {
    4: "a read of the frame, of the settings file or of the script failed",
    5: "a write failed",
    6: "memory ran out",
    7: "the script has more than 2^24 bytes",
}


LINE_TEXTS = {
    "line": "the line has more than 4096 bytes",
    "word": "it is no command",
    "key": "there is no such setting",
    "value": "the value has another form, or is out of its range",
    "region": "the rectangle has no pixel, or passes the developed plane",
    "matrix": "the frame doesn't have this forward matrix",
    "levels": "white would not be above black",
}


class MalletfernError(Exception):
    """Anything that this package raises of its own."""


class Refused(MalletfernError):
    """A file that was given isn't accepted.

    `name` is the refusal's name and `fields` the words after it, as the program printed them:
    `FrameRefused("Segment", ("0", "Short", "22", "21"))`.
    """

    word = "refused"

    def __init__(self, name: str, fields: tuple[str, ...] = ()) -> None:
        super().__init__(name, fields)
        self.name = name
        self.fields = fields

    def __str__(self) -> str:
        return " ".join((self.word, self.name, *self.fields))


class FrameRefused(Refused):
    """The frame isn't accepted (docs/PROFILE.md)."""


class SettingsRefused(Refused):
    """The settings file isn't accepted, by itself or for this frame (docs/SCRIPT.md, Settings files)."""

    word = "settings"


class UsageRefused(MalletfernError):
    """The words of the command line aren't accepted: a budget or a cell out of its range, a name that isn't UTF-8.

    `usage` is the usage line that the program printed.
    """

    def __init__(self, usage: str) -> None:
        super().__init__(usage)
        self.usage = usage

    def __str__(self) -> str:
        return self.usage


class LineRefused(MalletfernError):
    """A line of the script isn't accepted, and changed nothing. The session goes on.

    `name` is the word after `no`: `line`, `word`, `key`, `value`, `region`, `matrix` or `levels` (docs/SCRIPT.md).
    """

    def __init__(self, name: str) -> None:
        super().__init__(name)
        self.name = name

    def __str__(self) -> str:
        text = LINE_TEXTS.get(self.name)
        return f"no {self.name}" + (f": {text}" if text else "")


class ProgramEnded(MalletfernError):
    """The program ended before its reply was whole, or with another status than 0 when the script ended.

    `status` is its exit status, or the negative number of the signal that killed it.
    """

    def __init__(self, status: int) -> None:
        super().__init__(status)
        self.status = status

    def __str__(self) -> str:
        if self.status < 0:
            return f"rawdev was killed by {_signal_name(-self.status)}"
        text = STATUS_TEXTS.get(self.status)
        return f"rawdev ended with status {self.status}" + (f": {text}" if text else "")


class UnknownReply(MalletfernError):
    """The program answered something that this package doesn't know. The session is over.

    `line` is what it answered, as far as it was read.
    """

    def __init__(self, line: str) -> None:
        super().__init__(line)
        self.line = line

    def __str__(self) -> str:
        return f"unknown reply: {self.line}"


class SessionFull(MalletfernError):
    """The line doesn't fit into what is left of a script's 2^24 bytes. It wasn't sent, and nothing was changed.

    `sent` is how many bytes the session has sent.
    """

    def __init__(self, sent: int) -> None:
        super().__init__(sent)
        self.sent = sent

    def __str__(self) -> str:
        return f"the session has sent {self.sent} of 2^24 bytes, and the line doesn't fit: open another one"


class SessionEnded(MalletfernError):
    """The session is over: it was closed, or its program ended in an earlier call."""

    def __str__(self) -> str:
        return "the session is over"


class NotInstalled(MalletfernError):
    """A program or a Python package isn't there, or can't be run. `what` names it, `fault` says which of these it is,
    and `remedy` what to do."""

    def __init__(self, what: str, remedy: str, fault: str = "isn't there") -> None:
        super().__init__(what, remedy, fault)
        self.what = what
        self.remedy = remedy
        self.fault = fault

    def __str__(self) -> str:
        return f"{self.what} {self.fault}: {self.remedy}"


class WrongUse(MalletfernError):
    """What was asked for can't be begun: a folder, a file or an address is wrong. The text says which."""


def _signal_name(number: int) -> str:
    try:
        return signal.Signals(number).name
    except ValueError:
        return f"signal {number}"

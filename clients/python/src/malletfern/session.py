"""One frame under one running `rawdev`."""

import bisect
import contextlib
import errno
import operator
import os
import subprocess
import sys
from collections.abc import Iterator, Sequence
from pathlib import Path
from types import TracebackType
from typing import BinaryIO, Self, SupportsIndex, cast

import numpy as np
import numpy.typing as npt

from malletfern.dng import LONGEST_SIDE, suggested_size
from malletfern.errors import LineRefused, ProgramEnded, SessionEnded, SessionFull, UnknownReply
from malletfern.images import Format, Image
from malletfern.installed import find_program, no_program
from malletfern.replies import Counts, check_done, check_image, check_refusal, counts_in, refused_opening
from malletfern.wholefile import whole_file

SCRIPT_LIMIT = 2**24
# The longest line of the program is far shorter. Images are copied in pieces.
LINE_LIMIT = 4096
PIECE = 2**20


class Session:
    """A frame that is open in a running `rawdev`, which answers one line at a time.

    It is a context manager: at the end of the block the program's script ends, and the program with it; where the block
    ends with an exception the program is killed. A session belongs to one thread; only `kill` may be called by others.

        with Session("scene.dng") as session:
            session.set("exposure", 2048)
            pixels = session.region(0, 0, 240, 160)

    `frame` is the name of a DNG file, `settings` that of a settings file. `budget` is how many samples may be kept from
    one region to the next, and `cell` the side of the cells in samples: 16 to 512, a multiple of 16. Where they aren't
    given, the program's defaults apply. `program` is the path of `rawdev`; without it `find_program` finds it.

    Raises FrameRefused, SettingsRefused and UsageRefused where the program refuses what it was given, ProgramEnded
    where it ended otherwise (status 4 where a file can't be read), and NotInstalled where no program that runs is
    found.

    Each call raises LineRefused where the program refuses the line: then nothing changed, and the session goes on.
    ProgramEnded, UnknownReply and each exception that cuts a reply short end the session: the program is killed, and
    later calls raise SessionEnded.
    """

    def __init__(
        self,
        frame: str | os.PathLike[str],
        settings: str | os.PathLike[str] | None = None,
        budget: SupportsIndex | None = None,
        cell: SupportsIndex | None = None,
        *,
        program: str | os.PathLike[str] | None = None,
    ) -> None:
        self._frame = Path(frame)
        self._size: tuple[int, int] | None = None
        self._sent = 0
        self._ended = False
        self._process = _started([find_program(program), *_options(settings, budget, cell), "--", frame])
        self._in = cast(BinaryIO, self._process.stdin)
        self._out = cast(BinaryIO, self._process.stdout)
        self._open()

    def region(self, x: SupportsIndex, y: SupportsIndex, w: SupportsIndex, h: SupportsIndex) -> npt.NDArray[np.uint16]:
        """The pixels of w columns from column x and h rows from row y, under the settings in force.

        The array has the shape (h, w, 3): red, green and blue of each pixel, from 0 to 65535, in linear light unless
        the tone is set. Raises LineRefused("region") where w or h is 0, or the rectangle passes the developed plane.
        """
        image = Image.asked(Format.PPM, x, y, w, h)
        with self._reply(image.line) as line:
            self._take_start(line, image)
            pixels = np.empty((image.h, image.w, 3), np.uint16)
            self._fill(pixels.data.cast("B"))
        # The most significant byte of a sample comes first.
        return pixels.byteswap(inplace=True) if sys.byteorder == "little" else pixels

    def set(self, key: str, *values: str | SupportsIndex) -> None:
        """Changes one setting for the calls after it: `set("wb", 8192, 4096, 6144)`. docs/SCRIPT.md has keys and units.

        Raises LineRefused("key"), ("value"), ("matrix") or ("levels"), and ValueError where a word is empty or has a
        space or a line end, which no word of a line has.
        """
        with self._reply(" ".join(("set", *map(_word, (key, *values))))) as line:
            check_done(line)

    def stat(self) -> Counts:
        """How many strips or tiles were decoded since the frame was opened and how many cells made, how many samples
        are kept, and the budget in samples."""
        with self._reply("stat") as line:
            return counts_in(line)

    def save(
        self, path: str | os.PathLike[str], x: SupportsIndex, y: SupportsIndex, w: SupportsIndex, h: SupportsIndex
    ) -> None:
        """Writes the pixels of a rectangle to a file, as the program's own PPM or TIFF, which the name's end asks for:
        `.ppm`, `.tif` or `.tiff`. The rectangle and the pixels are those of `region`.

        The file gets its name when it is whole, in place of what has it then. Raises LineRefused("region") as `region`
        does, ValueError where the name ends otherwise, and OSError where the file can't be written; after these the
        session goes on.
        """
        path = Path(path)
        image = Image.asked(Format.of(path), x, y, w, h)
        with whole_file(path) as file:
            self.write(file, image)

    def write(self, file: BinaryIO, image: Image) -> None:
        """Writes an image to a buffered binary file that is open, as `save` does to one that gets a name."""
        with self._reply(image.line) as line:
            self._take_start(line, image)
            fault = self._copy(image, file)
        if fault is not None:
            raise fault

    def size(self) -> tuple[int, int]:
        """The columns and rows of the developed plane, as the program's answers show them.

        The size that the frame's tags suggest is asked about first, by one pixel that the plane has and two that it
        hasn't; where they suggest none, or another one, up to 13 pixels are asked for in each direction.
        """
        if self._size is None:
            suggested = suggested_size(self._frame)
            self._size = suggested if suggested is not None and self._is_size(*suggested) else self._searched_size()
        return self._size

    def close(self) -> None:
        """Ends the script, and waits for the program's end. A session that is over stays so.

        Raises ProgramEnded where its status isn't 0, and UnknownReply where it answered more than it was asked.
        """
        if self._ended:
            return
        try:
            status = self._end()
        except BaseException:
            self._abandon()
            raise
        if status:
            raise ProgramEnded(status)

    def kill(self) -> None:
        """Kills the program. A call of another thread that waits for its reply then raises ProgramEnded."""
        self._process.kill()

    def __enter__(self) -> Self:
        return self

    def __exit__(
        self, kind: type[BaseException] | None, exception: BaseException | None, traceback: TracebackType | None
    ) -> None:
        if kind is None:
            self.close()
        else:
            self._abandon()

    def _open(self) -> None:
        """Learns by a first line whether the program took what it was given: else it says so in place of the reply."""
        with self._reply("stat") as line:
            refused = refused_opening(line)
            if refused is None:
                counts_in(line)
                return
            status = self._end()
            raise refused.refusal if status == refused.status else ProgramEnded(status)

    def _is_size(self, columns: int, rows: int) -> bool:
        """Whether the plane has so many columns and rows. Refusals come first, since they cost nothing."""
        return (
            not self._has_pixel(columns, 0) and not self._has_pixel(0, rows) and self._has_pixel(columns - 1, rows - 1)
        )

    def _searched_size(self) -> tuple[int, int]:
        """The size by halving. A plane has a pixel, and at most 8192 columns and rows."""
        sides = range(1, LONGEST_SIDE)
        columns = 1 + bisect.bisect_left(sides, True, key=lambda x: not self._has_pixel(x, 0))
        rows = 1 + bisect.bisect_left(sides, True, key=lambda y: not self._has_pixel(0, y))
        return columns, rows

    def _has_pixel(self, x: int, y: int) -> bool:
        try:
            self.region(x, y, 1, 1)
        except LineRefused as refused:
            if refused.name != "region":
                raise
            return False
        return True

    @contextlib.contextmanager
    def _reply(self, text: str) -> Iterator[str]:
        """Sends a line, and lends the first line of its reply; the block reads the rest of it.

        Raises LineRefused where it is a refusal. Whatever else ends the block early ends the session, so that no later
        call takes the rest of this reply for its own.
        """
        data = text.encode() + b"\n"
        if self._ended:
            raise SessionEnded
        if self._sent + len(data) > SCRIPT_LIMIT:
            raise SessionFull(self._sent)
        self._sent += len(data)
        try:
            self._send(data)
            line = self._line()
            check_refusal(line)
            yield line
        except LineRefused:
            raise
        except BaseException:
            self._abandon()
            raise

    def _send(self, data: bytes) -> None:
        # Where the program has ended, what it printed and its status say more than the broken pipe.
        with contextlib.suppress(BrokenPipeError):
            self._in.write(data)
            self._in.flush()

    def _line(self) -> str:
        """The next line of the program, without its end."""
        data = self._out.readline(LINE_LIMIT)
        if data.endswith(b"\n") and data.isascii():
            return data[:-1].decode()
        if data.endswith(b"\n") or len(data) == LINE_LIMIT:
            raise UnknownReply(_shown(data))
        raise ProgramEnded(self._wait())

    def _take_start(self, line: str, image: Image) -> None:
        """Takes what an image begins with, which has to be so after the line before it."""
        if image.is_empty:
            raise UnknownReply(line)
        check_image(line, image.length)
        start = bytearray(len(image.start))
        self._fill(memoryview(start))
        if start != image.start:
            raise UnknownReply(f"{line}, and then {_shown(start)}")

    def _fill(self, buffer: memoryview) -> None:
        """Fills the buffer with the next bytes of the program."""
        while buffer:
            count = self._out.readinto(buffer)  # type: ignore[attr-defined]
            if not count:
                raise ProgramEnded(self._wait())
            buffer = buffer[count:]

    def _copy(self, image: Image, file: BinaryIO) -> OSError | None:
        """Copies an image, whose start was taken, to a file. After a fault of the file, which is returned, the image is
        still read to its end."""
        fault = _write_fault(file, image.start)
        count = image.length - len(image.start)
        piece = memoryview(bytearray(min(count, PIECE)))
        for at in range(0, count, PIECE):
            part = piece[: min(count - at, PIECE)]
            self._fill(part)
            fault = fault or _write_fault(file, part)
        return fault

    def _end(self) -> int:
        """Ends the script, after which the program has nothing to say; its status."""
        self._close_script()
        surplus = self._out.read(LINE_LIMIT)
        if surplus:
            raise UnknownReply(_shown(surplus))
        return self._wait()

    def _abandon(self) -> None:
        """Kills the program, if it still runs."""
        self._process.kill()
        self._wait()

    def _wait(self) -> int:
        """Closes both pipes, and waits for the program; its status, or the negative number of the signal that killed
        it."""
        self._close_script()
        self._out.close()
        return self._process.wait()

    def _close_script(self) -> None:
        self._ended = True
        with contextlib.suppress(BrokenPipeError):
            self._in.close()


def _started(words: Sequence[str | os.PathLike[str]]) -> "subprocess.Popen[bytes]":
    """The running program. Raises NotInstalled where the system finds none in its file."""
    try:
        # In a process group of its own the program isn't ended by a Ctrl-C that is meant for the caller.
        return subprocess.Popen(words, stdin=subprocess.PIPE, stdout=subprocess.PIPE, process_group=0)
    except OSError as fault:
        if fault.errno != errno.ENOEXEC:
            raise
        raise no_program(words[0]) from fault


def _options(
    settings: str | os.PathLike[str] | None, budget: SupportsIndex | None, cell: SupportsIndex | None
) -> Iterator[str]:
    """The options of the command line. Behind `=` a value may begin with any letter."""
    if settings is not None:
        yield f"--settings={os.fspath(settings)}"
    if budget is not None:
        yield f"--budget={operator.index(budget)}"
    if cell is not None:
        yield f"--cell={operator.index(cell)}"


def _word(value: str | SupportsIndex) -> str:
    word = value if isinstance(value, str) else str(operator.index(value))
    if not word or any(end in word for end in " \r\n"):
        raise ValueError(f"{word!r} can't be one word of a line")
    return word


def _write_fault(file: BinaryIO, data: bytes | memoryview) -> OSError | None:
    """Writes to a file; the fault that it met."""
    try:
        file.write(data)
    except OSError as fault:
        return fault
    return None


def _shown(data: bytes | bytearray) -> str:
    return data.removesuffix(b"\n").decode("ascii", "backslashreplace")

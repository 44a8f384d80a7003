"""Sessions of the real program: each call, each refusal. Pixels come from the ramp's formula and from the README."""

import pickle
import signal
import struct
import subprocess
from collections.abc import Callable
from pathlib import Path
from types import FrameType
from typing import Any

import numpy as np
import pytest
from helpers import executable, names
from made_frames import (
    ACROSS,
    DOWN,
    LONG,
    RATIONAL,
    SHORT,
    START,
    UNDEFINED,
    Entry,
    frame,
    ramp,
    ramp_pixels,
    trim_list,
)

from malletfern import (
    Counts,
    FrameRefused,
    LineRefused,
    MalletfernError,
    NotInstalled,
    ProgramEnded,
    Session,
    SessionEnded,
    SessionFull,
    SettingsRefused,
    UnknownReply,
    UsageRefused,
)

COLUMNS, ROWS = 40, 30


@pytest.fixture
def ramp_frame(tmp_path: Path) -> Path:
    path = tmp_path / "ramp.dng"
    path.write_bytes(frame(ramp(COLUMNS, ROWS)))
    return path


def reply(rawdev: Path, name: Path, script: str) -> bytes:
    """What the program answers to a whole script, without a session."""
    return subprocess.run([rawdev, name], input=script.encode(), stdout=subprocess.PIPE, check=True).stdout


class TestRegion:
    def test_pixels_of_a_ramp(self, rawdev: Path, ramp_frame: Path) -> None:
        with Session(ramp_frame) as session:
            pixels = session.region(5, 7, 20, 11)
        assert pixels.shape == (11, 20, 3)
        assert pixels.dtype == np.uint16
        assert pixels[3, 4].tolist() == [START + DOWN * (7 + 3) + ACROSS * (5 + 4)] * 3
        assert np.array_equal(pixels, ramp_pixels(5, 7, 20, 11))

    @pytest.mark.parametrize("options", [{}, {"budget": 0}, {"budget": 2**20, "cell": 16}, {"cell": 512}])
    def test_pixels_of_the_programs_own_reply(self, rawdev: Path, scene: Path, options: dict[str, Any]) -> None:
        whole = reply(rawdev, scene, "region 0 0 240 160 ppm\n")
        own = np.frombuffer(whole[-6 * 240 * 160 :], ">u2").reshape(160, 240, 3)
        with Session(scene, **options) as session:
            assert np.array_equal(session.region(0, 0, 240, 160), own)
            assert np.array_equal(session.region(101, 33, 17, 90), own[33 : 33 + 90, 101 : 101 + 17])

    def test_the_array_can_be_written(self, rawdev: Path, ramp_frame: Path) -> None:
        with Session(ramp_frame) as session:
            pixels = session.region(0, 0, 1, 1)
        pixels[0, 0, 0] = 7
        assert pixels[0, 0, 0] == 7

    @pytest.mark.parametrize(
        "region",
        [(0, 0, 0, 1), (0, 0, 1, 0), (COLUMNS, 0, 1, 1), (0, ROWS - 1, 1, 2), (-1, 0, 1, 1), (0, 0, 2**40, 2**40)],
    )
    def test_refused(self, rawdev: Path, ramp_frame: Path, region: tuple[int, int, int, int]) -> None:
        with Session(ramp_frame) as session:
            with pytest.raises(LineRefused) as refused:
                session.region(*region)
            assert refused.value.name == "region"
            assert session.region(2, 2, 1, 1).tolist() == [[[START + DOWN * 2 + ACROSS * 2] * 3]]

    def test_numbers_of_numpy_and_no_fractions(self, rawdev: Path, ramp_frame: Path) -> None:
        with Session(ramp_frame) as session:
            assert np.array_equal(session.region(*np.array([3, 4, 5, 6])), ramp_pixels(3, 4, 5, 6))
            with pytest.raises(TypeError):
                session.region(0.5, 0, 1, 1)  # type: ignore[arg-type]


class TestSet:
    def test_the_session_of_the_readme(self, rawdev: Path, bars: Path) -> None:
        with Session(bars) as session:
            assert session.region(18, 20, 1, 1).tolist() == [[[0xC000, 0xC000, 0]]]
            assert session.stat() == Counts(fetched=1, ran=7, kept=110592, budget=2**28)
            session.set("exposure", 512)
            assert session.region(18, 20, 1, 1).tolist() == [[[0x6000, 0x6000, 0]]]
            session.set("tone", "root")
            assert session.region(18, 20, 1, 1).tolist() == [[[0x9CC4, 0x9CC4, 0]]]
            assert session.stat() == Counts(fetched=1, ran=11, kept=184320, budget=2**28)

    @pytest.mark.parametrize(
        ("words", "name"),
        [
            (("exposure", 65537), "value"),
            (("tone", "knots", 0, 0, 65535), "value"),
            (("matrix", "forward1"), "matrix"),
            (("black", 65535), "levels"),
            (("hue", 1), "key"),
            (("ключ", 1), "key"),
            (("tone", "x" * 5000), "line"),
        ],
    )
    def test_refused(self, rawdev: Path, bars: Path, words: tuple[str | int, ...], name: str) -> None:
        with Session(bars) as session:
            with pytest.raises(LineRefused) as refused:
                session.set(*words)  # type: ignore[arg-type]
            assert refused.value.name == name
            assert str(refused.value).startswith(f"no {name}: ")
            assert session.region(18, 20, 1, 1).tolist() == [[[0xC000, 0xC000, 0]]]

    @pytest.mark.parametrize("value", ["", "1 2", "1\n", "1\r", "1\nregion 0 0 1 1 ppm"])
    def test_what_is_no_word(self, rawdev: Path, bars: Path, value: str) -> None:
        with Session(bars) as session:
            with pytest.raises(ValueError, match="one word"):
                session.set("exposure", value)
            session.set("exposure", "512")

    def test_no_fraction(self, rawdev: Path, bars: Path) -> None:
        with Session(bars) as session, pytest.raises(TypeError):
            session.set("exposure", 512.0)  # type: ignore[arg-type]

    def test_settings_file(self, rawdev: Path, bars: Path, tmp_path: Path) -> None:
        settings = tmp_path / "-darker =.toml"
        settings.write_text("exposure = 512\n")
        with Session(bars, settings=settings) as session:
            assert session.region(18, 20, 1, 1).tolist() == [[[0x6000, 0x6000, 0]]]


class TestStat:
    def test_numbers(self, rawdev: Path, scene: Path) -> None:
        with Session(scene, budget=10_000_000, cell=64) as session:
            before = session.stat()
            assert before == Counts(fetched=0, ran=0, kept=0, budget=10_000_000)
            session.region(0, 0, 10, 10)
            after = session.stat()
            assert after.fetched > 0 and after.ran > 0 and 0 < after.kept <= after.budget
            session.region(0, 0, 10, 10)
            assert session.stat() == after

    def test_nothing_is_kept_under_a_budget_of_0(self, rawdev: Path, scene: Path) -> None:
        with Session(scene, budget=0, cell=64) as session:
            session.region(0, 0, 10, 10)
            once = session.stat()
            session.region(0, 0, 10, 10)
            assert session.stat() == Counts(2 * once.fetched, 2 * once.ran, 0, 0)


class TestSave:
    def test_pixmap(self, rawdev: Path, ramp_frame: Path, tmp_path: Path) -> None:
        out = tmp_path / "out.ppm"
        with Session(ramp_frame) as session:
            session.save(out, 5, 7, 20, 11)
        assert out.read_bytes() == b"P6\n20 11\n65535\n" + ramp_pixels(5, 7, 20, 11).astype(">u2").tobytes()

    @pytest.mark.parametrize("name", ["out.tif", "out.tiff", "OUT.TIFF"])
    def test_tag_image_file(self, rawdev: Path, ramp_frame: Path, tmp_path: Path, name: str) -> None:
        out = tmp_path / name
        with Session(ramp_frame) as session:
            session.save(out, 5, 7, 20, 11)
        assert out.read_bytes() == tiff_head(20, 11) + ramp_pixels(5, 7, 20, 11).astype("<u2").tobytes()

    def test_larger_than_a_piece(self, rawdev: Path, tmp_path: Path) -> None:
        columns, rows = 700, 510
        name, out = tmp_path / "large.dng", tmp_path / "large.tiff"
        name.write_bytes(frame(ramp(columns, rows, period=4096)))
        with Session(name, budget=0, cell=512) as session:
            session.save(out, 0, 0, columns, rows)
            assert session.stat().kept == 0
        own = reply(rawdev, name, f"region 0 0 {columns} {rows} tiff\n")
        assert own.startswith(b"image %d\n" % (180 + 6 * columns * rows))
        assert out.read_bytes() == own.split(b"\n", 1)[1]

    def test_refused_and_nothing_is_left(self, rawdev: Path, ramp_frame: Path, tmp_path: Path) -> None:
        (tmp_path / "out").mkdir()
        out = tmp_path / "out" / "out.ppm"
        out.write_bytes(b"what was there")
        with Session(ramp_frame) as session:
            with pytest.raises(LineRefused, match="no region"):
                session.save(out, 0, 0, COLUMNS + 1, 1)
            with pytest.raises(ValueError, match="none of .ppm, .tif and .tiff"):
                session.save(out.with_suffix(".png"), 0, 0, 1, 1)
            with pytest.raises(NotADirectoryError):
                session.save(ramp_frame / "out.ppm", 0, 0, 1, 1)
            assert out.read_bytes() == b"what was there"
            assert names(out.parent) == ["out.ppm"]
            session.save(out, 2, 2, 1, 1)
        assert out.read_bytes() == b"P6\n1 1\n65535\n" + struct.pack(">H", START + DOWN * 2 + ACROSS * 2) * 3

    def test_a_failed_write_leaves_the_session_as_it_was(self, rawdev: Path, tmp_path: Path) -> None:
        """Files may have 64 kB for a while, and the image has 1.5 MB."""
        resource = pytest.importorskip("resource")
        name = tmp_path / "large.dng"
        name.write_bytes(frame(ramp(500, 500, period=4096)))
        limits = resource.getrlimit(resource.RLIMIT_FSIZE)
        with Session(name) as session:
            resource.setrlimit(resource.RLIMIT_FSIZE, (65536, limits[1]))
            try:
                with pytest.raises(OSError, match="File too large"):
                    session.save(tmp_path / "out.tiff", 0, 0, 500, 500)
            finally:
                resource.setrlimit(resource.RLIMIT_FSIZE, limits)
            assert names(tmp_path) == ["large.dng"]
            assert session.region(2, 2, 1, 1).tolist() == [[[START + DOWN * 2 + ACROSS * 2] * 3]]


class TestSize:
    @pytest.mark.parametrize("order", ["<", ">"])
    @pytest.mark.parametrize("in_sub_ifd", [False, True])
    @pytest.mark.parametrize(
        ("extra", "size"),
        [
            ([], (40, 30)),
            ([Entry(50829, SHORT, [2, 3, 28, 37])], (34, 26)),
            ([Entry(50719, SHORT, [4, 5]), Entry(50720, LONG, [21, 13])], (21, 13)),
            ([Entry(50719, RATIONAL, [9, 2, 11, 2]), Entry(50720, RATIONAL, [43, 2, 99, 1])], (21, 25)),
            ([Entry(50829, LONG, [1, 1, 21, 31]), Entry(50719, SHORT, [10, 0])], (20, 20)),
            # A list that trims the plane, of which the tags that are read say nothing.
            ([Entry(51022, UNDEFINED, trim_list(1, 2, 18, 25))], (23, 17)),
        ],
    )
    def test_sizes(
        self, rawdev: Path, tmp_path: Path, order: str, in_sub_ifd: bool, extra: list[Entry], size: tuple[int, int]
    ) -> None:
        name = tmp_path / "frame.dng"
        name.write_bytes(frame(ramp(COLUMNS, ROWS), extra, order, in_sub_ifd))
        with Session(name, budget=0) as session:
            assert session.size() == size
            assert session.region(0, 0, *size).shape == (size[1], size[0], 3)
            sent = session.stat()
            assert session.size() == size
            assert session.stat() == sent

    def test_a_frame_that_is_no_longer_there(self, rawdev: Path, ramp_frame: Path) -> None:
        with Session(ramp_frame) as session:
            ramp_frame.unlink()
            assert session.size() == (COLUMNS, ROWS)

    def test_a_frame_that_has_become_another(self, rawdev: Path, ramp_frame: Path) -> None:
        with Session(ramp_frame) as session:
            ramp_frame.write_bytes(frame(ramp(COLUMNS + 1, ROWS - 1)))
            assert session.size() == (COLUMNS, ROWS)

    def test_the_longest_sides(self, rawdev: Path, tmp_path: Path) -> None:
        name = tmp_path / "long.dng"
        name.write_bytes(frame(np.zeros((4, 8192), np.uint16)))
        with Session(name) as session:
            name.unlink()
            assert session.size() == (8192, 4)


class TestRefusedAtTheStart:
    def test_frame(self, rawdev: Path, bars: Path, tmp_path: Path) -> None:
        cut = tmp_path / "cut.dng"
        cut.write_bytes(bars.read_bytes()[:12000])
        with pytest.raises(FrameRefused) as refused:
            Session(cut)
        assert (refused.value.name, refused.value.fields) == ("Outside", ("0",))
        assert str(refused.value) == "refused Outside 0"

    def test_frame_with_several_fields(self, rawdev: Path, tmp_path: Path) -> None:
        short = tmp_path / "short.dng"
        short.write_bytes(frame(ramp(COLUMNS, ROWS), [Entry(279, LONG, [2 * COLUMNS * ROWS - 1])]))
        with pytest.raises(FrameRefused) as refused:
            Session(short)
        assert refused.value.name == "Segment"
        assert refused.value.fields == ("0", "Short", str(2 * COLUMNS * ROWS), str(2 * COLUMNS * ROWS - 1))

    def test_no_frame(self, rawdev: Path) -> None:
        with pytest.raises(FrameRefused) as refused:
            Session(__file__)
        assert (refused.value.name, refused.value.fields) == ("NotTiff", ())

    @pytest.mark.parametrize(
        ("text", "name", "fields"),
        [
            ("exposure = 65537", "Value", ("exposure",)),
            ("hue = 1", "Key", ("hue",)),
            ("no document", "NotToml", ()),
            ("tone = 'root'\n" + "#" * 65536, "TooLong", ()),
            ("matrix = 'forward2'", "Matrix", ()),
            ("black = 65535", "Levels", ()),
        ],
    )
    def test_settings(
        self, rawdev: Path, bars: Path, tmp_path: Path, text: str, name: str, fields: tuple[str, ...]
    ) -> None:
        settings = tmp_path / "settings.toml"
        settings.write_text(text)
        with pytest.raises(SettingsRefused) as refused:
            Session(bars, settings)
        assert (refused.value.name, refused.value.fields) == (name, fields)
        assert str(refused.value) == " ".join(("settings", name, *fields))

    @pytest.mark.parametrize("options", [{"cell": 17}, {"cell": 528}, {"budget": 2**30 + 1}, {"budget": -1}])
    def test_words(self, rawdev: Path, bars: Path, options: dict[str, Any]) -> None:
        with pytest.raises(UsageRefused) as refused:
            Session(bars, **options)
        assert refused.value.usage == "usage: rawdev FRAME [--settings FILE] [--budget SAMPLES] [--cell N]"

    def test_a_name_that_is_no_text(self, rawdev: Path, tmp_path: Path) -> None:
        with pytest.raises(UsageRefused):
            Session(tmp_path / "\udcff.dng")

    def test_files_that_are_not_there(self, rawdev: Path, bars: Path, tmp_path: Path) -> None:
        for name, settings in ((tmp_path / "none.dng", None), (bars, tmp_path / "none.toml")):
            with pytest.raises(ProgramEnded) as ended:
                Session(name, settings)
            assert ended.value.status == 4
            assert "a read of the frame" in str(ended.value)

    def test_no_program(self, bars: Path, tmp_path: Path) -> None:
        with pytest.raises(NotInstalled, match="rawdev"):
            Session(bars, program=tmp_path / "rawdev")

    def test_a_file_that_is_no_program(self, bars: Path, tmp_path: Path) -> None:
        with pytest.raises(NotInstalled, match="rawdev is no program that runs here: a rawdev of this machine"):
            Session(bars, program=executable(tmp_path / "rawdev", "no program\n"))


class TestEnd:
    def test_names_that_look_like_options(
        self, rawdev: Path, bars: Path, tmp_path: Path, monkeypatch: pytest.MonkeyPatch
    ) -> None:
        monkeypatch.chdir(tmp_path)
        for name in ("--cell", "-", "=", "ein Bild, zwölf.dng", "雪.dng"):
            Path(name).write_bytes(bars.read_bytes())
            with Session(name) as session:
                assert session.size() == (96, 64)

    def test_closed(self, rawdev: Path, bars: Path) -> None:
        session = Session(bars)
        session.close()
        session.close()
        with pytest.raises(SessionEnded):
            session.stat()
        with pytest.raises(SessionEnded):
            session.size()
        with pytest.raises(SessionEnded):
            session.region(0, 0, 1, 1)
        with pytest.raises(SessionEnded):
            session.set("black", 1)

    def test_an_exception_ends_it(self, rawdev: Path, bars: Path) -> None:
        with pytest.raises(ZeroDivisionError):
            with Session(bars) as session:
                raise ZeroDivisionError
        with pytest.raises(SessionEnded):
            session.stat()

    def test_killed(self, rawdev: Path, bars: Path) -> None:
        session = Session(bars)
        session.kill()
        with pytest.raises(ProgramEnded) as ended:
            session.stat()
        assert ended.value.status == -9
        assert str(ended.value) == "rawdev was killed by SIGKILL"
        with pytest.raises(SessionEnded):
            session.stat()

    def test_a_full_script(self, rawdev: Path, bars: Path) -> None:
        """The session has sent `stat` and a line end; this line fills the rest of the 2^24 bytes."""
        with Session(bars) as session:
            with pytest.raises(LineRefused, match="no line"):
                session.set("x" * (2**24 - len("stat\n") - len("set \n")))
            with pytest.raises(SessionFull) as full:
                session.stat()
            assert full.value.sent == 2**24

    def test_a_line_too_long_for_a_script(self, rawdev: Path, bars: Path) -> None:
        with Session(bars) as session:
            with pytest.raises(SessionFull) as full:
                session.set("x" * (2**24 - len("stat\n") - len("set \n") + 1))
            assert full.value.sent == len("stat\n")
            assert session.size() == (96, 64)


STAT = b"stat 0 0 0 0\n"
PIXEL = b"P6\n1 1\n65535\n\x01\x02\x03\x04\x05\x06"


class TestUnknownReplies:
    """What the program never does, by a stand-in."""

    def test_the_stand_in_itself(self, stand_in: Callable[..., Path]) -> None:
        with Session("frame", program=stand_in(STAT, b"image 19\n" + PIXEL)) as session:
            assert session.region(0, 0, 1, 1).tolist() == [[[0x0102, 0x0304, 0x0506]]]

    @pytest.mark.parametrize(
        "line",
        [
            b"ok",
            b"no yet",
            b"stat 0 0 0",
            b"stat 0 0 0 -1",
            b"stat 0 0 0 0 ",
            b"stat 00 0 0 0",
            b"refused",
            b"",
            b"\xff",
        ],
    )
    def test_at_the_start(self, stand_in: Callable[..., Path], line: bytes) -> None:
        with pytest.raises(UnknownReply) as unknown:
            Session("frame", program=stand_in(line + b"\n"))
        assert unknown.value.line == line.decode("ascii", "backslashreplace")

    @pytest.mark.parametrize(
        "image",
        [
            b"image 18\n" + PIXEL[:-1],
            b"image 20\n" + PIXEL + b"\0",
            b"image 019\n" + PIXEL,
            b"image\n" + PIXEL,
            b"ok\n",
            b"no idea\n",
            b"no\n",
            b"image 19\n" + PIXEL.replace(b"P6", b"P5"),
            b"image 19\n" + PIXEL.replace(b"65535", b"65534"),
            b"i" * 5000,
        ],
    )
    def test_to_a_region(self, stand_in: Callable[..., Path], image: bytes) -> None:
        session = Session("frame", program=stand_in(STAT, image, STAT))
        with pytest.raises(UnknownReply):
            session.region(0, 0, 1, 1)
        with pytest.raises(SessionEnded):
            session.stat()

    def test_an_image_of_an_empty_region(self, stand_in: Callable[..., Path]) -> None:
        session = Session("frame", program=stand_in(STAT, b"image 13\nP6\n0 1\n65535\n"))
        with pytest.raises(UnknownReply):
            session.region(0, 0, 0, 1)

    def test_to_a_tag_image_file(self, stand_in: Callable[..., Path], tmp_path: Path) -> None:
        with pytest.raises(UnknownReply):
            with Session("frame", program=stand_in(STAT, b"image 186\nMM" + bytes(184))) as session:
                session.save(tmp_path / "out.tiff", 0, 0, 1, 1)
        assert names(tmp_path) == ["stand_in"]

    def test_to_a_change(self, stand_in: Callable[..., Path]) -> None:
        with pytest.raises(UnknownReply), Session("frame", program=stand_in(STAT, b"OK\n")) as session:
            session.set("exposure", 512)

    def test_more_than_was_asked(self, stand_in: Callable[..., Path]) -> None:
        with pytest.raises(UnknownReply) as unknown, Session("frame", program=stand_in(STAT + b"ok\n")):
            pass
        assert unknown.value.line == "ok"

    def test_more_than_a_refusal(self, stand_in: Callable[..., Path]) -> None:
        with pytest.raises(UnknownReply):
            Session("frame", program=stand_in(b"refused NotTiff\nok\n", status=2))


class TestEndsInAReply:
    @pytest.mark.parametrize("status", [0, 5, 6, 99, -9])
    @pytest.mark.parametrize("reply", [b"", b"imag", b"image 19\n", b"image 19\nP6\n", b"image 19\n" + PIXEL[:-1]])
    def test_the_status(self, stand_in: Callable[..., Path], reply: bytes, status: int) -> None:
        session = Session("frame", program=stand_in(STAT, reply, status=status))
        with pytest.raises(ProgramEnded) as ended:
            session.region(0, 0, 1, 1)
        assert ended.value.status == status
        with pytest.raises(SessionEnded):
            session.stat()

    @pytest.mark.parametrize("status", [0, 5, -15])
    def test_no_half_file(self, stand_in: Callable[..., Path], tmp_path: Path, status: int) -> None:
        session = Session("frame", program=stand_in(STAT, b"image 19\n" + PIXEL[:-1], status=status))
        with pytest.raises(ProgramEnded) as ended:
            session.save(tmp_path / "out.ppm", 0, 0, 1, 1)
        assert ended.value.status == status
        assert names(tmp_path) == ["stand_in"]

    def test_an_interrupt_ends_the_session(self, stand_in: Callable[..., Path]) -> None:
        """The stand-in waits for its next line when it has sent half an image."""

        def interrupt(number: int, frame: FrameType | None) -> None:
            raise KeyboardInterrupt

        session = Session("frame", program=stand_in(STAT, b"image 19\n" + PIXEL[:-1], STAT))
        before = signal.signal(signal.SIGALRM, interrupt)
        signal.setitimer(signal.ITIMER_REAL, 0.2)
        try:
            with pytest.raises(KeyboardInterrupt):
                session.region(0, 0, 1, 1)
        finally:
            signal.signal(signal.SIGALRM, before)
        with pytest.raises(SessionEnded):
            session.stat()

    def test_a_refusal_with_another_status(self, stand_in: Callable[..., Path]) -> None:
        with pytest.raises(ProgramEnded) as ended:
            Session("frame", program=stand_in(b"refused NotTiff\n", status=5))
        assert ended.value.status == 5

    def test_another_status_at_the_end(self, stand_in: Callable[..., Path]) -> None:
        session = Session("frame", program=stand_in(STAT, status=6))
        with pytest.raises(ProgramEnded, match="memory ran out"):
            session.close()


@pytest.mark.parametrize(
    "fault",
    [
        FrameRefused("Segment", ("0", "Short", "22", "21")),
        SettingsRefused("Key", ("hue",)),
        UsageRefused("usage: rawdev FRAME"),
        LineRefused("region"),
        ProgramEnded(-9),
        UnknownReply("maybe"),
        SessionFull(12),
        SessionEnded(),
        NotInstalled("rawdev", "build it"),
    ],
    ids=lambda fault: type(fault).__name__,
)
def test_exceptions_can_be_pickled(fault: MalletfernError) -> None:
    again = pickle.loads(pickle.dumps(fault))
    assert type(again) is type(fault)
    assert vars(again) == vars(fault)
    assert str(again) == str(fault)


def tiff_head(w: int, h: int) -> bytes:
    """The 180 bytes of docs/SCRIPT.md's table (TIFF 6.0, sections 2 and 6)."""
    short, long, rational = 3, 4, 5
    entries = [
        (256, long, 1, w),
        (257, long, 1, h),
        (258, short, 3, 158),
        (259, short, 1, 1),
        (262, short, 1, 2),
        (273, long, 1, 180),
        (277, short, 1, 3),
        (278, long, 1, h),
        (279, long, 1, 6 * w * h),
        (282, rational, 1, 164),
        (283, rational, 1, 172),
        (296, short, 1, 2),
    ]
    directory = b"".join(struct.pack("<HHII", *entry) for entry in entries)
    head = b"II" + struct.pack("<HIH", 42, 8, len(entries)) + directory + bytes(4)
    return head + struct.pack("<3H4I", 16, 16, 16, 72, 1, 72, 1)

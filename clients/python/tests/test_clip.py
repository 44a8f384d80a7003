"""Whole clips by the command, over the real program."""

import errno
import itertools
import os
import re
import shutil
import signal
import subprocess
import sys
from collections.abc import Callable
from pathlib import Path

import pytest
from clips import (
    CAUSES,
    CUT,
    GOOD,
    IMAGES,
    NO_FRAME,
    assert_whole,
    command,
    images,
    own_image,
    run,
    running,
    samples,
    wait_for,
)
from helpers import executable, names

from malletfern.clip import frames_in, jobs_for
from malletfern.developing import Ending, Job, OpenSessions, Outcome, develop
from malletfern.errors import WrongUse
from malletfern.installed import VARIABLE

pytest.importorskip("tqdm")


def rawdev_after(folder: Path, rawdev: Path, command: str, start: str = "exec") -> Path:
    """The program after a command of the shell, in which `name` is the frame's."""
    return executable(folder / "after", f'#!/bin/sh\nfor name; do :; done\n{command}\n{start} "{rawdev}" "$@"\n')


def without_damaged(clip: Path) -> None:
    (clip / CUT).unlink()
    (clip / NO_FRAME).unlink()


class TestAClip:
    def test_twelve_frames_of_which_two_are_damaged(
        self, rawdev: Path, environment: dict[str, str], clip: Path, out: Path
    ) -> None:
        ended = run(environment, clip, out)
        assert ended.stdout.splitlines() == [*CAUSES, "12 frames: 10 developed, 2 refused"]
        assert ended.stderr == ""
        assert ended.returncode == 1
        assert_whole(rawdev, clip, out)

    def test_again(self, environment: dict[str, str], clip: Path, out: Path) -> None:
        run(environment, clip, out)
        before = {name: (out / name).stat() for name in IMAGES}
        ended = run(environment, clip, out)
        assert ended.stdout.splitlines() == [*CAUSES, "12 frames: 10 there before, 2 refused"]
        assert ended.returncode == 1
        assert {name: (out / name).stat() for name in IMAGES} == before

    def test_without_damaged_frames(self, environment: dict[str, str], clip: Path, out: Path) -> None:
        without_damaged(clip)
        ended = run(environment, clip, out, "--jobs", "2")
        assert (ended.stdout, ended.returncode) == ("10 frames: 10 developed\n", 0)

    def test_settings(self, rawdev: Path, environment: dict[str, str], clip: Path, out: Path, tmp_path: Path) -> None:
        settings = tmp_path / "set tings.toml"
        settings.write_text("exposure = 512\ntone = 'root'\n")
        assert run(environment, clip, out, "--settings", settings).returncode == 1
        for name in GOOD:
            own = own_image(rawdev, clip / name, f"--settings={settings}")
            assert (out / name).with_suffix(".tiff").read_bytes() == own

    def test_frames_are_begun_in_the_order_of_their_names(
        self, rawdev: Path, environment: dict[str, str], clip: Path, out: Path, tmp_path: Path
    ) -> None:
        log = tmp_path / "log"
        program = rawdev_after(tmp_path, rawdev, f'echo "$name" >>"{log}"')
        run({**environment, VARIABLE: str(program)}, clip, out, "--jobs", "1")
        assert log.read_text().splitlines() == [str(clip / name) for name in sorted([*GOOD, CUT, NO_FRAME])]

    def test_so_many_at_a_time(
        self, rawdev: Path, environment: dict[str, str], clip: Path, out: Path, tmp_path: Path
    ) -> None:
        """The log has a line of 1 as a program begins and one of -1 as it ends."""
        log = tmp_path / "log"
        program = rawdev_after(tmp_path, rawdev, f'echo 1 >>"{log}"; sleep 0.1; trap \'echo -1 >>"{log}"\' EXIT', "")
        run({**environment, VARIABLE: str(program)}, clip, out, "--jobs", "3")
        counts = list(itertools.accumulate(map(int, log.read_text().split())))
        assert (max(counts), counts[-1], len(counts)) == (3, 0, 24)

    def test_images_beside_the_frames(
        self, rawdev: Path, environment: dict[str, str], clip: Path, monkeypatch: pytest.MonkeyPatch
    ) -> None:
        monkeypatch.chdir(clip)
        assert run(environment, ".", ".").returncode == 1
        assert images(clip) == IMAGES

    def test_an_empty_folder(self, environment: dict[str, str], tmp_path: Path, out: Path) -> None:
        (tmp_path / "empty").mkdir()
        ended = run(environment, tmp_path / "empty", out)
        assert (ended.stdout, ended.stderr, ended.returncode) == ("no frames\n", "", 0)
        assert names(out) == []

    def test_the_bar(self, environment: dict[str, str], clip: Path, out: Path) -> None:
        """Standard error is a terminal here."""
        master, terminal = os.openpty()
        process = subprocess.run(command(clip, out), env=environment, stdout=subprocess.PIPE, stderr=terminal)
        os.close(terminal)
        shown = os.read(master, 100_000).decode()
        os.close(master)
        assert process.returncode == 1
        assert "0/12" in shown and "12/12" in shown and "frame" in shown

    def test_a_name_that_is_no_text_is_listed(self, environment: dict[str, str], clip: Path, out: Path) -> None:
        (clip / "\udcff\n.dng").write_bytes(samples(0))
        ended = run(environment, clip, out)
        assert "\\udcff\\n.dng: usage: rawdev FRAME" in ended.stdout
        assert ended.stdout.splitlines()[-1] == "13 frames: 10 developed, 3 refused"


class TestStopped:
    @pytest.mark.parametrize(("number", "status"), [(signal.SIGINT, 130), (signal.SIGTERM, 143)])
    def test_in_the_middle_and_run_again(
        self,
        rawdev: Path,
        slow_rawdev: Path,
        environment: dict[str, str],
        clip: Path,
        out: Path,
        number: signal.Signals,
        status: int,
    ) -> None:
        with running({**environment, VARIABLE: str(slow_rawdev)}, clip, out, "--jobs", "2") as process:
            wait_for(lambda: len(images(out)) >= 3)
            process.send_signal(number)
            said, errors = process.communicate(timeout=30)
        assert (process.returncode, errors) == (status, "")
        done = images(out)
        assert 3 <= len(done) < len(IMAGES)
        assert names(out) == done
        counts = rf"12 frames: {len(done)} developed, .*not done, stopped by {number.name}"
        assert re.fullmatch(counts, said.splitlines()[-1])
        before = {name: (out / name).stat() for name in done}

        ended = run(environment, clip, out)
        assert ended.stdout.splitlines()[-1] == (
            f"12 frames: {len(IMAGES) - len(done)} developed, {len(done)} there before, 2 refused"
        )
        assert {name: (out / name).stat() for name in done} == before
        assert_whole(rawdev, clip, out)

    def test_killed_and_run_again(
        self, rawdev: Path, slow_rawdev: Path, environment: dict[str, str], clip: Path, out: Path
    ) -> None:
        with running({**environment, VARIABLE: str(slow_rawdev)}, clip, out, "--jobs", "2") as process:
            wait_for(lambda: len(images(out)) >= 2)
            process.kill()
            process.wait()
        (out / f".malletfern-{os.uname().nodename}-1-00.part").write_bytes(b"half an image")
        done = images(out)
        ended = run(environment, clip, out)
        assert f", {len(done)} there before, 2 refused" in ended.stdout
        assert_whole(rawdev, clip, out)

    def test_two_runs_at_once(self, rawdev: Path, environment: dict[str, str], clip: Path, out: Path) -> None:
        with running(environment, clip, out, "--jobs", "2") as one, running(environment, clip, out) as other:
            for process in (one, other):
                said, errors = process.communicate(timeout=60)
                assert (process.returncode, errors) == (1, "")
                assert said.splitlines()[:2] == CAUSES
        assert_whole(rawdev, clip, out)

    def test_a_run_while_another_one_is_in_the_middle(
        self, rawdev: Path, slow_rawdev: Path, environment: dict[str, str], clip: Path, out: Path
    ) -> None:
        with running({**environment, VARIABLE: str(slow_rawdev)}, clip, out, "--jobs", "1") as slow:
            wait_for(lambda: len(images(out)) >= 1)
            assert run(environment, clip, out).returncode == 1
            said, errors = slow.communicate(timeout=60)
            assert (slow.returncode, errors) == (1, "")
        assert " there before" in said
        assert_whole(rawdev, clip, out)


class TestLostPrograms:
    def test_one_that_is_killed_once_is_started_again(
        self, rawdev: Path, environment: dict[str, str], clip: Path, out: Path, tmp_path: Path
    ) -> None:
        """The first program for each frame kills itself."""
        seen = tmp_path / "seen"
        seen.mkdir()
        program = rawdev_after(tmp_path, rawdev, f'mkdir "{seen}/${{name##*/}}" 2>/dev/null && kill -9 $$')
        ended = run({**environment, VARIABLE: str(program)}, clip, out)
        assert ended.stdout.splitlines() == [*CAUSES, "12 frames: 10 developed, 2 refused"]
        assert len(names(seen)) == 12
        assert_whole(rawdev, clip, out)

    def test_one_that_is_always_killed_takes_only_its_frame(
        self, rawdev: Path, environment: dict[str, str], clip: Path, out: Path, tmp_path: Path
    ) -> None:
        program = rawdev_after(tmp_path, rawdev, 'case "$name" in */c.dng) kill -9 $$ ;; esac')
        ended = run({**environment, VARIABLE: str(program)}, clip, out)
        assert ended.stdout.splitlines() == [
            "c.dng: rawdev was killed by SIGKILL",
            *CAUSES,
            "12 frames: 9 developed, 2 refused, 1 failed",
        ]
        assert ended.returncode == 1
        assert names(out) == [name for name in IMAGES if name != "c.tiff"]

    def test_one_that_is_killed_in_an_image(self, stand_in: Callable[..., Path], tmp_path: Path, bars: Path) -> None:
        stat, refused = b"stat 0 0 0 0\n", b"no region\n"
        pixel = b"image 19\nP6\n1 1\n65535\n" + bytes(6)
        half = b"image %d\nII*\0\x08\0\0\0" % (180 + 6 * 96 * 64)
        program = stand_in(stat, refused, refused, pixel, half, status=-9)
        job = Job(bars, tmp_path / "bars.tiff", None, program)
        assert develop(job) == Outcome(Ending.FAILED, "rawdev was killed by SIGKILL")
        assert names(tmp_path) == ["stand_in"]

    def test_a_frame_that_cannot_be_read(self, rawdev: Path, clip: Path, tmp_path: Path) -> None:
        """A frame that is gone when its turn comes."""
        outcome = develop(Job(clip / "gone.dng", tmp_path / "gone.tiff", None, rawdev))
        assert outcome.ending is Ending.FAILED
        assert outcome.cause.startswith("rawdev ended with status 4: a read of the frame")

    def test_sessions_that_are_ended(self, rawdev: Path, clip: Path, tmp_path: Path) -> None:
        sessions = OpenSessions()
        sessions.end()
        outcome = develop(Job(clip / GOOD[0], tmp_path / "out.tiff", None, rawdev), sessions)
        assert outcome == Outcome(Ending.FAILED, "rawdev was killed by SIGKILL")
        assert not (tmp_path / "out.tiff").exists()


class TestImagesThatCannotBeWritten:
    def test_a_full_disk(self, rawdev: Path, environment: dict[str, str], clip: Path, out: Path) -> None:
        """A disk of 64 kB, in a space of mounts of its own, holds four of the ten images."""
        without_damaged(clip)
        out.mkdir()
        kept = out.with_name("kept")
        script = (
            'mount -t tmpfs -o size=64k none "$1" || exit 77; shift; "$@"; status=$?; '
            'cp -a "$0" "${0%/*}/kept"; exit $status'
        )
        unshare: list[str | Path] = ["unshare", "--mount", "--map-root-user", "sh", "-c", script, out, out]
        if shutil.which("unshare") is None:
            pytest.skip("no unshare")
        ended = subprocess.run(
            [*unshare, *command(clip, out, "--jobs", "1")], env=environment, capture_output=True, text=True
        )
        if ended.returncode == 77 or "unshare:" in ended.stderr:
            pytest.skip("no file system can be mounted here")
        assert ended.stdout.splitlines() == [
            f"d.dng: [Errno {errno.ENOSPC}] No space left on device",
            "10 frames: 4 developed, 1 failed, 5 not done",
        ]
        assert ended.returncode == 1
        assert names(kept) == IMAGES[:4]
        for name in GOOD[:4]:
            assert (kept / name).with_suffix(".tiff").read_bytes() == own_image(rawdev, clip / name)

    def test_one_that_has_the_name_of_a_folder(self, environment: dict[str, str], clip: Path, out: Path) -> None:
        (out / "c.tiff").mkdir(parents=True)
        ended = run(environment, clip, out)
        assert ended.stdout.splitlines()[0].startswith(f"c.dng: [Errno {errno.EISDIR}] Is a directory")
        assert ended.stdout.splitlines()[-1] == "12 frames: 9 developed, 2 refused, 1 failed"
        assert ended.returncode == 1
        assert names(out) == IMAGES

    @pytest.mark.parametrize("target", ["clip.txt", "clip.txt/images", "none/images", "/proc"])
    def test_a_folder_that_cannot_be_written(
        self, environment: dict[str, str], clip: Path, tmp_path: Path, target: str
    ) -> None:
        (tmp_path / "clip.txt").touch()
        ended = run(environment, clip, tmp_path / target)
        assert re.fullmatch(rf"malletfern: .*{re.escape(target)} can't be written: .+\n", ended.stderr)
        assert (ended.stdout, ended.returncode) == ("", 2)

    @pytest.mark.skipif(os.geteuid() == 0, reason="no folder is read-only for root")
    def test_a_folder_that_is_read_only(self, environment: dict[str, str], clip: Path, out: Path) -> None:
        out.mkdir(mode=0o555)
        ended = run(environment, clip, out)
        assert "can't be written: Permission denied" in ended.stderr
        assert ended.returncode == 2


class TestWrongUse:
    @pytest.mark.parametrize("source", ["none", "notes.txt"])
    def test_a_folder_that_cannot_be_read(
        self, environment: dict[str, str], clip: Path, out: Path, source: str
    ) -> None:
        ended = run(environment, clip / source, out)
        assert re.fullmatch(rf"malletfern: .*{source} can't be read: .+\n", ended.stderr)
        assert ended.returncode == 2
        assert not out.exists()

    def test_settings_that_cannot_be_read(self, environment: dict[str, str], clip: Path, out: Path) -> None:
        ended = run(environment, clip, out, "--settings", "none.toml")
        assert ended.stderr.endswith("none.toml can't be read: No such file or directory\n")
        assert ended.returncode == 2
        assert not out.exists()

    @pytest.mark.parametrize(
        ("text", "cause"), [("hue = 1", "settings Key hue"), ("exposure = -1", "settings Value exposure")]
    )
    def test_settings_that_no_frame_takes(
        self, environment: dict[str, str], clip: Path, out: Path, tmp_path: Path, text: str, cause: str
    ) -> None:
        without_damaged(clip)
        settings = tmp_path / "settings.toml"
        settings.write_text(text)
        ended = run(environment, clip, out, "--settings", settings, "--jobs", "1")
        assert ended.stdout.splitlines() == [f"{GOOD[0]}: {cause}", "10 frames: 1 failed, 9 not done"]
        assert ended.returncode == 2
        assert names(out) == []

    def test_settings_that_a_frame_does_not_take(
        self, environment: dict[str, str], clip: Path, out: Path, tmp_path: Path, scene: Path
    ) -> None:
        """The sample frame has a forward matrix, and the others haven't."""
        shutil.copy(scene, clip)
        settings = tmp_path / "settings.toml"
        settings.write_text("matrix = 'forward1'")
        ended = run(environment, clip, out, "--settings", settings)
        assert f"{GOOD[0]}: settings Matrix" in ended.stdout.splitlines()
        assert ended.stdout.splitlines()[-1] == "13 frames: 1 developed, 12 refused"
        assert ended.returncode == 1
        assert names(out) == ["scene.tiff"]

    @pytest.mark.parametrize(
        ("words", "said"),
        [
            (["--jobs", "0"], "clip: error: argument --jobs: '0' is no whole number of at least 1"),
            (["--jobs", "many"], "clip: error: argument --jobs: 'many' is no whole number of at least 1"),
            (["--jobs", "1", "--cluster", "tcp://127.0.0.1:1"], "not allowed with argument --jobs"),
            (["--cell", "16"], "error: unrecognized arguments: --cell 16"),
        ],
    )
    def test_words(self, environment: dict[str, str], clip: Path, out: Path, words: list[str], said: str) -> None:
        ended = run(environment, clip, out, *words)
        assert ended.stderr.startswith("usage: malletfern")
        assert ended.stderr.endswith(f"{said}\n")
        assert ended.returncode == 2
        assert not out.exists()

    def test_no_program(self, environment: dict[str, str], clip: Path, out: Path, tmp_path: Path) -> None:
        ended = run({**environment, VARIABLE: str(tmp_path / "rawdev")}, clip, out)
        said = f"{tmp_path}/rawdev, which {VARIABLE} names, isn't there: a rawdev that can be run should be there"
        assert ended.stderr == f"malletfern: {said}\n"
        assert ended.returncode == 2

    def test_no_tqdm(self, environment: dict[str, str], clip: Path, out: Path) -> None:
        words = [
            "import sys",
            "sys.modules['tqdm'] = None",
            "from malletfern.cli import main",
            "sys.exit(main(sys.argv[1:]))",
        ]
        ended = subprocess.run(
            [sys.executable, "-c", "\n".join(words), "clip", clip, out], env=environment, capture_output=True, text=True
        )
        assert ended.stderr == (
            "malletfern: the Python package tqdm isn't there: `apt install python3-tqdm` installs it on Debian\n"
        )
        assert ended.returncode == 2

    def test_two_frames_of_one_image(self, environment: dict[str, str], clip: Path, out: Path) -> None:
        (clip / "b.dng").write_bytes(samples(0))
        ended = run(environment, clip, out)
        assert ended.stderr == "malletfern: b.DNG and b.dng would both become b.tiff\n"
        assert ended.returncode == 2


def test_the_frames_of_a_folder(tmp_path: Path) -> None:
    for name in ("take 1.2.dng", "b.DNG", ".hidden.dng", "notes.txt", "take 1.dng.txt", "雪.dng"):
        (tmp_path / name).touch()
    assert frames_in(tmp_path) == ["b.DNG", "take 1.2.dng", "雪.dng"]
    jobs = jobs_for(tmp_path, Path("images"), None, Path("rawdev"))
    assert [(str(job.frame), str(job.image)) for job in jobs] == [
        (f"{tmp_path}/b.DNG", "images/b.tiff"),
        (f"{tmp_path}/take 1.2.dng", "images/take 1.2.tiff"),
        (f"{tmp_path}/雪.dng", "images/雪.tiff"),
    ]


def test_two_frames_of_one_image(tmp_path: Path) -> None:
    for name in ("a.dng", "a.DNG"):
        (tmp_path / name).touch()
    with pytest.raises(WrongUse, match="a.DNG and a.dng would both become a.tiff"):
        jobs_for(tmp_path, tmp_path, None, Path("rawdev"))

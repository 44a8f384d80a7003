"""Files that get their name when they are whole, and what dead writers leave."""

import errno
import fcntl
import os
import signal
import subprocess
import sys
from collections.abc import Iterator
from pathlib import Path

import pytest
from helpers import PACKAGE, names

from malletfern.wholefile import PART_NAME, check_writable, remove_dead_parts, whole_file

WRITER = """
import sys, time
from pathlib import Path
from malletfern.wholefile import whole_file

with whole_file(Path(sys.argv[1])) as file:
    file.write(b"half")
    file.flush()
    print("written", flush=True)
    time.sleep(60)
"""


@pytest.fixture
def writer(tmp_path: Path) -> Iterator["subprocess.Popen[bytes]"]:
    """Another process, which is in the middle of writing `out` in the test's folder."""
    process = subprocess.Popen(
        [sys.executable, "-c", WRITER, tmp_path / "out"],
        stdout=subprocess.PIPE,
        env={**os.environ, "PYTHONPATH": str(PACKAGE / "src")},
    )
    with process:
        assert process.stdout is not None and process.stdout.readline() == b"written\n"
        yield process
        process.kill()


def test_the_name_comes_with_the_end(tmp_path: Path) -> None:
    out = tmp_path / "out"
    with whole_file(out) as file:
        file.write(b"who")
        file.flush()
        (part,) = names(tmp_path)
        assert PART_NAME.fullmatch(part)
        file.write(b"le")
    assert names(tmp_path) == ["out"]
    assert out.read_bytes() == b"whole"


def test_it_has_the_mode_of_any_new_file(tmp_path: Path) -> None:
    with whole_file(tmp_path / "out") as file:
        file.write(b"whole")
    (tmp_path / "other").touch()
    assert (tmp_path / "out").stat().st_mode == (tmp_path / "other").stat().st_mode


def test_an_exception_leaves_what_was_there(tmp_path: Path) -> None:
    out = tmp_path / "out"
    out.write_bytes(b"before")
    with pytest.raises(KeyboardInterrupt), whole_file(out) as file:
        file.write(b"half")
        raise KeyboardInterrupt
    assert names(tmp_path) == ["out"]
    assert out.read_bytes() == b"before"


def test_a_name_that_cannot_be_had(tmp_path: Path) -> None:
    (tmp_path / "out").mkdir()
    with pytest.raises(IsADirectoryError), whole_file(tmp_path / "out"):
        pass
    assert names(tmp_path) == ["out"]


def test_folders_that_cannot_be_written(tmp_path: Path) -> None:
    (tmp_path / "file").touch()
    for folder in (tmp_path / "none", tmp_path / "file", Path("/proc")):
        with pytest.raises(OSError):
            check_writable(folder)
    check_writable(tmp_path)
    assert names(tmp_path) == ["file"]


def test_a_live_writer_keeps_its_file(tmp_path: Path, writer: "subprocess.Popen[bytes]") -> None:
    before = names(tmp_path)
    assert remove_dead_parts(tmp_path) == 0
    assert names(tmp_path) == before and len(before) == 1


def test_a_dead_writer_does_not(tmp_path: Path, writer: "subprocess.Popen[bytes]") -> None:
    writer.send_signal(signal.SIGKILL)
    writer.wait()
    assert len(names(tmp_path)) == 1
    assert remove_dead_parts(tmp_path) == 1
    assert names(tmp_path) == []


def test_files_of_others_stay(tmp_path: Path) -> None:
    host = os.uname().nodename
    dead = f".malletfern-{host}-1-ab.part"
    others = [
        ".out.part",
        f".malletfern-{host}-1-ab",
        f".malletfern-{host}2-1-ab.part",
        f".malletfern-{host}-x-ab.part",
    ]
    for name in (dead, *others):
        (tmp_path / name).touch()
    os.mkfifo(tmp_path / f".malletfern-{host}-2-ab.part")
    (tmp_path / f".malletfern-{host}-3-ab.part").symlink_to(tmp_path / ".out.part")
    others += [f".malletfern-{host}-2-ab.part", f".malletfern-{host}-3-ab.part"]
    assert remove_dead_parts(tmp_path) == 1
    assert names(tmp_path) == sorted(others)


def test_a_file_that_is_removed_before_its_lock_is_made_anew(tmp_path: Path, monkeypatch: pytest.MonkeyPatch) -> None:
    """A run that begins between a writer's first two steps takes its file for a dead one's."""
    lock = fcntl.flock
    removed: list[int] = []

    def removing_once(file: int, operation: int) -> None:
        if operation == fcntl.LOCK_EX and not removed:
            removed.append(remove_dead_parts(tmp_path))
        lock(file, operation)

    monkeypatch.setattr(fcntl, "flock", removing_once)
    with whole_file(tmp_path / "out") as file:
        file.write(b"whole")
    assert removed == [1]
    assert names(tmp_path) == ["out"]
    assert (tmp_path / "out").read_bytes() == b"whole"


def test_without_locks_nothing_is_removed(tmp_path: Path, monkeypatch: pytest.MonkeyPatch) -> None:
    def unsupported(file: int, operation: int) -> None:
        raise OSError(errno.EOPNOTSUPP, "no locks")

    monkeypatch.setattr(fcntl, "flock", unsupported)
    with whole_file(tmp_path / "out") as file:
        file.write(b"whole")
        assert remove_dead_parts(tmp_path) == 0
    assert (tmp_path / "out").read_bytes() == b"whole"


def test_where_a_lock_fails_nothing_is_written(tmp_path: Path, monkeypatch: pytest.MonkeyPatch) -> None:
    def failing(file: int, operation: int) -> None:
        raise OSError(errno.ENOLCK, "no more locks")

    monkeypatch.setattr(fcntl, "flock", failing)
    with pytest.raises(OSError, match="no more locks"), whole_file(tmp_path / "out"):
        pass
    assert names(tmp_path) == []


def test_data_that_do_not_reach_the_disk(tmp_path: Path, monkeypatch: pytest.MonkeyPatch) -> None:
    """The name comes only after them."""

    def failing(file: int) -> None:
        raise OSError(errno.EIO, "a broken disk")

    monkeypatch.setattr(os, "fsync", failing)
    with pytest.raises(OSError, match="a broken disk"), whole_file(tmp_path / "out") as file:
        file.write(b"whole")
    assert names(tmp_path) == []

"""A clip over a Dask scheduler and two workers of this machine."""

import contextlib
import json
import subprocess
import sys
from collections.abc import Iterator
from dataclasses import dataclass
from pathlib import Path

import pytest
from clips import CAUSES, IMAGES, assert_whole, images, run, running, wait_for
from helpers import names

from malletfern.installed import VARIABLE

pytest.importorskip("distributed")


@dataclass
class Cluster:
    """A running scheduler and its workers."""

    address: str
    scheduler: "subprocess.Popen[bytes]"
    workers: "list[subprocess.Popen[bytes]]"


@pytest.fixture
def cluster(environment: dict[str, str], tmp_path: Path) -> Iterator[Cluster]:
    folder = tmp_path / "dask"
    folder.mkdir()
    contact = folder / "scheduler.json"
    # The workers are to take the program from the job, so their environment doesn't name it.
    others = {name: value for name, value in environment.items() if name != VARIABLE}

    with contextlib.ExitStack() as stack:

        def started(module: str, *words: str) -> "subprocess.Popen[bytes]":
            log = stack.enter_context(open(folder / f"{module}-{len(list(folder.iterdir()))}.log", "wb"))
            process = subprocess.Popen(
                [sys.executable, "-m", f"distributed.cli.{module}", "--scheduler-file", contact, *words],
                env=others,
                cwd=folder,
                stdout=log,
                stderr=log,
            )
            stack.callback(process.wait)
            stack.callback(process.kill)
            return process

        scheduler = started("dask_scheduler", "--host", "127.0.0.1", "--port", "0", "--no-dashboard")
        wait_for(lambda: contact.exists() and contact.read_bytes().endswith(b"}"))
        words = ("--no-nanny", "--nthreads", "2", "--no-dashboard", "--local-directory", str(folder))
        workers = [started("dask_worker", *words) for _ in range(2)]
        address = json.loads(contact.read_bytes())["address"]
        wait_for_workers(address, 2)
        yield Cluster(address, scheduler, workers)


def wait_for_workers(address: str, count: int) -> None:
    from distributed import Client

    with Client(address, set_as_default=False) as client:  # type: ignore[no-untyped-call]
        client.wait_for_workers(count, timeout=30)


def test_a_clip(rawdev: Path, environment: dict[str, str], clip: Path, out: Path, cluster: Cluster) -> None:
    ended = run(environment, clip, out, "--cluster", cluster.address)
    assert ended.stdout.splitlines() == [*CAUSES, "12 frames: 10 developed, 2 refused"]
    assert ended.returncode == 1
    assert_whole(rawdev, clip, out)

    ended = run(environment, clip, out, "--cluster", cluster.address)
    assert ended.stdout.splitlines() == [*CAUSES, "12 frames: 10 there before, 2 refused"]


def test_a_worker_is_lost_and_the_run_goes_on(
    rawdev: Path, slow_rawdev: Path, environment: dict[str, str], clip: Path, out: Path, cluster: Cluster
) -> None:
    slow = {**environment, VARIABLE: str(slow_rawdev)}
    with running(slow, clip, out, "--cluster", cluster.address) as process:
        wait_for(lambda: len(images(out)) >= 2)
        cluster.workers[0].kill()
        said, errors = process.communicate(timeout=60)
    assert said.splitlines()[:2] == CAUSES
    assert process.returncode == 1, errors
    assert images(out) == IMAGES
    ended = run(environment, clip, out)
    assert ended.stdout.splitlines() == [*CAUSES, "12 frames: 10 there before, 2 refused"]
    assert_whole(rawdev, clip, out)


def test_stopped_in_the_middle(
    rawdev: Path, slow_rawdev: Path, environment: dict[str, str], clip: Path, out: Path, cluster: Cluster
) -> None:
    slow = {**environment, VARIABLE: str(slow_rawdev)}
    with running(slow, clip, out, "--cluster", cluster.address) as process:
        wait_for(lambda: len(images(out)) >= 2)
        process.terminate()
        said, errors = process.communicate(timeout=60)
    assert process.returncode == 143
    assert said.endswith("stopped by SIGTERM\n")
    ended = run(environment, clip, out, "--cluster", cluster.address)
    assert ended.returncode == 1
    wait_for(lambda: names(out) == IMAGES)
    assert_whole(rawdev, clip, out)


def test_no_scheduler(environment: dict[str, str], clip: Path, out: Path) -> None:
    ended = run(environment, clip, out, "--cluster", "tcp://127.0.0.1:1")
    assert ended.stderr.splitlines()[-1].startswith("malletfern: no Dask scheduler answers at tcp://127.0.0.1:1")
    assert ended.returncode == 2
    assert names(out) == []

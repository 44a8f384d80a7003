"""What a run makes of the outcomes of its frames, without any program."""

import queue
import signal
from concurrent.futures import Future
from pathlib import Path

import pytest

from malletfern.clip import Events, Pool, Report, develop_all
from malletfern.developing import Ending, Job, Outcome

NAMES = ["a.dng", "b.dng", "c.dng"]
JOBS = [Job(Path(name), Path(name).with_suffix(".tiff"), None, Path("rawdev")) for name in NAMES]

DEVELOPED = Outcome(Ending.DEVELOPED)
REFUSED = Outcome(Ending.REFUSED, "refused NotTiff")
FULL = Outcome(Ending.FULL, "no space")


def ran(*results: Outcome | BaseException | signal.Signals | None) -> tuple[Report, int]:
    """The report of a run whose jobs come to these results in turn, where None is one that was cancelled and a signal
    comes in between; and how often the pool was stopped."""
    report, stops = Report(NAMES), []
    events: Events = queue.SimpleQueue()
    futures: list[Future[Outcome]] = []

    def submit(job: Job) -> Future[Outcome]:
        futures.append(Future())
        if len(futures) == len(JOBS):
            give()
        return futures[-1]

    def give() -> None:
        waiting = iter(futures)
        for result in results:
            if isinstance(result, signal.Signals):
                events.put(result)
            elif isinstance(result, Outcome):
                next(waiting).set_result(result)
            elif result is None:
                next(waiting).cancel()
            else:
                next(waiting).set_exception(result)

    develop_all(JOBS, report, Pool(submit, lambda: stops.append(1)), events, lambda: None)
    return report, len(stops)


@pytest.mark.parametrize(
    ("results", "status", "lines", "stops"),
    [
        ([DEVELOPED] * 3, 0, ["3 frames: 3 developed"], 0),
        ([DEVELOPED, Outcome(Ending.THERE), DEVELOPED], 0, ["3 frames: 2 developed, 1 there before"], 0),
        ([DEVELOPED, REFUSED, DEVELOPED], 1, ["b.dng: refused NotTiff", "3 frames: 2 developed, 1 refused"], 0),
        ([FULL, FULL, DEVELOPED], 1, ["a.dng: no space", "3 frames: 1 developed, 1 failed, 1 not done"], 1),
        (
            [Outcome(Ending.WRONG, "settings Key hue"), REFUSED, None],
            2,
            ["a.dng: settings Key hue", "b.dng: refused NotTiff", "3 frames: 1 refused, 1 failed, 1 not done"],
            1,
        ),
        (
            [DEVELOPED, signal.SIGINT, Outcome(Ending.FAILED, "killed"), DEVELOPED],
            130,
            ["3 frames: 2 developed, 1 not done, stopped by SIGINT"],
            1,
        ),
        ([signal.SIGTERM, None, None, None], 143, ["3 frames: 3 not done, stopped by SIGTERM"], 1),
        (
            [DEVELOPED, None, None],
            1,
            ["b.dng: the scheduler was lost", "c.dng: the scheduler was lost", "3 frames: 1 developed, 2 failed"],
            0,
        ),
        (
            [DEVELOPED, RuntimeError("thrice"), DEVELOPED],
            1,
            ["b.dng: RuntimeError: thrice", "3 frames: 2 developed, 1 failed"],
            0,
        ),
        (
            [ModuleNotFoundError("no malletfern"), None, None],
            2,
            ["a.dng: ModuleNotFoundError: no malletfern", "3 frames: 1 failed, 2 not done"],
            1,
        ),
    ],
)
def test_reports(
    results: list[Outcome | BaseException | signal.Signals | None], status: int, lines: list[str], stops: int
) -> None:
    report, stopped = ran(*results)
    assert list(report.lines()) == lines
    assert report.status == status
    assert stopped == stops


def test_of_no_frames() -> None:
    assert list(Report([]).lines()) == ["no frames"]
    assert Report([]).status == 0

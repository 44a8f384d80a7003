"""A folder of frames to a folder of images."""

import concurrent.futures
import contextlib
import os
import queue
import signal
from collections.abc import Callable, Iterator, Sequence
from dataclasses import dataclass, field
from pathlib import Path
from types import FrameType
from typing import TypeAlias

from malletfern.developing import Ending, Job, OpenSessions, Outcome, develop
from malletfern.errors import WrongUse
from malletfern.installed import find_program, import_extra
from malletfern.wholefile import check_writable, remove_dead_parts

FRAME_SUFFIX = ".dng"
IMAGE_SUFFIX = ".tiff"

CONNECT_SECONDS = 10

DONE = frozenset({Ending.DEVELOPED, Ending.THERE})

SETTLED = DONE | {Ending.REFUSED}

# Endings that every later frame would share.
SHARED = frozenset({Ending.FULL, Ending.WRONG})

Work: TypeAlias = concurrent.futures.Future[Outcome]
Events: TypeAlias = "queue.SimpleQueue[Work | signal.Signals]"


@dataclass(frozen=True)
class Pool:
    """What develops frames beside each other. After `stop` no job is begun, and those of this machine are ended."""

    submit: Callable[[Job], Work]
    stop: Callable[[], None]


@dataclass
class Report:
    """How a run ended, frame by frame in the order of their names. Frames that it didn't come to have no outcome."""

    frames: Sequence[str]
    outcomes: dict[str, Outcome] = field(default_factory=dict)
    stopped_by: signal.Signals | None = None
    is_cut_short: bool = False

    def stop(self, number: signal.Signals) -> None:
        """Notes that a signal cuts the run short."""
        self.stopped_by = number
        self.is_cut_short = True

    def take(self, name: str, work: Work) -> bool:
        """Notes what the work on a frame came to, and that the run is cut short where others would come to the same.

        Once it is cut short only what was done or refused counts: the rest was cancelled, or ended with its program.
        The answer is whether it counts.
        """
        outcome = _outcome(work)
        if self.is_cut_short and outcome.ending not in SETTLED:
            return False
        self.outcomes[name] = outcome
        self.is_cut_short |= outcome.ending in SHARED
        return True

    @property
    def status(self) -> int:
        """0: each frame has its image. 1: some haven't. 2: the settings or the program are wrong for each. 128 and the
        signal's number: the run was stopped."""
        if self.stopped_by is not None:
            return 128 + self.stopped_by
        endings = {outcome.ending for outcome in self.outcomes.values()}
        if Ending.WRONG in endings:
            return 2
        return 0 if endings <= DONE else 1

    def count(self, *endings: Ending) -> int:
        return sum(outcome.ending in endings for outcome in self.outcomes.values())

    def lines(self) -> Iterator[str]:
        """The frames that have no image, by name and cause, and then the counts."""
        for name in self.frames:
            outcome = self.outcomes.get(name)
            if outcome is not None and outcome.ending not in DONE:
                yield _printable(f"{name}: {outcome.cause}")
        counts = [
            (self.count(Ending.DEVELOPED), "developed"),
            (self.count(Ending.THERE), "there before"),
            (self.count(Ending.REFUSED), "refused"),
            (self.count(Ending.FAILED, Ending.FULL, Ending.WRONG), "failed"),
            (len(self.frames) - len(self.outcomes), "not done"),
        ]
        said = ", ".join(f"{count} {what}" for count, what in counts if count)
        stopped = f", stopped by {self.stopped_by.name}" if self.stopped_by is not None else ""
        yield f"{len(self.frames)} frames: {said}{stopped}" if self.frames else "no frames"


def frames_in(folder: Path) -> list[str]:
    """The names of a folder's frames in their order: files that end in `.dng`, in capitals or not, but for those whose
    name begins with a dot. Raises OSError where the folder can't be read."""
    with os.scandir(folder) as entries:
        return sorted(entry.name for entry in entries if _is_frame(entry))


def jobs_for(source: Path, target: Path, settings: Path | None, program: Path) -> list[Job]:
    """The job for each frame of a folder, in the order of their names: `NAME.dng` becomes `NAME.tiff`.

    Raises WrongUse where two frames would become one image, and OSError where the folder can't be read.
    """
    jobs = [
        Job(source / name, (target / name).with_suffix(IMAGE_SUFFIX), settings, program) for name in frames_in(source)
    ]
    by_image: dict[Path, Job] = {}
    for job in jobs:
        other = by_image.setdefault(job.image, job)
        if other is not job:
            raise WrongUse(f"{other.frame.name} and {job.frame.name} would both become {job.image.name}")
    return jobs


@contextlib.contextmanager
def threads(count: int) -> Iterator[Pool]:
    """So many threads of this process, each with a `rawdev` of its own at a time. One that is killed takes only its
    frame with it."""
    sessions = OpenSessions()
    executor = concurrent.futures.ThreadPoolExecutor(count)

    def stop() -> None:
        executor.shutdown(wait=False, cancel_futures=True)
        sessions.end()

    try:
        yield Pool(lambda job: executor.submit(develop, job, sessions), stop)
    finally:
        stop()
        executor.shutdown()


@contextlib.contextmanager
def cluster(address: str) -> Iterator[Pool]:
    """The workers of a running Dask scheduler. A job whose worker is lost goes to another one.

    After `stop` a worker still ends the frame that it is at. Raises WrongUse where no scheduler answers.
    """
    distributed = import_extra("distributed", "python3-distributed")
    try:
        client = distributed.Client(address, timeout=CONNECT_SECONDS, set_as_default=False)
    except (OSError, ValueError) as fault:
        raise WrongUse(f"no Dask scheduler answers at {address}: {fault}") from fault
    with client:
        executor: concurrent.futures.Executor = client.get_executor(pure=False)
        yield Pool(lambda job: executor.submit(develop, job), lambda: executor.shutdown(wait=False))


def develop_all(jobs: Sequence[Job], report: Report, pool: Pool, events: Events, advance: Callable[[], object]) -> None:
    """Develops the frames of the jobs in their order, notes in the report how each ended, and calls `advance` then.

    A signal among the events cuts the run short, and so does an outcome that each later frame would share.
    """
    names: dict[Work, str] = {}
    for job in jobs:
        work = pool.submit(job)
        names[work] = job.frame.name
        work.add_done_callback(events.put)
    stopped = False
    while names:
        event = events.get()
        if isinstance(event, signal.Signals):
            report.stop(event)
        elif report.take(names.pop(event), event):
            advance()
        if report.is_cut_short and not stopped:
            stopped = True
            pool.stop()
            # A cluster doesn't cancel what it is about to hand over, nor hands it over then.
            for work in list(names):
                work.cancel()


@contextlib.contextmanager
def signals_into(events: Events) -> Iterator[None]:
    """Puts SIGINT and SIGTERM among the events during the block. A second one of the kind ends the process at once.

    A signal that is ignored stays so. Called from the main thread only.
    """

    def note(number: int, frame: FrameType | None) -> None:
        signal.signal(number, signal.SIG_DFL)
        events.put(signal.Signals(number))

    caught = [number for number in (signal.SIGINT, signal.SIGTERM) if signal.getsignal(number) is not signal.SIG_IGN]
    before = [(number, signal.signal(number, note)) for number in caught]
    try:
        yield
    finally:
        for number, handler in before:
            signal.signal(number, handler)


def develop_clip(
    source: Path, target: Path, settings: Path | None = None, jobs: int | None = None, address: str | None = None
) -> Report:
    """Develops each frame of the folder `source` to a TIFF in the folder `target`, which is made where it isn't there.

    `jobs` is how many `rawdev` run beside each other, as many as there are cores where it isn't given; `address` is
    that of a Dask scheduler whose workers do the work instead. A frame whose image is there is passed over. The bar
    goes to standard error, where that is a terminal. Called from the main thread only.

    Raises WrongUse where a folder, the settings or the address are wrong, and NotInstalled where the program or a
    package isn't there.
    """
    tqdm = import_extra("tqdm", "python3-tqdm").tqdm
    program = find_program()
    work = _prepared(source.absolute(), target.absolute(), settings and settings.absolute(), program)
    there = {job.frame.name: Outcome(Ending.THERE) for job in work if job.image.is_file()}
    report = Report([job.frame.name for job in work], there)
    left = [job for job in work if job.frame.name not in there]
    events: Events = queue.SimpleQueue()
    with (
        signals_into(events),
        cluster(address) if address is not None else threads(jobs or _cores()) as pool,
        tqdm(total=len(work), initial=len(there), unit="frame", disable=None) as bar,
    ):
        develop_all(left, report, pool, events, bar.update)
    return report


def _prepared(source: Path, target: Path, settings: Path | None, program: Path) -> list[Job]:
    """The jobs, where the folders and the settings file can be used. What dead runs left in `target` is removed."""
    with _wrong_use(f"{source} can't be read"):
        work = jobs_for(source, target, settings, program)
    if settings is not None:
        with _wrong_use(f"{settings} can't be read"):
            settings.open("rb").close()
    with _wrong_use(f"{target} can't be written"):
        target.mkdir(exist_ok=True)
        check_writable(target)
        remove_dead_parts(target)
    return work


@contextlib.contextmanager
def _wrong_use(what: str) -> Iterator[None]:
    try:
        yield
    except OSError as fault:
        raise WrongUse(f"{what}: {fault.strerror}") from fault


def _cores() -> int:
    """The cores that this process may use."""
    return len(os.sched_getaffinity(0))


def _is_frame(entry: os.DirEntry[str]) -> bool:
    return not entry.name.startswith(".") and entry.name.lower().endswith(FRAME_SUFFIX) and entry.is_file()


def _printable(text: str) -> str:
    """The text as one line: letters that can't be printed, line ends among them, are escaped."""
    return "".join(letter if letter.isprintable() else letter.encode("unicode_escape").decode() for letter in text)


def _outcome(work: Work) -> Outcome:
    """What a job that has ended came to. `develop` raises nothing; a cluster may lose the job, or not have the code."""
    if work.cancelled():
        return Outcome(Ending.FAILED, "the scheduler was lost")
    fault = work.exception()
    if fault is None:
        return work.result()
    ending = Ending.WRONG if isinstance(fault, ImportError) else Ending.FAILED
    return Outcome(ending, f"{type(fault).__name__}: {fault}")

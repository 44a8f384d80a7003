"""The command `malletfern`."""

import argparse
import io
import sys
from collections.abc import Sequence
from pathlib import Path

from malletfern.clip import develop_clip
from malletfern.errors import MalletfernError, NotInstalled, UsageRefused, WrongUse
from malletfern.show import show


def main(words: Sequence[str] | None = None) -> int:
    """Runs the command that the words ask for, else those of the command line; the exit status.

    Status 0 is success, 1 that frames were refused or failed, 2 wrong use, and 128 and its number a signal.
    """
    for stream in (sys.stdout, sys.stderr):
        if isinstance(stream, io.TextIOWrapper):
            stream.reconfigure(errors="backslashreplace")
    options = _parser().parse_args(words)
    try:
        status: int = options.run(options)
    except (NotInstalled, UsageRefused, WrongUse) as fault:
        print(f"malletfern: {fault}", file=sys.stderr)
        return 2
    except (MalletfernError, OSError) as fault:
        print(f"malletfern: {fault}", file=sys.stderr)
        return 1
    return status


def _clip(options: argparse.Namespace) -> int:
    report = develop_clip(options.source, options.target, options.settings, options.jobs, options.cluster)
    for line in report.lines():
        print(line)
    return report.status


def _show(options: argparse.Namespace) -> int:
    out = options.out or Path(f"{options.frame.stem}.show.png")
    show(options.frame, out, options.region, options.settings)
    print(out)
    return 0


def _parser() -> argparse.ArgumentParser:
    parser = argparse.ArgumentParser(prog="malletfern", description="Develops CinemaDNG frames with rawdev.")
    commands = parser.add_subparsers(required=True, metavar="COMMAND")

    clip = commands.add_parser("clip", help="develop each DNG of a folder to a TIFF in another folder")
    clip.add_argument("source", metavar="IN", type=Path, help="the folder of the frames")
    clip.add_argument("target", metavar="OUT", type=Path, help="the folder of the images; it is made if need be")
    clip.add_argument("--settings", metavar="FILE", type=Path, help="a settings file for all frames")
    places = clip.add_mutually_exclusive_group()
    places.add_argument(
        "--jobs", metavar="N", type=_count, help="how many frames at a time (default: the number of cores)"
    )
    places.add_argument("--cluster", metavar="ADDRESS", help="the Dask scheduler whose workers develop the frames")
    clip.set_defaults(run=_clip)

    look = commands.add_parser("show", help="write a PNG of a region and its three histograms")
    look.add_argument("frame", metavar="FRAME", type=Path, help="a DNG file")
    look.add_argument(
        "--region",
        metavar=("X", "Y", "W", "H"),
        type=int,
        nargs=4,
        help="W columns from column X and H rows from row Y (default: the whole plane)",
    )
    look.add_argument("--settings", metavar="FILE", type=Path, help="a settings file (default: the root curve)")
    look.add_argument("--out", metavar="FILE", type=Path, help="the PNG (default: FRAME.show.png in this folder)")
    look.set_defaults(run=_show)
    return parser


def _count(word: str) -> int:
    try:
        count = int(word)
    except ValueError:
        count = 0
    if count < 1:
        raise argparse.ArgumentTypeError(f"{word!r} is no whole number of at least 1")
    return count

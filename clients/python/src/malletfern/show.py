"""A first look at a frame: a region and its histograms as one picture."""

from collections.abc import Sequence
from pathlib import Path

import numpy as np
import numpy.typing as npt

from malletfern.installed import import_extra
from malletfern.session import Session
from malletfern.wholefile import whole_file

BINS = 256
BIN_WIDTH = 65536 // BINS

COLOURS = ("red", "green", "blue")

# Inches, and pixels an inch.
FIGURE_SIZE = (10.0, 8.0)
RESOLUTION = 120


def show(frame: Path, out: Path, region: Sequence[int] | None = None, settings: Path | None = None) -> None:
    """Writes a PNG of a region (x, y, w, h) of a frame, or of its whole plane, with a histogram of each colour.

    Picture and histograms are of the same values: those under the settings file, or else those under the standard
    settings with the root curve, since linear light is too dark for a screen. Raises what `Session` and its calls
    raise, NotInstalled where matplotlib isn't there, and OSError where the file can't be written.
    """
    import_extra("matplotlib", "python3-matplotlib")
    with Session(frame, settings) as session:
        if settings is None:
            session.set("tone", "root")
        x, y, w, h = region if region is not None else (0, 0, *session.size())
        pixels = session.region(x, y, w, h)
    tone = settings.name if settings is not None else "tone root"
    draw(pixels, (x, y), f"{frame.name}: {w} by {h} pixels from column {x}, row {y}; {tone}", out)


def histograms(pixels: npt.NDArray[np.uint16]) -> npt.NDArray[np.int64]:
    """How many samples of red, green and blue lie in each of 256 bins, which are 256 values wide: of shape (3, 256).

    `pixels` has the shape (h, w, 3).
    """
    bins = pixels.reshape(-1, 3) // BIN_WIDTH
    return np.stack([np.bincount(colour, minlength=BINS) for colour in bins.T])


def draw(pixels: npt.NDArray[np.uint16], origin: tuple[int, int], title: str, out: Path) -> None:
    """Writes a PNG of pixels of shape (h, w, 3), whose first stands at the column and row of `origin`, and of their
    histograms."""
    # Without pyplot there is no state that figures share, and no window.
    figures = import_extra("matplotlib.figure", "python3-matplotlib")
    figure = figures.Figure(figsize=FIGURE_SIZE, dpi=RESOLUTION, layout="constrained")
    grid = figure.add_gridspec(2, 1, height_ratios=(3, 1))

    (x, y), (h, w, _) = origin, pixels.shape
    picture = figure.add_subplot(grid[0])
    picture.imshow((pixels // BIN_WIDTH).astype(np.uint8), extent=(x, x + w, y + h, y))
    picture.set_title(title)
    picture.set_xlabel("column")
    picture.set_ylabel("row")

    panels = grid[1].subgridspec(1, len(COLOURS)).subplots(sharey=True)
    panels[0].set_ylabel("pixels")
    for axes, colour, counts in zip(panels, COLOURS, histograms(pixels)):
        axes.stairs(counts, np.arange(BINS + 1) * BIN_WIDTH, fill=True, color=colour)
        axes.set_yscale("symlog", linthresh=1)
        # With a margin, so that clipped samples, which stand at either end, are seen.
        axes.set_xlim(-2 * BIN_WIDTH, (BINS + 2) * BIN_WIDTH)
        axes.set_xticks((0, 16384, 32768, 49152, 65536))
        axes.set_xlabel(colour)
    with whole_file(out) as file:
        figure.savefig(file, format="png")

"""The picture of a first look."""

import subprocess
import sys
from pathlib import Path

import numpy as np
import numpy.typing as npt
import pytest
from helpers import names

from malletfern.cli import main
from malletfern.show import histograms

matplotlib_image = pytest.importorskip("matplotlib.image")


def colours_of(picture: Path) -> npt.NDArray[np.uint8]:
    """Red, green and blue of each pixel of a PNG, in one list: of shape (pixels, 3)."""
    parts: npt.NDArray[np.float32] = matplotlib_image.imread(picture)
    return (parts[..., :3].reshape(-1, 3) * 255).round().astype(np.uint8)


def count(colours: npt.NDArray[np.uint8], *colour: int) -> int:
    return int((colours == np.array(colour, np.uint8)).all(axis=1).sum())


def test_histograms() -> None:
    pixels = np.array([[[0, 255, 256], [65535, 65280, 65279]], [[0, 0, 512], [1, 2, 767]]], np.uint16)
    red, green, blue = histograms(pixels)
    assert {bin_: n for bin_, n in enumerate(red) if n} == {0: 3, 255: 1}
    assert {bin_: n for bin_, n in enumerate(green) if n} == {0: 3, 255: 1}
    assert {bin_: n for bin_, n in enumerate(blue) if n} == {1: 1, 254: 1, 2: 2}


def test_the_whole_plane(
    rawdev: Path, bars: Path, tmp_path: Path, monkeypatch: pytest.MonkeyPatch, capsys: pytest.CaptureFixture[str]
) -> None:
    """Each lit colour of the bars is 49152, of which the root curve makes 56755: 221 of 255."""
    monkeypatch.chdir(tmp_path)
    assert main(["show", str(bars)]) == 0
    assert capsys.readouterr().out == "bars.show.png\n"
    assert names(tmp_path) == ["bars.show.png"]
    colours = colours_of(tmp_path / "bars.show.png")
    for bar in ((221, 221, 0), (0, 221, 221), (0, 221, 0), (221, 0, 221), (221, 0, 0), (0, 0, 221)):
        assert count(colours, *bar) > 5000


def test_a_region_under_settings(rawdev: Path, bars: Path, tmp_path: Path) -> None:
    """Columns 14 to 21 are the yellow bar's inside; half of 49152 is 24576, or 96 of 255."""
    settings, picture = tmp_path / "darker.toml", tmp_path / "out.png"
    settings.write_text("exposure = 512\n")
    words = [str(bars), "--settings", str(settings), "--region", "14", "2", "8", "30", "--out", str(picture)]
    assert main(["show", *words]) == 0
    colours = colours_of(picture)
    assert count(colours, 96, 96, 0) > 20000
    assert count(colours, 0, 221, 221) == 0


@pytest.mark.parametrize(
    ("words", "status", "said"),
    [
        (["bars", "--region", "0", "0", "97", "1"], 1, "malletfern: no region: the rectangle has no pixel"),
        (["none"], 1, "malletfern: rawdev ended with status 4"),
        (["frame"], 1, "malletfern: refused NotTiff"),
        (["bars", "--out", "none/out.png"], 1, "malletfern: [Errno 2] No such file or directory"),
    ],
)
def test_refused(
    rawdev: Path,
    bars: Path,
    tmp_path: Path,
    monkeypatch: pytest.MonkeyPatch,
    capsys: pytest.CaptureFixture[str],
    words: list[str],
    status: int,
    said: str,
) -> None:
    monkeypatch.chdir(tmp_path)
    Path("bars").write_bytes(bars.read_bytes())
    Path("frame").write_bytes(b"no frame\n")
    assert main(["show", *words]) == status
    assert capsys.readouterr().err.startswith(said)
    assert names(tmp_path) == ["bars", "frame"]


@pytest.mark.parametrize("region", [["0", "0"], ["0", "0", "1", "1", "1"], ["0", "0", "1", "one"]])
def test_no_four_numbers(bars: Path, capsys: pytest.CaptureFixture[str], region: list[str]) -> None:
    with pytest.raises(SystemExit) as ended:
        main(["show", str(bars), "--region", *region])
    assert ended.value.code == 2
    assert capsys.readouterr().err.startswith("usage: malletfern")


def test_no_matplotlib(rawdev: Path, bars: Path, environment: dict[str, str], tmp_path: Path) -> None:
    code = "import sys; sys.modules['matplotlib'] = None; from malletfern.cli import main; sys.exit(main(sys.argv[1:]))"
    ended = subprocess.run(
        [sys.executable, "-c", code, "show", bars], env=environment, cwd=tmp_path, capture_output=True, text=True
    )
    assert "`apt install python3-matplotlib`" in ended.stderr
    assert ended.returncode == 2

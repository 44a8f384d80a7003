"""What several modules of the tests call."""

import stat
from pathlib import Path

PACKAGE = Path(__file__).parents[1]


def executable(path: Path, text: str) -> Path:
    """Makes a file of this text that can be run."""
    path.write_text(text)
    path.chmod(path.stat().st_mode | stat.S_IXUSR)
    return path


def names(folder: Path) -> list[str]:
    """The names of what stands in a folder, in their order."""
    return sorted(path.name for path in folder.iterdir())

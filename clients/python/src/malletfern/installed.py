"""Finding what this package stands on: the program, and Python packages that only some calls need."""

import importlib
import os
import shutil
from pathlib import Path
from types import ModuleType

from malletfern.errors import NotInstalled

VARIABLE = "MALLETFERN_RAWDEV"
BUILT = "crates/rawdev/out/rawdev"


def find_program(program: str | os.PathLike[str] | None = None) -> Path:
    """The absolute path of `rawdev`: `program`, else the environment's MALLETFERN_RAWDEV, else `rawdev` on the path,
    else the one that was built in the checkout that this package stands in. An empty variable is as none.

    Raises NotInstalled where there is none, and where the first two name what can't be run.
    """
    if program is not None:
        return _runnable(Path(program), "")
    variable = os.environ.get(VARIABLE)
    if variable:
        return _runnable(Path(variable), f", which {VARIABLE} names,")
    on_path = shutil.which("rawdev")
    if on_path is not None:
        return Path(on_path).absolute()
    for built in _in_checkout():
        if _can_be_run(built):
            return built
    raise NotInstalled("rawdev", f"put it on the path, name it in {VARIABLE}, or build it as the README says")


def import_extra(module: str, debian_package: str) -> ModuleType:
    """The module of a package that only some calls need. Raises NotInstalled where it isn't there."""
    try:
        return importlib.import_module(module)
    except ModuleNotFoundError as missing:
        raise NotInstalled(
            f"the Python package {missing.name}", f"`apt install {debian_package}` installs it on Debian"
        ) from missing


def no_program(path: str | os.PathLike[str]) -> NotInstalled:
    """What to raise where the system finds no program in a file that may be run."""
    return NotInstalled(os.fspath(path), "a rawdev of this machine should stand there", "is no program that runs here")


def _runnable(path: Path, named: str) -> Path:
    """The absolute path of a file that may be run. `named` says after its name where that comes from."""
    found = path.absolute()
    if not found.is_file():
        raise NotInstalled(f"{found}{named}", "a rawdev that can be run should be there")
    if not _can_be_run(found):
        raise NotInstalled(f"{found}{named}", "it should be a rawdev, and `chmod +x` lets it be run", "can't be run")
    return found


def _in_checkout() -> list[Path]:
    """Where the checkout would have the program: this file is clients/python/src/malletfern/installed.py in it."""
    return [top / BUILT for top in Path(__file__).resolve().parents[4:5]]


def _can_be_run(path: Path) -> bool:
    return path.is_file() and os.access(path, os.X_OK)

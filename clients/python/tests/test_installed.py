"""How the program and the packages are found."""

from pathlib import Path

import pytest
from helpers import executable

from malletfern import installed
from malletfern.errors import NotInstalled
from malletfern.installed import VARIABLE, find_program, import_extra


@pytest.fixture
def no_program(tmp_path: Path, monkeypatch: pytest.MonkeyPatch) -> Path:
    """A folder in which a package stands that knows no program."""
    monkeypatch.delenv(VARIABLE, raising=False)
    monkeypatch.setenv("PATH", str(tmp_path / "bin"))
    monkeypatch.setattr(installed, "__file__", str(tmp_path / "clients/python/src/malletfern/installed.py"))
    return tmp_path


def program(path: Path) -> Path:
    path.parent.mkdir(parents=True)
    return executable(path, "#!/bin/sh\n")


def test_the_order(no_program: Path, monkeypatch: pytest.MonkeyPatch) -> None:
    with pytest.raises(NotInstalled, match=f"rawdev isn't there: put it on the path, name it in {VARIABLE}"):
        find_program()
    built = program(no_program / "crates/rawdev/out/rawdev")
    assert find_program() == built
    on_path = program(no_program / "bin/rawdev")
    assert find_program() == on_path
    named = program(no_program / "named/program")
    monkeypatch.setenv(VARIABLE, str(named))
    assert find_program() == named
    assert find_program(built) == built


def test_what_is_named_has_to_be_there(no_program: Path, monkeypatch: pytest.MonkeyPatch) -> None:
    program(no_program / "bin/rawdev")
    with pytest.raises(NotInstalled, match="^/.*/none isn't there: a rawdev that can be run should be there"):
        find_program(no_program / "none")
    (no_program / "plain").touch()
    with pytest.raises(NotInstalled, match="^/.*/plain can't be run: it should be a rawdev"):
        find_program(no_program / "plain")
    monkeypatch.setenv(VARIABLE, str(no_program / "none"))
    with pytest.raises(NotInstalled, match=f"^/.*/none, which {VARIABLE} names, isn't there"):
        find_program()
    monkeypatch.setenv(VARIABLE, str(no_program / "plain"))
    with pytest.raises(NotInstalled, match=f"^/.*/plain, which {VARIABLE} names, can't be run"):
        find_program()


def test_an_empty_variable_is_as_none(no_program: Path, monkeypatch: pytest.MonkeyPatch) -> None:
    on_path = program(no_program / "bin/rawdev")
    monkeypatch.setenv(VARIABLE, "")
    assert find_program() == on_path


def test_a_shallow_package(no_program: Path, monkeypatch: pytest.MonkeyPatch) -> None:
    monkeypatch.setattr(installed, "__file__", "/a/installed.py")
    with pytest.raises(NotInstalled):
        find_program()


def test_packages() -> None:
    assert import_extra("json", "python3").loads("1") == 1
    with pytest.raises(
        NotInstalled, match="the Python package malletfern_none isn't there: `apt install python3-none`"
    ):
        import_extra("malletfern_none", "python3-none")

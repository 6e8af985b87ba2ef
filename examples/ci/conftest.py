"""Options of test_captures.py, and what it is parametrised over."""

import os
import shutil
from pathlib import Path
from typing import List

import pytest

PORT1 = os.environ.get("PORT1", "port1")

# The endings of captures: text, and packed.
ENDINGS = (".bits", ".ts2")


def pytest_addoption(parser: pytest.Parser) -> None:
    group = parser.getgroup("port1")
    group.addoption(
        "--captures",
        metavar="FOLDER",
        default=os.environ.get("PORT1_CAPTURES"),
        help="the folder of captures, *.bits as text and *.ts2 packed; unless given, what PORT1_CAPTURES says",
    )
    group.addoption(
        "--dictionary",
        metavar="FILE",
        default=os.environ.get("PORT1_DICTIONARY"),
        help="the dictionary of their frames; unless given, what PORT1_DICTIONARY says",
    )
    group.addoption(
        "--two",
        action="store_true",
        default=os.environ.get("PORT1_TWO", "") not in ("", "0"),
        help="the captures are of two lines with one clock; also where PORT1_TWO is 1",
    )
    group.addoption(
        "--arrivals",
        action="store_true",
        default=os.environ.get("PORT1_ARRIVALS", "") not in ("", "0"),
        help="the captures are of two lines, in the order of arrival; also where PORT1_ARRIVALS is 1",
    )


def pytest_sessionstart(session: pytest.Session) -> None:
    """Refuses a run that could find nothing wrong, since it was not told enough."""
    folder, dictionary = session.config.getoption("captures"), session.config.getoption("dictionary")
    if not folder or not Path(folder).is_dir():
        raise pytest.UsageError(f"--captures: there is no folder {folder or ''}")
    if not dictionary or not Path(dictionary).is_file():
        raise pytest.UsageError(f"--dictionary: there is no file {dictionary or ''}")
    if shutil.which(PORT1) is None:
        raise pytest.UsageError(f"there is no program {PORT1}")


def captures_of(folder: Path) -> List[Path]:
    """The captures of a folder and of those in it, by their paths."""
    return sorted(path for path in folder.rglob("*") if path.suffix in ENDINGS and path.is_file())


def pytest_generate_tests(metafunc: pytest.Metafunc) -> None:
    """One test for each capture, named after it; and a test of the folder, which is to have one."""
    folder = Path(metafunc.config.getoption("captures"))
    captures = captures_of(folder)
    if "captures" in metafunc.fixturenames:
        metafunc.parametrize("captures", [captures], ids=["folder"])
    if "capture" in metafunc.fixturenames:
        metafunc.parametrize("capture", captures, ids=[str(path.relative_to(folder)) for path in captures])


@pytest.fixture
def options(request: pytest.FixtureRequest) -> List[str]:
    """What `port1` is told of every capture."""
    dictionary = Path(request.config.getoption("dictionary")).read_text(encoding="utf-8")
    lines = [f"--{form}" for form in ("two", "arrivals") if request.config.getoption(form)]
    return [f"--dict={dictionary.rstrip()}", *lines]

"""Whether packages/version knows every file that has the version of the program, and sees and mends one that has another:
in a copy of these files, each place with another number in turn."""

import importlib.util
import re
import shutil
import subprocess
import tempfile
from importlib.machinery import SourceFileLoader
from pathlib import Path
from typing import Any, Iterator, List, Tuple

TOP = Path(__file__).resolve().parent.parent

COMMAND = TOP / "packages" / "version"

Result = Tuple[str, List[str]]


def loaded() -> Any:
    """The command, as a module."""
    loader = SourceFileLoader("version_command", str(COMMAND))
    spec = importlib.util.spec_from_loader(loader.name, loader)
    assert spec is not None
    module = importlib.util.module_from_spec(spec)
    loader.exec_module(module)
    return module


TOOL = loaded()



def version_of(top: Path = TOP) -> str:
    """That of the sources of the program."""
    return ".".join(TOOL.version_of(top))


VERSION = version_of()

# One that begins like this one in each of its numbers, and has three different ones.
OTHER = ".".join(f"{number}{more}" for number, more in zip(VERSION.split("."), "987"))

HEADING = r"(?m)^(## )(\d[0-9.]*)()$"


def unknown() -> List[str]:
    """The files that have the version, and are none that the command writes or looks at."""
    words = ["git", "grep", "-lwF", VERSION]
    found = subprocess.run(words, cwd=TOP, capture_output=True, text=True).stdout.split()
    return sorted({*found} - {TOOL.SOURCE, TOOL.CHANGES, *(place.file for place in TOOL.PLACES)})


def copied(folder: Path) -> Path:
    """The files that have a version, in a folder of their own."""
    for name in {TOOL.SOURCE, TOOL.CHANGES, *(place.file for place in TOOL.PLACES)}:
        (folder / name).parent.mkdir(parents=True, exist_ok=True)
        shutil.copyfile(TOP / name, folder / name)
    return folder


def rewritten(path: Path, pattern: str, version: str) -> str:
    """A file with another version at the first place of this form, and its text before."""
    text = path.read_text(encoding="utf-8")
    path.write_text(re.sub(pattern, rf"\g<1>{version}\g<3>", text, count=1), encoding="utf-8")
    return text


def called(*words: object) -> Tuple[int, str]:
    command = [str(COMMAND), *map(str, words)]
    ran = subprocess.run(command, stdout=subprocess.PIPE, stderr=subprocess.STDOUT, universal_newlines=True)
    return ran.returncode, ran.stdout


def problems_of_other(folder: Path, file: str, pattern: str, version: str, is_mended: bool) -> List[str]:
    """Another version in one place is reported, and mended unless it is written by hand."""
    top = copied(folder)
    before = rewritten(top / file, pattern, version)
    status, said = called("--check", top)
    is_told = status == 1 and said.startswith(f"{file}: ") and said.count("\n") == 1
    problems = [] if is_told else [f"status {status}: {said!r}"]
    status, _ = called(top)
    is_whole = (top / file).read_text(encoding="utf-8") == before
    return problems + ([] if (status, is_whole) == (0 if is_mended else 1, is_mended) else [f"mended: status {status}"])


def problems_of_raised(folder: Path) -> List[str]:
    """Where the version of the program is raised, all that is not written by hand is written."""
    top = copied(folder)
    rewritten(top / TOOL.SOURCE, r'(\.version\(")([0-9.]+)("\))', OTHER)
    rewritten(top / TOOL.CHANGES, HEADING, OTHER)
    told = [called(top), called("--check", top)]
    texts = [(top / place.file).read_text(encoding="utf-8") for place in TOOL.PLACES]
    return [str(each) for each in told if each != (0, "")] + [f"left: {text[:60]}" for text in texts if VERSION in text]


def problems_of_changes(folder: Path) -> List[str]:
    """A CHANGELOG without a release is reported, and one that is still to come before the newest is not."""
    problems = []
    for heading, wanted in [("Changes", 1), (f"Unreleased: {OTHER}\n\n## {VERSION}", 0)]:
        top = copied(folder)
        (top / TOOL.CHANGES).write_text(f"# Changes\n\n## {heading}\n", encoding="utf-8")
        status, said = called("--check", top)
        is_told = said.startswith(f"{TOOL.CHANGES}: the newest release is []: ") if wanted else said == ""
        problems += [] if status == wanted and is_told else [f"{heading}: status {status}: {said!r}"]
    return problems


def problems_of_program(program: Path) -> List[str]:
    got = subprocess.run([program, "--version"], stdout=subprocess.PIPE).stdout.decode()
    return [] if got == f"port1 {VERSION}\n" else [f"wanted {VERSION}, got {got!r}"]


def results_of_version(program: Path) -> Iterator[Result]:
    yield "version: the program", problems_of_program(program)
    yield "version: files that packages/version does not know", unknown()
    yield "version: packages/version --check", [] if called("--check") == (0, "") else [called("--check")[1]]
    with tempfile.TemporaryDirectory(prefix="port1-") as folder:
        for place in TOOL.PLACES:
            other = place.form.format(*OTHER.split("."))
            told = problems_of_other(Path(folder), place.file, place.pattern(), other, True)
            yield f"version: another in {place.file}: {place.before}", told
        told = problems_of_other(Path(folder), TOOL.CHANGES, HEADING, OTHER, False)
        yield f"version: another in {TOOL.CHANGES}", told
        yield "version: a new one", problems_of_raised(Path(folder))
        yield "version: releases in CHANGELOG.md", problems_of_changes(Path(folder))

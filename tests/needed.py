"""Tests tests/setup with an apt-get that installs nothing or all, and that no test is skipped without a word."""

import contextlib
import importlib.machinery
import importlib.util
import io
import os
import re
import shutil
import subprocess
import tempfile
from pathlib import Path
from typing import Iterator, List, NamedTuple, Optional, Set, Tuple
from unittest import mock

from needs import BESIDE, DEBIANS_PYTHON, GATE, SKIPPED, Skipped, report

TOP = Path(__file__).resolve().parent.parent

# What every Debian has, and the toolchain's command.
EVERYWHERE = {"apt-get", "bash", "dpkg-deb", "rt", "setpriv", "ssh", "ssh-keygen", "unshare"}

# An apt-get that keeps its words, and puts programs in place where there is a folder of them.
APT_GET = """\
#!/bin/sh
echo "$@" >> {log}
test ! -d {source} || /bin/cp -n {source}/* {path}
"""

SECONDS = 300


class Machine(NamedTuple):
    """What apt-get does on a machine without the programs of the tests."""

    name: str
    installs: bool
    status: int


MACHINES = [Machine("packages that come", True, 0), Machine("packages that do not come", False, 1)]


def programs() -> List[str]:
    return [program for package in GATE for program in package.programs]


def problems_of_machine(machine: Machine, folder: Path) -> List[str]:
    """Whether it asks for each package of a missing program, once, and says in the end what is missing still."""
    path, source, log = folder / "path", folder / "source", folder / "log"
    path.mkdir()
    for name, place in [("python3", DEBIANS_PYTHON), ("env", shutil.which("env"))]:
        (path / name).symlink_to(str(place))
    if machine.installs:
        source.mkdir()
        for program in programs():
            (source / program).write_text("#!/bin/sh\necho v20.0.0\n")
            (source / program).chmod(0o755)
    (path / "apt-get").write_text(APT_GET.format(log=log, source=source, path=path))
    (path / "apt-get").chmod(0o755)
    words = [DEBIANS_PYTHON, str(TOP / "tests" / "setup")]
    ran = subprocess.run(words, env={"PATH": str(path)}, capture_output=True, text=True, timeout=SECONDS)
    wanted = {package.name for package in GATE if package.programs}
    line = next((line for line in log.read_text().splitlines() if line.startswith("install ")), "")
    problems = [] if wanted <= set(line.split()) else [f"apt-get was told {line!r}"]
    last = ran.stdout.splitlines()[-1]
    is_told = machine.installs or (last.startswith("sudo apt-get ") and wanted <= set(last.split()))
    if not is_told or (ran.returncode, ran.stderr) != (machine.status, ""):
        problems.append(f"status {ran.returncode}: {ran.stdout}{ran.stderr}")
    return problems


class User(NamedTuple):
    """Who calls tests/setup: the number of the user, the status of sudo, and the words in front of what installs."""

    number: int
    sudo: int
    words: Optional[List[str]]


USERS = [User(0, 1, []), User(1000, 0, ["sudo", "-n"]), User(1000, 1, None)]


def problems_of_user(user: User) -> List[str]:
    """Root installs, and so does a user whom sudo asks for no password."""
    loader = importlib.machinery.SourceFileLoader("setup", str(TOP / "tests" / "setup"))
    module = importlib.util.module_from_spec(importlib.util.spec_from_loader("setup", loader))
    loader.exec_module(module)
    ran = subprocess.CompletedProcess([], user.sudo)
    with mock.patch.object(module.os, "geteuid", lambda: user.number), \
            mock.patch.object(module.shutil, "which", lambda name: name), \
            mock.patch.object(module.subprocess, "run", lambda *words, **options: ran):
        words = module.leave()
    return [] if words == user.words else [f"{user}: {words}"]


def problems_of_report() -> List[str]:
    """Whether a skipped test fails where none may be skipped, and is named in the file of the gate."""
    problems = []
    for results, is_all, status in [([], True, 0), ([Skipped("no x")], False, 0), ([Skipped("no x")], True, 1)]:
        with tempfile.NamedTemporaryFile("r") as file, contextlib.redirect_stdout(io.StringIO()) as said:
            os.environ[SKIPPED], before = file.name, os.environ.get(SKIPPED, "")
            got = report([("a test", result) for result in results], is_all)
            os.environ[SKIPPED] = before
            named = "skipped: a test: no x\n" if results else ""
            is_said = said.getvalue() == f"{named}0 passed, 0 failed, {len(results)} skipped\n"
            problems += [] if (got, file.read(), is_said) == (status, named, True) else [f"{results}, {is_all}: {got}"]
    return problems


def asked_for() -> Set[str]:
    """The programs and modules that the tests say they need."""
    files = [file for folder in ("tests", "scripts/tests", "c/tests") for file in (TOP / folder).glob("*.py")]
    text = "".join(file.read_text(encoding="utf-8") for file in files)
    calls = re.findall(r"\bneeds\w*\(([^)]*)\)", text)
    imported = re.findall(r"^import (\w+) as ", text, re.MULTILINE)
    return {*imported, *(word for call in calls for word in re.findall(r'"([^"{}]+)"', call))}


def problems_of_list() -> List[str]:
    """What a test asks for is in a package of the list."""
    known = {thing for each in GATE + BESIDE for thing in [*each.programs, *each.modules, *each.files]}
    asked = asked_for()
    problems = [] if {"numpy", "sshd", "tshark"} <= asked else [f"the tests ask for {sorted(asked)}"]
    return problems + [f"{thing} is in no package" for thing in sorted(asked - known - EVERYWHERE)]


def results_of_needs() -> Iterator[Tuple[str, List[str]]]:
    yield "needs: the list of packages", problems_of_list()
    yield "needs: skipped tests", problems_of_report()
    for user in USERS:
        yield f"needs: a user {user.number}, sudo {user.sudo}", problems_of_user(user)
    for machine in MACHINES:
        if os.geteuid() == 0:
            with tempfile.TemporaryDirectory(prefix="port1-") as folder:
                yield f"needs: {machine.name}", problems_of_machine(machine, Path(folder))

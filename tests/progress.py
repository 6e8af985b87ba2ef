"""Tests packages/build with an `rt` that builds as it is asked to: what is reported, and the status."""

import os
import re
import subprocess
import sys
import tempfile
from pathlib import Path
from typing import Iterator, List, Tuple

from built import crates_of

TOP = Path(__file__).resolve().parent.parent

SECONDS = 300

# An `rt` that proves each crate of its list, the next one as soon as the one before has been reported, and ends with a
# status.
RT = """\
#!/bin/sh
echo "rt $*"
for crate in {crates}; do
    mkdir -p "{top}/crates/$crate/out/rlib/$crate.rlib"
    touch "{top}/crates/$crate/out/rlib/stamp"
    for time in $(seq 1000); do ! grep -q "[( ]$crate[,)]" "{top}/reports" || break; sleep 0.1; done
done
exit {status}
"""

# How a line of the report looks; the minutes are none in a test.
REPORTED = re.compile(r"port1: (\d+) of (\d+) crates proved(?: \(([\w, ]+)\))?, 0 min")


def made(folder: Path, crates: List[str], status: int) -> "subprocess.CompletedProcess[str]":
    """What packages/build does in a copy of the crates' sources, where `rt` proves these."""
    top = folder / "top"
    for name in ["packages/build", "tests/built.py", "crates.txt"]:
        (top / name).parent.mkdir(parents=True, exist_ok=True)
        (top / name).write_bytes((TOP / name).read_bytes())
    for crate in crates_of(TOP, "port1"):
        (top / "crates" / crate / "src").mkdir(parents=True, exist_ok=True)
        (top / "crates" / crate / "src" / "lib.rt").write_text("", encoding="ascii")
    (folder / "rt").write_text(RT.format(crates=" ".join(crates), top=top, status=status), encoding="ascii")
    (folder / "rt").chmod(0o755)
    (top / "packages" / "build").chmod(0o755)
    path = f"{folder}:{os.environ['PATH']}"
    words = [str(top / "packages" / "build"), "port1", "run", "--", "--version"]
    pipe, environment = subprocess.PIPE, {**os.environ, "PATH": path}
    with (top / "reports").open("w") as told:
        ran = subprocess.run(words, env=environment, stdout=pipe, stderr=told, text=True, timeout=SECONDS)
    return subprocess.CompletedProcess(words, ran.returncode, ran.stdout, (top / "reports").read_text())


def problems_of_reports(folder: Path) -> List[str]:
    """Each crate is reported when it is proved, out of all, and `rt` has its words and its output."""
    crates = list(reversed(crates_of(TOP, "port1")))
    ran = made(folder, crates[:3], 0)
    reports = [REPORTED.fullmatch(line) for line in ran.stderr.splitlines()]
    found = [(int(report[1]), int(report[2])) for report in reports if report]
    names = [name for report in reports if report and report[3] for name in report[3].split(", ")]
    is_right = None not in reports and found == sorted(found) and found[-1:] == [(3, len(crates))]
    problems = [] if is_right and sorted(names) == sorted(crates[:3]) else [f"it reports {ran.stderr!r}"]
    return problems + ([] if (ran.stdout, ran.returncode) == ("rt run -- --version\n", 0) else [f"it ends so: {ran}"])


def problems_of_status(folder: Path) -> List[str]:
    """Where `rt` fails, the status is its own."""
    ran = made(folder, [], 3)
    return [] if ran.returncode == 3 else [f"the status is {ran.returncode}, not 3: {ran.stderr}"]


def problems_of_silence(folder: Path) -> List[str]:
    """Nothing is reported while all crates are up to date."""
    crates = crates_of(TOP, "port1")
    made(folder, crates[1:3], 0)
    for crate in crates[1:]:
        (folder / "top" / "crates" / crate / "out" / "rlib" / f"{crate}.rlib").mkdir(parents=True, exist_ok=True)
        (folder / "top" / "crates" / crate / "out" / "rlib" / "stamp").touch()
    (folder / "rt").write_text("#!/bin/sh\nsleep 1.5\n", encoding="ascii")
    words = [str(folder / "top" / "packages" / "build"), "port1", "run"]
    path = f"{folder}:{os.environ['PATH']}"
    ran = subprocess.run(words, env={**os.environ, "PATH": path}, capture_output=True, text=True, timeout=SECONDS)
    return [] if ran.stderr == "" else [f"it reports {ran.stderr!r}"]


def problems_of_refusals(folder: Path) -> List[str]:
    """What is said without `rt`, and of a crate that is none."""
    made(folder, [], 0)
    words = [sys.executable, str(folder / "top" / "packages" / "build")]
    problems = []
    for path, crate, wanted in [
        ("", "port1", "packages/build: there is no rt, the command of the Rattle toolchain\n"),
        (str(folder), "port2", "packages/build: crates.txt has no crate port2\n"),
    ]:
        ran = subprocess.run([*words, crate, "run"], env={"PATH": path}, capture_output=True, text=True, timeout=SECONDS)
        problems += [] if (ran.returncode, ran.stderr) == (2, wanted) else [f"{crate}: {ran}"]
    return problems


def results_of_progress() -> Iterator[Tuple[str, List[str]]]:
    for problems in (problems_of_reports, problems_of_status, problems_of_silence, problems_of_refusals):
        with tempfile.TemporaryDirectory(prefix="port1-") as folder:
            yield f"packages/build: {problems.__name__}", problems(Path(folder))

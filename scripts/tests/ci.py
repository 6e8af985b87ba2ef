"""The captures of a folder as tests for a server: examples/ci, run by pytest, and the JUnit XML that it makes."""

import os
import shutil
import subprocess
import xml.etree.ElementTree as ElementTree
from pathlib import Path
from typing import Dict, List, NamedTuple, Optional, Sequence

from needs import needs_module
from tests.case import CALL, DICTIONARY, REPLY, SECONDS, TOP, WINDOWS, packed, plain
from tests.engines import Step, furnished, run_sections, run_step, section, steps_of
from tests.parts import packed_two

CI = TOP / "examples" / "ci"

ANSWERED = plain(CALL + REPLY)

# The call with its 40th bit inverted, which is in the frame check.
WRONG_CHECK = plain(CALL)[:40] + str(1 - int(plain(CALL)[40])) + plain(CALL)[41:]

MISSING = "0.000052 s: 8 49 missing station 16 type 0 (call)"


class Case(NamedTuple):
    """A capture, the message of its test, none where the test passes, and the option for two lines."""

    name: str
    capture: bytes
    message: Optional[str] = None
    lines: str = ""


def wrong(*lines: str) -> str:
    return "\n".join([f"{len(lines)} lines tell what is wrong:", *lines])


def example(name: str) -> bytes:
    return (TOP / "examples" / name).read_bytes()


CASES = [
    Case("answered.bits", ANSWERED.encode()),
    Case("answered.ts2", packed(ANSWERED)),
    Case("in a folder/of its own.bits", ANSWERED.encode()),
    Case("rests, aborts, a stray and an open end.bits", (ANSWERED + "1" * 20 + plain(REPLY) + "0101111111").encode()),
    Case("nothing.bits", b"", "the capture has no frame"),
    Case("nothing.ts2", packed(""), "the capture has no frame"),
    Case("flags.ts2", packed("01111110" * 9), "the capture has no frame"),
    Case("short.bits", (ANSWERED + "0101" + "01111110").encode(), wrong("0.000742 s: 114 118 damaged short")),
    Case("fcs.bits", (WRONG_CHECK + ANSWERED).encode(), wrong("0.000052 s: 8 49 damaged fcs")),
    Case("overlong.ts2", packed(ANSWERED + 200 * "0" + "01111110"), wrong("0.000742 s: 114 314 overlong")),
    Case("missing.bits", (plain(CALL) + ANSWERED).encode(), wrong(MISSING)),
    Case("missing.ts2", packed(plain(CALL) + ANSWERED), wrong(MISSING)),
    Case(
        "spoilt.bits",
        example("missing-and-spoilt.bits"),
        wrong(MISSING, "0.000690 s: 106 130 damaged short", "0.000371 s: 57 98 spoilt station 16 type 0 (call)"),
    ),
    Case(
        "late.bits",
        example("in-time-late-missing.bits"),
        wrong(
            "0.000690 s: 106 147 late station 16 type 0 (call), after 0.156 ms",
            "0.001432 s: 220 261 missing station 16 type 0 (call)",
        ),
    ),
    Case("pending.bits", example("one-call.bits"), wrong("0.000052 s: 8 49 pending station 16 type 0 (call)")),
    Case("no octet.ts2", b"", "port1: capture: short head"),
    Case("cut off.ts2", packed(ANSWERED)[:-1], "port1: capture: short body"),
    Case(
        "missing and cut off.ts2", packed(plain(CALL) + ANSWERED)[:-1], "port1: capture: short body\n" + wrong(MISSING)
    ),
    Case("text.ts2", ANSWERED.encode(), "port1: capture: wrong magic"),
    Case("packed.bits", packed(ANSWERED), "port1: capture: octet 0 is no bit"),
    Case("answered on two lines.ts2", packed_two(plain(CALL) + "1" * 57, "1" * 57 + plain(REPLY)), None, "two"),
    Case("answered by its own clock.bits", example("two-clocks.arrivals"), None, "arrivals"),
    Case(
        "late on two lines.bits",
        example("two-lines.bits"),
        wrong(
            "0.000794 s: 1 122 163 late station 16 type 0 (call), after 0.260 ms",
            "0.001693 s: 1 260 301 missing station 16 type 0 (call)",
        ),
        "two",
    ),
    Case("many.bits", (1000 * plain(CALL) + plain(REPLY)).encode()),
]

CASES_BY_NAME = {case.name: case for case in CASES}

# The message of many.bits: a call each 57 bits, of which the last alone is answered.
MANY = [
    f"{(57 * number + 8) / 153600:.6f} s: {57 * number + 8} {57 * number + 49} missing station 16 type 0 (call)"
    for number in range(999)
]


def message_of(case: Case) -> Optional[str]:
    if case.name != "many.bits":
        return case.message
    return "\n".join(["999 lines tell what is wrong:", *MANY[:100], "and 899 lines more"])


def tested(place: Path, words: Sequence[object], folder: Path, **variables: str) -> subprocess.CompletedProcess:
    """A run of pytest from a folder of its own, of the tests at this place."""
    environment = {"PATH": os.environ.get("PATH", os.defpath), "PORT1": os.environ["PORT1"], **variables}
    given = ["python3", "-m", "pytest", "-q", *map(str, words), str(place)]
    return subprocess.run(given, cwd=folder, env=environment, capture_output=True, text=True, timeout=SECONDS)


def verdicts(report: Path) -> Dict[str, Optional[str]]:
    """The message of each test by its name; none where it passed."""
    found: Dict[str, Optional[str]] = {}
    for case in ElementTree.parse(report).getroot().iter("testcase"):
        wrongs = [part for part in case if part.tag in ("failure", "error", "skipped")]
        found[case.attrib["name"]] = "\n".join(part.text or "" for part in wrongs) if wrongs else None
    return found


def written(folder: Path, cases: Sequence[Case]) -> Path:
    """A folder with the captures, and with a file that is none."""
    captures = folder / "captures"
    for case in cases:
        path = captures / case.name
        path.parent.mkdir(parents=True, exist_ok=True)
        path.write_bytes(case.capture)
    (captures / "notes.txt").write_text("no capture\n", encoding="ascii")
    (folder / "bus.toml").write_text(WINDOWS, encoding="ascii")
    return captures


def problems_of_report(report: Path, cases: Sequence[Case]) -> List[str]:
    wanted = {f"test_capture[{case.name}]": message_of(case) for case in cases}
    wanted["test_folder[folder]"] = None
    found = verdicts(report)
    problems = [f"the tests are {sorted(found)}"] if found.keys() != wanted.keys() else []
    for name, message in wanted.items():
        if found.get(name) != message:
            problems.append(f"{name}: wanted {message!r}, got {found.get(name)!r}")
    return problems


def verdict_of_each(folder: Path) -> List[str]:
    """A capture of each kind, with the tests in their place and copied; the second time told by variables."""
    needs_module("pytest")
    problems = []
    before = sorted(CI.iterdir())
    for lines in ("", "two", "arrivals"):
        cases = [case for case in CASES if case.lines == lines]
        place = folder / f"lines-{lines}"
        captures = written(place, cases)
        words = [f"--captures={captures}", f"--dictionary={place / 'bus.toml'}", *([f"--{lines}"] if lines else [])]
        ran = tested(CI, [f"--junitxml={place / 'bus.xml'}", *words], place, PYTHONDONTWRITEBYTECODE="1")
        status = int(any(message_of(case) for case in cases))
        problems += [] if ran.returncode == status else [ran.stdout + ran.stderr]
        problems += problems_of_report(place / "bus.xml", cases)
        copied = Path(shutil.copytree(CI, place / "copied", ignore=shutil.ignore_patterns("__pycache__", ".*")))
        told = {"PORT1_CAPTURES": str(captures), "PORT1_DICTIONARY": str(place / "bus.toml")}
        tested(copied, [f"--junitxml={place / 'copied.xml'}"], place, **{f"PORT1_{lines.upper()}": "1"}, **told)
        problems += problems_of_report(place / "copied.xml", cases)
        problems += [f"left: {path}" for path in place.rglob(".pytest_cache")]
    return problems + ([] if sorted(CI.iterdir()) == before else [f"left: {sorted(CI.iterdir())}"])


def page_of_many_captures(folder: Path) -> List[str]:
    """The command of docs/MANY-CAPTURES.md, with the captures that the page makes."""
    needs_module("pytest")
    environment = furnished(folder)
    problems = run_sections(["The captures"], folder, environment)
    commands = [step.command for step in steps_of(section("A server that runs tests"))]
    problems += [] if len(commands) == 1 else [f"the page has {commands}"]
    (folder / "bin" / "pytest").write_text('#!/bin/sh\nexec python3 -m pytest "$@"\n', encoding="utf-8")
    (folder / "bin" / "pytest").chmod(0o755)
    problems += run_step(Step(commands[0], None), folder, {**environment, "PYTHONDONTWRITEBYTECODE": "1"})
    late, cut_off = CASES_BY_NAME["late.bits"].message, "port1: capture: short body"
    days = {"monday": CASES_BY_NAME["spoilt.bits"].message, "tuesday": late, "wednesday": cut_off}
    wanted = {f"test_capture[{day}.ts2]": message for day, message in days.items()}
    found = verdicts(folder / "bus.xml")
    return problems + ([] if found == {**wanted, "test_folder[folder]": None} else [f"the report has {found}"])


def properties_of_one(folder: Path) -> List[str]:
    """The counts of `port1 check` in the report, and status 0 where every capture is good."""
    needs_module("pytest")
    captures, report = written(folder, CASES[:3]), folder / "bus.xml"
    words = [f"--junitxml={report}", f"--captures={captures}", f"--dictionary={folder / 'bus.toml'}"]
    ran = tested(CI, words, folder, PYTHONDONTWRITEBYTECODE="1")
    problems = [] if ran.returncode == 0 else [ran.stdout + ran.stderr]
    kinds = ["damaged", "overlong", "aborts", "idles", "strays", "missing", "spoilt", "late"]
    wanted = {"frames": "2", "answered": "1", **{kind: "0" for kind in kinds}}
    for case in ElementTree.parse(report).getroot().iter("testcase"):
        found = {one.attrib["name"]: one.attrib["value"] for one in case.iter("property")}
        if case.attrib["name"].startswith("test_capture") and found != wanted:
            problems.append(f"{case.attrib['name']}: the properties are {found}")
    return problems


def runs_that_tell_nothing(folder: Path) -> List[str]:
    """No folder, no dictionary, no program: refused, with status 4; a folder without captures fails."""
    needs_module("pytest")
    (folder / "empty").mkdir()
    (folder / "bus.toml").write_text(DICTIONARY, encoding="ascii")
    given = [f"--captures={folder / 'empty'}", f"--dictionary={folder / 'bus.toml'}"]
    rows = [
        ([], {}, 4, "--captures: there is no folder"),
        (given[:1], {}, 4, "--dictionary: there is no file"),
        ([f"--captures={folder / 'none'}", given[1]], {}, 4, "--captures: there is no folder"),
        (given, {"PORT1": str(folder / "none")}, 4, "there is no program"),
        (given, {}, 1, "the folder has no captures"),
    ]
    problems = []
    for words, variables, status, text in rows:
        ran = tested(CI, words, folder, PYTHONDONTWRITEBYTECODE="1", **variables)
        if ran.returncode != status or text not in ran.stdout + ran.stderr:
            problems.append(f"{words}: status {ran.returncode}: {ran.stdout}{ran.stderr}")
    return problems

"""Tests tests/run with tests of its own: what it runs, what it says in the end, and its status."""

import contextlib
import importlib.machinery
import importlib.util
import io
import os
import signal
import subprocess
import sys
import tempfile
import time
from pathlib import Path
from typing import Any, Iterator, List, NamedTuple, Sequence, Tuple

from beside import Place, Task, run_beside
from changed import ALWAYS, SOURCES, base_of, crates_in, files_since, tests_of

TOP = Path(__file__).resolve().parent.parent

# How long a command waits for another that is to run beside it, in seconds.
SOON = 300


class Call(NamedTuple):
    """A call of the runner, the tests that it runs with their outcomes, and its status."""

    words: Sequence[str]
    outcomes: Sequence[str]
    status: int


# Tests by their names, commands, needs, and whether the gate has them.
MADE_UP = [
    ("good", ["true"], [], True),
    ("bad", ["false"], [], True),
    ("missing", ["true"], ["no-such-program"], True),
    ("longer", ["true"], [], False),
    ("equal", ["sh", "-c", 'test "$0" = a'], [], False),
]

CALLS = [
    Call([], ["passed good", "failed bad", "skipped missing"], 1),
    Call(["-k", "good"], ["passed good"], 0),
    Call(["long"], ["passed longer", "failed equal"], 1),
    Call(["-k", "longer"], ["passed longer"], 0),
    Call(["all", "-k", "o"], ["passed good", "passed longer"], 0),
    Call(["-k", "missing"], ["skipped missing"], 0),
    Call(["-k", "missing", "--all"], ["skipped missing"], 1),
    Call(["-k", "equal", "--", "a"], ["passed equal"], 0),
    Call(["-k", "nothing"], [], 2),
]


def runner() -> Any:
    """The runner, with the tests above in place of its own."""
    loader = importlib.machinery.SourceFileLoader("run", str(TOP / "tests" / "run"))
    spec = importlib.util.spec_from_loader("run", loader)
    assert spec is not None
    module = importlib.util.module_from_spec(spec)
    loader.exec_module(module)
    rows = [module.Row(name, command, name, needs, "1", gate) for name, command, needs, gate in MADE_UP]
    module.TABLE[:] = rows
    module.GROUPS.update(module.groups_of(rows))
    return module


def problems_of_call(call: Call) -> List[str]:
    with contextlib.redirect_stdout(io.StringIO()) as out, contextlib.redirect_stderr(io.StringIO()):
        status = runner().main(call.words)
    starts = ("passed ", "failed ", "skipped ")
    lines = [line for line in out.getvalue().splitlines() if line.startswith(starts)]
    found = [" ".join(line.replace(":", ",").partition(",")[0].split()) for line in lines]
    problems = [] if found == list(call.outcomes) else [f"it ends with {found}, not {call.outcomes}"]
    return problems + ([] if status == call.status else [f"the status is {status}, not {call.status}"])


def problems_of_proofs() -> List[str]:
    """Where the proofs fail, or a test before them, nothing else is run."""
    problems = []
    for first, proofs, wanted in [("true", "false", ["passed", "failed"]), ("false", "true", ["failed"])]:
        module = runner()
        names = [(module.FIRST[0], first), (module.PROOFS, proofs)]
        rows = [*module.TABLE, *(module.Row(name, [command], "", [], "1", True) for name, command in names)]
        with contextlib.redirect_stdout(io.StringIO()):
            ran = module.results_of(rows, [], False, module.Sampler(TOP / "crates"))
        problems += [] if [each.outcome for each in ran] == wanted else [f"it runs {ran}"]
    return problems


def beside(tasks: Sequence[Task], most: int, folder: str) -> Tuple[List[int], str]:
    """The statuses of tasks that run side by side, and what is printed."""
    with contextlib.redirect_stdout(io.StringIO()) as out:
        ended = run_beside(tasks, most, Place(Path(folder), os.environ))
    return [ended[task.name].status for task in tasks], out.getvalue()


# It makes a file, and waits until there is another.
MEETS = f"touch $0; for time in $(seq {SOON}0); do test ! -e $1 || exit 0; sleep 0.1; done; exit 1"


def problems_of_beside() -> List[str]:
    """Two tests run at the same time, and what each writes comes in one piece."""
    says = "echo $0; sleep 0.3; echo $0"
    with tempfile.TemporaryDirectory(prefix="port1-") as folder:
        meeting, _ = beside([Task(pair, "", ["sh", "-c", MEETS, *pair], 1) for pair in ("ab", "ba")], 2, folder)
        saying, out = beside([Task(name, f"== {name}", ["sh", "-c", says, name], 1) for name in "ab"], 2, folder)
    begins = ".. a begins\n.. b begins\n"
    pieces = {f"{begins}== {one}\n{one}\n{one}\n== {other}\n{other}\n{other}\n" for one, other in ("ab", "ba")}
    return [] if (meeting, saying, out in pieces) == ([0, 0], [0, 0], True) else [f"{meeting}, {saying}: {out!r}"]


def problems_of_order() -> List[str]:
    """A test comes after those of which it takes what they build, and the longest chain is the first."""
    tasks = [Task("c", "c", ["true"], 5), Task("b", "b", ["true"], 3, ["a"]), Task("a", "a", ["true"], 4)]
    with tempfile.TemporaryDirectory(prefix="port1-") as folder:
        _, out = beside(tasks, 1, folder)
    names = out.split()[1::4]
    return [] if names == ["a", "c", "b"] else [f"they run in the order {names}"]


# It runs two tests that write their process numbers, which begin a session each, and sleep.
SLEEPS = """\
import os, signal, sys
from pathlib import Path
sys.path.insert(0, sys.argv[1])
import beside
from beside import Place, Task, run_beside
beside.GRACE = 0.5
signal.signal(signal.SIGINT, signal.default_int_handler)
sleep = ["sh", "-c", "trap '' INT; echo $$ > $0.new; mv $0.new $0; sleep 600; sleep 600"]
run_beside([Task(name, "", [*sleep, name], 1) for name in "ab"], 2, Place(Path(sys.argv[2]), os.environ))
"""


def problems_of_interrupt() -> List[str]:
    """An interrupt ends all tests that run, also one that ignores it."""
    with tempfile.TemporaryDirectory(prefix="port1-") as folder:
        files = [Path(folder, name) for name in "ab"]
        words = [sys.executable, "-B", "-c", SLEEPS, str(TOP / "tests"), folder]
        with subprocess.Popen(words, stdout=subprocess.DEVNULL, stderr=subprocess.DEVNULL) as running:
            until = time.monotonic() + SOON
            while not all(file.exists() for file in files) and time.monotonic() < until:
                time.sleep(0.1)
            running.send_signal(signal.SIGINT)
        numbers = [file.read_text().strip() for file in files if file.exists()]
        left = [number for number in numbers if Path("/proc", number).exists()]
        return [f"{numbers} began, {left} are still there"] if left or len(numbers) != len(files) else []


# Files of a change, the tests that it takes beside those of every change, and the crates whose sources it has.
CHANGES = [
    (["docs/WATCH.md"], ["program"], []),
    (["crates/bus_bits/src/span.rt", "crates/bus_fcs/wrong-bodies/octets.edits"], ["program", "count"], ["bus_bits"]),
    (["crates/bus_bits/must-fail/word.edit"], ["program"], []),
    (["scripts/modules/commands/bus-watch.js"], ["scripts", "page"], []),
]


def problems_of_changes() -> List[str]:
    """What a change takes, and which files differ from the last commit on main: committed, new, gone or not."""
    rows = [(files, list(tests_of(files))[len(ALWAYS) :], crates_in(SOURCES, files)) for files, _, _ in CHANGES]
    problems = [f"{got}" for got, wanted in zip(rows, CHANGES) if got != wanted]
    script = """git init -qb main; git config user.name a; git config user.email a@b
        echo 1 | tee kept gone is > /dev/null; git add .; git commit -qm one
        git checkout -qb work; echo 2 > done; git add .; git commit -qm two
        rm gone; echo 3 | tee is new > /dev/null"""
    with tempfile.TemporaryDirectory(prefix="port1-") as folder:
        subprocess.run(["sh", "-ec", script], cwd=folder, check=True)
        found = files_since(Path(folder), base_of(Path(folder)))
    return problems + ([] if found == ["done", "gone", "is", "new"] else [f"these files differ: {found}"])


def results_of_runner() -> Iterator[Tuple[str, List[str]]]:
    for call in CALLS:
        yield f"tests/run {' '.join(call.words)}", problems_of_call(call)
    yield "tests/run: proofs that fail", problems_of_proofs()
    yield "tests/run: side by side", problems_of_beside()
    yield "tests/run: one after another", problems_of_order()
    yield "tests/run: an interrupt", problems_of_interrupt()
    yield "tests/run: changes", problems_of_changes()

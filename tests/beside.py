"""Runs commands side by side: a line says that one begins, and its output is printed in one piece when it has ended.

An interrupt ends all of them, and what they started. A command that fails stops no other.
"""

import os
import signal
import subprocess
import tempfile
import time
from pathlib import Path
from typing import IO, Callable, Dict, Iterator, List, Mapping, NamedTuple, Optional, Sequence

# How often it looks whether a command has ended, and how long one may take to end at an interrupt, in seconds.
LOOKS, GRACE = 0.1, 10.0


class Task(NamedTuple):
    """A command: its name, what is printed above its output, its words, about how long it takes in seconds, and those
    that come before it, since it takes what they build."""

    name: str
    head: str
    words: Sequence[str]
    seconds: float
    after: Sequence[str] = ()


class Place(NamedTuple):
    """Where commands run: the folder, and the environment."""

    folder: Path
    environment: Mapping[str, str]


class Ended(NamedTuple):
    status: int
    seconds: float


class Going(NamedTuple):
    """A command that runs, in a session of its own, and the file that has its output, if it goes into one."""

    task: Task
    process: "subprocess.Popen[bytes]"
    output: Optional[IO[bytes]]
    begun: float


def behind(task: Task, tasks: Sequence[Task]) -> float:
    """How long the task takes, with the longest chain of those that wait for it."""
    return task.seconds + max((behind(other, tasks) for other in tasks if task.name in other.after), default=0.0)


def ready(left: Sequence[Task], going: Sequence[Going]) -> Iterator[Task]:
    """Those that wait for none, the longest chain first."""
    awaited = {task.name for task in left} | {each.task.name for each in going}
    for task in sorted(left, key=lambda task: -behind(task, left)):
        if not awaited.intersection(task.after):
            yield task


def heed_interrupts() -> None:
    """Has a command end at an interrupt, which what a shell starts in the background passes over."""
    signal.signal(signal.SIGINT, signal.SIG_DFL)


def begin(task: Task, place: Place, output: Optional[IO[bytes]]) -> Going:
    process = subprocess.Popen(
        task.words,
        cwd=place.folder,
        env=place.environment,
        stdin=subprocess.DEVNULL,
        stdout=output,
        stderr=subprocess.STDOUT if output else None,
        start_new_session=True,
        preexec_fn=heed_interrupts,
    )
    return Going(task, process, output, time.monotonic())


def end(each: Going) -> Ended:
    """Prints what an ended command wrote into its file."""
    if each.output is not None:
        each.output.seek(0)
        print(each.task.head, each.output.read().decode(errors="replace"), sep="\n", end="", flush=True)
        each.output.close()
    return Ended(each.process.returncode, time.monotonic() - each.begun)


def send(each: Going, number: signal.Signals) -> None:
    """Sends a signal to a command and to all in its group."""
    try:
        os.killpg(each.process.pid, number)
    except ProcessLookupError:
        pass


def stop(going: Sequence[Going]) -> None:
    """Interrupts the commands that run, and kills what is left of each after a while."""
    running = [each for each in going if each.process.poll() is None]
    for each in running:
        send(each, signal.SIGINT)
    until = time.monotonic() + GRACE
    while any(each.process.poll() is None for each in running) and time.monotonic() < until:
        time.sleep(LOOKS)
    for each in running:
        send(each, signal.SIGKILL)
        each.process.wait()


def run_alone(task: Task, place: Place, look: Callable[[int], None] = lambda number: None) -> Ended:
    """Runs one whose output is seen as it comes. Meanwhile `look` is called with its process's number, ever again."""
    print(task.head, flush=True)
    each = begin(task, place, None)
    try:
        while each.process.poll() is None:
            look(each.process.pid)
            time.sleep(LOOKS)
    finally:
        stop([each])
    return end(each)


class Minutes:
    """Says each minute what goes on."""

    def __init__(self) -> None:
        self.begun, self.said = time.monotonic(), 0

    def tell(self, what: str) -> None:
        minutes = int(time.monotonic() - self.begun) // 60
        if minutes > self.said:
            print(f".. {minutes} min: {what}", flush=True)
            self.said = minutes


def run_beside(tasks: Sequence[Task], most: int, place: Place) -> Dict[str, Ended]:
    """Runs them, as many at once as `most`, and returns what came of each by its name."""
    left, ended = list(tasks), {}
    going: List[Going] = []
    minutes = Minutes()
    try:
        while left or going:
            minutes.tell(f"{', '.join(each.task.name for each in going)} run, {len(ended)} of {len(tasks)} are over")
            for task in list(ready(left, going))[: most - len(going)]:
                print(f".. {task.name} begins", flush=True)
                left.remove(task)
                going.append(begin(task, place, tempfile.TemporaryFile()))
            over = [each for each in going if each.process.poll() is not None]
            ended.update({each.task.name: end(each) for each in over})
            going = [each for each in going if each not in over]
            time.sleep(0 if over else LOOKS)
    finally:
        stop(going)
    return ended

"""Simulated days of bus-watch, with faults of all kinds and all that can happen to a watch, and a part in real time.

    PORT1=PROGRAM PYTHONPATH=scripts:tests python3 -m tests.week DAYS [SECONDS]

runs some days, as long as the seconds last, and writes the figures. It takes root, which mounts a disk of 600 MB.

In the days input is lost, clocks stand still, recorders die, the disk is full for a while, a second watch is started,
and the watch is killed or its power cut, each within an incident. The part in real time has input that is lost beside
incidents, before a power cut and before the end: there times of day are judged too, by the clock of the bus.
"""

import contextlib
import json
import os
import random
import shutil
import subprocess
import sys
import tempfile
import threading
import time
from pathlib import Path
from typing import Callable, Dict, Iterator, List, NamedTuple, Optional, Sequence, Tuple

from needs import needs
from tests.case import SCRIPTS, SECONDS
from tests.watched import (
    BEGIN, DICTIONARY, IN_PIPES, RATE, ROUNDED, SIMULATOR, SUPPORT, Cabinet, Fault, Record, Watched, clock_of, disk_of,
    judged, lateness, modules_of, problems_of_frames, schedule,
)

DAY = 86400

# A run of the watch takes so many seconds at least.
LEAST = 5

# What is loaded before a watch whose power is to be cut: it keeps what was flushed in a folder beside it.
POWER = SUPPORT / "power_disk.js"

# The places that a power cut may lose where bits come as fast as they can, and in real time.
UNFLUSHED, UNFLUSHED_LIVE = IN_PIPES + 70 * RATE, 14 * RATE

# A run of so many places is so long that a second watch can be tried beside it.
LONG_RUN = 2400 * RATE

# The faults of the part in real time, in seconds: of a run whose power is cut in the last of them, and of the next one,
# whose bus waits until the disk is full.
LIVE = [
    [(4, 5.2, "silent", 2), (9, 10.3, "lose", 0), (12, 13, "burst", 0.03), (17, 18, "late", 1)],
    [
        *[(3, 4, "silent", 16), (6.5, 6.54, "wait", 0), (9.5, 10.5, "silent", 1), (14, 15.4, "lose", 0)],
        (17.5, 18.5, "silent", 2),
    ],
]
LIVE_ENDS = [40, 21]

# For how many seconds the disk is full at least, after the first incident of the last run.
LIVE_FULL = 2.0

# How many seconds of bits a power cut may take in real time: ten, and what is read at once.
MOST_LOST = 11

# The most memory of a watch with its `port1` in real time, in KiB.
MOST_MEMORY = 120_000_000 // 1024

# How many folders are compared with the bus, frame by frame.
COMPARED = 150

# A recorder's turn: it writes the places of the next line of `turns`, and after the last one the watch is ended.
SOURCE = """read turn < turn; echo $((turn + 1)) > turn
set -- $(sed -n ${{turn}}p turns)
[ $# -eq 2 ] || {{ kill -TERM $PPID; exit; }}
node {simulator} 7 $1 $2 plan {speed} {form} 2>> told; exit 3
"""


class End(NamedTuple):
    """When a run of the watch is ended, in seconds, and whether by a power cut or by kill -9; or once so many incidents
    have begun."""

    seconds: float
    is_cut: bool
    begun: int = 0


class Plan(NamedTuple):
    """What happens in so many days."""

    faults: List[Fault]
    deaths: List[int]  # places where a recorder dies
    ends: List[End]
    full: Tuple[int, float]  # from which place on the disk is full, and for how many seconds at least


def more_faults(generator: random.Random, days: float, faults: Sequence[Fault]) -> List[Fault]:
    """Lost input and clocks that stand still, where no other fault is near."""
    found: List[Fault] = []
    while len(found) < 12 * days:
        begin = int(generator.uniform(100, DAY * days - 100) * RATE)
        kind = generator.choice(["lose", "still"])
        longest = 12 if kind == "lose" else 60
        fault = Fault(begin, begin + int(generator.uniform(0.4, longest) * RATE), kind, 0)
        if all(f.past + 60 * RATE < fault.begin or fault.past + 60 * RATE < f.begin for f in [*faults, *found]):
            found.append(fault)
    return found


def plan_of(seed: int, days: float, ends: Sequence[End], full: Tuple[int, float]) -> Plan:
    generator = random.Random(seed)
    faults = schedule(seed, int(DAY * days), int(150 * days))
    faults = sorted([*faults, *more_faults(generator, days, faults)])
    deaths = sorted(int(generator.uniform(0, DAY * days) * RATE) for _ in range(int(2 * days)))
    return Plan(faults, deaths, list(ends), full)


class Gauge(threading.Thread):
    """The most memory of a watch and of its `port1`, in KiB, and the most octets of its folder."""

    def __init__(self, watch: "subprocess.Popen[bytes]", folder: Path) -> None:
        super().__init__(daemon=True)
        self.watch, self.folder = watch, folder
        self.most: Dict[str, int] = {}

    def note(self, name: str, count: int) -> None:
        self.most[name] = max(self.most.get(name, 0), count)

    def run(self) -> None:
        while self.watch.poll() is None:
            for name in (str(self.watch.pid), *children(self.watch.pid)):
                status = read(Path(f"/proc/{name}/status"))
                if "VmHWM:" in status:
                    what = "watch" if name == str(self.watch.pid) else status.split()[1]
                    self.note(what, int(status.split("VmHWM:")[1].split()[0]))
            try:
                self.note("disk", sum(size_of(path) for path in self.folder.rglob("*")))
            except OSError:
                pass  # a folder went meanwhile
            time.sleep(1)


def read(path: Path) -> str:
    try:
        return path.read_text()
    except OSError:
        return ""


def size_of(path: Path) -> int:
    try:
        return path.stat().st_blocks * 512
    except OSError:
        return 0


def last_records(folder: Path) -> List[Record]:
    lines = read(folder / "incidents.jsonl").splitlines()[-60:]
    return [json.loads(line) for line in lines if line.endswith("}")]


def begun_of(folder: Path, run: int) -> List[str]:
    """The last incidents that a run has begun."""
    return [record["id"] for record in last_records(folder) if record["event"] == "begun" and record["run"] == run]


def is_open(folder: Path, run: int) -> bool:
    """Whether an incident of a run has begun that is not saved yet."""
    saved = {record["id"] for record in last_records(folder) if record["event"] == "incident"}
    return any(number not in saved for number in begun_of(folder, run))


def children(pid: int) -> List[str]:
    return read(Path(f"/proc/{pid}/task/{pid}/children")).split()


def place_in(ring: Path) -> Tuple[int, int]:
    """The run and the place at which the last segment of a ring begins."""
    names = sorted(path.name.split(".")[0] for path in ring.glob("0*-*"))
    run, place = names[-1].split("-") if names else (0, 0)
    return int(run), int(place)


def take_room(filler: Path) -> None:
    """Takes what room the disk of a file has."""
    room = os.statvfs(filler.parent)
    with filler.open("ab") as file, contextlib.suppress(OSError):  # the watch may have taken it meanwhile
        os.posix_fallocate(file.fileno(), filler.stat().st_size, room.f_bfree * room.f_bsize)


def turns_from(plan: Plan, begin: int, past: int) -> List[Tuple[int, int]]:
    """The places of the recorders from one on: each begins 20 seconds after the one before it died."""
    turns = []
    for death in [*(death for death in plan.deaths if death < past), past]:
        if death > begin + 5 * RATE:
            turns.append((begin, death))
            begin = death + 20 * RATE
    return turns


class Week:
    def __init__(self, folder: Path, plan: Plan, days: float, seconds: float, form: str, speed: int) -> None:
        self.form, self.speed = form, speed
        self.folder, self.plan, self.past = folder, plan, int(DAY * days) * RATE
        self.until = time.monotonic() + seconds
        self.runs: List[Watched] = []
        self.most: Dict[str, int] = {}
        self.live: List[int] = []  # the runs in real time
        self.begin = 0  # of the run
        self.holes = 0  # how often a watch said that bits are missed
        self.full = threading.Lock()  # while the disk is full, and until that is told: no watch is killed then
        self.counts = {"kills in an open incident": 0, "power cuts in one": 0, "second watches refused": 0}
        self.problems: List[str] = []

    @property
    def cabinet(self) -> Cabinet:
        return Cabinet(self.folder, self.plan.faults, form=self.form)

    def place(self) -> int:
        """The place that the watch has come to."""
        run, place = place_in(self.folder / "watch" / "ring")
        return self.begin + place if run == len(self.runs) + 1 else 0

    @contextlib.contextmanager
    def filled(self, is_time: Callable[[], bool], seconds: float) -> Iterator[None]:
        """Has the disk full once it is time, for some seconds at least, and until bits are missed."""
        over = threading.Event()
        thread = threading.Thread(target=self.fill, args=(is_time, seconds, over))
        thread.start()
        try:
            yield
        finally:
            over.set()
            thread.join()

    def fill(self, is_time: Callable[[], bool], seconds: float, over: threading.Event) -> None:
        while not is_time():
            if over.wait(0.01):
                return
        said, filler = self.folder / "said", self.folder / "watch" / "filler"
        known, until = said.stat().st_size, time.monotonic() + seconds
        with self.full:
            while time.monotonic() < until or b"the ring: " not in said.read_bytes()[known:]:
                take_room(filler)
                (self.folder / "go").touch()
                if over.wait(0.005):
                    break
            self.holes += b"the ring: " in said.read_bytes()[known:]
            filler.unlink()
            while not self.has_told("bits not kept") and not over.wait(0.005):
                pass

    def has_told(self, event: str) -> bool:
        return any(record["event"] == event for record in last_records(self.folder / "watch"))

    def has_begun(self, count: int) -> bool:
        """Whether a run has begun so many incidents."""
        return len(begun_of(self.folder / "watch", len(self.runs) + 1)) >= count

    def words_of(self, begin: int, is_live: bool) -> List[object]:
        date = time.strftime("%Y-%m-%dT%H:%M:%SZ", time.gmtime(BEGIN + begin / RATE))
        source = SOURCE.format(simulator=SIMULATOR, form=self.form, speed=1 if is_live else self.speed)
        words = [SCRIPTS / "bus-watch", "watch", "--dictionary", DICTIONARY, "--ring", "256M", "--keep", "200M"]
        words += ["--floor", "16M", "--source", source, *(["--two"] if self.form == "pairs" else [])]
        return [*words, "--after", "1"] if is_live else [*words, "--begin", date]

    def start(self, begin: int, past: int, is_cut: bool, is_live: bool) -> "subprocess.Popen[bytes]":
        """Starts the watch, and a recorder that is to come to a place."""
        faults = self.plan.faults
        (self.folder / "plan").write_text("".join(f"{f.begin} {f.past} {f.kind} {f.number}\n" for f in faults))
        turns = turns_from(self.plan, begin, past)
        (self.folder / "turns").write_text("".join(f"{first} {past}\n" for first, past in turns))
        (self.folder / "turn").write_text("1\n")
        (self.folder / "told").write_text("")
        shutil.rmtree(self.folder / "shadow", ignore_errors=True)
        power = [POWER] if is_cut else []
        own = clock_of(begin, faults, *power) if is_live else modules_of(*power)
        environment = {**os.environ, **own, "PORT1_SHADOW": str(self.folder / "shadow")}
        with (self.folder / "said").open("ab") as said:
            pipes = {"stdin": subprocess.DEVNULL, "stdout": subprocess.DEVNULL, "stderr": said}
            return subprocess.Popen(self.words_of(begin, is_live), cwd=self.folder, env=environment, **pipes)

    def second(self, watch: "subprocess.Popen[bytes]") -> None:
        """A second watch is refused in one line, and changes nothing."""
        while watch.poll() is None and last_run(self.folder / "watch") < len(self.runs) + 1:
            time.sleep(0.01)
        words = [SCRIPTS / "bus-watch", "watch", "--dictionary", DICTIONARY]
        second = subprocess.run(words, cwd=self.folder, stdin=subprocess.DEVNULL, capture_output=True, timeout=SECONDS)
        is_refused = second.returncode == 2 and second.stdout == b"" and second.stderr.count(b"\n") == 1
        self.problems += [] if is_refused else [f"a second watch: {second}"]
        self.counts["second watches refused"] += is_refused

    def cut(self) -> None:
        """Leaves of the watch's folder what was flushed."""
        disk = self.folder / "watch"
        left = self.folder / "shadow" / "folders" / str(disk.stat().st_ino)
        had = self.octets_of_run()
        for path in disk.iterdir():
            shutil.rmtree(path) if path.is_dir() else path.unlink()
        shutil.copytree(left, disk, ignore=shutil.ignore_patterns("*.fresh"), dirs_exist_ok=True)
        lost = (had - self.octets_of_run()) / (RATE / 4)
        is_live = len(self.runs) + 1 in self.live
        self.problems += [f"{lost:.1f} s of bits are lost"] if is_live and lost > MOST_LOST else []

    def octets_of_run(self) -> int:
        """The octets that the ring has of the run, of which it packs none in real time."""
        return sum(path.stat().st_size for path in (self.folder / "watch" / "ring").glob(f"{len(self.runs) + 1:06}-*"))

    def end_in_incident(self, watch: "subprocess.Popen[bytes]", is_cut: bool) -> None:
        """Kills a watch in the next incident that is open, and takes away what was not flushed."""
        while watch.poll() is None and not is_open(self.folder / "watch", len(self.runs) + 1):
            time.sleep(0.002)
        self.counts["power cuts in one" if is_cut else "kills in an open incident"] += watch.poll() is None
        with self.full:
            watch.kill()
            watch.wait()
            if is_cut:
                self.cut()

    def run(self, begin: int, past: int, end: Optional[End] = None, is_live: bool = False) -> int:
        """Runs the watch from a place on, until all has come or it is ended, in the next open incident after so many
        seconds; tells where the recorder was."""
        is_cut = end is not None and end.is_cut
        self.begin = begin
        watch = self.start(begin, past, is_cut, is_live)
        gauge = Gauge(watch, self.folder / "watch")
        gauge.start()
        if past - begin > LONG_RUN:
            self.second(watch)
        while end and not self.has_begun(end.begun) and watch.poll() is None:
            time.sleep(0.02)
        try:
            watch.wait(end.seconds if end else None)
        except subprocess.TimeoutExpired:
            self.end_in_incident(watch, is_cut)
        gauge.join()
        memory = gauge.most.get("watch", 0) + gauge.most.get("port1", 0)
        self.problems += [f"{memory} KiB of memory"] if is_live and memory > MOST_MEMORY else []
        self.most = {name: max(self.most.get(name, 0), count) for name, count in {**self.most, **gauge.most}.items()}
        done = self.turns_done()
        unsure = (UNFLUSHED_LIVE if is_live else UNFLUSHED) if is_cut else IN_PIPES
        self.runs.append(Watched(done, [], "", watch.returncode, unsure))
        print(f"run {len(self.runs)} is over: {begin / RATE:.0f} to {done[-1][1] / RATE:.0f} s", flush=True)
        return done[-1][1]

    def turns_done(self) -> List[Tuple[int, int]]:
        """The places of the recorders, each of which ends when it finds that nobody reads."""
        turns = (self.folder / "turns").read_text().splitlines()
        for _ in range(1200):
            lines = (self.folder / "told").read_text().splitlines()
            told = [line.split() for line in lines if line.startswith("places")]
            if len(told) >= min(int((self.folder / "turn").read_text()) - 1, len(turns)):
                break
            time.sleep(0.1)
        return [(int(first), int(past)) for _, first, past in told]

    def go(self) -> None:
        begin = 0
        full, seconds = self.plan.full
        with self.filled(lambda: self.place() >= full, seconds):
            for end in [*self.plan.ends, End(10 * DAY, False)]:
                left = self.until - time.monotonic()
                if left > LEAST and begin + 60 * RATE < self.past:
                    begin = self.run(begin, self.past, end._replace(seconds=min(end.seconds, left))) + 30 * RATE
        if begin + 60 * RATE < self.past:  # there was no time for more
            self.past = self.run(begin, begin + 120 * RATE)
        self.go_live(max(self.past, begin) + 60 * RATE)

    def go_live(self, begin: int) -> None:
        """The part in real time."""
        for faults, seconds in zip(LIVE, LIVE_ENDS):
            own = [Fault(begin + int(at * RATE), begin + int(to * RATE), kind, n) for at, to, kind, n in faults]
            self.plan = self.plan._replace(faults=[*self.plan.faults, *own], deaths=[])
            self.live.append(len(self.runs) + 1)
            if len(self.live) < len(LIVE):
                end = End(0, True, sum(kind != "lose" for _, _, kind, _ in faults))
                begin = self.run(begin, begin + seconds * RATE, end, True) + 30 * RATE
                continue
            with self.filled(lambda: self.has_begun(1), LIVE_FULL):
                self.run(begin, begin + seconds * RATE, None, True)

    def problems_of_live(self) -> Iterator[str]:
        """What is wrong with times of day in the part in real time."""
        for record in self.cabinet.incidents:
            run = self.runs[record["run"] - 1]
            if record["run"] in self.live and abs(lateness(self.cabinet, run, record)) >= ROUNDED:
                yield f"{lateness(self.cabinet, run, record):.3f} s late: {record}"

    def problems_of_holes(self) -> Iterator[str]:
        """What is wrong with what the disk did not take: it is told, and marked at each incident beside it."""
        told = [record for record in self.cabinet.log if record["event"] == "bits not kept"]
        runs = {record["run"] for record in told}
        if self.live[-1] not in runs or len(runs) < self.holes:
            yield f"holes are told of runs {runs} alone, of {self.holes}"
        for record in self.cabinet.incidents:
            after = 1 if record["run"] in self.live else 10
            first, past = record["place"] - 10 * RATE, record["place"] + (min(120, record["seconds"]) + after) * RATE
            for hole in told:
                end = hole["place"] + hole["seconds"] * RATE
                is_beside = hole["run"] == record["run"] and min(past, end) - max(first, hole["place"]) > RATE / 2
                if is_beside and "holes" not in record:
                    yield f"no hole: {record}, {hole}"

    def problems_of_bits(self) -> Iterator[str]:
        """What is wrong with saved bits, in so many folders."""
        saved = [record for record in self.cabinet.incidents if record["saved"]]
        there = [record for record in saved if (self.folder / "watch" / "incidents" / record["saved"]).is_dir()]
        for record in there[:: 1 + len(there) // COMPARED]:
            folder = self.folder / "watch" / "incidents" / record["saved"]
            yield from problems_of_frames(self.cabinet, self.runs[record["run"] - 1], folder)

    def figures(self) -> str:
        counts: Dict[str, int] = {}
        for record in self.cabinet.log:
            counts[record["event"]] = counts.get(record["event"], 0) + 1
        marks = {name: sum(name in record for record in self.cabinet.incidents) for name in ("cut", "holes", "seam")}
        unsaved = sum(record["saved"] is None for record in self.cabinet.incidents)
        known = [f for f in self.plan.faults if not f.is_small and any(run.watches(f) for run in self.runs)]
        known_and_told = f"{len(known)} faults to be found; {counts}; {unsaved} not saved, {marks}"
        return f"{known_and_told}; {self.counts}; most {self.most}"


def last_run(folder: Path) -> int:
    """The number of the last run that the log has."""
    return max((record["run"] for record in last_records(folder)), default=0)


def problems_of_days(
    folder: Path, days: float, ends: Sequence[End], full: Tuple[int, float], seconds: float, form: str, speed: int = 0
) -> List[str]:
    """What is wrong with some days, or as many of them as fit into some seconds, so many times as fast as the bus."""
    needs("node")
    with disk_of(600, folder):
        week = Week(folder, plan_of(41, days, ends, full), days, seconds, form, speed)
        began = time.monotonic()
        week.go()
        print(f"{week.past / RATE / DAY:.2f} days in {time.monotonic() - began:.0f} s: {week.figures()}", flush=True)
        said = (folder / "said").read_text()
        print(f"status of each run {[run.status for run in week.runs]}; said {said}", flush=True)
        problems = (problem for problem in judged(week.cabinet, week.runs) if not problem.startswith("not saved"))
        problems = (problem for problem in problems if not problem.endswith("is not there"))  # old folders go
        own = [*week.problems, *week.problems_of_holes(), *week.problems_of_live(), *week.problems_of_bits()]
        return [*problems, *own]


def an_hour_of_all(folder: Path) -> List[str]:
    """A simulated hour with each of it, five hundred times as fast as the bus, and a part in real time."""
    return problems_of_days(folder, 1 / 24, [End(2, False), End(1, True)], (2475 * RATE, 0.5), DAY, "arrivals", 500)


def main(days: float, seconds: float) -> None:
    generator = random.Random(6)
    with tempfile.TemporaryDirectory(prefix="port1-") as folder:
        ends = [End(generator.uniform(0.4, 1.6) * seconds / 12, bool(at % 2)) for at in range(10)]
        problems = problems_of_days(Path(folder), days, ends, (int(DAY * days / 4) * RATE, 20), seconds, "pairs")
    print("\n".join([*problems, f"{len(problems)} problems"]))


if __name__ == "__main__":
    main(float(sys.argv[1]), float((sys.argv[2:] or ["3600"])[0]))

"""A simulated cabinet and the watch of it: its faults, its runs, and a judge of what was found."""

import json
import os
import random
import subprocess
import time
from contextlib import contextmanager
from datetime import datetime
from pathlib import Path
from typing import IO, Any, Dict, Iterator, List, NamedTuple, Optional, Sequence, Set, Tuple

from needs import Skipped, needs
from tests.case import SCRIPTS, SECONDS, TOP, Word

RATE, ROUND = 153600, 6144

SUPPORT = SCRIPTS / "modules" / "tests" / "support"

SIMULATOR = SUPPORT / "simulated_cabinet.js"

DICTIONARY = TOP / "examples" / "port1-failure.toml"

# When place 0 was, in seconds since 1970: 2026-11-27T03:00:00Z.
BEGIN = 1795748400

# To how many seconds times of day are rounded.
ROUNDED = 0.001

# The places that stand in pipes where bits come as fast as they can, and that a kill loses.
IN_PIPES = 4 * RATE

Record = Dict[str, Any]

# How long a run may take on a simulated day, in seconds.
LONG = 3000

# A time of so many seconds is so long that a test says how far it is.
LONGER = 40000


class Fault(NamedTuple):
    """A fault of the cabinet: its places, its kind and a number."""

    begin: int
    past: int
    kind: str
    number: float

    @property
    def is_small(self) -> bool:
        """Whether it is below all thresholds, two commands, or none of the cabinet."""
        return self.past - self.begin < 0.1 * RATE or self.kind == "lose"


def fault_of(generator: random.Random, second: float, longest: float) -> Fault:
    """A fault at a second, some of them too short to be told."""
    kind = generator.choice(["destroy", "skip", "silent", "late", "burst", "rest"])
    number, length = 0.0, generator.uniform(0.35, 8)
    if kind in ("silent", "late"):
        number = generator.choice([1, 2, 16])
    elif kind == "burst":
        number, length = generator.choice([0.01, 0.03]), generator.uniform(0.5, 3)
    if kind not in ("burst", "rest") and generator.random() < 0.15:
        length = 2 * ROUND / RATE - 0.01
    elif generator.random() < 0.1:
        kind, number, length = generator.choice([("rest", 0, longest), ("silent", 2, longest)])
    return Fault(int(second * RATE), int((second + length) * RATE), kind, number)


def schedule(seed: int, seconds: int, count: int) -> List[Fault]:
    generator = random.Random(seed)
    step = (seconds - 120) / count
    begins = [60 + (at + generator.uniform(0, 0.3)) * step for at in range(count)]
    return [fault_of(generator, begin, min(3600, 0.5 * step)) for begin in begins]


def modules_of(*modules: Path) -> Dict[str, str]:
    """The environment of a watch that loads modules first."""
    return {"NODE_OPTIONS": " ".join(f"--import={module}" for module in modules)}


def clock_of(begin: int, faults: Sequence[Fault], *modules: Path) -> Dict[str, str]:
    """The same of one whose clock is that of the bus, from a place on."""
    lost = [(fault.begin, fault.past) for fault in faults if fault.kind == "lose"]
    clock = json.dumps({"begin": begin, "lost": lost})
    return {**modules_of(SUPPORT / "place_clock.js", *modules), "PORT1_CLOCK": clock}


def used_by(process: int) -> int:
    """How much of a processor it has used, in ticks of the clock."""
    words = Path(f"/proc/{process}/stat").read_text().rpartition(")")[2].split()
    return int(words[11]) + int(words[12])


def wait_until_idle(watch: "subprocess.Popen[bytes]") -> None:
    """Waits until a watch has used next to nothing of a processor for two seconds."""
    end = time.monotonic() + SECONDS
    now, before = used_by(watch.pid), -100
    while now > before + 5 and time.monotonic() < end:
        time.sleep(2)
        now, before = used_by(watch.pid), now


def child_of(watch: "subprocess.Popen[bytes]") -> int:
    """The `port1` of a watch."""
    for _ in range(200):
        found = Path(f"/proc/{watch.pid}/task/{watch.pid}/children").read_text().split()
        if found:
            return int(found[-1])
        time.sleep(0.05)
    raise OSError("the watch has no child")


def feed(pipe: IO[bytes], bits: bytes) -> None:
    try:
        pipe.write(bits)
        pipe.flush()
    except (OSError, ValueError):
        pass  # nobody reads any more, or the test has closed it


def read_until(watch: "subprocess.Popen[bytes]", event: str) -> bytes:
    """What a watch tells up to an event."""
    assert watch.stdout is not None
    out = b""
    for line in watch.stdout:
        out += line
        if f'"{event}"'.encode() in line:
            break
    return out


@contextmanager
def disk_of(megabytes: int, folder: Path) -> Iterator[Path]:
    """The folder of a watch, as a disk of its own."""
    disk = folder / "watch"
    disk.mkdir()
    mounted = subprocess.run(["mount", "-t", "tmpfs", "-o", f"size={megabytes}m", "none", disk], capture_output=True)
    if mounted.returncode != 0:
        raise Skipped(f"no disk of {megabytes} MB: it takes root to mount one")
    try:
        yield disk
    finally:
        subprocess.run(["umount", disk], check=True)


class Watched(NamedTuple):
    """A run of the watch: the places of each recorder that it had, what it wrote, and its status."""

    turns: Sequence[Tuple[int, int]]
    records: List[Record]
    stderr: str
    status: int
    unsure: int = IN_PIPES  # places of its end that a kill, or a power cut, may have lost

    @property
    def past(self) -> int:
        return self.turns[-1][1]

    def in_cabinet(self, place: int, faults: Sequence[Fault]) -> int:
        """A place of the run as one of the cabinet: what was lost, and what came between recorders, has none."""
        for begin, past in self.turns:
            at = begin + place
            for fault in faults:
                if fault.kind == "lose" and begin <= fault.begin <= min(at, past):
                    at += fault.past - fault.begin
            if at < past:
                return at
            place -= past - begin - (at - begin - place)
        return self.past

    def watches(self, fault: Fault) -> bool:
        return any(begin < fault.past - RATE and fault.begin < past - self.unsure for begin, past in self.turns)


class Cabinet(NamedTuple):
    """A simulated cabinet and its watch, in a folder."""

    folder: Path
    faults: Sequence[Fault]
    words: Sequence[str] = ()
    speed: str = "0"
    form: str = "pairs"
    scripts: Path = SCRIPTS

    def simulator(self, begin: int, past: int) -> "subprocess.Popen[bytes]":
        plan = self.folder / "schedule"
        plan.write_text("".join(f"{f.begin} {f.past} {f.kind} {f.number}\n" for f in self.faults))
        words = ["node", SIMULATOR, "7", str(begin), str(past), plan, self.speed, self.form]
        return subprocess.Popen(words, stdout=subprocess.PIPE, stderr=subprocess.PIPE)

    def watch(
        self, source: Any, begin: Optional[int], environment: Optional[Dict[str, str]] = None
    ) -> "subprocess.Popen[bytes]":
        needs("node")
        zero = time.gmtime(BEGIN + (begin or 0) / RATE)
        date = [] if begin is None else ["--begin", time.strftime("%Y-%m-%dT%H:%M:%SZ", zero)]
        form = ["--two"] if self.form == "pairs" else []
        words: List[Word] = [self.scripts / "bus-watch", self.folder / "watch", "--dictionary", DICTIONARY]
        pipes = {"stdin": source, "stdout": subprocess.PIPE, "stderr": subprocess.PIPE}
        words += [*date, *form, "--floor", "0", *self.words]
        own = {**os.environ, **(environment or {})}
        return subprocess.Popen(words, bufsize=0, start_new_session=True, env=own, **pipes)

    def start(
        self, begin: int, past: int, date: Optional[int] = None, environment: Optional[Dict[str, str]] = None
    ) -> Tuple["subprocess.Popen[bytes]", "subprocess.Popen[bytes]"]:
        """The simulator of some places, and a watch that reads it."""
        source = self.simulator(begin, past)
        watch = self.watch(source.stdout, date, environment)
        assert source.stdout is not None
        source.stdout.close()
        return source, watch

    def run(self, begin: int, past: int, kill: Optional[float] = None, is_begun: bool = False) -> Watched:
        """Runs the watch on some places; it is killed so many seconds after it started, or after an incident began."""
        source, watch = self.start(begin, past, begin)
        out = b""
        if kill is not None:
            out = read_until(watch, "begun" if is_begun else "start")
            time.sleep(kill)
            watch.kill()
        rest, err = watch.communicate(timeout=LONG)
        _, told = source.communicate(timeout=SECONDS)
        records = [json.loads(line) for line in (out + rest).decode().splitlines() if line.endswith("}")]
        return Watched([(begin, int(told.split()[-1]))], records, err.decode(), watch.returncode)

    @property
    def log(self) -> List[Record]:
        return [json.loads(line) for line in (self.folder / "watch" / "incidents.jsonl").read_text().splitlines()]

    @property
    def incidents(self) -> List[Record]:
        return [record for record in self.log if record["event"] == "incident"]


def lateness(cabinet: Cabinet, run: Watched, record: Record) -> float:
    """How late the time of a record is, in seconds, by the clock of the bus."""
    told = datetime.fromisoformat(record["wall"].replace("Z", "+00:00")).timestamp()
    return told - BEGIN - run.in_cabinet(record["place"], cabinet.faults) / RATE


def problems_of_folder(folder: Path, record: Record, rests: bool = False) -> Iterator[str]:
    """What is wrong with a folder: whole, of that time, its bits from a command on, unless they have none."""
    if not folder.is_dir():
        yield f"{folder.name} is not there"
        return
    files = {"bits.ts2", "cabinet.toml", "frames.pcapng", "incident.json", "listing.txt", "summary.txt"}
    found = {path.name for path in folder.iterdir()} - {"report.html"}
    found -= {name for name in found if name.startswith("bits-") and "holes" in record}
    summary = (folder / "summary.txt").read_text() if "summary.txt" in found else ""
    if found != files:
        yield f"{folder.name} has {sorted(found)}"
    frames = [line for line in (folder / "listing.txt").read_text().splitlines() if " frame " in line]
    commands = [line for line in frames if line[0] == "1" and line.split()[8] in ("0", "1")]
    if commands and frames[0] != commands[0] or not commands and not rests and "holes" not in record:
        yield f"{folder.name} begins with {frames[:1]}"
    date = record["wall"][:10]
    if f"It begins on {date}" not in summary:
        yield f"{folder.name}: {summary[:120]}"


def frames_in(listing: str, shift: int) -> Set[Tuple[str, int, int, str]]:
    """The frames of a listing, their places shifted."""
    lines = [line.split(" ", 3) for line in listing.splitlines() if " frame " in line]
    return {(line, int(first) + shift, int(past) + shift, text) for line, first, past, text in lines}


def problems_of_frames(cabinet: Cabinet, run: Watched, folder: Path) -> List[str]:
    """What is wrong with the frames of a folder: they are those that were sent at these places, and all of them."""
    listing = (folder / "listing.txt").read_text()
    places = sorted(frames_in(listing, 0), key=lambda frame: frame[1])
    if not places:
        return []
    first, past = places[0][1], max(frame[2] for frame in places)
    begin, end = (run.in_cabinet(place, cabinet.faults) for place in (first, past))
    if end - begin != past - first:
        return []  # input was lost between them
    from_place = max(0, begin - 2 * RATE)
    bits, _ = cabinet.simulator(from_place, end + RATE).communicate(timeout=SECONDS)
    form = "--two" if cabinet.form == "pairs" else "--arrivals"
    words = [os.environ["PORT1"], "list", "--bits", form, "--dict", DICTIONARY.read_text()]
    ran = subprocess.run(words, input=bits, capture_output=True, check=True, timeout=SECONDS)
    sent = frames_in(ran.stdout.decode(), from_place)
    sent = {frame for frame in sent if begin <= frame[1] and frame[2] <= end}
    wrong = sorted(sent ^ frames_in(listing, begin - first), key=lambda frame: frame[1])
    return [f"{folder.name}: {len(wrong)} of {len(sent)} frames are not as sent: {wrong[:2]}"] if wrong else []


def judged(cabinet: Cabinet, runs: Sequence[Watched]) -> List[str]:
    """What is wrong: each fault that was watched is found once, nothing else is told, and all of it was saved."""
    told = []
    for record in cabinet.incidents:
        first = runs[record["run"] - 1].in_cabinet(record["place"], cabinet.faults)
        told.append((first, first + int(record["seconds"] * RATE), record))
    problems = []
    for fault in cabinet.faults:
        near = (fault.begin - 2 * RATE, fault.past + 2 * RATE)
        own = [record for first, past, record in told if near[0] < past and first < near[1]]
        fresh = [record for record in own if "continues" not in record]
        is_watched = any(run.watches(fault) for run in runs)
        wanted = 0 if fault.is_small or not is_watched else 1
        is_told = len(fresh) == wanted or not is_watched and len(fresh) <= 1
        problems += [] if is_told else [f"{fault}: {fresh}"]
    for first, past, record in told:
        if not any(f.begin - 2 * RATE < past and first < f.past + 2 * RATE for f in cabinet.faults):
            problems.append(f"false: {record}")
        folder = record["saved"] and cabinet.folder / "watch" / "incidents" / record["saved"]
        began = first - record["place"]
        rests = any(fault.kind == "rest" and fault.begin <= began < fault.past for fault in cabinet.faults)
        problems += list(problems_of_folder(folder, record, rests)) if folder else [f"not saved: {record}"]
    ids = [record["id"] for record in cabinet.incidents]
    begun = [record["id"] for record in cabinet.log if record["event"] == "begun"]
    problems += [f"{found} twice" for found in set(ids) if ids.count(found) > 1 or begun.count(found) > 1]
    return problems + [f"{found} is not told" for found in set(begun) - set(ids)]


def watched_with_kills(cabinet: Cabinet, seconds: int, kills: Sequence[float]) -> List[Watched]:
    """Runs over so much time, each but the last killed after some seconds; half a minute is not watched after each."""
    runs: List[Watched] = []
    begin = 0
    for kill in [*kills, None]:
        runs.append(cabinet.run(begin, seconds * RATE, kill))
        begin = runs[-1].past + 30 * RATE
        if seconds >= LONGER:
            print(f"run {len(runs)} of {len(kills) + 1} is over, {begin / RATE:.0f} of {seconds} s", flush=True)
    return runs

"""bus-watch on a simulated cabinet: what it finds, and what becomes of it when its input, its disk or itself fails."""

import json
import os
import re
import shutil
import signal
import subprocess
import time
from datetime import datetime
from pathlib import Path
from typing import List, NamedTuple, Sequence, Set

from needs import needs
from tests.case import SCRIPTS, SECONDS, TOP
from tests.killed import problems_of_kills
from tests.watched import (
    DICTIONARY, RATE, ROUNDED, SIMULATOR, Cabinet, Fault, Record, Watched, child_of, clock_of, disk_of, judged,
    lateness, read_until, schedule, wait_until_idle, watched_with_kills,
)

# How far the two clocks of the computer may go apart within a test, in seconds, and lengths are rounded.
CLOCK = 0.1


def problems_of_time(
    folder: Path, seed: int, seconds: int, count: int, kills: Sequence[float], form: str = "pairs"
) -> List[str]:
    cabinet = Cabinet(folder, schedule(seed, seconds, count), ["--ring", "256M"], form=form)
    runs = watched_with_kills(cabinet, seconds, kills)
    last = runs[-1]
    problems = [] if last.status == 0 and last.stderr == "" else [f"status {last.status}, {last.stderr[-300:]}"]
    return problems + judged(cabinet, runs)


def an_hour(folder: Path) -> List[str]:
    """A simulated hour with a fault each four minutes, and two kill -9."""
    return problems_of_time(folder, 11, 3600, 15, [4.0, 5.0])


def arrivals(folder: Path) -> List[str]:
    """Bits in order of arrival: a simulated quarter of an hour."""
    return problems_of_time(folder, 12, 900, 4, [1.5], "arrivals")


def a_day(folder: Path) -> List[str]:
    """A simulated day with 150 faults and seven kill -9."""
    return problems_of_time(folder, 23, 86400, 150, [30.0, 41.0, 17.0, 26.0, 38.0, 22.0, 33.0])


def full_disk(folder: Path) -> List[str]:
    """On a disk of 12 MB every incident is told, the watch goes on to the end, and the disk is never full."""
    with disk_of(12, folder):
        cabinet = Cabinet(folder, schedule(3, 1800, 10), ["--floor", "1M", "--keep", "4M"])
        run = cabinet.run(0, 1800 * RATE)
        problems = [problem for problem in judged(cabinet, [run]) if not problem.startswith("not saved")]
        problems = [problem for problem in problems if not problem.endswith("is not there")]
        lines = run.stderr.splitlines()
        return problems + ([] if run.status == 0 and len(lines) < 20 else [f"status {run.status}, {lines[:5]}"])


def holes(folder: Path) -> List[str]:
    """A disk that is full for a while leaves a hole: what is saved beside it stands at its places."""
    faults = [Fault(second * RATE, (second + 1) * RATE, "silent", 2) for second in (45, 125, 190)]
    with disk_of(24, folder) as disk:
        cabinet = Cabinet(folder, faults, ["--floor", "6M"])
        watch = cabinet.watch(subprocess.PIPE, 0)
        assert watch.stdin is not None
        read_until(watch, "start")
        for begin, past in ((0, 70), (70, 120), (120, 240)):
            bits, _ = cabinet.simulator(begin * RATE, past * RATE).communicate(timeout=SECONDS)
            if begin == 70:
                free = shutil.disk_usage(disk).free
                (disk / "ballast").write_bytes(bytes(free - (1 << 20)))  # more than the whole ring can make room for
            elif begin == 120:
                (disk / "ballast").unlink()
            watch.stdin.write(bits)
            watch.stdin.flush()
            wait_until_idle(watch)
        watch.stdin.close()
        watch.wait(timeout=SECONDS)
        whole, _ = cabinet.simulator(0, 240 * RATE).communicate(timeout=SECONDS)
        words = [os.environ["PORT1"], "list", "--bits", "--two", "--dict", DICTIONARY.read_text()]
        listed = set(subprocess.run(words, input=whole, capture_output=True, check=True).stdout.splitlines())
        return problems_of_holes(cabinet, listed)


def problems_of_holes(cabinet: Cabinet, listed: Set[bytes]) -> List[str]:
    """What is wrong with incidents beside a hole: all frames are of the bus, and missing bits are named."""
    records = cabinet.incidents
    told = [record["seconds"] for record in cabinet.log if record["event"] == "bits not kept"]
    problems = [] if len(records) == 3 and len(told) == 1 else [f"{cabinet.log}"]
    problems += [] if any("holes" in record for record in records) else [f"no hole: {records}"]
    for record in records:
        own = cabinet.folder / "watch" / "incidents" / (record["saved"] or "none")
        frames = (own / "listing.txt").read_bytes().splitlines() if own.is_dir() else []
        strange = [line for line in frames if b" frame " in line and line not in listed]
        problems += [f"{len(strange)} of {len(frames)} lines are not of the bus: {record}"] if strange else []
        has = "Bits are missing" in (own / "summary.txt").read_text() if own.is_dir() else "holes" in record
        problems += [] if has == ("holes" in record) else [f"not named: {record}"]
    return problems


def seconds_at(record: Record, key: str = "wall") -> float:
    return datetime.fromisoformat(record[key].replace("Z", "+00:00")).timestamp()


def problems_of_stalls(records: Sequence[Record], began: float) -> List[str]:
    """What is wrong with the length of stalls: each began when the last bits came, which was after they were sent."""
    wanted = ("input stalled", "input goes on")
    pairs = [pair for pair in zip(records, records[1:]) if tuple(record["event"] for record in pair) == wanted]
    wrong = [
        (stalled, goes_on)
        for stalled, goes_on in pairs
        if goes_on["seconds"] < seconds_at(goes_on) - seconds_at(stalled, "since") - CLOCK
        or goes_on["seconds"] > seconds_at(goes_on) - began - stalled["place"] / RATE + CLOCK
    ]
    return [] if pairs and not wrong else [f"{wrong} of {records}"]


def stalls(folder: Path) -> List[str]:
    """In real time: a `port1` held up, a source that stalls, a dictionary read again: no faults of the cabinet."""
    cabinet = Cabinet(folder, [], ["--lost", "1000"], speed="1")  # a busy computer is late as if input was lost
    began = time.time()
    source, watch = cabinet.start(0, 60 * RATE)
    told = read_until(watch, "start")
    watch.send_signal(signal.SIGHUP)
    told += read_until(watch, "dictionary")
    port1 = child_of(watch)
    os.kill(port1, signal.SIGSTOP)
    time.sleep(1.5)
    os.kill(port1, signal.SIGCONT)
    os.kill(source.pid, signal.SIGSTOP)
    told += read_until(watch, "input stalled")
    time.sleep(1.5)
    os.kill(source.pid, signal.SIGCONT)
    told += read_until(watch, "input goes on")
    os.killpg(watch.pid, signal.SIGINT)
    out, err = watch.communicate(timeout=SECONDS)
    source.kill()
    source.communicate()
    records = [json.loads(line) for line in (told + out).decode().splitlines()]
    events = {record["event"] for record in records}
    is_well = events == {"start", "dictionary", "input stalled", "input goes on", "end"} and watch.returncode == 0
    problems = problems_of_stalls(records, began)
    return problems if is_well and not err else [*problems, f"{records}, {watch.returncode}, {err!r}"]


def times_of_day(folder: Path) -> List[str]:
    """In real time: by the clocks of the computer, an incident comes after its bits are sent and before it is told."""
    cabinet = Cabinet(folder, [Fault(RATE, 2 * RATE, "silent", 2)], speed="1")
    began = time.time()
    source, watch = cabinet.start(0, 60 * RATE)
    record = json.loads(read_until(watch, "begun").splitlines()[-1])
    told = time.time()
    os.killpg(watch.pid, signal.SIGINT)
    watch.communicate(timeout=SECONDS)
    source.communicate(timeout=SECONDS)
    is_well = began + record["place"] / RATE - CLOCK < seconds_at(record) < told + CLOCK
    return [] if is_well else [f"{began}, {record}, {told}"]


def port1_is_killed(folder: Path) -> List[str]:
    """Where `port1` ends, one line says so, with status 2, and a new run goes on."""
    cabinet = Cabinet(folder, [], speed="1")
    source, watch = cabinet.start(0, 60 * RATE)
    read_until(watch, "start")
    os.kill(child_of(watch), signal.SIGKILL)
    _, err = watch.communicate(timeout=SECONDS)
    source.communicate(timeout=SECONDS)
    is_told = err.decode().startswith("bus-watch: port1 ended") and err.count(b"\n") == 1
    return [] if watch.returncode == 2 and is_told else [f"status {watch.returncode}, {err!r}"]


def source_that_ends(folder: Path) -> List[str]:
    """A source is started again when it ends; what it said is told, and no seam is a fault of the cabinet."""
    needs("node")
    doubt = "echo recording-to-bits: event: TXC stops >&2"
    command = f"{doubt}; echo bad luck >&2; node {SIMULATOR} 7 0 {8 * RATE} '' 0; exit 3"
    words = [SCRIPTS / "bus-watch", folder / "watch", "--dictionary", DICTIONARY, "--floor", "0", "--two"]
    words += ["--source", command]
    pipes = {"stdin": subprocess.DEVNULL, "stdout": subprocess.PIPE, "stderr": subprocess.PIPE}
    watch = subprocess.Popen(words, bufsize=0, **pipes)
    told = read_until(watch, "source ended") + read_until(watch, "source ended")
    watch.send_signal(signal.SIGINT)
    out, err = watch.communicate(timeout=SECONDS)
    records = [json.loads(line) for line in (told + out).decode().splitlines()]
    ended = [(r["status"], r["said"].split("\n")[0], r["again"]) for r in records if r["event"] == "source ended"]
    others = {record["event"] for record in records} - {"source ended"}
    doubts = [record["text"] for record in records if record["event"] == "doubt"]
    is_well = ended[:2] == [(3, "bad luck", 1), (3, "bad luck", 2)] and others == {"start", "doubt", "end"}
    is_well = is_well and set(doubts) == {"TXC stops"} and len(doubts) >= 2
    return [] if is_well and watch.returncode == 0 and not err else [f"{records}, {watch.returncode}, {err!r}"]


def stall_between_sources(folder: Path) -> List[str]:
    """A stall while a source waits to be started again has its length."""
    needs("node")
    words = [SCRIPTS / "bus-watch", folder / "watch", "--dictionary", DICTIONARY, "--floor", "0", "--two"]
    words += ["--source", f"node {SIMULATOR} 7 0 {RATE} '' 0"]
    pipes = {"stdin": subprocess.DEVNULL, "stdout": subprocess.PIPE, "stderr": subprocess.PIPE}
    watch = subprocess.Popen(words, bufsize=0, **pipes)
    told = read_until(watch, "input goes on")
    watch.send_signal(signal.SIGINT)
    watch.communicate(timeout=SECONDS)
    records = [json.loads(line) for line in told.decode().splitlines()]
    return problems_of_stalls(records, seconds_at(records[0]) - records[-2]["place"] / RATE)


def dead_wires(folder: Path) -> List[str]:
    """Wires without a bus are no incident at the first start; a bus that was known and does not come is one."""
    cabinet = Cabinet(folder, [Fault(0, 60 * RATE, "rest", 0), Fault(120 * RATE, 180 * RATE, "rest", 0)])
    first = cabinet.run(0, 50 * RATE)
    problems = [] if cabinet.incidents == [] and first.status == 0 else [f"at first: {first}"]
    cabinet.run(70 * RATE, 100 * RATE)
    cabinet.run(125 * RATE, 170 * RATE)
    told = [(record["run"], record["place"]) for record in cabinet.incidents]
    return problems + ([] if told == [(3, 0)] else [f"then: {cabinet.incidents}"])


def one_watch(folder: Path) -> List[str]:
    """A second watch in a folder is refused and changes nothing; after a kill -9 of the first the next one goes on."""
    cabinet = Cabinet(folder, [])
    first = cabinet.watch(subprocess.PIPE, 0)
    read_until(first, "start")
    second = cabinet.watch(subprocess.DEVNULL, 0)
    out, err = second.communicate(timeout=SECONDS)
    told = [(record["event"], record["run"]) for record in cabinet.log]
    first.kill()
    first.communicate(timeout=SECONDS)
    third = cabinet.watch(subprocess.DEVNULL, 0)
    third.communicate(timeout=SECONDS)
    is_refused = second.returncode == 2 and out == b"" and err.count(b"\n") == 1 and b"another watch" in err
    runs = [record["run"] for record in cabinet.log if record["event"] == "start"]
    is_well = is_refused and told == [("start", 1)] and third.returncode == 0 and runs == [1, 2]
    return [] if is_well else [f"{second.returncode}, {out!r}, {err!r}, {third.returncode}, {runs}, {told}"]


def commands_for_incidents(folder: Path) -> List[str]:
    """--run runs for each incident, and knows its folder and its causes."""
    told = folder / "told"
    words = ["--run", f'echo "$PORT1_CAUSES" >> {told}; test -f "$PORT1_INCIDENT/summary.txt" && echo there >> {told}']
    run = Cabinet(folder, [Fault(15 * RATE, 17 * RATE, "silent", 2)], words).run(0, 60 * RATE)
    found = told.read_text() if told.exists() else ""
    return [] if found == "missing 2/1\nthere\n" and run.status == 0 else [f"{found!r}, {run.stderr}"]


def unit_and_metrics(folder: Path) -> List[str]:
    """The unit of the examples is one that systemd takes; each family of metrics has its help and type before it."""
    needs("systemd-analyze")
    unit = folder / "bus-watch.service"
    text = (TOP / "examples" / "watch" / unit.name).read_text(encoding="utf-8")
    unit.write_text(text.replace("/usr/local/bin/bus-watch", str(SCRIPTS / "bus-watch")), encoding="utf-8")
    told = subprocess.run(["systemd-analyze", "verify", unit], capture_output=True, text=True)
    problems = [told.stdout + told.stderr] if told.returncode or unit.name in told.stderr else []
    metrics = folder / "port1.prom"
    Cabinet(folder, [Fault(15 * RATE, 17 * RATE, "silent", 2)], ["--prometheus", str(metrics)]).run(0, 60 * RATE)
    known: List[str] = []
    label = r'\w+="[^"]*"'
    form = rf"(port1_\w+?)(?:_bucket|_sum|_count)?(?:\{{{label}(?:,{label})*\}})? [0-9.]+"
    for line in metrics.read_text().splitlines():
        head = re.fullmatch(r"# (HELP|TYPE) (port1_\w+) .+", line)
        sample = re.fullmatch(form, line)
        known += [head[2]] if head and head[1] == "TYPE" else []
        problems += [] if head or sample and sample[1] in known else [line]
    counted = 'port1_incidents_total{cause="missing"} 1' in metrics.read_text()
    return problems + ([] if counted else ["no incident is counted"])


class Wrong(NamedTuple):
    """A wrong form: its file, what stands there, and what in its place."""

    file: str
    old: str
    new: str


# What the log has begun and the state has lost is found by the log: where that is to be seen, the log is not asked.
NO_LOG = Wrong("watch.js", "[...left, ...onlyBegun(entries, left)]", "left")

WRONG = [
    [Wrong("watch.js", "const { mark } = this.decoder;", "const mark = this.packer.places;")],
    [Wrong("incidents.js", "push(...sure);\n    this.office.keep();", "push(...(this.office.keep(), sure));"), NO_LOG],
    [Wrong("rest.js", "resume(before);", "resume({ ...before, open: null });"), NO_LOG],
    [Wrong("saver.js", "if (at > 0) await", "if (at < 0) await")],
    [Wrong("saver.js", "this.disk.putFolder(fresh, join(this.folder, name))", "undefined")],
]


def problems_with(folder: Path, wrong: Sequence[Wrong]) -> List[str]:
    """What the judge says of a wrong form: on a short time with a fault, and on kills."""
    scripts = folder / "scripts"
    shutil.copytree(SCRIPTS, scripts, ignore=shutil.ignore_patterns("tests"))
    for change in wrong:
        path = scripts / "modules" / "watch" / change.file
        text = path.read_text(encoding="utf-8")
        if text.count(change.old) != 1:
            return []
        path.write_text(text.replace(change.old, change.new), encoding="utf-8")
    cabinet = Cabinet(folder, [Fault(30 * RATE, 32 * RATE, "silent", 2)], scripts=scripts)
    problems = judged(cabinet, [cabinet.run(0, 120 * RATE)])
    return problems or problems_of_kills(folder, [0.05 * at for at in range(16)], scripts)


def wrong_forms(folder: Path) -> List[str]:
    """Triggers by what was fed, waiting or open incidents that a kill loses, no cut at a command, no rename."""
    problems = []
    for number, wrong in enumerate(WRONG):
        own = folder / str(number)
        own.mkdir()
        problems += [] if problems_with(own, wrong) else [f"{wrong[0].file}: {wrong[0].new!r} is not refused"]
    return problems


def lost_input(folder: Path) -> List[str]:
    """By the clock of the bus: samples that are lost are told with their length, and are no fault of the cabinet."""
    cabinet = Cabinet(folder, [Fault(15 * RATE, int(16.5 * RATE), "lose", 0)])
    source, watch = cabinet.start(0, 40 * RATE, environment=clock_of(0, cabinet.faults))
    out, _ = watch.communicate(timeout=SECONDS)
    source.communicate(timeout=SECONDS)
    records = [json.loads(line) for line in out.decode().splitlines()]
    lost = [record["seconds"] for record in records if record["event"] == "input lost"]
    return [] if lost == [1.5] and cabinet.incidents == [] else [f"{records}"]


def loss_before_the_end(folder: Path) -> List[str]:
    """A loss less than ten seconds before the end, or before a kill -9, is in the times after it."""
    return [*problems_of_loss(folder / "ended", False), *problems_of_loss(folder / "killed", True)]


def is_loss_kept(folder: Path) -> bool:
    """Whether a watch writes down that input was lost, before anything else comes."""
    state = folder / "watch" / "state.json"
    until = time.monotonic() + SECONDS
    while time.monotonic() < until and not (state.exists() and json.loads(state.read_text())["zeros"]):
        time.sleep(0.05)
    return time.monotonic() < until


def problems_of_loss(folder: Path, is_killed: bool) -> List[str]:
    """What is wrong with the time of an incident, by the clock of the bus, where input was lost before it."""
    folder.mkdir()
    faults = [Fault(3 * RATE, 9 * RATE // 2, "lose", 0), Fault(13 * RATE // 2, 15 * RATE // 2, "silent", 1)]
    cabinet = Cabinet(folder, faults, ["--after", "1"])
    bits, _ = cabinet.simulator(0, 9 * RATE).communicate(timeout=SECONDS)
    watch = cabinet.watch(subprocess.PIPE, None, clock_of(0, faults))
    assert watch.stdin is not None
    watch.stdin.write(bits[: 5 * RATE])
    is_kept = not is_killed or is_loss_kept(folder)
    watch.stdin.write(bits[5 * RATE :])
    if is_killed:
        read_until(watch, "begun")
        watch.kill()
    watch.communicate(timeout=SECONDS)
    if is_killed:
        cabinet.watch(subprocess.DEVNULL, None).communicate(timeout=SECONDS)
    run = Watched([(0, 9 * RATE)], [], "", 0)
    told = [(list(record["causes"]), lateness(cabinet, run, record)) for record in cabinet.incidents]
    is_told = [causes for causes, late in told if abs(late) < ROUNDED] == [["missing 1/1"]] and len(told) == 1
    return [] if is_kept and is_told else [f"{is_killed}, {is_kept}, {told}, {cabinet.log}"]

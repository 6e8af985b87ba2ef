"""kill -9 at any moment: an incident that the watch had taken is told once and saved."""

import os
import random
import signal
import subprocess
import threading
import time
from pathlib import Path
from typing import List, Sequence

from tests.case import SCRIPTS, SECONDS
from tests.watched import RATE, ROUND, Cabinet, Fault, child_of, feed, judged, read_until


def problems_of_kills(folder: Path, moments: Sequence[float], scripts: Path = SCRIPTS) -> List[str]:
    problems = []
    for number, moment in enumerate(moments):
        own = folder / str(number)
        own.mkdir()
        cabinet = Cabinet(own, [Fault(15 * RATE, 17 * RATE, "silent", 2)], scripts=scripts)
        runs = [cabinet.run(0, 200 * RATE, moment, is_begun=True)]
        runs.append(cabinet.run(300 * RATE, 320 * RATE))
        told = cabinet.incidents
        if len(told) != 1 or told[0]["saved"] is None or runs[1].status != 0:
            problems.append(f"killed {moment:.3f} s after it began: {told}, {runs[1].stderr}")
        problems += judged(cabinet, runs) if len(told) == 1 else []
        if number % 10 == 9:
            print(f"{number + 1} of {len(moments)} kills, {len(problems)} problems", flush=True)
    return problems


def kills(folder: Path) -> List[str]:
    """An incident is told once and saved, whenever after its beginning the watch is killed."""
    return problems_of_kills(folder, [0, 0.05, 0.1, 0.2, 0.3, 0.6])


def many_kills(folder: Path) -> List[str]:
    generator = random.Random(5)
    return problems_of_kills(folder, [generator.uniform(0, 1.0) for _ in range(50)])


def undecided(folder: Path) -> List[str]:
    """What the ring has and `port1` had not decided at a kill is an incident of the run that was killed."""
    cabinet = Cabinet(folder, [Fault(RATE // 10, 2 * RATE, "silent", 2)])
    bits, _ = cabinet.simulator(0, RATE).communicate(timeout=SECONDS)
    watch = cabinet.watch(subprocess.PIPE, 0)
    assert watch.stdin is not None
    read_until(watch, "start")
    time.sleep(1)
    port1 = child_of(watch)
    os.kill(port1, signal.SIGSTOP)
    threading.Thread(target=feed, args=(watch.stdin, bits), daemon=True).start()
    ring = folder / "watch" / "ring"
    for _ in range(100):
        if sum(path.stat().st_size for path in ring.iterdir()) > RATE // 8:
            break
        time.sleep(0.1)
    watch.kill()
    watch.wait()
    os.kill(port1, signal.SIGKILL)  # one that is held up would stay
    known = "incident" in (folder / "watch" / "incidents.jsonl").read_text()
    cabinet.run(300 * RATE, 320 * RATE)
    told = [(record["run"], list(record["causes"]), "cut" in record) for record in cabinet.incidents]
    is_saved = all(record["saved"] for record in cabinet.incidents)
    return [] if not known and told == [(1, ["missing 2/1"], True)] and is_saved else [f"{known}, {cabinet.log}"]


def is_kept(ring: Path, octets: int) -> bool:
    """Whether the ring gets so many octets."""
    for _ in range(100):
        if sum(path.stat().st_size for path in ring.iterdir()) >= octets:
            return True
        time.sleep(0.1)
    return False


def row_that_is_cut(folder: Path) -> List[str]:
    """Seven missing answers of which a kill -9 leaves three to one run and four to the next are one incident."""
    begin = 375 * ROUND
    cabinet = Cabinet(folder, [Fault(begin, begin + 7 * ROUND, "silent", 2)])
    bits, _ = cabinet.simulator(0, begin + 3 * ROUND).communicate(timeout=SECONDS)
    watch = cabinet.watch(subprocess.PIPE, 0)
    assert watch.stdin is not None
    read_until(watch, "start")
    threading.Thread(target=feed, args=(watch.stdin, bits), daemon=True).start()
    is_whole = is_kept(folder / "watch" / "ring", (begin + 3 * ROUND) // 4)
    watch.kill()
    watch.wait()
    cabinet.run(begin + 3 * ROUND, begin + 40 * RATE)
    told = [(record["run"], record["causes"], "seam" in record) for record in cabinet.incidents]
    return [] if is_whole and told == [(2, {"missing 2/1": 1}, True)] else [f"{is_whole}, {cabinet.log}"]


def ended_within(folder: Path) -> List[str]:
    """SIGTERM within an incident cuts it, and the next run goes on with it."""
    cabinet = Cabinet(folder, [Fault(15 * RATE, 20 * RATE, "burst", 0.03)])
    bits, _ = cabinet.simulator(0, 18 * RATE).communicate(timeout=SECONDS)
    watch = cabinet.watch(subprocess.PIPE, 0)
    assert watch.stdin is not None
    read_until(watch, "start")
    threading.Thread(target=feed, args=(watch.stdin, bits), daemon=True).start()
    read_until(watch, "begun")
    watch.send_signal(signal.SIGTERM)
    watch.communicate(timeout=SECONDS)
    cabinet.run(18 * RATE, 60 * RATE)
    told = [(r["run"], r.get("cut"), r.get("continues")) for r in cabinet.incidents if "burst" in r["causes"]]
    is_well = watch.returncode == 0 and told == [(1, True, None), (2, None, "1-1")]
    return [] if is_well else [f"{watch.returncode}, {cabinet.log}"]

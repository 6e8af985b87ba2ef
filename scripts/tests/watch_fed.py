"""bus-watch on the same recording, fed in pieces of any size and at any speed, and on a disk that is slow to flush.

A disk may take seconds for a flush, and an analyser cannot hold bits for as long: so no flush may hold them up.
"""

import fcntl
import os
import random
import signal
import subprocess
import termios
import threading
import time
from array import array
from pathlib import Path
from typing import IO, Dict, Iterator, List, Tuple

from needs import needs
from tests.case import SECONDS
from tests.watched import RATE, Cabinet, Fault, child_of, fault_of, feed, read_until

# How long a recording is, in seconds, and the words of the watch: what is joined depends on --after.
RECORDED, WORDS = 80, [["--after", "2"], ["--longest", "8"]]

# It is loaded before the watch: no flush of it ends until a file is there.
SLOW = """#define _GNU_SOURCE
#include <dlfcn.h>
#include <unistd.h>
int fsync(int file)
{
    int (*real)(int) = (int (*)(int))dlsym(RTLD_NEXT, "fsync");
    while (access("%s", F_OK) != 0)
        usleep(1000);
    return real(file);
}
"""


def faults_of(generator: random.Random) -> List[Fault]:
    """Faults near one another and far from one another, so that some are joined."""
    faults: List[Fault] = []
    second = 5.0
    while second < RECORDED - 10:
        faults.append(fault_of(generator, second, 5))
        second = faults[-1].past / RATE + generator.choice([0.3, 1, 3, 9, 12]) * generator.uniform(0.5, 1.5)
    return faults


def pieces_of(bits: bytes, way: str, generator: random.Random, faults: List[Fault]) -> Iterator[bytes]:
    """A recording in pieces: all of it, of any size, octet by octet at some faults, or with pauses between."""
    singles = [at for fault in faults[:3] for at in range(fault.begin + RATE, fault.begin + RATE + 1500)]
    at = 0
    while at < len(bits):
        size = generator.choice([7, 300, 5000, 70000, 1 << 20]) if way != "whole" else len(bits)
        if way == "octets":
            size = 1 if at in singles else min(size, min((one - at for one in singles if one > at), default=size))
        if way == "pauses" and generator.random() < 0.05:
            time.sleep(generator.uniform(0, 1.5))
        yield bits[at : at + size]
        at += size


def told_by(folder: Path) -> Tuple[List[str], Dict[str, bytes]]:
    """What a watch told of incidents, as it is in the log but for its order, and the files of their folders."""
    kinds = ('"event":"begun"', '"event":"incident"', '"event":"well again"', '"event":"over"')
    lines = (folder / "incidents.jsonl").read_text().splitlines()
    files = [path for path in (folder / "incidents").rglob("*") if path.is_file() and path.suffix != ".html"]
    content = {str(path.relative_to(folder)): path.read_bytes() for path in files}
    return sorted(line for line in lines if any(kind in line for kind in kinds)), content


def watched(cabinet: Cabinet, bits: bytes, way: str, generator: random.Random) -> None:
    """Feeds a watch; `port1` is held up for a while in one of the ways."""
    watch = cabinet.watch(subprocess.PIPE, 0)
    pipe = watch.stdin
    assert pipe is not None
    read_until(watch, "start")
    port1 = child_of(watch) if way == "held" else 0
    for number, piece in enumerate(pieces_of(bits, way, generator, list(cabinet.faults))):
        is_held = port1 and number % 20 == 0
        if is_held:
            os.kill(port1, signal.SIGSTOP)
            threading.Timer(0.3, os.kill, (port1, signal.SIGCONT)).start()
        pipe.write(piece)
    watch.communicate(timeout=SECONDS)


def any_speed(folder: Path) -> List[str]:
    """A recording has the same incidents, with the same files, in pieces of any size and however fast they come."""
    problems: List[str] = []
    generator = random.Random(37)
    sent = told = 0
    for number, form in enumerate(("pairs", "arrivals")):
        faults = faults_of(generator)
        found = {}
        for way in ("whole", "pieces", "octets", "pauses", "held"):
            own = folder / f"{form}-{way}"
            own.mkdir()
            cabinet = Cabinet(own, faults, WORDS[number], form=form)
            bits, _ = cabinet.simulator(0, RECORDED * RATE).communicate(timeout=SECONDS)
            watched(cabinet, bits, way, generator)
            found[way] = told_by(own / "watch")
        sent += len(faults)
        told += sum('"incident"' in line for line in found["whole"][0])
        for way, (lines, files) in found.items():
            others = sorted(set(lines) ^ set(found["whole"][0]))
            names = [name for name in {**files, **found["whole"][1]} if files.get(name) != found["whole"][1].get(name)]
            problems += [f"{form}, {way}: {others}, {names}"] if others or names else []
    return problems if 8 < told < sent else [*problems, f"{told} incidents of {sent} faults"]


def is_emptied(pipe: IO[bytes]) -> bool:
    """Whether what was written to a pipe is read."""
    held = array("i", [1])
    until = time.monotonic() + SECONDS
    while held[0] > 0 and time.monotonic() < until:
        time.sleep(0.02)
        fcntl.ioctl(pipe.fileno(), termios.FIONREAD, held)
    return held[0] == 0


def slow_disk(folder: Path) -> List[str]:
    """All bits are taken while the disk has flushed nothing yet, and all is saved once it does."""
    needs("cc")
    let = folder / "let"
    (folder / "slow.c").write_text(SLOW % let)
    subprocess.run(["cc", "-shared", "-fPIC", "-o", folder / "slow.so", folder / "slow.c", "-ldl"], check=True)
    faults = [Fault(second * RATE, (second + 1) * RATE, "silent", 2) for second in (3, 8, 13)]
    cabinet = Cabinet(folder, faults, ["--after", "1"])
    bits, _ = cabinet.simulator(0, 80 * RATE).communicate(timeout=SECONDS)
    watch = cabinet.watch(subprocess.PIPE, 0, {"LD_PRELOAD": str(folder / "slow.so")})
    assert watch.stdin is not None
    feeder = threading.Thread(target=feed, args=(watch.stdin, bits), daemon=True)
    feeder.start()
    feeder.join(SECONDS)
    is_taken = not feeder.is_alive() and is_emptied(watch.stdin)
    saved = [record["id"] for record in cabinet.incidents]
    let.touch()
    watch.communicate(timeout=SECONDS)
    events = {record["event"] for record in cabinet.log}
    is_told = events == {"start", "begun", "incident", "well again", "end"} and len(cabinet.incidents) == len(faults)
    return [] if is_told and is_taken and not saved else [f"{is_taken}, {saved}, {cabinet.log}"]

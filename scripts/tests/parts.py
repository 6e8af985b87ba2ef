"""A big capture listed in parts."""

import os
import random
import signal
import subprocess
import tempfile
import time
from contextlib import suppress
from pathlib import Path
from typing import Dict, List, NamedTuple, Sequence, Tuple

from needs import needs
from table.captures import packed_marks
from tests.case import (
    CALL, SCRIPTS, DICTIONARY, ONE_CALL, REPLY, SECONDS, TOP, WINDOWS, listed, packed, plain, ran, random_bits,
    written_by,
)


def dirty_line(generator: random.Random, count: int) -> str:
    """Commands, replies, flags, idle lines and random bits, one after the other."""
    call, reply = plain(CALL)[8:], plain(REPLY)[8:]
    notice = "111110111110000001100100000101101011011100" + "01111110"
    texts = ["01111110"]
    while sum(map(len, texts)) < count:
        texts.append(
            generator.choice(
                [call, call, reply, reply, notice, "01111110", "1" * generator.randrange(60), call[:20], "0" * 30]
                + [random_bits(generator, generator.randrange(40))]
            )
        )
    return "".join(texts)[:count]


OPTIONS = [
    [],
    ["--dict", DICTIONARY],
    ["--dict", DICTIONARY, "--origin", "1000"],
    ["--origin=77", "--dict", DICTIONARY, "--kind", "missing"],
    ["--dict", DICTIONARY, "--kind", "pending"],
    ["--dict", DICTIONARY, "--kind", "stray"],
    ["--dict", DICTIONARY, "--station", "16"],
    ["--dict", WINDOWS],
    ["--dict", WINDOWS, "--kind", "late"],
    ["--dict", DICTIONARY, "--type", "128"],
    ["--kind", "open"],
    ["--kind", "idle"],
]


def parted(folder: Path, capture: bytes, options: Sequence[str], parts: int, overlap: int) -> List[str]:
    """Whether a listing in parts is the listing of one run, with the status and faults."""
    return as_one_run(folder, capture, options, ["--overlap", str(overlap), "--parts", str(parts), "--jobs", "4"])


def as_one_run(folder: Path, capture: bytes, options: Sequence[str], cut: Sequence[str]) -> List[str]:
    """The same, where these words say how it is cut."""
    path = folder / "capture.ts2"
    path.write_bytes(capture)
    one, many = listed(capture, options), ran(["list-in-parts", *cut, str(path), *options])
    if (one.stdout, one.stderr, one.returncode) == (many.stdout, many.stderr, many.returncode):
        return []
    kept = Path(tempfile.mkdtemp(prefix="list-in-parts-")) / "capture.ts2"
    kept.write_bytes(capture)
    return [f"{' '.join(cut)}, {options[-2:]}: not as one run; {kept}; {many.stderr.decode()}"]


def parts_of_dirty_lines(folder: Path) -> List[str]:
    """Small captures cut into many parts with little overlap, which has to grow."""
    generator = random.Random(3)
    problems = []
    for round in range(48):
        capture = packed(dirty_line(generator, generator.randrange(3000)))
        options = OPTIONS[round % len(OPTIONS)]
        parts, overlap = generator.choice([1, 2, 3, 5, 9, 20]), generator.choice([1, 2, 7, 30])
        problems += parted(folder, capture, options, parts, overlap)
    return problems


def parts_up_to_the_end(folder: Path) -> List[str]:
    """So many parts that the last cuts are at the end of the capture, which is of whole octets. Something is open or
    pending there, and what says so is to be written once."""
    generator = random.Random(9)
    call = plain(CALL)
    line, (first, second) = dirty_line(generator, 8000 - len(call)), polling(generator, 4000 - len(call))
    problems = []
    for kind, end in [("pending", call), ("open", call[:48].ljust(len(call), "0"))]:
        two_lines = packed_two(first[: 4000 - len(call)] + end, second[: 4000 - len(call)] + "1" * len(call))
        for capture, more in [(packed(line + end), []), (two_lines, ["--two"])]:
            options = [*more, "--dict", DICTIONARY]
            said = listed(capture, options).stdout.decode().count(f" {kind}")
            problems += [] if said == 1 else [f"{said} lines of the listing are {kind}"]
            for parts in (33, 100, 999):
                problems += parted(folder, capture, options, parts, 3)
    return problems


def parts_by_jobs(folder: Path) -> List[str]:
    """Each number of jobs up to 32 and the parts that go with it. The captures have so few octets that the last cuts
    are at the end, where a command is pending, or a piece open."""
    generator = random.Random(10)
    call = plain(CALL)
    problems = []
    for jobs in range(1, 33):
        line = call + "01111110" + generator.choice([call, call[:48]])
        bits = line + "1" * generator.choice([0, -len(line) % 8])
        problems += as_one_run(folder, packed(bits), ["--dict", DICTIONARY], ["--jobs", str(jobs), "--overlap", "1"])
    return problems


def parts_of_traffic(folder: Path) -> List[str]:
    """Each kind of traffic that bench/generate makes."""
    needs("cc")
    generate = folder / "generate"
    written_by(["cc", "-O2", "-o", generate, TOP / "bench" / "generate.c"])
    problems = []
    for number, kind in enumerate(["polling", "random", "ones", "flags", "long", "stuffed", "short", "dialogue3"]):
        for count, parts, overlap in [(99_999, 8, 16), (100_003, 3, 4096), (1_000_001, 16, 256)]:
            words = [generate, str(count), str(number + 1), kind, "packed"]
            capture = written_by(words)
            problems += parted(folder, capture, OPTIONS[number % 3], parts, overlap)
    return problems


def parts_with_faults(folder: Path) -> List[str]:
    """What cannot be cut is listed in one run, with its fault."""
    problems = []
    shorter, longer, spare = ONE_CALL[:-1], ONE_CALL + b"\0", ONE_CALL[:-1] + b"\2"
    for capture in [b"", b"0111", ONE_CALL[:9], b"U" + ONE_CALL[1:], shorter, longer, spare]:
        problems += parted(folder, capture, ["--dict", DICTIONARY], 2, 1)
    far = ["--origin", str(2**60)]
    for options in [["--bits"], ["--help"], ["--kind", "frames"], ["--dict", "version = 3"], far, ["--no"]]:
        problems += parted(folder, ONE_CALL, options, 2, 1)
    return problems


def packed_two(first: str, second: str) -> bytes:
    """A packed capture of two lines, which ends with the shorter one."""
    return packed_marks(b"TS2BITS2", [int(one) + 2 * int(other) for one, other in zip(first, second)])


def polling(generator: random.Random, count: int) -> Tuple[str, str]:
    """Commands on the first line and replies on the second, each with its rest or noise on the other."""
    first = second = ""
    while len(first) < count:
        command, reply, rest = plain(CALL), plain(REPLY), "1" * generator.randrange(40)
        noise = random_bits(generator, len(command))
        first += command + rest + generator.choice(["1" * len(reply), "01111110" * 9, noise])[: len(reply)]
        second += generator.choice(["1" * len(command), noise]) + rest
        second += generator.choice([reply, reply, "1" * len(reply), noise])[: len(reply)].ljust(len(reply), "1")
    return first, second


def parts_of_two_lines(folder: Path) -> List[str]:
    """Small captures of two lines, cut as those of one are, and each kind of capture taken for the other."""
    generator = random.Random(5)
    problems = []
    for round in range(24):
        capture = packed_two(*polling(generator, generator.randrange(3000)))
        parts, overlap = generator.choice([2, 3, 5, 9]), generator.choice([5, 20, 30, 50])
        problems += parted(folder, capture, [*OPTIONS[round % len(OPTIONS)], "--two"], parts, overlap)
    one_line = packed(dirty_line(generator, 3000))
    one_rests = packed_two(dirty_line(generator, 3000), "1" * 3000)
    for octets, options in [(capture, []), (one_line, ["--two"]), (one_rests, ["--two"])]:
        problems += parted(folder, octets, [*options, "--dict", DICTIONARY], 3, 1)
    return problems


def parts_of_odd_words(folder: Path) -> List[str]:
    """Paths and options that a shell does not take as they stand."""
    strange = folder / "it's a $HOME"
    strange.mkdir()
    capture = packed(dirty_line(random.Random(6), 3000))
    dictionary = "# it's a \"test\" of `quotes`, $HOME and \\\\\n" + DICTIONARY + "\n\n"
    problems = parted(strange, capture, [f"--dict={dictionary}", "--origin=1000000", "--"], 4, 20)
    os.environ["TMPDIR"] = str(strange)
    problems += parted(strange, capture, ["--origin", "7", "--dict", dictionary, "--station", "16"], 4, 20)
    del os.environ["TMPDIR"]
    return problems + [f"left: {path}" for path in strange.iterdir() if path.name != "capture.ts2"]


def parts_to_sinks(folder: Path) -> List[str]:
    """A file that is appended to, and one that takes nothing."""
    capture, listing = folder / "sinks.ts2", folder / "listing.txt"
    capture.write_bytes(packed(dirty_line(random.Random(7), 3000)))
    words = [SCRIPTS / "list-in-parts", "--parts", "4", "--overlap", "20", capture]
    one = listed(capture.read_bytes(), []).stdout
    listing.write_bytes(b"as it was\n")
    with listing.open("ab") as sink:
        status = subprocess.run(words, stdout=sink, timeout=SECONDS).returncode
    problems = [] if (status, listing.read_bytes()) == (0, b"as it was\n" + one) else ["not appended"]
    with Path("/dev/full").open("wb") as full:
        got = subprocess.run(words, stdout=full, stderr=subprocess.PIPE, timeout=SECONDS)
    if got.returncode != 2 or b"list-in-parts: write failed\n" not in got.stderr:
        problems.append(f"a full sink: {got}")
    return problems


def parts_step_by_step(folder: Path) -> List[str]:
    """The parts run by hand, the last first, and what --join says before all have run and where one is spoilt."""
    line, options = dirty_line(random.Random(4), 40_000), ["--dict", DICTIONARY]
    two_lines = packed_two(*polling(random.Random(8), 20_000))
    return by_hand(folder / "one", packed(line), options) + by_hand(folder / "two", two_lines, [*options, "--two"])


def by_hand(folder: Path, capture: bytes, options: Sequence[str]) -> List[str]:
    folder.mkdir()
    path, parts = folder / "steps.ts2", folder / "parts"
    path.write_bytes(capture)
    cut = ran(["list-in-parts", "--cut", str(parts), "--parts", "4", "--overlap", "64", str(path), *options])
    scripts = sorted(parts.glob("part-*.sh"))
    if cut.returncode != 0 or len(scripts) != 4:
        return [f"{len(scripts)} scripts; {cut.stderr.decode()}"]
    problems = []
    early = ran(["list-in-parts", "--join", str(parts)])
    if early.returncode != 2 or early.stdout != b"" or b"not listed: part-0000 " not in early.stderr:
        problems.append(f"too early: {early}")
    for script in reversed(scripts):
        subprocess.run(["sh", script], check=True, cwd="/", timeout=SECONDS)
    joined = ran(["list-in-parts", "--join", str(parts)]).stdout
    one = listed(capture, options).stdout
    (parts / "part-0002.list").write_bytes(b"8 49 frame 108300fde5\n")
    spoilt = ran(["list-in-parts", "--join", str(parts)])
    if spoilt.returncode != 2 or b"part-0002: it does not begin" not in spoilt.stderr:
        problems.append(f"a spoilt part: {spoilt}")
    return problems + ([] if joined == one else ["not as one run"])


class StandIn(NamedTuple):
    """What a program in place of `port1` does that is asked for a part, or for a seam, and what is told then."""

    name: str
    of_part: str
    of_seam: str
    told: str


LISTS = '"$LISTS" "$@"'

STAND_INS = [
    StandIn("a part that fails", f"{LISTS}; exit 3", LISTS, "octets 0 to 534: not listed"),
    StandIn("a part that is killed", f"{LISTS}; kill -9 $$", LISTS, "octets 0 to 534: not listed"),
    StandIn("a seam that fails", LISTS, f"{LISTS}; exit 3", "octets 470 to 534: not listed"),
    StandIn("a file that shrinks", LISTS, f'{LISTS} && truncate -s 99 "$CAPTURE"', "the file has become shorter"),
]


def by_stand_in(folder: Path, of_part: str, of_seam: str) -> Tuple[List[Path], Dict[str, str]]:
    """A run of two parts by a stand-in: its words and environment. A part is listed to a file, a seam to a pipe."""
    program, capture = folder / "stand-in", folder / "capture.ts2"
    capture.write_bytes(packed(plain(CALL) * 100))
    cases = f"if [ -f /dev/stdout ]; then {of_part}; else case $* in *--origin=*) {of_seam} ;; *) {LISTS} ;; esac; fi"
    program.write_text(f"#!/bin/sh\n{cases}\n", encoding="ascii")
    program.chmod(0o755)
    settings = {"PORT1": str(program), "LISTS": os.environ["PORT1"], "CAPTURE": str(capture), "FOLDER": str(folder)}
    words = [SCRIPTS / "list-in-parts", "--parts", "2", "--jobs", "2", "--overlap", "64", capture]
    return words, {**os.environ, **settings}


def parts_that_fail(folder: Path) -> List[str]:
    """A part or a seam that is not listed, and a capture that becomes shorter: a fault, and an end."""
    problems = []
    for row in STAND_INS:
        words, environment = by_stand_in(folder, row.of_part, row.of_seam)
        got = subprocess.run(words, capture_output=True, env=environment, timeout=SECONDS)
        if (got.returncode, got.stdout) != (2, b"") or f"list-in-parts: {row.told}\n" not in got.stderr.decode():
            problems.append(f"{row.name}: status {got.returncode}, {got.stderr!r}, {len(got.stdout)} octets")
    return problems


def started(folder: Path) -> List[int]:
    """The processes of both parts, as soon as they have begun."""
    path, end = folder / "started", time.monotonic() + SECONDS
    while time.monotonic() < end and path.read_text().count("\n") < 2:
        time.sleep(0.05)
    return [int(line) for line in path.read_text().split()]


def kill_left(processes: Sequence[int]) -> List[int]:
    """Which of the processes are still there after some seconds, which are killed then."""
    left, end = [], time.monotonic() + 5
    while time.monotonic() < end and any(Path(f"/proc/{number}").exists() for number in processes):
        time.sleep(0.05)
    for number in processes:
        with suppress(ProcessLookupError):
            os.kill(number, signal.SIGKILL)
            left.append(number)
    return left


class Ended(NamedTuple):
    """What the run is started by, and the signals that it is sent, the last of which ends it."""

    starts: Sequence[str]
    signals: Sequence[signal.Signals]


ENDED = [
    Ended([], [signal.SIGHUP]),
    Ended([], [signal.SIGTERM]),
    Ended([], [signal.SIGINT]),
    Ended(["nohup"], [signal.SIGHUP, signal.SIGTERM]),
]


def parts_that_are_ended(folder: Path) -> List[str]:
    """A signal ends it, and the processes of its parts with it; not one that it is started to pass over."""
    problems = []
    for row in ENDED:
        words, environment = by_stand_in(folder, 'echo $$ >> "$FOLDER/started"; exec sleep 600', LISTS)
        (folder / "started").write_text("")
        with subprocess.Popen([*row.starts, *words], env=environment, stdout=subprocess.DEVNULL) as process:
            processes = started(folder)
            try:
                for number in row.signals:
                    process.send_signal(number)
                    with suppress(subprocess.TimeoutExpired):
                        process.wait(1 if number != row.signals[-1] else SECONDS)
            finally:
                process.kill()
                left = kill_left(processes)
        if (process.returncode, len(processes), left) != (-row.signals[-1], 2, []):
            problems.append(f"{row}: status {process.returncode}, {len(processes)} processes, left {left}")
    return problems

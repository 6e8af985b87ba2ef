"""The scripts beside a recording that goes on: signals, and how soon what comes in goes out."""

import ctypes
import fcntl
import math
import os
import resource
import select
import signal
import subprocess
import sys
import termios
import threading
import time
from pathlib import Path
from typing import Dict, Iterator, List, NamedTuple, Sequence, Tuple

from needs import needs
from tests.asleep import wait_until_asleep
from tests.case import DICTIONARY, SCRIPTS, SECONDS, is_of_node, lines

SIGNALS = (signal.SIGINT, signal.SIGTERM)

LISTING = b"1 48 89 frame 108300fde5 station 16 type 0 call\n" * 3


class Stream(NamedTuple):
    """A script that reads a stream: its words, what it reads before the signal, and what it then writes."""

    words: Sequence[str]
    stdin: bytes
    stdout: bytes
    stderr: bytes = b""


# A clock and its data: eight bits.
SAMPLES = bytes([0, 1, 2, 3]) * 4096

STREAMS: Dict[str, Stream] = {
    "bus-summary": Stream([], LISTING, b"3 frames, 0 damaged pieces."),
    "draft-dictionary": Stream([], LISTING, b"# 3 frames, to station 16."),
    "flip-bits": Stream(["1"], b"0101", b"0001"),
    "list-to-jsonl": Stream([], LISTING, b'"octets": "108300fde5", "station": 16, "type": 0, "name": "call"}\n'),
    "list-to-page": Stream(["--page", str(SCRIPTS / "tests" / "page.html"), "title"], LISTING, b"</script>"),
    "list-to-pcap": Stream(["153600", "--text"], LISTING, b"0.000312\n000000 10 83 00\n" * 3),
    "pack-bits": Stream([], b"0101", b"TS2BITS1" + (4).to_bytes(8, "little") + b"\x0a"),
    "recording-to-bits": Stream(["0", "1"], SAMPLES, lines("01" * 4096), b"recording-to-bits: 0 has 8192 edges\n"),
}


def started(name: str, words: Sequence[str]) -> "subprocess.Popen[bytes]":
    if is_of_node(name):
        needs("node")
    environment = {key: value for key, value in os.environ.items() if key != "PYTHONUNBUFFERED"}
    pipes = {"stdin": subprocess.PIPE, "stdout": subprocess.PIPE, "stderr": subprocess.PIPE}
    return subprocess.Popen([SCRIPTS / name, *words], env=environment, bufsize=0, **pipes)


def unread(child: "subprocess.Popen[bytes]") -> int:
    """How many octets wait in the pipe that a child reads."""
    assert child.stdin is not None
    return int.from_bytes(fcntl.ioctl(child.stdin, termios.FIONREAD, bytes(4)), sys.byteorder)


def await_read(child: "subprocess.Popen[bytes]") -> None:
    """Waits until a child has read all that was written, and waits for more."""
    end = time.monotonic() + SECONDS
    while unread(child) > 0 and time.monotonic() < end:
        time.sleep(0.01)
    wait_until_asleep(child.pid)


def ended(child: "subprocess.Popen[bytes]", numbers: Sequence[int]) -> Tuple[bytes, bytes]:
    """What a child writes that these signals end, while its input stays open. Its main thread takes them in turn."""
    for number in (signal.SIGSTOP, *numbers, signal.SIGCONT):
        ctypes.CDLL(None).tgkill(child.pid, child.pid, number)
    out, err = child.stdout, child.stderr
    assert out is not None and err is not None
    timer = threading.Timer(SECONDS, child.kill)
    timer.start()
    found = out.read(), err.read()
    timer.cancel()
    return found


def problems_of_signal(name: str, stream: Stream, number: int) -> Iterator[str]:
    child = started(name, stream.words)
    assert child.stdin is not None
    child.stdin.write(stream.stdin)
    await_read(child)
    out, err = ended(child, [number])
    if child.wait(SECONDS) != -number or stream.stdout not in out or not err.startswith(stream.stderr):
        yield f"{name}: {signal.Signals(number).name}: status {child.returncode}, {out[-200:]!r}, {err!r}"
    child.stdin.close()


def first_signal_ends_the_stream(_: Path) -> List[str]:
    """The first signal is the end of a stream: what came before is written whole, and the status is of the signal."""
    rows = [(name, stream, number) for name, stream in STREAMS.items() for number in SIGNALS]
    return [problem for row in rows for problem in problems_of_signal(*row)]


def second_signal_ends_at_once(_: Path) -> List[str]:
    """The second one ends a script at once: the status is of that one, and nothing is written of a whole."""
    problems = []
    for name in ("bus-summary", "draft-dictionary"):
        child = started(name, [])
        assert child.stdin is not None
        child.stdin.write(LISTING)
        await_read(child)
        out, _ = ended(child, SIGNALS)
        if child.wait(SECONDS) != -signal.SIGTERM or out:
            problems.append(f"{name}: status {child.returncode}, {out!r}")
        child.stdin.close()
    return problems


def hangup_is_passed_over(_: Path) -> List[str]:
    """A hangup does nothing where it is to be passed over, as `nohup` has it."""
    before = signal.signal(signal.SIGHUP, signal.SIG_IGN)
    try:
        child = started("bus-summary", [])
    finally:
        signal.signal(signal.SIGHUP, before)
    assert child.stdin is not None
    child.stdin.write(LISTING)
    await_read(child)
    out, _ = ended(child, [signal.SIGHUP, signal.SIGTERM])
    child.stdin.close()
    is_whole = child.wait(SECONDS) == -signal.SIGTERM and STREAMS["bus-summary"].stdout in out
    return [] if is_whole else [f"status {child.returncode}, {out!r}"]


def half_a_dictionary_is_none(_: Path) -> List[str]:
    """A signal ends a script at once that reads no stream."""
    child = started("dictionary-to-lua", [])
    assert child.stdin is not None
    child.stdin.write(DICTIONARY.encode())
    await_read(child)
    out, _ = ended(child, [signal.SIGTERM])
    child.stdin.close()
    return [] if child.wait(SECONDS) == -signal.SIGTERM and not out else [f"status {child.returncode}, {out!r}"]


def unfinished_files_are_removed(folder: Path) -> List[str]:
    """A capture file is there whole after the first signal, and not at all after two; no other file stays."""
    problems = []
    for numbers, wanted in ((SIGNALS[1:], ["a.pcapng"]), (SIGNALS, [])):
        child = started("list-to-pcap", ["153600", str(folder / "a.pcapng")])
        assert child.stdin is not None
        child.stdin.write(LISTING)
        await_read(child)
        ended(child, numbers)
        child.wait(SECONDS)
        child.stdin.close()
        found = sorted(path.name for path in folder.iterdir())
        problems += [] if found == wanted else [f"after {len(numbers)} signals: {found}"]
        for path in folder.iterdir():
            path.unlink()
    return problems


def read_soon(child: "subprocess.Popen[bytes]") -> bytes:
    """What a child writes next; nothing where it ends, or nothing comes."""
    assert child.stdout is not None
    is_there = select.select([child.stdout], [], [], SECONDS)[0]
    return os.read(child.stdout.fileno(), 1 << 16) if is_there else b""


def lines_come_at_once(_: Path) -> List[str]:
    """A single line of a listing is an object while nothing follows it."""
    child = started("list-to-jsonl", [])
    assert child.stdin is not None
    problems = []
    for number in range(5):
        child.stdin.write(LISTING[: len(LISTING) // 3])
        if read_soon(child).count(b"\n") != 1:
            problems.append(f"line {number} does not come")
            break
    child.stdin.close()
    child.wait(SECONDS)
    return problems


def samples_of(hertz: int) -> bytes:
    """A tenth of a second of four channels: both clocks, and data that changes now and then."""
    period = hertz / 153600
    found = bytearray()
    for bit in range(15360):
        data = 0b1010 if bit % 48 < 40 or bit % 2 else 0b1000 if bit % 96 < 48 else 0b0010
        past = round((bit + 1) * period)
        half = (past - len(found)) // 2
        found += bytes([data]) * half + bytes([data | 0b0101]) * (past - len(found) - half)
    return bytes(found)


def delays_of(hertz: int) -> List[float]:
    """How long the bits of each fiftieth of two seconds take to come; no more samples are given before they have."""
    tenth, step, delays = samples_of(hertz), hertz // 50, []
    child = started("recording-to-bits", ["--samplerate", str(hertz), "0", "1", "2", "3"])
    assert child.stdin is not None
    for fiftieth in range(100):
        at, begun, bits = fiftieth % 5 * step, time.monotonic(), 0
        child.stdin.write(tenth[at : at + step])
        while bits < 3072 and (piece := read_soon(child)):
            bits += len(piece.translate(None, b"\noi"))
        if bits != 3072:
            child.kill()
            return [math.inf]
        delays.append(time.monotonic() - begun)
    child.stdin.close()
    child.wait(SECONDS)
    return delays


def bits_come_soon(_: Path) -> List[str]:
    """All bits of the samples so far come while no more do, at any rate of samples."""
    rates = (1_000_000, 4_000_000)
    return [f"{hertz} samples a second: not all bits come" for hertz in rates if math.inf in delays_of(hertz)]


def processor_time() -> float:
    """What children that have ended took of a processor, in seconds."""
    used = resource.getrusage(resource.RUSAGE_CHILDREN)
    return used.ru_utime + used.ru_stime


def one_processor_keeps_up(_: Path) -> List[str]:
    """On a machine that is free, 95 of 100 delays are within a tenth of a second, and a processor has time to spare."""
    before, delays, after = processor_time(), sorted(delays_of(4_000_000)), processor_time()
    late, taken = delays[len(delays) * 95 // 100], after - before
    return [] if late <= 0.1 and taken < 2.0 else [f"{late:.2f} s late; two seconds take {taken:.1f} s of a processor"]


def events_come_at_once(_: Path) -> List[str]:
    """A clock that stops is told while it does: its last edge is four samples before the end of three tenths."""
    child = started("recording-to-bits", ["--events", "--samplerate", "1M", "0", "1", "2", "3"])
    assert child.stdin is not None and child.stdout is not None and child.stderr is not None
    threading.Thread(target=child.stdout.read, daemon=True).start()
    told: List[bytes] = []
    reader = threading.Thread(target=lambda: told.append(child.stderr.readline()), daemon=True)
    reader.start()
    tenth = samples_of(1_000_000)
    child.stdin.write(3 * tenth)
    deadline = time.monotonic() + SECONDS
    while reader.is_alive() and time.monotonic() < deadline:
        child.stdin.write(tenth[-1:] * 1000)
        time.sleep(0.001)
    child.kill()
    child.wait(SECONDS)
    return [] if told == [b"recording-to-bits: event: 0 stops (at 0.299996 s)\n"] else [f"{told}"]

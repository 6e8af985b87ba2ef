"""The firmware of c/examples/mcu, on an emulated Cortex-M3: what it writes, octet for octet."""

import fcntl
import os
import random
import re
import select
import shutil
import signal
import socket
import subprocess
import threading
import time
from contextlib import contextmanager
from pathlib import Path
from typing import IO, Iterator, List, NamedTuple, Sequence, Tuple

from needs import SPECS_OF_NEWLIB, needs, needs_file
from tests.case import CALL, REPLY, SECONDS, TOP, Word, listed, packed, plain, random_bits, written_by
from tests.simulated.cabinet import Cabinet, arrivals_of, recorded_of
from tests.targets import BUILD

FIRMWARE = TOP / "c" / "examples" / "mcu"

DICTIONARY = (TOP / "examples" / "call-within-window.toml").read_text(encoding="ascii")


def made(folder: Path, firmware: str, *settings: str) -> List[Word]:
    """Builds a firmware, and returns the words of make that build and run it."""
    needs("arm-none-eabi-gcc", "qemu-system-arm")
    shutil.copytree(FIRMWARE, folder / "mcu")
    words: List[Word] = ["make", "-s", "-C", folder / "mcu", *settings]
    written_by([*words, firmware])
    return words


# ---- the tap of one line, which lists it


def captures_of_one_line() -> Iterator[Tuple[str, bytes]]:
    """The examples of one line, and random bits between good frames, packed."""
    examples = TOP / "examples"
    for name in ("missing-and-spoilt", "damage-abort-idle", "in-time-late-missing", "one-call"):
        yield name, packed(plain((examples / f"{name}.bits").read_text(encoding="ascii")))
    generator = random.Random(5)
    pieces = [plain(CALL), plain(REPLY), plain(CALL), "1" * 20, random_bits(generator, 60)]
    yield "random", packed("".join(generator.choice(pieces) for _ in range(300)))


def firmware_lists(folder: Path) -> List[str]:
    """The listing of one line is that of `port1 list`, the names aside."""
    target = "thumbv7m-none-eabi"
    needs("arm-none-eabi-gcc", "qemu-system-arm")
    needs_file(SPECS_OF_NEWLIB)
    subprocess.run([BUILD, folder, target], check=True, stdout=subprocess.DEVNULL, stderr=subprocess.DEVNULL)
    archive, include = folder / target / "libport1_c.a", TOP / "c" / "include"
    words = made(folder, "listing.elf", f"LIBRARY={archive}", f"INCLUDE={include}")
    problems = []
    for name, capture in captures_of_one_line():
        lines = listed(capture, ["--dict", DICTIONARY]).stdout.decode()
        wanted = re.sub(r" (call|reply|notice)$", "", lines, flags=re.MULTILINE)
        # The emulator ends with its input, also while the firmware still has some.
        with subprocess.Popen([*words, "run"], stdin=subprocess.PIPE, stdout=subprocess.PIPE) as run:
            assert run.stdin is not None and run.stdout is not None
            run.stdin.write(capture)
            run.stdin.flush()
            got = run.stdout.read().decode()
        problems += [] if got == wanted else [f"{name}: wanted {wanted[-200:]!r}, got {got[-200:]!r}"]
    return problems


# ---- the tap of two lines, which writes their bits in the order of arrival


class Tap(NamedTuple):
    """The emulated board: where the clocks' edges go in, and where the text comes out."""

    lines: Sequence[socket.socket]
    written: IO[bytes]

    def edge(self, letter: str) -> None:
        """An edge of the clock of the letter's line, with the level of its data."""
        self.lines[letter in "oi"].sendall(b"1" if letter in "1i" else b"0")

    def read(self, count: int) -> str:
        """So many letters, which stand 64 in a line."""
        text = ""
        while len(text) < count:
            octets = self.written.read(1) if select.select([self.written], [], [], SECONDS)[0] else b""
            if not octets:
                raise OSError(f"no letter came after {len(text)}")
            text += octets.decode().strip("\n")
        return text


def connected(path: Path) -> socket.socket:
    """A line of the emulator, which makes its socket when it starts; little waits in it."""
    line, end = socket.socket(socket.AF_UNIX), time.monotonic() + SECONDS
    line.setsockopt(socket.SOL_SOCKET, socket.SO_SNDBUF, 1)
    line.settimeout(SECONDS)
    while True:
        try:
            line.connect(str(path))
            return line
        except OSError:
            if time.monotonic() > end:
                raise
            time.sleep(0.02)


@contextmanager
def running(folder: Path) -> Iterator[Tap]:
    """The tap at work; make and the emulator are a group of their own, and are ended."""
    sockets = [folder / name for name in ("controller", "stations")]
    settings = [f"{path.name.upper()}=unix:{path},server" for path in sockets]
    words = [*made(folder, "arrivals.elf"), "run-arrivals", *settings]
    pipes = {"stdin": subprocess.PIPE, "stdout": subprocess.PIPE, "stderr": subprocess.DEVNULL}
    with subprocess.Popen(words, start_new_session=True, bufsize=0, **pipes) as run:
        timer = threading.Timer(SECONDS, os.killpg, [run.pid, signal.SIGKILL])
        timer.start()
        lines = [connected(path) for path in sockets]
        try:
            yield Tap(lines, run.stdout)
        finally:
            timer.cancel()
            os.killpg(run.pid, signal.SIGKILL)
            for line in lines:
                line.close()


def arrivals_of_cabinets() -> Iterator[Tuple[str, str]]:
    """The arrivals of an example, and of cabinets whose clocks differ."""
    yield "two-clocks", plain((TOP / "examples" / "two-clocks.arrivals").read_text(encoding="ascii"))
    for seed, (ppm, gated) in enumerate([(80, True), (-150, False)]):
        yield f"{ppm} ppm", arrivals_of(recorded_of(Cabinet(seed=seed, ppm=ppm, gated=gated, polls=3)))


def firmware_taps(folder: Path) -> List[str]:
    """Edges one after the other: the bits in their order, and `port1` reads them."""
    problems = []
    with running(folder) as tap:
        for name, arrivals in arrivals_of_cabinets():
            got = ""
            for letter in arrivals:
                tap.edge(letter)
                got += tap.read(1)
            problems += [] if got == arrivals else [f"{name}: {len(arrivals)} bits are others: {got[-100:]}"]
            if name == "two-clocks":
                listing = listed(got.encode(), ["--bits", "--arrivals", "--kind", "frame"])
                wanted = b"1 8 49 frame 108300fde5\n2 64 105 frame 108380f561\n"
                problems += [] if listing.stdout == wanted else [f"{name}: {listing}"]
    return problems


def firmware_taps_both_at_once(folder: Path) -> List[str]:
    """Edges of both clocks as fast as they can: the bits of each line are whole, in their order."""
    generator = random.Random(6)
    sent = [random_bits(generator, 10000) for _ in range(2)]
    with running(folder) as tap:
        threads = [threading.Thread(target=line.sendall, args=[bits.encode()]) for line, bits in zip(tap.lines, sent)]
        for thread in threads:
            thread.start()
        got = tap.read(sum(map(len, sent)))
        for thread in threads:
            thread.join()
    lines = [re.sub("[^01]", "", got), re.sub("[^oi]", "", got).translate(str.maketrans("oi", "01"))]
    return [f"line {number} has other bits" for number in (1, 2) if lines[number - 1] != sent[number - 1]]


def firmware_marks_what_is_lost(folder: Path) -> List[str]:
    """While nobody reads, `!` stands where bits are missing, the others are in their order, and `port1` stops there."""
    sent = random_bits(random.Random(7), 40000)
    with running(folder) as tap:
        fcntl.fcntl(tap.written, fcntl.F_SETPIPE_SZ, 4096)
        for letter in sent:
            tap.edge(letter)
        got = tap.read(4096)
        for letter in "oo":
            tap.edge(letter)
        while "oo" not in got:
            got += tap.read(1)
    pieces, at = re.split("!+", got[: got.index("oo")]), 0
    problems = [] if len(pieces) > 1 and sent.startswith(pieces[0]) else [f"{len(pieces)} pieces: {got[-100:]}"]
    for piece in pieces:
        found = sent.find(piece, at)
        problems += [] if found >= at else [f"{len(piece)} bits are not those after {at}"]
        at = found + len(piece) + 1
    fault = listed(got.encode(), ["--bits", "--arrivals"]).stderr.decode()
    wanted = f"port1: capture: octet {got.find('!')} is no bit\n"
    return problems + ([] if fault == wanted else [f"wanted {wanted!r}, got {fault!r}"])

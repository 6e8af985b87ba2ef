"""Listings for the tests of scripts, as JSON and as drafts of dictionaries; and big ones."""

import json
import os
import random
import subprocess
import sys
from pathlib import Path
from typing import Any, Dict, Iterator, List, Sequence, Tuple

from tests.case import SCRIPTS, SECONDS, TOP, Run, listed, ran
from tests.simulated.failing_bus import failing_bus

EXAMPLE = TOP / "examples" / "port1-failure.bits"

# The lines of big listings, how long a summary of one may take, in seconds, and how much memory, in KiB.
BIG = 1_000_000
MOST_SECONDS = 30
MOST_MEMORY = 60_000

# How much more memory ten times as many lines may take, in KiB.
MORE_MEMORY = 4_000

VECTORS = json.loads((TOP / "examples" / "vectors" / "listings.json").read_text(encoding="ascii"))


def text_of(lines: Sequence[str]) -> bytes:
    return "".join(line + "\n" for line in lines).encode()


def listing_named(name: str) -> bytes:
    """The listing of a vector."""
    return next(text_of(row["listing"]) for row in VECTORS if row["name"] == name)


# Each kind of line of a listing of one line of the bus; of two lines; and one without a dictionary, with three commands
# to two stations with answers, of two lengths, and others.
ONE_LINE, TWO_LINES, PLAIN = map(listing_named, ["each kind of line", "two lines, with times", "a draft"])


class Listing:
    """A listing of two lines of the bus, made line by line."""

    def __init__(self) -> None:
        self.texts: List[str] = []

    def command(self, station: int, frame_type: int, first: int, name: str = "call") -> None:
        octets = f"{station:02x}83{frame_type:02x}fde5"
        self.texts.append(f"1 {first} {first + 41} frame {octets} station {station} type {frame_type} {name}")

    def answer(self, station: int, frame_type: int, first: int, name: str = "reply") -> None:
        octets = f"{station:02x}83{frame_type + 128:02x}fde5"
        self.texts.append(f"2 {first} {first + 41} frame {octets} station {station} type {frame_type + 128} {name}")

    def verdict(self, word: str, station: int, frame_type: int, first: int) -> None:
        self.texts.append(f"1 {first} {first + 41} {word} station {station} type {frame_type}")

    def exchange(self, station: int, frame_type: int, first: int, reply_bits: int, word: str = "answered") -> None:
        self.command(station, frame_type, first)
        self.answer(station, frame_type, first + 41 + reply_bits)
        self.verdict(word, station, frame_type, first)

    def damage(self, line: int, first: int, text: str = "damaged fcs") -> None:
        self.texts.append(f"{line} {first} {first + 40} {text}")

    def octets(self) -> bytes:
        return "".join(text + "\n" for text in self.texts).encode()

    def of_one_line(self) -> bytes:
        return "".join(text[2:] + "\n" for text in self.texts).encode()


def failing_listing() -> bytes:
    """What the generator of examples/port1-failure.bits says of it, as a listing."""
    listing = Listing()
    for told in sorted(failing_bus().told, key=lambda told: told.first):
        kind = 0 if told.station == 16 else 1
        if told.fate == "destroyed":
            listing.damage(1, told.first)
        elif told.fate == "missing":
            listing.command(told.station, kind, told.first)
            listing.verdict("missing", told.station, kind, told.first)
        else:
            listing.exchange(told.station, kind, told.first, told.reply_bits, told.fate)
    return listing.octets()


def good_listing() -> Listing:
    """Four commands, one each 10 ms, which are answered 100 bits later."""
    listing = Listing()
    for number in range(4):
        listing.exchange(16, 0, 8 + number * 1536, 100)
    return listing


RATE_USAGE = "usage: {0} [-h] [--rate RATE]{2}\n{0}: error: --rate: \"{1}\" is no whole number above 0\n"

NO_TYPE = "the listing has no frame of a type"

DRAFT_USAGE = "usage: draft-dictionary [-h]\ndraft-dictionary: error: x.txt is one word too many\n"

# Texts that are no line of a listing.
BAD_LINES = [
    *["frames 2", "", "8 49", "8 49 frame", "8 49 frame 1083x", "3 8 49 idle", "8 49 damaged", "8 49 damaged soft"],
    *["8 49 answered station 16", "8 49 idle more", " 8 49 idle", "8 49 idle ", "8 -9 idle", "8 49 frame 108", "\t"],
]


def bad_line(script: str, text: str) -> str:
    return f"{script}: line 2 is no line of `port1 list`: {json.dumps(text)}\n"


RUNS = [
    *(Run(row["name"], row["words"], text_of(row["listing"]), text_of(row["output"])) for row in VECTORS),
    Run("nothing", ["list-to-jsonl"], b""),
    Run("a last line without an end", ["list-to-jsonl"], b"8 9 open", b'{"first": 8, "past": 9, "kind": "open"}\n'),
    Run("no rate", ["list-to-jsonl", "--rate", "0"], b"", b"", RATE_USAGE.format("list-to-jsonl", "0", ""), 2),
    Run(
        "octets above 127", ["list-to-jsonl"], b"8 9 open\n\xff8 9 open\n",
        b'{"first": 8, "past": 9, "kind": "open"}\n',
        "list-to-jsonl: line 2 is no line of `port1 list`: \"\ufffd8 9 open\"\n", 2,
    ),
    *(
        Run(
            f"no line: {text!r}", ["list-to-jsonl"], f"8 9 open\n{text}\n".encode(),
            b'{"first": 8, "past": 9, "kind": "open"}\n', bad_line("list-to-jsonl", text), 2,
        )
        for text in BAD_LINES
    ),
    Run("no typed frame", ["draft-dictionary"], b"8 40 frame 1083452c\n", b"", f"draft-dictionary: {NO_TYPE}\n", 2),
    Run("no line", ["draft-dictionary"], b"8 9 open\n8 9\n", b"", bad_line("draft-dictionary", "8 9"), 2),
    Run("a wrong call", ["draft-dictionary", "x.txt"], b"", b"", DRAFT_USAGE, 2),
]


def objects_of(listing: bytes, *words: str) -> List[Dict[str, Any]]:
    return [json.loads(line) for line in ran(["list-to-jsonl", *words], listing).stdout.splitlines()]


def typed_frames(generator: random.Random) -> List[Tuple[int, int]]:
    """Types and lengths, each type with the length that most of its frames have."""
    return [(number, generator.randrange(200)) for number in generator.sample(range(256), 60)]


def drafts_are_accepted(_: Path) -> List[str]:
    """A draft is a dictionary that fits all frames it was made from, of random types and of the example."""
    generator = random.Random(14)
    problems = []
    frames = [
        bytes([generator.randrange(255), 0x83, number, *(generator.randrange(256) for _ in range(length))])
        for number, length in typed_frames(generator)
    ]
    text = "".join(f"frame {frame.hex()}\n" for frame in frames for _ in range(2)).encode()
    encoded = subprocess.run([os.environ["PORT1"], "encode"], input=text, stdout=subprocess.PIPE, check=True).stdout
    for capture, options in [(encoded, ["--bits"]), (EXAMPLE.read_bytes(), ["--bits", "--two"])]:
        draft = ran(["draft-dictionary"], listed(capture, options).stdout).stdout.decode()
        for dictionary in (draft, draft.replace("# window", "window")):
            got = listed(capture, [*options, "--dict", dictionary.rstrip("\n")])
            names = [found.get("name", "") for found in objects_of(got.stdout) if found["kind"] == "frame"]
            if got.returncode != 0 or not names or not all(name.startswith("type") for name in names):
                problems.append(f"status {got.returncode}, {got.stderr!r}, {set(names)}")
    return problems


def big_listing(count: int) -> Iterator[bytes]:
    """Exchanges with five stations on two lines, an idle time after each answer, and damage now and then."""
    generator = random.Random(16)
    for number in range(count // 4):
        listing = Listing()
        first = number * 1536 + 8
        if generator.randrange(50) == 0:
            for piece in range(4):
                listing.damage(1 + piece % 2, first + 100 * piece)
        else:
            reply_bits = generator.randrange(16, 900)
            listing.exchange(16 + number % 5, 0, first, reply_bits)
            listing.texts.append(f"1 {first + reply_bits + 20} {first + reply_bits + 35} idle")
        yield listing.octets()


# Runs a program whose usage is not that of the process of the tests, and writes its seconds and KiB.
MEASURE = """
import resource, subprocess, sys
subprocess.run(sys.argv[1:], stdout=subprocess.DEVNULL, check=True)
usage = resource.getrusage(resource.RUSAGE_CHILDREN)
print(usage.ru_utime + usage.ru_stime, usage.ru_maxrss)
"""


def timed(script: str, listing: Path) -> Tuple[float, int]:
    """How many seconds of a processor a script needs for a listing, and how much memory, in KiB."""
    words = [sys.executable, "-c", MEASURE, SCRIPTS / script]
    with listing.open("rb") as source:
        measured = subprocess.run(words, stdin=source, stdout=subprocess.PIPE, check=True, timeout=SECONDS)
    seconds, memory = measured.stdout.split()
    return float(seconds), int(memory)


def big_listings(folder: Path) -> List[str]:
    """A million lines, in a time that slow machines keep too, and in memory that does not grow."""
    small, big = folder / "small.txt", folder / "big.txt"
    for file, count in [(small, BIG // 10), (big, BIG)]:
        with file.open("wb") as sink:
            sink.writelines(big_listing(count))
    problems = []
    for script in ("bus-summary", "draft-dictionary", "list-to-jsonl"):
        (_, little), (seconds, much) = timed(script, small), timed(script, big)
        if seconds > MOST_SECONDS:
            problems.append(f"{script}: {seconds:.1f} s")
        if much > MOST_MEMORY or much - little > MORE_MEMORY:
            problems.append(f"{script}: {little} KiB, then {much} KiB")
    return problems

"""Outputs of the commands that were kept, so that another writing of a command cannot change them unseen.

`golden.json` has a line for each run: its name, status and both streams, long ones by their SHA-256. Where an output is
to change, this writes the file anew, and the change stands in CHANGELOG.md:

    cd scripts && PYTHONPATH=../tests:. python3 -B -m tests.golden
"""

import hashlib
import json
import subprocess
from functools import lru_cache
from pathlib import Path
from typing import Any, Callable, Iterator, List, NamedTuple, Sequence

from needs import needs
from tests import listings, summaries
from tests.case import SCRIPTS, TOP, ran

KEPT = SCRIPTS / "tests" / "golden.json"

EXAMPLES = TOP / "examples"

# Outputs up to this length stand as text.
SHORT = 400

# Random listings, of one line of the bus and of two in turn.
MADE = 24

MADE_LISTINGS = f"""
import {{ madeListing }} from "{SCRIPTS}/modules/tests/support/made_listing.js";
const texts = Array.from({{ length: {MADE} }}, (_, seed) => madeListing(seed + 1, seed % 2 === 0));
process.stdout.write(JSON.stringify(texts));
"""


class Case(NamedTuple):
    """A run: its name, its words, and what makes its input."""

    name: str
    words: Sequence[str]
    stdin: Callable[[], bytes]


@lru_cache(maxsize=None)
def samples() -> bytes:
    """The rows of the example of four wires as binary samples, channel 0 lowest."""
    rows = (EXAMPLES / "four-wires.csv").read_text(encoding="ascii").splitlines()
    cells = [row.split(",")[-4:] for row in rows if row[:1].isdigit()]
    return bytes(sum(int(cell) << at for at, cell in enumerate(row)) for row in cells)


@lru_cache(maxsize=None)
def made() -> List[bytes]:
    words = ["node", "--input-type=module", "--eval", MADE_LISTINGS]
    return [text.encode() for text in json.loads(subprocess.run(words, check=True, capture_output=True).stdout)]


@lru_cache(maxsize=None)
def big() -> bytes:
    return b"".join(listings.big_listing(listings.BIG))


def inputs() -> Iterator[Any]:
    """Listings, by their names."""
    yield "each kind", lambda: listings.ONE_LINE
    yield "two lines", lambda: listings.TWO_LINES
    yield "no dictionary", lambda: listings.PLAIN
    yield "good", listings.good_listing().octets
    yield "gap", summaries.polled(50, range(33, 38), [10, 35, 45]).octets
    yield "failing", listings.failing_listing
    yield "big", big
    yield from ((f"random {number}", lambda number=number: made()[number]) for number in range(MADE))


def cases() -> Iterator[Case]:
    for name, listing in inputs():
        for script, *words in [
            ["bus-summary"], ["bus-summary", "--rate=9600"], ["draft-dictionary"], ["list-to-jsonl"],
            ["list-to-jsonl", "--rate=153600"], ["list-to-pcap", "153600", "--text"],
        ]:
            yield Case(f"{script} {' '.join(words)}: {name}", [script, *words], listing)
    for name, *channels in [
        ["four-wires.csv", "TXC", "TXD", "RXC", "RXD"], ["four-wires.csv", "--falling", "TXC", "TXD", "RXC", "RXD"],
        ["four-wires.csv", "TXC", "TXD", "RXD"], ["four-wires.csv", "RXC", "RXD"], ["four-wires.csv", "TXC", "none"],
        ["call-and-reply.vcd", "clk", "tx", "rx"], ["call-and-reply.vcd", "--falling", "clk", "tx"],
        ["one-call.vcd", "0", "1"], ["one-call.bits", "0", "1"],
    ]:
        file = EXAMPLES / name
        yield Case(f"recording-to-bits: {name} {' '.join(channels)}", ["recording-to-bits", *channels], file.read_bytes)
    wires = ["0", "1", "2", "3"]
    yield Case("recording-to-bits: samples", ["recording-to-bits", "--format=binary", *wires], samples)
    yield Case("recording-to-bits: samples and a rate", ["recording-to-bits", "--samplerate=1M", *wires], samples)
    yield Case("recording-to-bits: samples of two octets", ["recording-to-bits", "--octets=2", "8", "9"], samples)
    for dictionary in sorted(EXAMPLES.glob("*.toml")):
        name = dictionary.stem.replace("-", "_")
        yield Case(f"dictionary-to-lua: {dictionary.name}", ["dictionary-to-lua"], dictionary.read_bytes)
        words = ["dictionary-to-lua", "--name", name]
        yield Case(f"dictionary-to-lua: {dictionary.name} by a name", words, dictionary.read_bytes)


def shown(octets: bytes) -> str:
    return octets.decode() if len(octets) <= SHORT else f"sha256:{hashlib.sha256(octets).hexdigest()}"


def outcome(case: Case) -> List[Any]:
    got = ran(case.words, case.stdin())
    return [got.returncode, shown(got.stdout), shown(got.stderr)]


def problems_of(which: Callable[[Case], bool]) -> List[str]:
    needs("node")
    kept = json.loads(KEPT.read_text(encoding="utf-8"))
    wanted = [case for case in cases() if which(case)]
    problems = []
    for case in wanted:
        got = outcome(case)
        problems += [] if got == kept.get(case.name) else [f"{case.name}: {got}, not {kept.get(case.name)}"]
    return problems


def outputs_of_small_inputs(_: Path) -> List[str]:
    return problems_of(lambda case: not case.name.endswith(": big"))


def outputs_of_big_listings(_: Path) -> List[str]:
    return problems_of(lambda case: case.name.endswith(": big"))


if __name__ == "__main__":
    rows = ",\n".join(f" {json.dumps(case.name)}: {json.dumps(outcome(case))}" for case in cases())
    KEPT.write_text(f"{{\n{rows}\n}}\n", encoding="utf-8")

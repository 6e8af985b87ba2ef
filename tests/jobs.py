"""Files that the page and the program list."""

import os
import random
import subprocess
import sys
from pathlib import Path
from typing import Dict, Iterator, NamedTuple, Optional, Tuple, Union

TOP = Path(__file__).resolve().parent.parent

sys.path.append(str(TOP / "c" / "tests"))

from needs import Skipped
from table.captures import packed, packed_marks
from workbench import Bench, captures, talk, traffic

# How long anything may take, in seconds.
SECONDS = 1800

PROGRAM = Path(os.environ.get("PORT1") or TOP / "crates" / "port1" / "out" / "port1")

# A dictionary whose names a careless page would run, and the talk of c/tests/workbench.py in its types.
NAMES = """\
version = 2
[[frame]]
type = 0
name = "<img/src=x/onerror=alert(1)>"
length = 1
answered = true
window = 40
[[frame]]
type = 1
name = "</script><script>alert(2)</script>"
length = 0
answered = true
[[frame]]
type = 9
name = "&lt;b&gt;"
length = 2
[[frame]]
type = 128
name = "unknown"
length = 2
[[frame]]
type = 129
name = "length"
length = 1
"""


class Job(NamedTuple):
    """A file that the page and the program list."""

    name: str
    content: bytes
    words: Tuple[str, ...]  # of the program
    form: str
    kind: Union[int, str]
    dictionary: str = ""
    rest: Optional[int] = None  # what brings the second line to rest, where it is said


def bench() -> Bench:
    if not PROGRAM.is_file():
        raise Skipped(f"there is no {PROGRAM}: `make` builds it")
    return Bench(PROGRAM, Path(), Path())


def program_lists(job: Job) -> Tuple[str, Optional[str]]:
    """What the program writes, and its fault."""
    words = [str(PROGRAM), "list", *job.words, *([f"--dict={job.dictionary}"] if job.dictionary else [])]
    ran = subprocess.run(words, input=job.content, capture_output=True, timeout=SECONDS)
    fault = ran.stderr.decode().strip()
    return ran.stdout.decode(), fault[len("port1: ") :] if fault else None


# How the program is told the kind of a capture.
KINDS: Dict[Union[int, str], Tuple[str, ...]] = {1: (), 2: ("--two",), "arrivals": ("--arrivals",)}


def text_job(name: str, bits: str, kind: Union[int, str], dictionary: str) -> Job:
    return Job(name, bits.encode(), ("--bits", *KINDS[kind]), "text", kind, dictionary)


def packed_arrivals(marks: str) -> bytes:
    """Bits in the order of arrival as a packed capture."""
    return packed_marks(b"TS2BITS3", ["01oi".index(mark) for mark in marks])


def arrived(generator: random.Random, first: str, second: str) -> str:
    """The bits of two lines with a clock each: the second drifts, and stops for a while now and then."""
    marks, drift = [], generator.choice([0, 0.01, -0.01, 0.3])
    others, due = iter(second), 0.0
    for bit in first:
        marks.append(bit)
        due += 1 + drift if generator.random() > 0.0005 else -generator.randrange(900)
        while due >= 1:
            marks.append({"0": "o", "1": "i"}.get(next(others, ""), ""))
            due -= 1
    return "".join(marks)


def packed_pairs(marks: str) -> bytes:
    return packed_marks(b"TS2BITS2", [int(mark) for mark in marks])


def example_jobs() -> Iterator[Job]:
    """Every capture among the examples, with each dictionary there and without."""
    dictionaries = ["", *(path.read_text() for path in sorted((TOP / "examples").glob("*.toml")))]
    for path in sorted(path for form in ("bits", "ts2", "arrivals") for path in (TOP / "examples").glob(f"*.{form}")):
        content = path.read_bytes()
        is_text = path.suffix in (".bits", ".arrivals")
        is_two = content.startswith(b"TS2BITS2") or (is_text and any(mark in content for mark in b"23"))
        has_arrivals = content.startswith(b"TS2BITS3") or path.suffix == ".arrivals"
        kind = "arrivals" if has_arrivals else 1 + is_two
        words = (("--bits",) if is_text else ()) + KINDS[kind]
        for number, dictionary in enumerate(dictionaries):
            yield Job(f"{path.name}, dictionary {number}", content, words, "text" if is_text else "packed", kind, dictionary)


def generated_jobs(count: int) -> Iterator[Job]:
    """Talks of one line and of two, with dictionaries, as text and packed."""
    here = bench()
    dictionaries = [NAMES, (TOP / "examples" / "call-within-window.toml").read_text(), ""]
    for seed in range(count):
        generator = random.Random(seed)
        first, second = talk(here, generator), talk(here, generator)
        dictionary = dictionaries[seed % 3]
        pairs = "".join(str(int(one) + 2 * int(other)) for one, other in zip(first, second))
        yield text_job(f"one line, seed {seed}", first, 1, dictionary)
        yield text_job(f"two lines, seed {seed}", pairs, 2, dictionary)
        yield Job(f"one line, packed, seed {seed}", packed(first), (), "packed", 1, dictionary)
        yield Job(f"two lines, packed, seed {seed}", packed_pairs(pairs), ("--two",), "packed", 2, dictionary)
        marks = arrived(generator, first, second)
        yield text_job(f"two clocks, seed {seed}", marks, "arrivals", dictionary)
        yield Job(f"two clocks, packed, seed {seed}", packed_arrivals(marks), ("--arrivals",), "packed", "arrivals", dictionary)
        rest = generator.choice([0, 3, 400])
        words = ("--bits", "--arrivals", f"--rest={rest}")
        yield Job(f"two clocks, rest {rest}, seed {seed}", marks.encode(), words, "text", "arrivals", dictionary, rest)


def traffic_jobs() -> Iterator[Job]:
    """Traffic of every kind, and captures longer than the blocks that the page gives to the decoder."""
    here = bench()
    for name, capture in captures(here):
        yield Job(name, capture, (), "packed", 1)
    for kind, made in traffic(here).items():
        bits = made(random.Random(5), 1200007)
        yield text_job(f"1200007 bits of {kind}", bits, 1, "")
        pairs = bits.replace("1", "3")
        yield text_job(f"1200007 pairs of {kind}", pairs, 2, NAMES)
        yield text_job(f"arrivals of {kind}", arrived(random.Random(6), bits[:600007], bits[600007:]), "arrivals", NAMES)


def broken_jobs() -> Iterator[Job]:
    """Captures with each fault that there can be."""
    bits = "0111111000001000110000010000000010111110110100111011111101111111111111110"
    whole = packed(bits)
    pairs = packed_pairs(bits)
    for cut in [0, 5, 8, 15, 16, 17, 20]:
        yield Job(f"packed, cut after {cut} octets", whole[:cut], (), "packed", 1)
        yield Job(f"packed pairs, cut after {cut} octets", pairs[:cut], ("--two",), "packed", 2)
    yield Job("wrong magic", b"TS2BITS3" + whole[8:], (), "packed", 1)
    yield Job("one line for two", whole, ("--two",), "packed", 2)
    yield Job("two lines for one", pairs, (), "packed", 1)
    yield Job("too many bits", b"TS2BITS1" + (2**60 + 1).to_bytes(8, "little"), (), "packed", 1)
    yield Job("spare bits", whole[:-1] + bytes([whole[-1] | 0x80]), (), "packed", 1)
    yield Job("spare pairs", pairs[:-1] + bytes([pairs[-1] | 0x80]), ("--two",), "packed", 2)
    yield Job("octets after the end", whole + b"\0", (), "packed", 1)
    for wrong in "x2~":
        yield text_job(f"{wrong} in the text", bits[:60] + wrong + bits[60:], 1, "")
    yield text_job("4 in a text of two lines", bits[:60] + "4" + bits[60:], 2, "")
    yield text_job("a pair among arrivals", bits[:60] + "oi2" + bits[60:], "arrivals", "")
    arrivals = packed_arrivals("01oi" * 5 + "0")
    for content in [arrivals[:-1], arrivals + b"\0", arrivals[:-1] + b"\x04"]:
        yield Job(f"arrivals that end in {content[-2:]!r}", content, ("--arrivals",), "packed", "arrivals")
    yield text_job("spaces", " ".join(bits) + "\r\n\t", 1, "")
    yield text_job("nothing", "", 1, "")
    for text in ["version = 3", "x", "version = 1\n[[frame]]\ntype = 256", NAMES.replace("length = 2", "length = 254")]:
        yield text_job(f"a bad dictionary: {text[:20]!r}", bits, 1, text)

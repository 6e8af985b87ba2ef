"""The page's modules in Node, and its listings against the program's."""

import base64
import json
import os
import random
import re
import subprocess
import tempfile
from functools import lru_cache, partial
from pathlib import Path
from typing import Any, Callable, Dict, Iterator, List, NamedTuple, Optional, Sequence, Tuple, Union
from zipfile import ZIP_DEFLATED, ZipFile

from built import newest_of, sources_of
from jobs import NAMES, PROGRAM, SECONDS, TOP, Job, bench
from jobs import broken_jobs, example_jobs, generated_jobs, program_lists, text_job, traffic_jobs
from needs import NODE_MODULES, Skipped, needs, needs_file, needs_module
from table.vectors import VECTORS
from workbench import TAPPED, simulated, talk

BUILT = TOP / "page" / "out" / "port1.html"

# What makes Node run modules with 64-bit memory, which browsers do without being told.
NODE = ["node", "--no-warnings", "--experimental-wasm-memory64"]

# The test that says how long something may take.
TIMED = "statistics-api.test.js"

# By how the name of a test begins, the module of Python that makes its inputs, or against which it compares.
MODULES = {"recording-session": "numpy", "dictionary": "tomllib"}

# The decoders in a page, by the widths of their addresses.
ENGINES = {
    "64": re.compile(r'id="engine">(.*?)</script>', re.DOTALL),
    "32": re.compile(r'id="engine-32">(.*?)</script>', re.DOTALL),
}


class Test(NamedTuple):
    """A test, and whether it is run by itself: before others that take what it builds, or for the time that it takes."""

    name: str
    problems: Callable[[], List[str]]
    is_alone: bool = False


# ---- the modules, in Node


def need_modules(file: Path) -> None:
    """The modules of Python that the scripts have whose results are compared."""
    for begins, module in MODULES.items():
        if file.name.startswith(begins):
            needs_module(module)


def problems_of_modules(file: Path, is_long: bool) -> List[str]:
    needs("node")
    need_modules(file)
    environment = {**os.environ, "PORT1": str(PROGRAM), "PORT1_ALL": "1" if is_long else ""}
    words = [*NODE, "--test", "--test-reporter=tap", str(file)]
    ran = subprocess.run(words, cwd=TOP, env=environment, capture_output=True, text=True, timeout=SECONDS)
    if " # SKIP" in ran.stdout and ran.returncode == 0:
        raise Skipped(f"in part: {', '.join(re.findall('# SKIP *(.*)', ran.stdout))}")
    if ran.returncode == 0:
        return []
    wrong = [line for line in ran.stdout.splitlines() if line.lstrip().startswith(("not ok", "error:", "expected:"))]
    return [*wrong[:20], ran.stderr[-2000:]]


PLACE = re.compile(r"^PORT1_(?:PLACE\((\w+), (\w+)|SIZE\((\w+)), (\d+)\);$", re.MULTILINE)

LAYOUT = re.compile(r"^export const ([A-Z_]+) = \{(.*?)\};$", re.MULTILINE | re.DOTALL)

FIELD = re.compile(r"(\w+): (\d+)")


def problems_of_layout() -> List[str]:
    """Whether the page has the fields of the library's structs where the header has them."""
    header = (TOP / "c" / "include" / "port1.h").read_text(encoding="utf-8")
    places = {(found[1] or found[3], found[2] or "size"): int(found[4]) for found in PLACE.finditer(header)}
    problems = []
    for struct in LAYOUT.finditer((TOP / "page" / "src" / "engine" / "layout.js").read_text(encoding="utf-8")):
        for name, place in FIELD.findall(struct[2]):
            field = re.sub("[A-Z]", lambda upper: f"_{upper[0].lower()}", name)
            wanted = places.get((struct[1].lower(), "ftype" if field == "type" else field))
            if wanted != int(place):
                problems.append(f"{name} of {struct[1]} is at {place}, in the header at {wanted}")
    return problems


# ---- the page, and its listings


def sources_of_page() -> Iterator[Path]:
    page = TOP / "page"
    yield from [page / "build", page / "index.html", *(page / "style").iterdir(), *(page / "src").rglob("*.js")]
    yield from (TOP / "scripts" / "modules").rglob("*.js")
    examples = [TOP / "examples" / name for name in ("dictionary.schema.json", "port1-failure.bits", "port1-failure.toml")]
    yield from [*examples, TOP / "crates" / "bus_arguments" / "src" / "arguments.rt"]
    yield from sources_of(TOP, "port1_c")


def problems_of_build(page: Path) -> List[str]:
    """Builds the page where it is missing or older than its sources; one from elsewhere is taken as it is."""
    if page != BUILT or (page.is_file() and page.stat().st_mtime >= newest_of(sources_of_page())):
        return []
    needs("rt", "esbuild")
    needs_file(f"{NODE_MODULES}/d3")
    print(f"{page} is missing or old: `page/build` builds it", flush=True)
    ran = subprocess.run([str(TOP / "page" / "build")], capture_output=True, text=True, timeout=SECONDS)
    return [] if ran.returncode == 0 else [f"`page/build`: {ran.stderr[-2000:]}"]


@lru_cache(maxsize=None)
def engine_of(page: Path, width: str = "64") -> bytes:
    """A decoder that is in the page, by the width of its addresses."""
    if not page.is_file():
        raise Skipped(f"there is no {page}: `page/build` builds it")
    found = ENGINES[width].search(page.read_text(encoding="utf-8"))
    if found is None:
        raise Skipped(f"{page} has no decoder for {width}-bit memory")
    return base64.b64decode(found[1])


def narrow_page(page: Path, folder: Path) -> Path:
    """The same page without the decoder for 64-bit memory, as browsers take it that have none."""
    engine_of(page, "32")
    narrow = folder / "narrow.html"
    text = page.read_text(encoding="utf-8")
    narrow.write_text(ENGINES["64"].sub('id="no-engine"></script>', text, 1), encoding="utf-8")
    return narrow


def listed(page: Path, jobs: Sequence[Dict[str, Any]]) -> List[Dict[str, Any]]:
    """What the modules of the page make of files, by either decoder alike."""
    needs("node")
    results = []
    with tempfile.TemporaryDirectory(prefix="port1-") as folder:
        for width in ENGINES:
            module = Path(folder, f"port1-{width}.wasm")
            module.write_bytes(engine_of(page, width))
            words = [*NODE, str(TOP / "page" / "tests" / "list.js"), str(module), width]
            ran = subprocess.run(words, input=json.dumps(jobs), capture_output=True, text=True, timeout=SECONDS)
            if ran.returncode != 0:
                raise RuntimeError(f"list.js failed with {width}-bit memory: {ran.stderr[-2000:]}")
            results.append(json.loads(ran.stdout))
    wide, narrow = results
    for job, one, other in zip(jobs, wide, narrow):
        if one != other:
            raise RuntimeError(f"with 32-bit memory {job} gives {str(other)[:500]}, not {str(one)[:500]}")
    found: List[Dict[str, Any]] = wide
    return found


def listings_of(page: Path, jobs: Sequence[Job]) -> List[Tuple[str, Optional[str]]]:
    """What the modules of the page list of captures, and their faults."""
    with tempfile.TemporaryDirectory(prefix="port1-") as folder:
        asked = []
        for number, job in enumerate(jobs):
            file = Path(folder, str(number))
            file.write_bytes(job.content)
            rest = {} if job.rest is None else {"rest": job.rest}
            asked.append({"file": str(file), "form": job.form, "kind": job.kind, "dictionary": job.dictionary, **rest})
        return [(got["text"], got["fault"]) for got in listed(page, asked)]


def problems_of_jobs(page: Path, jobs: Callable[[], Iterator[Job]]) -> List[str]:
    bench()
    every = list(jobs())
    problems = []
    for job, (text, fault) in zip(every, listings_of(page, every)):
        wanted, why = program_lists(job)
        if (text, fault) != (wanted, why):
            problems.append(f"{job.name}: wanted {wanted[:200]!r}, {why}; got {text[:200]!r}, {fault}")
    return problems


def problems_of_vectors(page: Path) -> List[str]:
    """Whether the page lists the captures that the tests of all languages read."""
    kinds: Dict[str, Union[int, str]] = {"one line": 1, "two lines": 2, "arrivals": "arrivals"}
    jobs = [text_job(vector.name, vector.marks, kinds[vector.kind], vector.dictionary) for vector in VECTORS]
    pairs = zip(VECTORS, listings_of(page, jobs))
    return [f"{one.kind}, {one.name}: {got}" for one, got in pairs if got != (one.listing, None)]


RECORDINGS = [
    ("four-wires.csv", ["TXC", "TXD", "RXC", "RXD"]),
    ("one-call.vcd", ["clk", "dat"]),
    ("call-and-reply.vcd", ["clk", "tx", "rx"]),
]


def problems_of_recording(page: Path, file: Path, channels: Sequence[str], words: Sequence[str] = ()) -> List[str]:
    """Whether the listing of a recording is that of the script's capture, by words of the script."""
    bench()
    taken = subprocess.run(
        [str(TOP / "scripts" / "recording-to-bits"), *words, *channels], stdin=file.open(), capture_output=True
    )
    if taken.returncode != 0:
        return [taken.stderr.decode().strip()]
    kind = 1 if len(channels) == 2 else "arrivals"
    wanted, fault = program_lists(text_job(file.name, taken.stdout.decode(), kind, NAMES))
    edges = {"rising": "--falling" not in words, "inverted": 2 if f"--invert={channels[-1]}" in words else 0}
    job = {"file": str(file), "channels": list(channels), **edges, "dictionary": NAMES}
    got = listed(page, [job])[0]
    told = [line.partition(": ")[2] for line in taken.stderr.decode().splitlines()]
    problems = [] if got["text"] == wanted else [f"wanted {wanted[:300]!r}, got {got['text'][:300]!r}"]
    problems += [] if got["fault"] == fault else [f"wanted {fault}, got {got['fault']}"]
    return problems + ([] if got["notes"] == told else [f"wanted the notes {told}, got {got['notes']}"])


def problems_of_session(page: Path) -> List[str]:
    """The same of samples as PulseView saves them, of two octets each."""
    generator = random.Random(4)
    lines = [talk(bench(), generator) for _ in TAPPED]
    samples = b"".join(bytes([0x5A, sample]) for sample in simulated(generator, lines)[0])
    probes = "".join(f"probe{at + 1}=w{at}\n" for at in range(16))
    metadata = f"[device 1]\ncapturefile=logic-1\ntotal probes=16\nsamplerate=1 MHz\nunitsize=2\n{probes}"
    channels = [f"w{8 + wire}" for line in TAPPED for wire in line]
    problems = []
    with tempfile.TemporaryDirectory(prefix="port1-") as folder:
        file = Path(folder, "session.sr")
        with ZipFile(file, "w", ZIP_DEFLATED) as archive:
            for name, content in [("version", "2"), ("metadata", metadata), ("logic-1-1", samples)]:
                archive.writestr(name, content)
        for words in [[], ["--falling", f"--invert={channels[-1]}"]]:
            problems += problems_of_recording(page, file, channels, words)
    return problems


def tests_of(page: Path, is_long: bool) -> Iterator[Test]:
    yield Test("build", partial(problems_of_build, page), is_alone=True)
    for file in sorted([*TOP.glob("page/tests/*.test.js"), *TOP.glob("scripts/modules/tests/*.test.js")]):
        yield Test(f"modules: {file.name}", partial(problems_of_modules, file, is_long), file.name == TIMED)
    yield Test("the layout of the library", problems_of_layout)
    yield Test("listings: vectors", partial(problems_of_vectors, page))
    yield Test("listings: examples", partial(problems_of_jobs, page, example_jobs))
    yield Test("listings: talks", partial(problems_of_jobs, page, partial(generated_jobs, 50 if is_long else 13)))
    yield Test("listings: traffic", partial(problems_of_jobs, page, traffic_jobs))
    yield Test("listings: broken captures", partial(problems_of_jobs, page, broken_jobs))
    for name, channels in RECORDINGS:
        yield Test(f"listings: {name}", partial(problems_of_recording, page, TOP / "examples" / name, channels))
    yield Test("listings: a session", partial(problems_of_session, page))

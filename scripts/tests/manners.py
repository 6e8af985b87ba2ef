"""How every script takes wrong calls, asks for help, and input and output that fail."""

import os
import re
import subprocess
import tempfile
from collections import Counter
from pathlib import Path
from typing import Dict, Iterator, List, NamedTuple

from needs import needs
from tests.case import DICTIONARY, SCRIPTS, SECONDS, Word


def scripts() -> List[str]:
    """All scripts of the folder: what can be run there, but for what tests them."""
    runnable = (path for path in SCRIPTS.iterdir() if path.is_file() and os.access(path, os.X_OK))
    return sorted(path.name for path in runnable if path.name != "self-test")


class Call(NamedTuple):
    """Words with which a script reads standard input and writes standard output, and input enough for a long output."""

    words: List[str]
    stdin: bytes


FRAMES = b"8 49 frame 108300fde5\n57 98 frame 108300fde5\n" * 20_000

BITS = b"0111111000001000" * 50_000

CALLS: Dict[str, Call] = {
    "bus-summary": Call([], FRAMES),
    "by-definition": Call(["list", "--bits"], BITS[:1600]),
    "dictionary-to-lua": Call([], DICTIONARY.encode()),
    "draft-dictionary": Call([], FRAMES),
    "flip-bits": Call(["0"], BITS),
    "list-to-jsonl": Call([], FRAMES),
    "list-to-page": Call(["--page", str(SCRIPTS / "tests" / "page.html"), "title"], FRAMES),
    "list-to-pcap": Call(["153600", "--text"], FRAMES),
    "pack-bits": Call([], BITS),
    "recording-to-bits": Call(["0", "1"], bytes([0, 1, 2, 3]) * 200_000),
    "unpack-bits": Call([], b"TS2BITS1" + (8_000_000).to_bytes(8, "little") + bytes(1_000_000)),
}

# Scripts that are given a file in their words, and the words after it.
FILES: Dict[str, List[str]] = {
    "bus-limits": ["unit=unit.list"],
    "bus-report": ["nowhere"],
    "bus-watch": ["--dictionary", "no-such-file.toml"],
    "check-dictionary": [],
    "list-in-parts": [],
}

# Scripts that another program calls.
CALLED = {"port1-extcap"}


def lines_of(octets: bytes) -> List[str]:
    return octets.decode("utf-8", "replace").splitlines()


def called(name: str, words: List[Word], **options) -> "subprocess.CompletedProcess[bytes]":
    needs("node")
    words = [SCRIPTS / name, *words]
    return subprocess.run(words, stdout=subprocess.PIPE, stderr=subprocess.PIPE, timeout=SECONDS, **options)


# What has tests beside the scripts, as they write it.
BESIDE = ["c/targets/build", "bindings/python", "bindings/sigrok"]


def every_script_is_tested(_: Path) -> List[str]:
    """A new script needs its words in the tables above, and a module beside this one that runs it."""
    problems = [f"{name} is in no table" for name in scripts() if name not in {*CALLS, *FILES, *CALLED}]
    modules = (path for path in (SCRIPTS / "tests").glob("*.py") if path.stem != "manners")
    text = "".join(path.read_text(encoding="utf-8") for path in modules)
    for name in [*scripts(), *BESIDE]:
        words = [f'"{name}"', '"' + name.replace("/", '" / "') + '"']
        problems += [] if any(word in text for word in words) else [f"no module runs {name}"]
    return problems


def every_function_is_run(_: Path) -> List[str]:
    """A function in this folder that is no test has another form, and is named elsewhere."""
    texts = [path.read_text(encoding="utf-8") for path in sorted((SCRIPTS / "tests").glob("**/*.py"))]
    names = Counter(re.findall(r"\w+", "".join(texts)))
    others = re.compile(r"^def (\w+)\((?!(?:folder|_): Path\) -> List\[str\]:)", re.MULTILINE)
    return [f"{name} is not run" for text in texts for name in others.findall(text) if names[name] == 1]


def help_for_each(_: Path) -> List[str]:
    """Help goes to standard output with status 0."""
    problems = []
    for name in scripts():
        got = called(name, ["--help"], stdin=subprocess.DEVNULL)
        begins = got.stdout.startswith(f"usage: {name} ".encode())
        if not begins or got.stderr or got.returncode != 0:
            problems.append(f"{name}: status {got.returncode}, {got.stdout[:60]!r}, {got.stderr[:200]!r}")
    return problems


def wrong_calls(_: Path) -> List[str]:
    """A wrong call is told on standard error, usage first and the reason last, with status 2 and no other output."""
    problems = []
    for name in scripts():
        got = called(name, ["--no-such-option"], stdin=subprocess.DEVNULL)
        told = lines_of(got.stderr) or [""]
        is_told = told[0].startswith(f"usage: {name} ") and told[-1].startswith(f"{name}: error: ")
        if not is_told or got.stdout or got.returncode != 2:
            problems.append(f"{name}: status {got.returncode}, {got.stdout[:60]!r}, {told}")
    return problems


def is_one_line(got: "subprocess.CompletedProcess[bytes]", name: str) -> bool:
    told = lines_of(got.stderr)
    return got.returncode == 2 and len(told) == 1 and told[0].startswith(f"{name}: ")


def folders(folder: Path) -> Iterator[str]:
    """A folder as standard input, or as the file, is one line with status 2."""
    for name, call in CALLS.items():
        descriptor = os.open(folder, os.O_RDONLY)
        got = called(name, [*call.words], stdin=descriptor)
        os.close(descriptor)
        if not is_one_line(got, name):
            yield f"{name}: status {got.returncode}, {got.stderr!r}"
    for name in FILES:
        got = called(name, [folder, *FILES[name]], stdin=subprocess.DEVNULL)
        if not is_one_line(got, name):
            yield f"{name}: status {got.returncode}, {got.stderr!r}"


def folders_as_input(folder: Path) -> List[str]:
    return list(folders(folder))


def files_that_are_not_there(folder: Path) -> List[str]:
    """A file that cannot be read is one line with status 2."""
    problems = []
    for name in FILES:
        got = called(name, [folder / "nothing", *FILES[name]], stdin=subprocess.DEVNULL)
        if not is_one_line(got, name):
            problems.append(f"{name}: status {got.returncode}, {got.stderr!r}")
    return problems


def told_without_reader(name: str, call: Call) -> "subprocess.CompletedProcess[bytes]":
    """A run whose output nobody reads."""
    reader, writer = os.pipe()
    os.close(reader)
    words = [SCRIPTS / name, *call.words]
    with tempfile.TemporaryFile() as source:
        source.write(call.stdin)
        source.seek(0)
        try:
            return subprocess.run(words, stdin=source, stdout=writer, stderr=subprocess.PIPE, timeout=SECONDS)
        finally:
            os.close(writer)


def nobody_reads(_: Path) -> List[str]:
    """Where the reader of the output has gone, nothing is said, and the status is 2."""
    problems = []
    for name, call in CALLS.items():
        got = told_without_reader(name, call)
        if (got.returncode, got.stderr) != (2, b""):
            problems.append(f"{name}: status {got.returncode}, {lines_of(got.stderr)}")
    return problems


def full_disk(_: Path) -> List[str]:
    """Where a disk takes no more, one line says so, with status 2."""
    problems = []
    environment = {key: value for key, value in os.environ.items() if key != "PYTHONUNBUFFERED"}
    for name, call in CALLS.items():
        needs("node")
        with open("/dev/full", "wb") as full, tempfile.TemporaryFile() as source:
            source.write(call.stdin)
            source.seek(0)
            words = [SCRIPTS / name, *call.words]
            output = {"stdout": full, "stderr": subprocess.PIPE, "env": environment}
            got = subprocess.run(words, stdin=source, timeout=SECONDS, **output)
        if not is_one_line(got, name):
            problems.append(f"{name}: status {got.returncode}, {lines_of(got.stderr)}")
    return problems

"""The Python module over the C library, as `make install-library` packs it."""

import json
import os
import random
import re
import subprocess
import sys
from pathlib import Path
from typing import Dict, List, Optional, Sequence, Tuple

from needs import needs
from table.captures import FLAG, IDLE, sent
from table.samples import ROWS
from table.vectors import VECTORS
from tests.case import CALL, ONE_CALL, REPLY, SECONDS, TOP, unlike
from tests.case import Word, listed, packed, plain, random_bits, written_by
from tests.packages import moved, told
from tests.python_texts import (
    PAIRED, PAIRED_REFUSED, PAIRED_REFUSES, PRINTED, REFUSED, REFUSED_PRINTS, SAMPLED, SENT, TAPPED, TAPPED_REFUSES
)

MODULE = TOP / "bindings" / "python"

# Entries: type, length, whether it is answered, window.
PAIRED_ENTRIES = [(0, 1, True, 40), (1, 0, True, 0), (9, 2, False, 0), (128, 2, False, 0), (129, 1, False, 0)]

# The same, with names that a listing has nowhere else.
PAIRED_DICTIONARY = "version = 2\n" + "".join(
    f'[[frame]]\ntype = {ftype}\nname = "N{ftype}"\nlength = {length}\n'
    + "answered = true\n" * answered
    + f"window = {window}\n" * (window > 0)
    for ftype, length, answered, window in PAIRED_ENTRIES
)


def python(text: str, words: Sequence[str], stdin: bytes, module: Path, library: Optional[Path] = None) -> bytes:
    """What a text in Python writes that stands on the module, on standard error too."""
    settings = {"PYTHONPATH": str(module), "PYTHONDONTWRITEBYTECODE": "1"}
    settings.update({"PORT1_LIBRARY": str(library)} if library else {})
    ran = subprocess.run(
        [sys.executable, "-c", text, *words],
        input=stdin,
        stdout=subprocess.PIPE,
        stderr=subprocess.STDOUT,
        env={**os.environ, **settings},
        timeout=SECONDS,
    )
    return ran.stdout


def orders(generator: random.Random, count: int) -> str:
    """Lines for `port1 encode`."""
    found = []
    for _ in range(count):
        octets = bytes(generator.choice([255, generator.randrange(256)]) for _ in range(generator.randrange(2, 40)))
        found.append(generator.choice(["flag", "idle", f"frame {octets.hex()}", f"frame {octets.hex()}"]))
    return "".join(f"{line}\n" for line in found)


def encoded(text: str) -> str:
    """The bits of such lines, by the definition: one flag closes a frame and opens the next."""
    bits = ""
    for name, _, octets in (line.partition(" ") for line in text.splitlines()):
        opening = "" if bits.endswith(FLAG) else FLAG
        bits += {"flag": FLAG, "idle": IDLE}.get(name) or f"{opening}{sent(bytes.fromhex(octets))}{FLAG}"
    return bits


def captures() -> Dict[str, str]:
    """Bits by what they are: of any kind, and of frames of which some are damaged."""
    found = {"none": "", "one call": plain(CALL), "a call and its answer": plain(CALL + REPLY), "ones": "1" * 100}
    for seed in range(3):
        generator = random.Random(seed)
        found[f"any bits, {seed}"] = random_bits(generator, 20003)
        bits = list(encoded(orders(generator, 300)))
        for _ in range(len(bits) // 500):
            bits[generator.randrange(len(bits))] = generator.choice(["0", "1", ""])
        found[f"frames, {seed}"] = "".join(bits)
    return found


def decoder_in_python(folder: Path) -> List[str]:
    """It reports what `port1 list` lists, from the folder that was moved: fed with the highest bit of each octet first
    (-1), bit by bit (0), by octets and by more."""
    prefix = moved(folder)
    problems = []
    for name, bits in captures().items():
        wanted = listed(packed(bits), []).stdout
        for size in ("-1", "0", "1", "7", "4096"):
            got = python(PRINTED, [size], packed(bits), prefix / "lib" / "python")
            problems += [] if got == wanted else [f"{name}, {size}: wanted {wanted[-300:]!r}, got {got[-300:]!r}"]
    return problems


def longest_frames() -> str:
    """Lines for `port1 encode`: frames of 256 octets, nearly all ones, each of which begins at the last bit of an
    octet. Each idle line before it has fifteen bits, seven more than an octet."""
    text, bits = "", 0
    for last in range(0, 256, 5):
        frame = f"frame {'ff' * 255}{last:02x}\n"
        idles = (bits + 1) % 8
        text += "idle\n" * idles + frame
        bits += 15 * idles + len(encoded(frame))
    return text


def talk(generator: random.Random, count: int) -> str:
    """Lines for `port1 encode`: commands, and what comes after them."""
    texts = ["flag"] * 30
    for _ in range(count):
        kind = generator.choice([0, 1, 1, 2, 9])
        station, length = generator.choice([1, 2, 255]), {0: 1, 9: 2}.get(kind, 0)
        texts.append(f"frame {station:02x}83{kind:02x}{'5a' * (length + (generator.random() < 0.1))}")
        texts += ["flag"] * generator.randrange(8) + ["idle"] * (generator.random() < 0.2)
        answer = f"frame {station:02x}{generator.choice(['83', '83', '83', '13'])}{kind + 128:02x}{'a5' * {0: 2, 1: 1}.get(kind, 0)}"
        texts += generator.choice([[answer], [answer], [], ["frame 0183"], [answer, answer]])
        texts += ["flag"] * generator.randrange(4)
    return "".join(f"{text}\n" for text in texts)


def pairing_in_python(folder: Path) -> List[str]:
    """It says of commands and answers what `port1 list` does: each standing, verdict and stray, and what waits."""
    module = moved(folder) / "lib" / "python"
    problems, seen = [], set()
    for seed in range(4):
        generator = random.Random(seed)
        bits = list(encoded(talk(generator, 200)))
        for _ in range(20):
            bits[generator.randrange(len(bits))] = generator.choice("01")
        words = [os.environ["PORT1"], "list", "--bits", f"--dict={PAIRED_DICTIONARY}"]
        stdin = "".join(bits).encode()
        wanted = subprocess.run(words, input=stdin, stdout=subprocess.PIPE, check=True, timeout=SECONDS).stdout.decode()
        wanted = re.sub(r" N\d+$", "", wanted, flags=re.MULTILINE)
        got = python(PAIRED, [json.dumps(PAIRED_ENTRIES)], stdin, module).decode()
        problems += unlike(f"{seed}", wanted.splitlines(), got.splitlines())
        seen |= set(wanted.split())
    words = {"answered", "late", "missing", "spoilt", "stray", "pending", "unknown", "length", "control", "untyped", "idle"}
    problems += unlike("refusals", PAIRED_REFUSES, python(PAIRED_REFUSED, [], b"", module).decode())
    return problems or [f"no capture has {word}" for word in sorted(words - seen - {"pending"})]


def vectors_in_python(folder: Path) -> List[str]:
    """It lists the captures of one line, and of two with a clock each, that the tests of all languages read."""
    module = moved(folder) / "lib" / "python"
    problems = []
    for vector in VECTORS:
        if vector.kind == "two lines":
            continue
        if vector.dictionary or vector.kind == "arrivals":
            words = [json.dumps(vector.entries), *(["arrivals"] if vector.kind == "arrivals" else [])]
            got = python(PAIRED, words, vector.symbols.encode(), module)
        else:
            got = python(PRINTED, ["7"], packed(vector.symbols), module)
        wanted = re.sub(r"( type \d+) (?!unknown$|length$)\w+$", r"\1", vector.listing, flags=re.MULTILINE)
        problems += unlike(vector.name, wanted, got.decode())
    return problems


def encoder_in_python(folder: Path) -> List[str]:
    """It sends the bits of flags, idle lines and frames, also of the longest after seven bits."""
    module = moved(folder) / "lib" / "python"
    problems = []
    for text in [*(orders(random.Random(seed), 500) for seed in range(4)), longest_frames()]:
        got = python(SENT, [], text.encode(), module)
        problems += [] if got == packed(encoded(text))[16:] else [f"{text[:80]!r}..: other octets: {got[-300:]!r}"]
    return problems


def tapped(generator: random.Random, count: int) -> Tuple[bytes, str]:
    """Samples of a line whose inverted clock goes on, and of one whose clock stops now and then; and their bits."""
    samples, marks, second, silent = [], "", "1" * 15, 0
    for _ in range(count):
        first, other = generator.choice("01"), generator.choice(["0", "1", "1", "", "", "", "", ""])
        silent += 1
        rests = silent == 3 and not second.endswith("1" * 15)
        second += "1" * 15 * rests
        marks += first + "-" * rests + other.translate({48: "o", 49: "i"})
        for sample in range(8):
            is_high, is_high_too = 2 <= sample < 6, other and sample >= 5
            samples.append((not is_high) << 9 | int(first) << 1 | bool(is_high_too) << 2 | int(other or 0) << 12)
        second, silent = second + other, 0 if other else silent
    return b"".join(sample.to_bytes(2, "little") for sample in samples), marks


def taps_in_python(folder: Path) -> List[str]:
    """It takes the bits that were simulated, however samples are cut, and brings the second line to rest."""
    module = moved(folder) / "lib" / "python"
    problems = []
    for seed, size in enumerate(["2", "34", "100000"]):
        samples, marks = tapped(random.Random(seed), 600)
        counts = [marks.count(mark) for mark in "01oi-"]
        tail = f" {len(samples) // 2} {counts[0] + counts[1]} {counts[2] + counts[3]} [] [Arrival(line=1, bit=1)]\n"
        problems += [] if min(counts) > 9 else [f"{seed}: {counts} marks"]
        problems += unlike(f"{seed}", marks + tail + TAPPED_REFUSES, python(TAPPED, [size], samples, module).decode())
    return problems


def samples_in_python(folder: Path) -> List[str]:
    """It takes the bits of the samples that the tests of all languages read."""
    text = json.dumps(ROWS).encode()
    got = python(SAMPLED, [], text, moved(folder) / "lib" / "python").decode().splitlines()
    problems = unlike("rows", len(ROWS), len(got))
    return problems + [part for row, bits in zip(ROWS, got) for part in unlike(str(row["name"]), row["bits"], bits)]


def refusals_in_python(folder: Path) -> List[str]:
    """What is raised, and that nothing is lost by it."""
    got = python(REFUSED, [], b"", moved(folder) / "lib" / "python").decode()
    pairs = zip(REFUSED_PRINTS.splitlines(), got.splitlines())
    differing = [part for wanted, was in pairs for part in unlike("line", wanted, was)]
    return differing or unlike("lines", REFUSED_PRINTS, got)


def code_of_the_document(folder: Path) -> List[str]:
    """The Python code that docs/C.md shows, on the octets of one call."""
    page = (TOP / "docs" / "C.md").read_text(encoding="utf-8")
    section = page.split("\n## From Python\n")[1].split("\n## ")[0]
    code = "".join(f"{line[4:]}\n" for line in section.splitlines() if not line or line.startswith("    "))
    got = python(code, [], ONE_CALL[16:], moved(folder) / "lib" / "python")
    return unlike("it writes", b"8 49 108300fde5\n", got)


def places_of_the_library(folder: Path) -> List[str]:
    """Where the module takes the library from: what the variable says, beside it, and a `lib` above it."""
    prefix, alone = moved(folder), folder / "alone"
    text = "from port1 import *\ntry:\n    LineDecoder()\n    print('made')\nexcept NoLibrary as why:\n    print(why)"
    (alone / "port1").mkdir(parents=True)
    module = alone / "port1" / "__init__.py"
    module.write_bytes((MODULE / "port1" / "__init__.py").read_bytes())
    library = prefix / "lib" / "libport1.so.3"
    missing = "cannot open shared object file: No such file or directory; `make install-library` makes it, and PORT1_LIBRARY says where it is"
    rows: List[Tuple[Path, Optional[Path], str]] = [
        (prefix / "lib" / "python", None, "made"),
        (MODULE, library, "made"),
        (alone, library, "made"),
        (alone, None, f"libport1.so.3: {missing}"),
        (prefix / "lib" / "python", Path("/none.so"), f"/none.so: {missing}"),
    ]
    problems = []
    for place, given, wanted in rows:
        problems += unlike(f"{place.name} {given}", wanted + "\n", python(text, [], b"", place, given).decode())
    (alone / "port1" / "libport1.so").write_bytes(library.read_bytes())
    return problems + unlike("beside it", "made\n", python(text, [], b"", alone).decode())


LAYOUT = """#include "port1.h"
#include <stdio.h>
int main(void) {{
{shows}    return 0;
}}
"""


def layout_in_python(folder: Path) -> List[str]:
    """The structures and numbers of the module are those of c/include/port1.h, as a C compiler has them."""
    needs("cc")
    text = (
        "import port1\nfrom port1 import taps\n"
        "for name, (kind, size) in {**port1.STRUCTURES, **taps.STRUCTURES}.items():\n    print(name, size)\n"
        "    for field, *_ in kind._fields_:\n        place = getattr(kind, field)\n"
        "        print(f'{name}.{field}', place.offset, place.size)\n"
        "for kind in [*port1.Kind, *port1.Cause]:\n    print(f'PORT1_{kind.name}', int(kind))\n"
        "for name in ('OK', 'BAD_LENGTH', 'PLACE_LIMIT', 'BAD_STATE', 'BAD_ARGUMENT', 'NO_ROOM'):\n"
        "    print(f'PORT1_{name}', getattr(port1, name))\n"
    )
    lines = python(text, [], b"", MODULE).decode().splitlines()
    shows = ""
    for line in lines:
        name = line.split()[0]
        struct, _, field = name.partition(".")
        values = [f"offsetof(struct {struct}, {field})", f"sizeof(((struct {struct} *)0)->{field})"]
        values = values if field else [name if name.startswith("PORT1_") else f"sizeof(struct {name})"]
        numbers = ", ".join(f"(unsigned long)({value})" for value in values)
        shows += f'    printf("{name}{" %lu" * len(values)}\\n", {numbers});\n'
    source, program = folder / "layout.c", folder / "layout"
    source.write_text(LAYOUT.format(shows=shows))
    words: List[Word] = ["cc", "-std=c99", f"-I{TOP / 'c' / 'include'}", "-o", program, source]
    problems = unlike("cc", "", told(words))
    problems += [] if len(lines) > 30 else [f"there are {len(lines)} lines: {lines}"]
    return problems or unlike("layout", lines, written_by([program]).decode().splitlines())

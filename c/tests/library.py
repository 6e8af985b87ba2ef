"""Compiles the header and the examples in C against the C library, and compares what they do with the program.

The archive is crates/port1_c/out/libport1_c.a, found from the program's place. `rt ci` proves the crate and leaves no
archive. So where it is missing, or older than a source, it is built: over the libraries that `rt ci` left, or else by
`rt lib`, which takes some minutes where nothing was kept. All is compiled by `cc` as C99 and by `c++`, and the sources
also by the other compilers of COMPILERS that are installed. It takes `nm` and `size`, too.
"""

import os
import re
import subprocess
import tempfile
from pathlib import Path
from typing import Dict, Iterator, List, Sequence, Tuple

from built import problems_of_build, words_of_archive
from examples import results_of_examples
from header import Layout, Sources, results_of_header
from version import version_of
from workbench import SECONDS, TOP, Bench, Compiler, Result, Word, installed, output_of, side_by_side

# The tests in C.
CALLS = ["samples.c", "worked.c"]

# What the code in documents stands on.
BEFORE_SHOWN = """#include "port1.h"
void handle(const uint8_t *octets, size_t count);
void start_dma(const uint8_t *octets, size_t count);
void alarm_of(unsigned station, unsigned type);
void push(unsigned line, unsigned bit);
"""

# The sections of docs/C.md whose indented lines are C.
SHOWN_SECTIONS = ["Receive", "Commands and answers", "Samples", "Send"]

# Headers that are not the library's: what is put in place of what, and in which struct that is told.
OTHER_LAYOUTS = [
    ("    uint32_t kind;  ", "    uint64_t kind;  ", "report"),
    ("    uint64_t longest;", "    uint64_t other, longest;", "line"),
    ("uint16_t spare, check;", "uint16_t spare;", "line"),
    ("octets[272]", "octets[264]", "line"),
    ("uint32_t behind_flag;", "uint32_t behind_flag, other;", "sender"),
]


# ---- the archive


def problems_of_symbols(bench: Bench) -> List[str]:
    """Whether the archive has the functions of the sources for others, and needs no more than it is said to."""
    defined = output_of(["nm", "-g", "--defined-only", bench.archive]).decode()
    needed = output_of(["nm", "-u", bench.archive]).decode()
    data = [line.split()[1:3] for line in output_of(["size", bench.archive]).decode().splitlines()[1:]]
    rows = [
        ("exported", sorted(Sources(bench.top).functions()), sorted(re.findall(r" \w (\S+)$", defined, re.MULTILINE))),
        ("needed", ["memcpy", "memset"], sorted(re.findall(r"^ +U (\S+)$", needed, re.MULTILINE))),
        ("octets of writable data", [], [pair for pair in data if pair != ["0", "0"]]),
    ]
    return [f"{what}: wanted {wanted}, got {got}" for what, wanted, got in rows if wanted != got]


# ---- the header


def places_text(layouts: Sequence[Layout]) -> str:
    """A program that prints the size of each struct, and the place and size of each field."""
    lines = ['#include "port1.h"', "#include <stdio.h>", "int main(void) {"]
    show = '    printf("{} %lu %lu\\n", (unsigned long){}, (unsigned long){});'
    for layout in layouts:
        kind = f"struct {layout.name}"
        lines.append(show.format(layout.name, f"sizeof({kind})", "0"))
        for place in layout.places:
            size = f"sizeof((({kind} *)NULL)->{place.name})"
            lines.append(show.format(f"{layout.name}.{place.name}", f"offsetof({kind}, {place.name})", size))
    return "\n".join([*lines, "    return 0;", "}", ""])


def problems_of_places(bench: Bench, compiler: Compiler) -> List[str]:
    """Whether a compiler lays the structs out as those of the sources are."""
    layouts = list(Sources(bench.top).layouts.values())
    source, program = bench.folder / "places.c", bench.folder / "places"
    source.write_text(places_text(layouts), encoding="ascii")
    problems = bench.compile(compiler, source, program)
    if problems:
        return problems
    wanted = []
    for layout in layouts:
        wanted.append(f"{layout.name} {layout.size} 0")
        wanted += [f"{layout.name}.{place.name} {place.offset} {place.size}" for place in layout.places]
    got = bench.run([program]).decode().splitlines()
    return [f"wanted {pair[0]!r}, got {pair[1]!r}" for pair in zip(wanted, got) if pair[0] != pair[1]]


def problems_of_other_layout(bench: Bench, row: Tuple[str, str, str]) -> List[str]:
    """Whether the header refuses a struct that is not the library's, and says which."""
    old, new, name = row
    text = (bench.top / "c/include/port1.h").read_text(encoding="ascii")
    if text.count(old) != 1:
        return [f"the header has {old!r} {text.count(old)} times"]
    folder = bench.folder / "other"
    folder.mkdir(exist_ok=True)
    (folder / "port1.h").write_text(text.replace(old, new), encoding="ascii")
    (folder / "empty.c").write_text('#include "port1.h"\n', encoding="ascii")

    def problems_of(compiler: Compiler) -> List[str]:
        words: List[Word] = [*compiler.words, "-fsyntax-only", f"-I{folder}", folder / "empty.c"]
        ran = subprocess.run(words, capture_output=True, text=True, timeout=SECONDS)
        told = rf"port1_assert_\w*{name}" if compiler.words[-1] == "-std=c99" else f"port1.h: .*port1_{name}"
        is_told = ran.returncode != 0 and re.search(told, ran.stderr)
        return [] if is_told else [f"{compiler.name}: status {ran.returncode}: {ran.stderr[:500]}"]

    return side_by_side(problems_of, installed())


def shown_in_documents(top: Path) -> Dict[str, str]:
    """The C code that the documents show."""
    readme = (top / "README.md").read_text(encoding="utf-8")
    page = (top / "docs/C.md").read_text(encoding="utf-8")
    sections = [section for section in page.split("\n## ") if section.split("\n")[0] in SHOWN_SECTIONS]
    indented = [line for section in sections for line in section.split("\n") if line.startswith("    ")]
    return {
        "README.md": "".join(re.findall(r"^```c\n(.*?)^```$", readme, re.MULTILINE | re.DOTALL)),
        "docs/C.md": "\n".join(indented) + "\n",
    }


def problems_of_shown(bench: Bench, code: str) -> List[str]:
    source = bench.folder / "shown.c"
    source.write_text(BEFORE_SHOWN + code, encoding="utf-8")
    compilers = [one for one in installed() if "c++" not in one.words]
    problems = side_by_side(lambda one: bench.compile(one, source, os.devnull, "-c"), compilers)
    return problems if "port1_" in code else [*problems, "it shows no call"]


def problems_of_calls(bench: Bench, compiler: Compiler, source: str) -> List[str]:
    """Runs the calls of a test in C."""
    program = bench.folder / "calls"
    problems = bench.link(compiler, Path(__file__).with_name(source), program)
    if problems:
        return problems
    ran = subprocess.run([program], capture_output=True, text=True, timeout=SECONDS)
    told = ran.stdout.splitlines()
    return told if ran.returncode == 0 else [*told, f"status {ran.returncode}"]


def problems_of_version(bench: Bench) -> List[str]:
    wanted, got = f"port1 {version_of(bench.top)}\n", bench.run([bench.program, "--version"]).decode()
    return [] if got == wanted else [f"wanted {wanted!r}, got {got!r}"]


def results_with(bench: Bench) -> Iterator[Result]:
    yield "library: the program has the version of the header", problems_of_version(bench)
    yield "library: the symbols of the archive", problems_of_symbols(bench)
    for compiler in installed():
        if compiler.is_for_here:
            yield f"library: {compiler.name}: the places of fields", problems_of_places(bench, compiler)
            for source in CALLS:
                yield f"library: {compiler.name}: {source}", problems_of_calls(bench, compiler, source)
    for row in OTHER_LAYOUTS:
        yield f"library: a header with {row[1].strip() or 'a field less'!r}", problems_of_other_layout(bench, row)
    for name, code in shown_in_documents(bench.top).items():
        yield f"library: the C code of {name}", problems_of_shown(bench, code)
    yield from results_of_examples(bench)


def results_of_library(program: Path, top: Path = TOP) -> Iterator[Result]:
    """All rows; `top` is the folder of the repository, or of a copy of it."""
    yield from results_of_header(top)
    archive = program.parent.parent.parent / "port1_c" / "out" / "libport1_c.a"
    try:
        problems = problems_of_build(archive, top, words_of_archive(archive, top))
        yield "library: the archive", problems
        if not problems:
            with tempfile.TemporaryDirectory(prefix="port1-") as folder:
                yield from results_with(Bench(program, archive, Path(folder), top))
    except (OSError, subprocess.SubprocessError) as error:
        yield "library: with a C and a C++ compiler, nm and size", [str(error)]

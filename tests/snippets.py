"""Sees that the code in documents is that of the crate of examples, which is proved.

A document shows code between a line of three backquotes with `rust` and one without. Each paragraph of it
has to stand in a source of the crate, line by line, but for indentation and the contracts. The sizes in
docs/RATTLE.md have to be those that a test of the examples compares.
"""

import re
from pathlib import Path
from typing import Iterator, List, Tuple

TOP = Path(__file__).resolve().parent.parent

SOURCES = TOP / "crates" / "bus_examples" / "src"

TESTS = TOP / "crates" / "bus_examples_tests" / "src" / "examples.rt"

# The document with the sizes of types.
SIZES = "docs/RATTLE.md"

DOCUMENTS = [SIZES, "crates/bus_line/src/lib.rt", "crates/bus_watch/src/lib.rt", "crates/bus_dictionary/src/lib.rt"]

FENCED = re.compile(r"^```rust\n(.*?)^```$", re.MULTILINE | re.DOTALL)

# The clauses between the head of a function and its body.
CONTRACT = re.compile(r"\n +(?:requires|ensures)\b.*?\n\{$", re.MULTILINE | re.DOTALL)


# What the document says of a type's size, and what the test does.
STATED_SIZE = re.compile(r"`(\w+)`\s+has (\d+)\s+octets")

TESTED_SIZE = re.compile(r"size_of::<(\w+)<OctetCheck>>\(\), (\d+)\)")


def bare(text: str) -> str:
    """The lines without indentation."""
    return "\n".join(line.strip() for line in text.strip().splitlines())


def without_contracts(source: str) -> str:
    return CONTRACT.sub(" {", source)


def paragraphs_of(document: str) -> List[str]:
    """The paragraphs of the code in a document, which may stand in the comment at the head of a crate."""
    text = re.sub(r"^//! ?", "", (TOP / document).read_text(encoding="utf-8"), flags=re.MULTILINE)
    return [part for code in FENCED.findall(text) for part in code.split("\n\n")]


def problems_of_sizes() -> Iterator[str]:
    """What the document says of sizes and no test compares, and what a test compares and the document lacks."""
    stated = set(STATED_SIZE.findall((TOP / SIZES).read_text(encoding="utf-8")))
    tested = set(TESTED_SIZE.findall(TESTS.read_text(encoding="utf-8")))
    if not tested:
        yield "no test compares a size"
    for name, octets in sorted(stated ^ tested):
        yield f"{name} of {octets} octets: {'no test' if (name, octets) in stated else f'not in {SIZES}'}"


def results_of_snippets() -> Iterator[Tuple[str, List[str]]]:
    """For each paragraph of code in a document, whether an example has it, and of sizes, whether they are tested."""
    yield f"{SIZES}: sizes", list(problems_of_sizes())
    sources = [bare(without_contracts(path.read_text(encoding="utf-8"))) for path in sorted(SOURCES.glob("*.rt"))]
    for document in DOCUMENTS:
        paragraphs = paragraphs_of(document)
        yield f"{document} shows code", [] if paragraphs else ["it shows none"]
        for paragraph in paragraphs:
            has_it = any(bare(paragraph) in source for source in sources)
            name = f"{document}: {paragraph.splitlines()[0]}"
            yield name, [] if has_it else [f"no example has this code:\n{paragraph}"]

"""Statements that promise something, wherever a reader sees them: in prose, cells, headings and indented lines of the
papers, and in public doc comments."""

import re
from pathlib import Path
from typing import Dict, Iterator, List, Set

from promised import CALLS, LAWS, SENTENCE_END, cells_of, one_line

# Words of a promise, in any paper; and such as promise something where it is said what is proved.
PROVED = r"prov(?:ed|es|en|able|ably)|proofs?|guarant\w+|theorems?"
CLAIM = re.compile(rf"\b(?:{PROVED})\b", re.IGNORECASE)
STRICT = re.compile(rf"\b(?:{PROVED}|never|ever|always|exactly)\b", re.IGNORECASE)

# That something is not proved promises nothing; nor does a name, as of a file or of a crate's folder.
NOTHING_PROMISED = re.compile(r"\bnot (?:be )?proved\b|\bproves nothing\b|\bNot proved:|without a proof|`[^`]*`|\]\([^)]*\)")

# The papers in which a strict word is a promise, and one that only tells of earlier versions.
STRICT_PAPERS = {"README.md", "docs/PROVED.md"}
HISTORY = "CHANGELOG.md"

# What goes with the papers; its comments are read, too.
MAP = "docs/PROMISES.toml"

# Crates without public calls.
TESTS = re.compile(r"bus_(?:\w+_tests|rows|seen)$")

ITEM = re.compile(r"\s*-? ?(?:- |\d+\. )")

# An item to which a doc comment belongs that others may see: a public one, its attribute, or a function of a trait.
PUBLIC = re.compile(r"\s*(?:pub (?!\()|#!?\[|fn |\w+\(|$)")


def sentences_in(lines: List[str]) -> Iterator[str]:
    text = ITEM.sub("", one_line(" ".join(lines)), count=1) if lines else ""
    yield from (sentence for sentence in SENTENCE_END.split(text) if sentence)


def statements_of(text: str) -> Iterator[str]:
    """What a reader sees, piece by piece: sentences, cells, headings, and lines of code. A table of calls or laws has
    rows of its own."""
    prose: List[str] = []
    fenced, head = False, []
    for line in [*text.splitlines(), ""]:
        if line.startswith("|"):
            head = head or cells_of(line)
        else:
            head = []
        is_prose = line.strip() and not fenced and not line.startswith(("|", "#", "    ", "```"))
        if not is_prose or ITEM.match(line):
            yield from sentences_in(prose)
            prose = []
        if line.startswith("```"):
            fenced = not fenced
        elif is_prose:
            prose.append(line)
        elif line.startswith("|"):
            yield from () if head in (CALLS, LAWS) else (cell for cell in cells_of(line) if cell.strip("-"))
        elif line.strip():
            yield line.strip().lstrip("# ")


def claims_in(text: str, words: "re.Pattern[str]") -> Iterator[str]:
    yield from (each for each in statements_of(text) if words.search(NOTHING_PROMISED.sub("", each)))


def doc_comments(text: str) -> Iterator[str]:
    """The doc comments of a source that stand at public items, at functions of traits, or at the source itself."""
    block: List[str] = []
    for line in [*text.splitlines(), ""]:
        found = re.match(r"\s*//([/!]) ?(.*)$", line)
        if found:
            block.append(found[2])
        elif block:
            if PUBLIC.match(line):
                yield "\n".join(block)
            block = []


def papers(top: Path) -> Dict[str, str]:
    """The texts of the papers by their names, and the comments of the map."""
    paths = [path for path in sorted([*top.glob("*.md"), *top.glob("docs/*.md")]) if path.name != HISTORY]
    texts = {str(path.relative_to(top)): path.read_text(encoding="utf-8") for path in paths}
    lines = (top / MAP).read_text(encoding="utf-8").splitlines()
    return {**texts, MAP: "\n".join(line.lstrip("# ") if line.startswith("#") else "" for line in lines)}


def sources(top: Path) -> Iterator[Path]:
    for path in sorted(top.glob("crates/*/src/**/*.rt")):
        if not TESTS.match(path.relative_to(top).parts[1]):
            yield path


def claims_of(texts: Dict[str, str], comments: List[str]) -> Set[str]:
    """All statements of papers and doc comments with a word of promise."""
    found = {each for name, text in texts.items() for each in claims_in(text, STRICT if name in STRICT_PAPERS else CLAIM)}
    return found | {each for text in comments for each in claims_in(text, STRICT)}


def comments_of(top: Path) -> List[str]:
    return [comment for path in sources(top) for comment in doc_comments(path.read_text(encoding="utf-8"))]

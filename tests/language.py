"""Counts the words and the sentences of the documents, and looks for words that they are not to have.

A word is what spaces part, as `wc -w` counts. A sentence is one of prose or of a list, and not of a table, a heading or
code; a piece of code within it counts as one word, and a link as its text.
"""

import re
import subprocess
from pathlib import Path
from typing import Dict, Iterator, List, Tuple

from promised import sentences_of

TOP = Path(__file__).resolve().parent.parent

# The words of each document, at most: a tenth more than it has, so that a sentence finds room. CHANGELOG.md grows.
MOST_WORDS = {
    "CONTRIBUTING.md": 1450,
    "README.md": 1400,
    "SECURITY.md": 400,
    "docs/ARCHITECTURE.md": 1350,
    "docs/C.md": 2250,
    "docs/CAPTURES.md": 1250,
    "docs/COOKBOOK.md": 2500,
    "docs/DECISIONS.md": 1550,
    "docs/DEFINITIONS.md": 750,
    "docs/DICTIONARY.md": 1750,
    "docs/INSTALL.md": 400,
    "docs/MANY-CAPTURES.md": 1150,
    "docs/PAGE.md": 800,
    "docs/PROVED.md": 5200,
    "docs/RATTLE.md": 650,
    "docs/TESTING-EQUIPMENT.md": 650,
    "docs/TROUBLESHOOTING.md": 2050,
    "docs/WATCH.md": 1000,
}
WITHOUT_LIMIT = "CHANGELOG.md"

# The first page, and its lines, at most.
FIRST_PAGE, MOST_LINES_OF_FIRST_PAGE = "README.md", 180

# The words of a sentence, at most, and on the average.
LONGEST_SENTENCE = 40
MEAN_SENTENCE = 18

# The document of decisions: its entries, and the lines of each, at most.
DECISIONS = "docs/DECISIONS.md"
MOST_ENTRIES, MOST_LINES = 45, 5

# The picture of README.md, and its octets, at most.
PICTURE, MOST_OF_PICTURE = "docs/page.png", 200_000

# Persons tell and hear; software reports and reads. A noun is shorter than a clause in its place.
UNWANTED = [
    (r"\b(?:tells?|told|telling|hears?|heard|hearing)\b", "of software: reports, returns, prints, reads"),
    (r"\bthose that\b|\bthat of the\b|\bthose of the\b", "name the thing"),
    (r"\bwhat (?:it|they|these|was|were|takes|took)\b", "a noun serves"),
]

# Names that went: CHANGELOG.md alone has them, to say what stands in their place.
GONE = re.compile(
    r"\b(?:ClosesPage|CutsIt|FeedHalts|FollowsBody|FollowsOctets|FollowsPacked|FollowsText|HaltsIn|JournalState"
    r"|LeadsTold|LineWords|PairListener|RunsPast|RunsTo|RunsToStop|SeesPairs|Teller|are_sound|bus_capture|bus_encode"
    r"|bus_serve|bus_talk|fold_some|heard_(?:at|in|on)|may_answer|may_wait|reports_heard|would_take)\b"
)
SOURCES = {".antt", ".c", ".edit", ".edits", ".h", ".js", ".md", ".py", ".rt", ".toml"}

# Words of a document that are no prose of its own: titles of Rattle's names, and quotations.
CODE = re.compile(r"`[^`]*`")

LINK = re.compile(r"\[([^\]]*)\]\([^)]*\)")

FENCED = re.compile(r"^```.*?^```$", re.MULTILINE | re.DOTALL)


def texts() -> Dict[str, str]:
    paths = sorted([*TOP.glob("*.md"), *TOP.glob("docs/*.md")])
    return {str(path.relative_to(TOP)): path.read_text(encoding="utf-8") for path in paths}


def prose_of(text: str) -> List[str]:
    """The sentences, with code as one word and links as their texts."""
    plain = LINK.sub(r"\1", FENCED.sub("", text))
    return [*sentences_of(CODE.sub("code", plain))]


def problems_of_sentences(text: str) -> Iterator[str]:
    sentences = prose_of(text)
    counts = [len(sentence.split()) for sentence in sentences]
    for sentence, count in zip(sentences, counts):
        if count > LONGEST_SENTENCE:
            yield f"a sentence of {count} words, over {LONGEST_SENTENCE}: {sentence[:100]}"
    mean = sum(counts) / max(len(counts), 1)
    if mean > MEAN_SENTENCE:
        yield f"its sentences have {mean:.1f} words on the average, over {MEAN_SENTENCE}"


def problems_of_words(text: str) -> Iterator[str]:
    plain = CODE.sub("code", FENCED.sub("", text))
    for number, line in enumerate(plain.splitlines(), 1):
        if not line.startswith(("    ", "#")):
            for form, instead in UNWANTED:
                yield from (f"`{found}` ({instead}): {line}" for found in re.findall(form, line, re.IGNORECASE))


def problems_of_decisions(text: str) -> Iterator[str]:
    entries = re.findall(r"^- \*\*.*(?:\n  .*)*", text, re.MULTILINE)
    if not 1 <= len(entries) <= MOST_ENTRIES:
        yield f"{len(entries)} entries, not 1 to {MOST_ENTRIES}"
    for entry in entries:
        if entry.count("\n") >= MOST_LINES:
            yield f"an entry of more than {MOST_LINES} lines: {entry[:60]}"


def problems_of_length(name: str, text: str) -> Iterator[str]:
    words, lines = len(text.split()), text.count("\n")
    if name != WITHOUT_LIMIT and words > MOST_WORDS.get(name, 0):
        yield f"{words} words, over {MOST_WORDS.get(name, 0)}"
    if name == FIRST_PAGE and lines > MOST_LINES_OF_FIRST_PAGE:
        yield f"{lines} lines, over {MOST_LINES_OF_FIRST_PAGE}"


def problems_of_picture() -> Iterator[str]:
    content = (TOP / PICTURE).read_bytes()
    if not content.startswith(b"\x89PNG") or len(content) > MOST_OF_PICTURE:
        yield f"{len(content)} octets, over {MOST_OF_PICTURE}, or no PNG: `tests/page --picture {PICTURE}` makes it"


def problems_of_names() -> Iterator[str]:
    files = subprocess.run(["git", "ls-files"], cwd=TOP, capture_output=True, text=True, check=True).stdout.splitlines()
    for name in files:
        if Path(name).suffix in SOURCES and name not in ("CHANGELOG.md", str(Path(__file__).relative_to(TOP))):
            for found in sorted(set(GONE.findall((TOP / name).read_text(encoding="utf-8")))):
                yield f"{name}: {found} went"


def results_of_language() -> Iterator[Tuple[str, List[str]]]:
    """What is wrong with the words of each document."""
    documents = texts()
    yield "all sources: names that went", [*problems_of_names()]
    yield f"{DECISIONS}: its entries", [*problems_of_decisions(documents[DECISIONS])]
    yield f"{PICTURE}: its size", [*problems_of_picture()]
    for name, text in documents.items():
        yield f"{name}: its length", [*problems_of_length(name, text)]
        yield f"{name}: its sentences", [*problems_of_sentences(text)]
        yield f"{name}: its words", [*problems_of_words(text)]

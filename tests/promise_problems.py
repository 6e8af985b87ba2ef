"""What is wrong with the papers' promises, compared with contracts, wrong bodies and tests (tests/promises)."""

import re
import sys
from pathlib import Path
from typing import Any, Dict, Iterator, List, NamedTuple, Sequence, Set

TOP = Path(__file__).resolve().parent.parent

sys.path.append(str(TOP / "scripts"))

from claims import claims_of, comments_of, papers as papers_in, statements_of
from contracts import Clause, public_clauses, tests_beside, tests_in
from definitions.toml import toml_of
from edits import all_edits, must_fail
from promised import EVERY, Row, digest_of, edits_named, mistakes_of, part_of, rows_of, sealed_by

MAP = TOP / "docs" / "PROMISES.toml"

# Where the documents say what is proved: the heading, and the one that ends it.
PROVED = ("## What is proved", "## What is only tested")
GATE = ("## Mistakes that the gate tries", "## Trusted base")
README = ("## What is proved", "## More")

# The keys of a promise with statements: of docs/PROVED.md and README.md where they say what is proved, and of any other.
SENTENCES = {"proved": "docs/PROVED.md", "readme": "README.md"}
SAID = [*SENTENCES, "said"]

KEYS = {*SAID, "row", "sealed", "wrong-bodies", "tests"}

# The statements that promise nothing, and the key of their digest.
NO_PROMISE, NONE_SEALED = "no-promise", "no-promise-sealed"

# The words of a cell, at most.
MOST_WORDS = 45

Promise = Dict[str, Any]


class Papers(NamedTuple):
    """What promises: the part of docs/PROVED.md, its mistakes, the part of README.md, the map, all papers by their names,
    and public doc comments."""

    proved: str
    mistakes: str
    readme: str
    chart: Dict[str, Any]
    texts: Dict[str, str]
    comments: List[str]


class Tree(NamedTuple):
    """What the papers are compared with."""

    clauses: Dict[str, List[Clause]]  # of each public function
    edits: Set[str]
    tried: Set[str]  # the edits of the gate
    tests: Dict[str, Set[str]]


def papers_of(top: Path) -> Papers:
    texts = papers_in(top)
    paper = texts["docs/PROVED.md"]
    parts = part_of(paper, *PROVED), part_of(paper, *GATE), part_of(texts["README.md"], *README)
    return Papers(*parts, toml_of(MAP.read_text(encoding="utf-8")), texts, comments_of(top))


def tree_of(top: Path) -> Tree:
    crates = top / "crates"
    clauses: Dict[str, List[Clause]] = {}
    for clause in public_clauses(crates):
        clauses.setdefault(clause.function, []).append(clause)
    edits = {edit.name for edit in all_edits(crates)}
    tried = {edit.name for edit in must_fail(crates)}
    return Tree(clauses, edits, tried, {**tests_in(crates), **tests_beside(top)})


def carried_by(row: Row, tree: Tree) -> Set[Clause]:
    """The clauses that a row names, of whichever of its calls has them."""
    every = {each for call in row.functions for each in tree.clauses.get(call, [])}
    return every if row.clauses == [EVERY] else {each for each in every if each.name in row.clauses}


def problems_of_cells(row: Row) -> Iterator[str]:
    """A cell says one thing, so that no second one hides behind it."""
    for words in row.words:
        if re.search(r"[.;!?](?: |$)", words):
            yield f"a cell with more than one statement: {words}"
        if len(words.split()) > MOST_WORDS:
            yield f"a cell of more than {MOST_WORDS} words: {words}"


def problems_of_row(row: Row, promise: Promise, tree: Tree) -> Iterator[str]:
    yield from (f"no public function {call}" for call in row.functions if call not in tree.clauses)
    yield from problems_of_cells(row)
    if promise.get("sealed") != sealed_by(row, promise):
        yield "it was changed: read it against its clauses, then call tests/promises --confirm with row and clause"
    if row.is_law and promise.get("wrong-bodies"):
        yield "a law with wrong bodies, and no code can break it"
    carried = carried_by(row, tree)
    for call in row.functions:
        if not any(each.function == call for each in carried):
            yield f"no clause of {call}"
    names = {each.name for each in carried} | {EVERY}
    yield from (f"no clause {name}" for name in row.clauses if name not in names)
    named = edits_named(row, tree.edits)
    if not row.is_law and not named and "tests/" not in " ".join(row.words):
        yield "no wrong body"
    others = promise.get("wrong-bodies", [])
    yield from (f"no wrong body {edit}" for edit in [*named, *others] if edit not in tree.edits)
    yield from (f"named twice: {edit}" for edit in named if edit in others)
    if not promise.get("tests"):
        yield "no tests"
    for test in promise.get("tests", []):
        file, _, name = test.partition(" ")
        if name not in tree.tests.get(file, set()):
            yield f"no test {test}"


def problems_of_map(rows: Sequence[Row], chart: Dict[str, Any]) -> Iterator[str]:
    """Rows and promises that do not go together one by one."""
    names = [row.name for row in rows]
    promised = [promise.get("row", "") for promise in chart["promise"]]
    for name in sorted({*names, *promised}):
        if names.count(name) != 1 or promised.count(name) != 1:
            yield f"{names.count(name)} rows and {promised.count(name)} promises: {name}"
    for promise in chart["promise"]:
        yield from (f"{promise.get('row')}: a key without meaning: {key}" for key in promise if key not in KEYS)


def problems_of_statements(papers: Papers) -> Iterator[str]:
    """Statements that nothing promises, and such as the map has and no paper."""
    none = papers.chart[NO_PROMISE]
    if papers.chart.get(NONE_SEALED) != digest_of(none):
        yield "what promises nothing was changed: read it, then call tests/promises --confirm no-promise"
    promised = {key: [each for promise in papers.chart["promise"] for each in promise.get(key, [])] for key in SAID}
    listed = [*none, *(each for statements in promised.values() for each in statements)]
    parts = {"proved": [*statements_of(papers.proved)], "readme": [*statements_of(papers.readme)]}
    for key, document in SENTENCES.items():
        yield from (f"{document}: in no promise: {each}" for each in parts[key] if each not in listed)
        yield from (f"{document} does not say: {each}" for each in promised[key] if each not in parts[key])
    claims = claims_of(papers.texts, papers.comments)
    yield from (f"in no promise: {each}" for each in sorted(claims.difference(listed, *parts.values())))
    every = claims.union(*parts.values())
    yield from (f"nothing says: {each}" for each in [*none, *promised["said"]] if each not in every)


def problems_of_mistakes(papers: Papers, tree: Tree) -> Iterator[str]:
    """Edits of the gate that the table of mistakes does not name once, and names there of no such edit."""
    named = [name.rpartition("/")[2] for name in mistakes_of(papers.mistakes)]
    tried = sorted(edit.partition("/")[2] for edit in tree.tried)
    for name in sorted({*named, *tried}):
        if named.count(name) != tried.count(name):
            yield f"{named.count(name)} mistakes and {tried.count(name)} edits of the gate: {name}"


def problems_of(papers: Papers, tree: Tree) -> List[str]:
    rows = [*rows_of(papers.proved, set(tree.clauses))]
    promises = {promise.get("row", ""): promise for promise in papers.chart["promise"]}
    problems = [*problems_of_map(rows, papers.chart), *problems_of_statements(papers)]
    problems += problems_of_mistakes(papers, tree)
    for row in rows:
        problems += [f"{row.name}: {each}" for each in problems_of_row(row, promises.get(row.name, {}), tree)]
    return problems


def unnamed(rows: Sequence[Row], tree: Tree) -> List[Clause]:
    named = {clause for row in rows for clause in carried_by(row, tree)}
    return sorted({clause for clauses in tree.clauses.values() for clause in clauses} - named)

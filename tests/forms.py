"""Looks at the form of documents and sources: the width of lines, links, and the lists of definitions and changes."""

import re
from pathlib import Path
from typing import Dict, Iterator, List, Set, Tuple

TOP = Path(__file__).resolve().parent.parent

CRATES = TOP / "crates"

# The columns of a line of prose or of a source, at most.
MOST_COLUMNS = 120

# An import of one name can't be broken.
ONE_IMPORT = re.compile(r"(ghost )?use [^ ,]+\{[^ ,]+\};?")

# Where a link goes, which does not count.
TARGET = re.compile(r"(?<=\])\([^)\s]*\)")

# The document with the table of the framing definition, its rows, and the line with their sum.
COUNTED = "docs/ARCHITECTURE.md"

ROW = re.compile(r"^\| `(\w+/specs/\w+\.antt)` \| (\d+) \|", re.MULTILINE)

# Where JavaScript stands that is no test.
MODULES = ["scripts/modules", "page/src"]

SUM = re.compile(r"^These six have (\d+) lines\.", re.MULTILINE)

# The document that lists the other definitions, by crate.
LISTED = "docs/DEFINITIONS.md"

LISTED_ROW = re.compile(r"^\| ((?:`\w+` )?)\| (`\w+`(?:, `\w+`)*) \|", re.MULTILINE)

# The document with the table of changes, and the files that name a thing of a kind, at least.
GUIDE = "CONTRIBUTING.md"

LEAST_FILES = 3

CHANGES = re.compile(r"^\| Change \|.*\n\|[-|]+\n((?:\|.*\n)+)", re.MULTILINE)

# Files of specs that define nothing of their own: they list others.
LISTS = {"Lib.antt", "Internal.antt"}

# The definition of a word, and words that types share: for what is always true of fields, and for a sink's refusal.
DEFINED = re.compile(r"^ *(?:pub )?(?:abbrev|data|record) (?:pub )?([A-Za-z][\w'-]*) ")

OF_EACH_TYPE = {"IsWithin", "Refused"}


def documents() -> List[str]:
    return [str(path.relative_to(TOP)) for path in sorted([*TOP.glob("*.md"), *TOP.glob("docs/*.md")])]


def prose_of(text: str) -> Iterator[Tuple[int, str]]:
    """The lines that are neither in a table nor in a block of code, with their numbers."""
    fenced = False
    for number, line in enumerate(text.splitlines(), 1):
        if line.startswith("```"):
            fenced = not fenced
        elif not fenced and not line.startswith(("|", "    ")):
            yield number, line


def problems_of_width(document: str) -> List[str]:
    text = (TOP / document).read_text(encoding="utf-8")
    widths = ((number, len(TARGET.sub("", line))) for number, line in prose_of(text))
    return [
        f"line {number} has {width} columns: break it, so that it has at most {MOST_COLUMNS}"
        for number, width in widths
        if width > MOST_COLUMNS
    ]


def anchors_of(path: Path) -> Set[str]:
    """The anchors of a document's headings, as GitHub and GitLab make them."""
    titles = re.findall(r"^#+ (.*)$", path.read_text(encoding="utf-8"), re.MULTILINE)
    return {re.sub(r"[^\w\- ]", "", title.lower()).replace(" ", "-") for title in titles}


def problems_of_links(document: str) -> Iterator[str]:
    """The links to documents and headings that are not there."""
    path = TOP / document
    for link in re.findall(r"\]\(([^)\s]+)\)", path.read_text(encoding="utf-8")):
        name, _, anchor = link.partition("#")
        there = path.parent / name if name else path
        if re.match(r"\w+:", link):
            continue
        if not there.exists():
            yield f"there is no {link}"
        elif anchor and anchor not in anchors_of(there):
            yield f"{there.name} has no heading {anchor}"


def sources(crate: Path) -> List[Path]:
    """The sources, definitions and proofs of a crate."""
    return [
        path
        for folder in ("src", "specs", "proofs")
        for ending in ("rt", "antt")
        for path in sorted((crate / folder).rglob(f"*.{ending}"))
    ]


def problems_of_source(crate: Path) -> List[str]:
    return [
        f"{path.relative_to(crate)}, line {number} has {len(line)} columns: break it at {MOST_COLUMNS}"
        for path in sources(crate)
        for number, line in enumerate(path.read_text(encoding="utf-8").splitlines(), 1)
        if len(line) > MOST_COLUMNS and not ONE_IMPORT.fullmatch(line)
    ]


def lines_of_definitions() -> Dict[str, int]:
    """How many lines each file of definitions has that a reader of the contracts needs."""
    files = [path for path in sorted(CRATES.glob("*/specs/*.antt")) if path.name not in LISTS]
    return {str(path.relative_to(CRATES)): len(path.read_text(encoding="utf-8").splitlines()) for path in files}


def problems_of_counts() -> List[str]:
    """Where the table of the framing definition differs from the files."""
    text = (TOP / COUNTED).read_text(encoding="utf-8")
    stated = {name: int(lines) for name, lines in ROW.findall(text)}
    there = lines_of_definitions()
    problems = [
        f"{name} has {there.get(name, 'no')} lines: write that in place of {lines}"
        for name, lines in stated.items()
        if there.get(name) != lines
    ]
    total = sum(there.get(name, 0) for name in stated)
    if SUM.findall(text) != [str(total)]:
        problems.append(f"these files have {total} lines: write `These six have {total} lines.`")
    return problems


def problems_of_words() -> List[str]:
    """Words of the definitions that have two."""
    files: Dict[str, Set[str]] = {}
    for path in sorted(CRATES.glob("*/specs/**/*.antt")):
        if "declared" in path.parts:
            continue
        for line in path.read_text(encoding="utf-8").splitlines():
            found = DEFINED.match(line)
            if found:
                files.setdefault(found[1], set()).add(str(path.relative_to(CRATES)))
    twice = {word: places for word, places in files.items() if len(places) > 1 and word not in OF_EACH_TYPE}
    return [f"{word} is defined in {', '.join(sorted(places))}" for word, places in sorted(twice.items())]


def problems_of_list() -> List[str]:
    """Where the list of the other definitions differs from the files."""
    listed, crate = [], ""
    for first, names in LISTED_ROW.findall((TOP / LISTED).read_text(encoding="utf-8")):
        crate = first.strip(" `") or crate
        listed += [f"{crate}/specs/{name}.antt" for name in re.findall(r"`(\w+)`", names)]
    framing = {name for name, _ in ROW.findall((TOP / COUNTED).read_text(encoding="utf-8"))}
    wanted = set(lines_of_definitions()) - framing
    problems = [f"it lacks crates/{name}" for name in sorted(wanted - set(listed))]
    problems += [f"there is no crates/{name}, or it is listed twice" for name in listed if name not in wanted]
    return problems + [f"{name} is listed twice" for name in sorted(set(listed)) if listed.count(name) > 1]


def folder_of(path: Path) -> Path:
    """Where the names after a path stand: of a path in a crate, the folder `src` or `specs`, and else its own folder."""
    if CRATES in path.parents:
        return CRATES.joinpath(*path.relative_to(CRATES).parts[:2])
    return path.parent


def files_with(word: str) -> int:
    """How many sources and definitions of the crates, and modules beside them, name a thing, in capitals or small."""
    form = re.compile(rf"\b{word}\b", re.IGNORECASE)
    crates = [path for path in CRATES.iterdir() if (path / "src").is_dir()]
    own = [path for crate in crates for path in sources(crate) if "proofs" not in path.parts]
    modules = [path for folder in MODULES for path in (TOP / folder).rglob("*.js")]
    return sum(1 for path in [*own, *modules] if form.search(path.read_text(encoding="utf-8")))


def problems_of_changes() -> List[str]:
    """The things that the table of changes names and hardly a file has, and its files that are not there."""
    problems = []
    for row in "".join(CHANGES.findall((TOP / GUIDE).read_text(encoding="utf-8"))).splitlines():
        change, thing, also = row.strip("| ").split(" | ")
        count = files_with(thing.strip("`"))
        if count < LEAST_FILES:
            problems.append(f"{change}: {count} files name {thing}")
        for group in also.split("; "):
            folder = TOP
            for name in re.findall(r"`([\w/-]+(?:\.\w+)*)`", group):
                found = [path for path in (folder / name, CRATES / name, TOP / name) if path.exists()]
                if found and "/" in name:
                    folder = folder_of(found[0])
                elif not found and re.search(r"[/.]", name):
                    problems.append(f"{change}: there is no {name}")
    return problems or ([] if CHANGES.search((TOP / GUIDE).read_text(encoding="utf-8")) else ["it has no table of changes"])


def results_of_forms() -> Iterator[Tuple[str, List[str]]]:
    for document in documents():
        yield f"{document}: the width of its prose", problems_of_width(document)
        yield f"{document}: its links", [*problems_of_links(document)]
    yield f"{GUIDE}: the files of a change", problems_of_changes()
    for crate in sorted(path for path in CRATES.iterdir() if path.is_dir()):
        yield f"crates/{crate.name}: the width of its lines", problems_of_source(crate)
    yield f"{COUNTED}: the lines of the framing definition", problems_of_counts()
    yield f"{LISTED}: the definitions of each crate", problems_of_list()
    yield "crates: each word has one definition", problems_of_words()

"""The contracts of the crates' public functions: their clauses, by file, function and name."""

import re
from pathlib import Path
from typing import Dict, Iterator, List, NamedTuple, Optional, Set, Tuple

# What a user of the libraries, the tool or the C library calls; of the crates below the tool what it hands on.
CRATES = [
    "bus_bits", "bus_formats", "bus_fcs", "bus_line", "bus_dictionary", "bus_pairing", "bus_watch", "bus_tap",
    "bus_clocks", "port1_c", "bus_examples", "bus_arguments", "bus_tool", "bus_sample", "bus_sample_tool",
]
BELOW = ["bus_text", "bus_calls"]

FUNCTION = re.compile(r'\s*(pub(?:\([a-z]+\))? )?(?:const )?(?:unsafe )?(?:extern "C" )?fn (\w+)')

CLAUSE = re.compile(r"\bensures\*?\s+(?:(\w+)\s+)?\{")

BLOCK = re.compile(r"(?:pub )?(?:(trait) (\w+)|impl(?:<.*?>)? (\w+)(<[^{]*>)? (for )?)")

EXPORT = re.compile(r"^pub use ([\w:]+?)::(?:\{([^}]*)\}|(\w+));", re.MULTILINE)

MODULE = re.compile(r"^pub mod (\w+);", re.MULTILINE)


class Clause(NamedTuple):
    """A clause of a public function, which has its crate before its name where two crates have it; the clause's name is
    `_` where it has none."""

    file: str
    function: str
    name: str

    @property
    def crate(self) -> str:
        return self.file.partition("/")[0]


def exported(library: str, of: Optional[str] = None) -> Set[str]:
    """The names that a `lib.rt` hands on, all or those of one crate."""
    names: Set[str] = set()
    for match in EXPORT.finditer(library):
        if of is None or match[1].partition("::")[0] == of:
            names.update(name.strip() for name in (match[2] or match[3]).split(",") if name.strip())
    return names


def header_of(lines: List[str], at: int) -> List[str]:
    """The lines of a function up to its body, or to the end where it has none."""
    header: List[str] = []
    depth, has_clause = 0, False
    for line in lines[at:]:
        text = line.strip()
        if depth == 0 and text in ("{", "{}"):
            break
        header.append(line)
        has_clause = has_clause or re.match(r"(requires|ensures|ghost)\b", text) is not None
        if not has_clause and text.endswith((";", " {", " {}")):
            break
        depth += text.count("{") - text.count("}")
        if has_clause and depth == 0 and text.endswith(";"):
            break
    return header


def functions_of(text: str) -> Iterator[Tuple[str, str, bool, List[str]]]:
    """Of each function the type or trait that it belongs to, its name, whether others may call it, and its clauses."""
    lines = text.splitlines()
    block, is_trait = "", False
    for at, line in enumerate(lines):
        opened = BLOCK.match(line)
        if opened is not None:
            is_trait = opened[1] is not None
            block = opened[2] or ("" if opened[5] else opened[3])
            block = block or "-"  # a trait's functions for a type, whose clauses stand at the trait
        elif line.startswith("}"):
            block, is_trait = "", False
        found = FUNCTION.match(line)
        if found is not None and (line[:1] != " " or block):
            header = "\n".join(header_of(lines, at))
            yield block, found[2], is_trait or found[1] == "pub ", [name or "_" for name in CLAUSE.findall(header)]


def clauses_of_crate(crates: Path, crate: str, names: Set[str], modules: Set[str]) -> Iterator[Clause]:
    """The clauses of all functions that are handed on: of a type or trait by that, else by their own names."""
    for path in sorted((crates / crate / "src").rglob("*.rt")):
        if "tests" in path.relative_to(crates).parts:
            continue
        file = str(path.relative_to(crates))
        for block, function, is_open, clauses in functions_of(path.read_text(encoding="utf-8")):
            handed_on = block in names if block else function in names or path.stem in modules
            if is_open and handed_on:
                full = f"{block}::{function}" if block else function
                yield from (Clause(file, full, name) for name in clauses)


def public_clauses(crates: Path) -> List[Clause]:
    tool = (crates / "bus_tool" / "src" / "lib.rt").read_text(encoding="utf-8")
    found: List[Clause] = []
    for crate in CRATES + BELOW:
        library = (crates / crate / "src" / "lib.rt").read_text(encoding="utf-8")
        names = exported(tool, crate) if crate in BELOW else exported(library)
        modules = set() if crate in BELOW else set(MODULE.findall(library))
        found += clauses_of_crate(crates, crate, names, modules)
    return [*told_apart(found)]


def told_apart(clauses: List[Clause]) -> Iterator[Clause]:
    """The clauses, with its crate before the name of a function that several crates have."""
    having: Dict[str, Set[str]] = {}
    for each in clauses:
        having.setdefault(each.function, set()).add(each.crate)
    for each in clauses:
        is_one = len(having[each.function]) == 1
        yield each if is_one else each._replace(function=f"{each.crate}::{each.function}")


def tests_in(crates: Path) -> Dict[str, Set[str]]:
    """The tests of each file of the crates, and the worked examples of each file of those."""
    found: Dict[str, Set[str]] = {}
    for path in sorted(crates.glob("*/src/**/*.rt")):
        names = re.findall(r"#\[test\]\s*(?:#\[[^]]*\]\s*)*fn (\w+)", path.read_text(encoding="utf-8"))
        found[str(path.relative_to(crates))] = set(names)
    for path in sorted(crates.glob("*/proofs/Examples.antt")):
        names = re.findall(r"^(\w+) :", path.read_text(encoding="utf-8"), re.MULTILINE)
        found[str(path.relative_to(crates))] = set(names)
    return found


def tests_beside(top: Path) -> Dict[str, Set[str]]:
    """The tests in C, the rows of the table of runs, and the tests of the scripts, of each file."""
    found: Dict[str, Set[str]] = {}
    for pattern, form in [
        ("c/tests/*.c", r"^static void (\w+)\(void\) \{"),
        ("tests/table/*.py", r"(?:\b(?:Case|faulty)\(|\bname=)\s*\"([^\"]+)\""),
        ("examples/vectors/*.json", r"\"name\": \"([^\"]+)\""),
        ("scripts/tests/*.py", r"^def (\w+)\(folder: Path\) -> List\[str\]:"),
    ]:
        for path in sorted(top.glob(pattern)):
            found[str(path.relative_to(top))] = set(re.findall(form, path.read_text(encoding="utf-8"), re.MULTILINE))
    return found

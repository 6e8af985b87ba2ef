"""Wrong bodies: edits with a line `file: NAME`, and then pairs of lines `old: TEXT` and `new: TEXT`.

Each edit of must-fail has a file of its own there, as `rt` reads it. In wrong-bodies, the edits of src/FILE.rt stand in
FILE.edits, with an empty line between two: each has its line `edit: NAME`, and no line `file:` for that source.

An edit may name a test that tells it from the right body, in a comment, which `rt` does not read:

    # told-by: CRATE TEST

TEST is the path of a test of that crate, as `line::scans::scans`, or CRATE is a file of tests in C and TEST one of
these, as `c/tests/worked.c verdicts`. Or it names a command whose output, fault or status
it changes:

    # shown-by: port1 list --dict "$(cat examples/call-and-reply.toml)" < examples/one-call.ts2
    # shown-by: port1 list --bits <<< 0111111000

The input is a file of the repository, or a text, or it is empty. Words are quoted as for a shell, and one may be the
text of a file, as above, or a text of lines:

    # shown-by: port1 show --dict "$(printf 'version = 1\\nframe = []')" 108300fde5
"""

import re
import shlex
from pathlib import Path
from typing import Dict, Iterable, Iterator, List, NamedTuple, Optional, Set, Tuple

TOLD_BY = re.compile(r"^# told-by: (\w+) ([\w:]+)$", re.MULTILINE)

TOLD_IN_C = re.compile(r"^# told-by: (c/tests/\w+\.c) (\w+)$", re.MULTILINE)

REFUSED_BY = "# refused-by: "

# An edit in a file of several: its name, what is said of it, and its changes.
EDIT = re.compile(r"edit: (\w+)\n((?:#.*\n)*)((?:(?:file|old|new):.*\n)+)")

SHOWN_BY = re.compile(r"^# shown-by: port1 (.*)$", re.MULTILINE)


class Test(NamedTuple):
    """A test of a crate, by its path."""

    crate: str
    path: str


class Command(NamedTuple):
    """The words of a command of the program, and its input: a path from the top of the repository, or a text."""

    words: List[str]
    path: Optional[Path] = None
    text: str = ""


class Change(NamedTuple):
    """What is changed in a file, whose path begins at the repository's top."""

    file: Path
    old: str
    new: str

    def made_in(self, text: str) -> str:
        """The text of the file with it. A ValueError where the old text does not stand there exactly once."""
        if text.count(self.old) != 1:
            raise ValueError(f"{self.file} has it {text.count(self.old)} times: {self.old}")
        return text.replace(self.old, self.new)

    def make(self, top: Path) -> None:
        """Makes it in a work tree, or raises a ValueError likewise."""
        path = top / self.file
        path.write_text(self.made_in(path.read_text(encoding="utf-8")), encoding="utf-8")


class Edit(NamedTuple):
    """An edit, CRATE/NAME: its text as `rt` reads it, and its changes."""

    name: str
    text: str
    changes: List[Change]

    @property
    def crate(self) -> str:
        return self.name.partition("/")[0]


def edit_of(crate: str, name: str, text: str) -> Edit:
    file, old = Path(), ""
    changes: List[Change] = []
    for line in text.splitlines():
        key, _, rest = line.partition(":")
        if key == "file":
            file = Path("crates", crate, rest.strip())
        elif key == "old":
            old = rest[1:]
        elif key == "new":
            changes.append(Change(file, old, rest[1:]))
    return Edit(f"{crate}/{name}", text, changes)


def edits_in(text: str, source: str) -> Iterator[Tuple[str, str]]:
    """The names and texts of the edits of a source, or a ValueError where something else stands among them."""
    for paragraph in text.rstrip("\n").split("\n\n"):
        found = EDIT.fullmatch(f"{paragraph}\n")
        if found is None:
            raise ValueError(f"this is no edit of {source}:\n{paragraph}")
        name, comments, changes = found.groups()
        file = "" if changes.startswith("file:") else f"file: {source}\n"
        yield name, f"{comments}{file}{changes}"


def must_fail(crates: Path) -> Iterator[Edit]:
    """The edits that the gate tries."""
    for path in sorted(crates.glob("*/must-fail/*.edit")):
        yield edit_of(path.parent.parent.name, path.stem, path.read_text(encoding="utf-8"))


def wrong_bodies(crates: Path) -> Iterator[Edit]:
    """The edits that the gate leaves out."""
    for path in sorted(crates.glob("*/wrong-bodies/**/*.edits")):
        crate, _, *parts = path.relative_to(crates).parts
        source = Path("src", *parts).with_suffix(".rt")
        for name, text in edits_in(path.read_text(encoding="utf-8"), str(source)):
            yield edit_of(crate, name, text)


def all_edits(crates: Path) -> List[Edit]:
    return [*must_fail(crates), *wrong_bodies(crates)]


def named_bodies(crates: Path) -> List[Edit]:
    """The must-fail edits, and those of wrong-bodies that name a clause as they do."""
    return sorted([*must_fail(crates), *(edit for edit in wrong_bodies(crates) if REFUSED_BY in edit.text)])


def misfits(edits: Iterable[Edit], top: Path) -> Iterator[str]:
    """The edits that do not fit the files of a work tree, each with its first change that does not. Those without a
    change, or with the name of another, are among them."""
    names: Set[str] = set()
    for edit in edits:
        if not edit.changes or edit.name in names:
            yield f"{edit.name}: {'two edits have this name' if edit.changes else 'it changes nothing'}"
        names.add(edit.name)
        texts: Dict[Path, str] = {}
        try:
            for change in edit.changes:
                text = texts.get(change.file) or (top / change.file).read_text(encoding="utf-8")
                texts[change.file] = change.made_in(text)
        except (OSError, ValueError) as fault:
            yield f"{edit.name}: {fault}"


def tests_told(text: str) -> List[Test]:
    """The tests that an edit names."""
    return [Test(*match) for match in TOLD_BY.findall(text)]


def told_in_c(text: str) -> List[str]:
    """The tests in C that an edit names, each a file and a name."""
    return [" ".join(match) for match in TOLD_IN_C.findall(text)]


def word_of(word: str, top: Path) -> str:
    """A word, or the text of the file that it names, or the lines that it has."""
    lines = re.fullmatch(r"\$\(printf '([^'%]*)'\)", word)
    if lines:
        return lines[1].replace("\\n", "\n")
    match = re.fullmatch(r"\$\(cat (\S+)\)", word)
    return (top / match[1]).read_text(encoding="utf-8").rstrip("\n") if match else word


def command_of(line: str, top: Path) -> Command:
    """The command of a line as `list --bits < FILE` or `list --bits <<< TEXT`."""
    words = [word_of(word, top) for word in shlex.split(line)]
    if len(words) > 1 and words[-2] == "<":
        return Command(words[:-2], Path(words[-1]))
    if len(words) > 1 and words[-2] == "<<<":
        return Command(words[:-2], None, words[-1])
    return Command(words)


def commands_told(text: str, top: Path) -> List[Command]:
    """The commands that an edit names."""
    return [command_of(line, top) for line in SHOWN_BY.findall(text)]


def test_of(file: str, name: str) -> Iterator[Test]:
    """The test of this name in a file, CRATE/src/FILE.rt, if it is one of a crate's sources."""
    match = re.fullmatch(r"(\w+)/src/([\w/]+)\.rt", file)
    if match:
        yield Test(match[1], f"{match[2].replace('/', '::')}::{name}")


def unknown_tests(crates: Path, tests: Dict[str, Set[str]]) -> Iterator[str]:
    """The edits that name a test which is not there, where these are the tests of each file."""
    every = {test for file, names in tests.items() for name in names for test in test_of(file, name)}
    for edit in named_bodies(crates):
        for test in tests_told(edit.text):
            if test not in every:
                yield f"{edit.name}: no test {test.crate} {test.path}"
        for told in told_in_c(edit.text):
            file, _, name = told.partition(" ")
            if name not in tests.get(file, set()):
                yield f"{edit.name}: no test {told}"

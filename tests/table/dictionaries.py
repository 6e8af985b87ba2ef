"""Rows of dictionaries: those that are refused, before anything is read or written, and those at a limit.

A document's faults are told before those of its entries, an earlier entry's before a later one's, and
in one entry in the order of `COLUMNS`; a command without its answer's entry comes last.
"""

from dataclasses import dataclass
from itertools import product
from typing import Dict, Iterator, List, Mapping, Tuple

from .captures import CALLS
from .case import Case, fault

Entry = Mapping[str, str]

# A command and its answer, without any fault. The values are written as TOML has them.
COMMAND: Entry = {
    "type": "1",
    "name": "'poll'",
    "length": "2",
    "answered": "true",
    "window": "16",
    "bits": "[ { at = 15, name = 'a' }, { at = 0, name = 'b' } ]",
}

ANSWER: Entry = {"type": "129", "name": "'state'", "length": "2"}

# Another pair of the kind.
SECOND: Entry = {**COMMAND, "type": "2"}

SECOND_ANSWER: Entry = {**ANSWER, "type": "130"}

# How a key is written that is left out.
ABSENT = ""


def document(*entries: Entry, version: str = "2") -> str:
    """The text of a dictionary."""
    lines = [f"version = {version}"]
    for entry in entries:
        lines.append("[[frame]]")
        lines.extend(f"{key} = {value}" for key, value in entry.items() if value != ABSENT)
    return "\n".join(lines)


@dataclass(frozen=True)
class Column:
    """One fault of an entry, as it is told, and all the ways to have it, each by some keys."""

    told: str
    ways: List[Entry]

    def text(self, number: int) -> str:
        return f"frame {number}: {self.told}"


def each(key: str, *values: str) -> List[Entry]:
    return [{key: value} for value in values]


def bits(*members: str) -> Entry:
    return {"bits": f"[ {', '.join(members)} ]"}


# The faults of an entry that has nothing to do with another, in the order in which they are told.
COLUMNS = [
    Column("bad type", each("type", ABSENT, "-1", "256", "1.0", "true", "'1'", "[ 1 ]")),
    Column("bad name", each("name", ABSENT, "''", f"'{'x' * 41}'", "'x y'", "'\u00e9'", '"\\u007f"', "1", "true")),
    Column("bad length", each("length", ABSENT, "-1", "254", "2.0", "true", "'2'")),
    Column(
        "bad answered",
        each("answered", "1", "'true'", "[ true ]", "1.0")
        + [{"type": "128", "answered": "true"}, {"type": "255", "answered": "true"}],
    ),
    Column(
        "bad window",
        each("window", "-8", "0", "7", "1048577", "16.0", "true", "'16'", "[ 16 ]")
        + each("answered", ABSENT, "false"),
    ),
    Column(
        "bad bit",
        each("bits", "1", "true", "'a'", "{ at = 0, name = 'a' }", "[ 1 ]", "[ [] ]")
        + [
            bits("{ name = 'a' }"),
            bits("{ at = -1, name = 'a' }"),
            bits("{ at = 16, name = 'a' }"),
            bits("{ at = 0.0, name = 'a' }"),
            bits("{ at = '0', name = 'a' }"),
            bits("{ at = 0 }"),
            bits("{ at = 0, name = '' }"),
            bits(f"{{ at = 0, name = '{'x' * 41}' }}"),
            bits("{ at = 0, name = 'x y' }"),
            bits("{ at = 0, name = 1 }"),
            bits("{ at = 3, name = 'a' }", "{ at = 3, name = 'b' }"),
            bits("{ at = 3, name = 'a' }", "{ at = 4, name = 'b' }", "{ at = 3, name = 'a' }"),
            {"length": "0"},
        ],
    ),
]

TYPE_1_TWICE = "type 1 twice"

NO_ANSWER_1 = "type 1 has no answer entry"


def wrong(way: Entry, good: Entry = COMMAND) -> Entry:
    return {**good, **way}


def alone() -> Iterator[Tuple[str, str]]:
    """Each way to have each fault, alone, in the first entry and in the last."""
    for column in COLUMNS:
        for way in column.ways:
            yield document(wrong(way), ANSWER), column.text(1)
            yield document(SECOND, SECOND_ANSWER, wrong(way), ANSWER), column.text(3)


def merged(first: Entry, second: Entry) -> Entry:
    """Two ways in one entry, where they write different keys."""
    return {**COMMAND, **first, **second} if not first.keys() & second.keys() else {}


def pairs_in_one() -> Iterator[Tuple[str, str]]:
    """Two faults of neighbouring order in one entry: the first is told."""
    for first, second in zip(COLUMNS, COLUMNS[1:]):
        for one, other in product(first.ways, second.ways):
            entry = merged(one, other)
            if entry:
                yield document(entry, ANSWER), first.text(1)


def pairs_in_two() -> Iterator[Tuple[str, str]]:
    """Two faults of neighbouring order in two entries: that of the earlier entry is told."""
    for first, second in zip(COLUMNS, COLUMNS[1:]):
        one, other = wrong(first.ways[0]), wrong(second.ways[0])
        yield document(one, other, ANSWER), first.text(1)
        yield document(other, one, ANSWER), second.text(1)


# Faults of an entry together with others.
LAST_FAULTS: Dict[str, str] = {
    document(COMMAND, ANSWER, COMMAND): TYPE_1_TWICE,
    document(COMMAND, COMMAND): TYPE_1_TWICE,
    document(COMMAND): NO_ANSWER_1,
    document(SECOND, COMMAND, SECOND_ANSWER): NO_ANSWER_1,
    document(COMMAND, SECOND): NO_ANSWER_1,
    # In one entry, a bit's fault and a type for the second time.
    document(ANSWER, COMMAND, wrong({"bits": "1"})): COLUMNS[5].text(3),
    # In two entries.
    document(COMMAND, COMMAND, wrong({"bits": "1"}, SECOND)): TYPE_1_TWICE,
    document(wrong({"bits": "1"}, SECOND), COMMAND, COMMAND): COLUMNS[5].text(1),
    # A type for the second time, after a command without its answer's entry.
    document(SECOND, COMMAND, COMMAND): TYPE_1_TWICE,
    document(SECOND, wrong({"bits": "1"})): COLUMNS[5].text(2),
}

# Faults of the document, with all that could be told after them.
DOCUMENT_FAULTS: Dict[str, str] = {
    "": "version is not 1 or 2",
    "version = ": "not TOML",
    "version = 3\nversion = 1": "not TOML",
    "frame = []\nversion = 3": "version is not 1 or 2",
    "version = 1": "no frames",
    "version = 2": "no frames",
    "version = 1\nframe = []": "no frames",
    "version = 1\nframe = 'x'": "no frames",
    "version = 1\nframe = { type = 1 }": "no frames",
    "version = 1\nframe = [ 1 ]": COLUMNS[0].text(1),
    "version = 2\n[[frame]]\n[[frame]]": COLUMNS[0].text(1),
    **{
        document({}, version=version): "version is not 1 or 2"
        for version in ["0", "3", "-1", "1.0", "2.0", "true", "'1'", "[ 1 ]"]
    },
}

REFUSED: List[Tuple[str, str]] = [
    *DOCUMENT_FAULTS.items(), *alone(), *pairs_in_one(), *pairs_in_two(), *LAST_FAULTS.items()
]

# With each command that takes a dictionary, and an input that would be a fault of its own.
COMMANDS = [["list", "--bits"], ["list"], ["check", "--bits"], ["check"]]

SHOW = ["show", "10838101026e1f"]


def refused(number: int, command: List[str], text: str, why: str) -> Case:
    return Case(
        f"{number}: {why}, told by {command[0]}", [*command, "--dict", text], b"2", stderr=fault(f"dictionary: {why}"),
        status=2, leaves_input=True,
    )


def taken(name: str, text: str, hex_digits: str, stdout: str) -> Case:
    """A dictionary at a limit, by which a frame is shown."""
    return Case(f"taken: {name}", ["show", "--dict", text, hex_digits], stdout=stdout)


CALL_SHOWN = "frame 108300fde5 good\nstation 16 type 0 call\n"

# What version 1 does not know, it does not judge.
WINDOWED_CALLS = CALLS.replace("answered = true", "answered = true\nwindow = {}")

WINDOWS_OF_VERSION_2 = ["8", "9", "1048575", "1048576"]

WINDOWS_OF_VERSION_1 = [*WINDOWS_OF_VERSION_2, "7", "1048577", "-1", "'x'", "1.5", "[]"]

TAKEN = [
    *[
        taken(
            f"a window of {window} in version {version}",
            WINDOWED_CALLS.format(window).replace("version = 1", f"version = {version}"), "108300fde5", CALL_SHOWN,
        )
        for version, windows in [("1", WINDOWS_OF_VERSION_1), ("2", WINDOWS_OF_VERSION_2)]
        for window in windows
    ],
    taken(
        "a window of an answer in version 1", CALLS.replace('"reply"', '"reply"\nwindow = 16'), "108300fde5", CALL_SHOWN
    ),
    taken("version 2 without a window", CALLS.replace("version = 1", "version = 2"), "108300fde5", CALL_SHOWN),
    taken(
        "keys of no meaning", "other = 1\n" + CALLS.replace('"call"', '"call"\ncolour = "red"'), "108300fde5",
        CALL_SHOWN,
    ),
    taken(
        "a name of forty octets and a bit of the last place", document({**COMMAND, "name": f"'{'x' * 40}'"}, ANSWER),
        "10830100800000", f"frame 10830100800000 bad\nstation 16 type 1 {'x' * 40}\n15 a\n",
    ),
]

DICTIONARIES = [
    *[
        refused(number, command, text, why)
        for number, (text, why) in enumerate(DOCUMENT_FAULTS.items())
        for command in COMMANDS
    ],
    *[
        refused(number, command, document(wrong(column.ways[0]), ANSWER), column.text(1))
        for number, column in enumerate(COLUMNS)
        for command in COMMANDS
    ],
    *[refused(number, SHOW, text, why) for number, (text, why) in enumerate(REFUSED)],
    *TAKEN,
]

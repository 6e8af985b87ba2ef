"""The captures of examples/vectors/captures.json, each with its listing: tests of all languages read them."""

import json
import re
from pathlib import Path
from typing import Dict, List, NamedTuple, Tuple

from .case import Case

FILE = Path(__file__).resolve().parent.parent.parent / "examples" / "vectors" / "captures.json"

# How `port1` is told what a text has.
WORDS: Dict[str, List[str]] = {"one line": [], "two lines": ["--two"], "arrivals": ["--arrivals"]}


class Vector(NamedTuple):
    """A text capture: its dictionary, or nothing where it has none, and its listing."""

    name: str
    kind: str
    dictionary: str
    marks: str
    listing: str

    @property
    def symbols(self) -> str:
        """The marks without space."""
        return "".join(self.marks.split())

    @property
    def entries(self) -> List[Tuple[int, int, bool, int]]:
        """Of each frame of the dictionary its type, length, whether it is answered, and its window, 0 for none."""
        has_windows = "version = 2" in self.dictionary
        tables = self.dictionary.split("[[frame]]")[1:]
        frames = [dict(re.findall(r"^(\w+) = (\w+)$", table, re.MULTILINE)) for table in tables]
        return [
            (int(one["type"]), int(one["length"]), "answered" in one, int(one.get("window", 0)) if has_windows else 0)
            for one in frames
        ]

    def case(self) -> Case:
        by = ["--dict", self.dictionary] if self.dictionary else []
        return Case(self.name, ["list", "--bits", *WORDS[self.kind], *by], self.marks.encode(), self.listing)


def read() -> List[Vector]:
    file = json.loads(FILE.read_text(encoding="ascii"))
    return [
        Vector(
            name=row["name"], kind=row["kind"],
            dictionary=file["dictionaries"][row["dictionary"]] if "dictionary" in row else "", marks=row["marks"],
            listing="".join(f"{line}\n" for line in row["listing"]),
        )
        for row in file["captures"]
    ]


VECTORS = read()


def cases(kind: str) -> List[Case]:
    return [vector.case() for vector in VECTORS if vector.kind == kind]


def capture(kind: str, name: str) -> Tuple[bytes, str]:
    """A capture and its listing."""
    (found,) = [vector for vector in VECTORS if (vector.kind, vector.name) == (kind, name)]
    return found.marks.encode(), found.listing

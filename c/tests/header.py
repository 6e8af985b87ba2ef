"""Compares c/include/port1.h with the declarations of crates/port1_c/src, which it was written after by hand.

What the C library has is read from its sources in Rattle: the structs with `repr(C)`, the numbers of statuses, kinds
and causes, the exported functions, and of crates/bus_arguments the version. The offsets and sizes are worked out here,
by the rules of `repr(C)`: fields in order, each at the next multiple of its alignment. All of it is compared with the
text of the header. What a C compiler makes of the header is seen in library.py.
"""

import re
from dataclasses import dataclass
from pathlib import Path
from typing import Dict, Iterator, List, NamedTuple, Optional, Tuple

from version import version_of

TOP = Path(__file__).resolve().parent.parent.parent

# Octets of the numbers of Rattle, and what the header has for them. A number of octets has 64 bits on every target.
SIZES = {"u8": 1, "u16": 2, "u32": 4, "u64": 8, "usize": 8}
C_TYPES = {"u8": "uint8_t", "u16": "uint16_t", "u32": "uint32_t", "u64": "uint64_t", "usize": "uint64_t"}

# Files of the crates below with structs that cross to C.
BELOW = ["crates/bus_line/src/decoder_words.rt"]
BELOW += [f"crates/bus_tap/src/{name}.rt" for name in ("facts", "places", "stop", "words")]

# Structs whose fields the header has among those of the struct that they are in, and what it calls some of these. The
# last field of each ends where the struct does.
PARTS: Dict[str, Dict[str, str]] = {
    "DecoderWords": {},
    "LentFrame": {"len": "count", "register": "check"},
    "TapWords": {},
    "BitPlaces": {},
    "StopRule": {"most": "rest", "first": "first_until", "second": "second_until"},
}

STRUCT = re.compile(r"^((?:#\[[^\n]*\]\n)+)pub struct (\w+) \{\n(.*?)^\}", re.MULTILINE | re.DOTALL)
FIELD = re.compile(r"^    (?:pub(?:\(crate\))? )?(\w+): ([^{}\n]*),$", re.MULTILINE)
ARRAY = re.compile(r"\[(\w+); (\w+)\]")
NUMBER = re.compile(r"^(?:pub(?:\(crate\))? )?const (\w+): (\w+) = (\d+);$", re.MULTILINE)
EXPORT = re.compile(r'^pub extern "C" fn (\w+)\((.*?)\) -> (\w+)$', re.MULTILINE | re.DOTALL)

COMMENT = re.compile(r"/\*.*?\*/", re.DOTALL)
C_STRUCT = re.compile(r"^struct (\w+) \{\n(.*?)^\};", re.MULTILINE | re.DOTALL)
C_NUMBER = re.compile(r"\b(PORT1_\w+) = (\d+)")
C_FUNCTION = re.compile(r"^(\w+) (port1_\w+)\((.*?)\);", re.MULTILINE | re.DOTALL)
C_DEFINED = re.compile(r"^#define (PORT1_\w+) (.+)$", re.MULTILINE)
ASSERTED_SIZE = re.compile(r"^PORT1_SIZE\((\w+), (\d+)\);", re.MULTILINE)
ASSERTED_PLACE = re.compile(r"^PORT1_PLACE\((\w+), (\w+), (\d+)\);", re.MULTILINE)

# A number of a header that is no constant of the library: the most bits of a frame of 256 octets and its check, with
# a 0 after each five of them and two flags.
MOST_DATA = 8 * (256 + 2)
MOST_BITS = MOST_DATA + MOST_DATA // 5 + 16

Result = Tuple[str, List[str]]


class Place(NamedTuple):
    """A field: its type in C, and where it lies."""

    name: str
    type: str
    offset: int
    size: int


@dataclass(frozen=True)
class Layout:
    """A struct by its name in C."""

    name: str
    size: int
    align: int
    places: Tuple[Place, ...]


class Parameter(NamedTuple):
    """A parameter of a function in C; the count after a slice may have any name."""

    type: str
    name: Optional[str]


def structs_of(text: str) -> Dict[str, str]:
    """The fields of the structs of C's layout, as text."""
    return {name: body for attributes, name, body in STRUCT.findall(text) if "repr(C)" in attributes}


class Sources:
    """What the sources of the C library in Rattle declare."""

    def __init__(self, top: Path):
        texts = [path.read_text(encoding="utf-8") for path in sorted((top / "crates/port1_c/src").glob("*.rt"))]
        self.text = "\n".join(texts)
        self.numbers = {name: (kind, int(number)) for name, kind, number in NUMBER.findall(self.text)}
        self.layouts: Dict[str, Layout] = {}
        below = [(top / path).read_text(encoding="utf-8") for path in BELOW]
        bodies = structs_of("\n".join([self.text, *below]))
        self.parts = {name: bodies.pop(name) for name in PARTS}
        for name in bodies:
            self.lay_out(name, bodies)

    def fields(self, body: str) -> Iterator[Tuple[str, str]]:
        """The fields of a struct, those of a part of it in its place."""
        for field, kind in FIELD.findall(body):
            if kind in self.parts:
                yield from ((PARTS[kind].get(inner, inner), of) for inner, of in self.fields(self.parts[kind]))
            else:
                yield field, kind

    def lay_out(self, name: str, bodies: Dict[str, str]) -> Layout:
        """The layout of a struct, and of those in it first."""
        if name not in self.layouts:
            places: List[Place] = []
            end, most = 0, 1
            for field, kind in self.fields(bodies[name]):
                shown, size, align = self.measure(kind, bodies)
                begin = -(-end // align) * align
                places.append(Place(field, shown, begin, size))
                end, most = begin + size, max(most, align)
            self.layouts[name] = Layout(c_name(name), -(-end // most) * most, most, tuple(places))
        return self.layouts[name]

    def measure(self, kind: str, bodies: Dict[str, str]) -> Tuple[str, int, int]:
        """The type in C, the size and the alignment of a type."""
        if kind in SIZES:
            return C_TYPES[kind], SIZES[kind], SIZES[kind]
        array = ARRAY.fullmatch(kind)
        if array is None:
            layout = self.lay_out(kind, bodies)
            return f"struct {layout.name}", layout.size, layout.align
        shown, size, align = self.measure(array[1], bodies)
        count = int(array[2]) if array[2].isdigit() else self.numbers[array[2]][1]
        return f"{shown}[{count}]", size * count, align

    def codes(self) -> Dict[str, int]:
        """The numbers that cross to C, by their names there: those of 32 bits."""
        return {f"PORT1_{name}": number for name, (kind, number) in self.numbers.items() if kind == "u32"}

    def functions(self) -> Dict[str, List[Parameter]]:
        found = {}
        for name, text, answer in EXPORT.findall(self.text):
            pairs = re.findall(r"(\w+): ([^,]+?)\s*(?:,|$)", text.strip())
            parameters = [part for field, kind in pairs for part in self.crossed(field, kind)]
            found[name] = [Parameter(C_TYPES[answer], None), *parameters]
        return found

    def crossed(self, name: str, kind: str) -> List[Parameter]:
        """What a parameter is in C."""
        borrowed = re.fullmatch(r"&(mut )?(\[?)(\w+)\]?", kind)
        if borrowed is None:
            return [Parameter(C_TYPES[kind], name)]
        shown = C_TYPES.get(borrowed[3]) or f"struct {c_name(borrowed[3])}"
        pointer = Parameter(f"{'' if borrowed[1] else 'const '}{shown} *", name)
        return [pointer, Parameter("uint64_t", None)] if borrowed[2] else [pointer]


def c_name(name: str) -> str:
    """`Port1Line` is `port1_line`, and `LineFacts` is `port1_line_facts`."""
    shown = re.sub(r"(?<=[a-z0-9])(?=[A-Z])", "_", name).lower()
    return shown if shown.startswith("port1_") else f"port1_{shown}"


def parts_of(pattern: str, text: str) -> Tuple[str, ...]:
    """The groups of a text that has to match as a whole."""
    found = re.fullmatch(pattern, text)
    if found is None:
        raise ValueError(f"the header has {text!r}, which is no declaration")
    return found.groups()


class Header:
    """What the header declares, in the order in which it does."""

    def __init__(self, top: Path):
        self.text = (top / "c/include/port1.h").read_text(encoding="ascii")
        bare = COMMENT.sub("", self.text)
        self.structs = {name: self.fields(body) for name, body in C_STRUCT.findall(bare)}
        self.codes = {name: int(number) for name, number in C_NUMBER.findall(bare)}
        self.functions = {name: self.parameters(answer, text) for answer, name, text in C_FUNCTION.findall(bare)}
        self.defined = dict(C_DEFINED.findall(bare))

    @staticmethod
    def fields(body: str) -> List[Tuple[str, str]]:
        """Names and types, with the count of an array in the type."""
        found = []
        for statement in body.split(";")[:-1]:
            kind, names = parts_of(r"((?:struct )?\w+) (.*)", " ".join(statement.split()))
            for name in names.split(", "):
                bare, _, count = name.partition("[")
                found.append((bare, f"{kind}[{count}" if count else kind))
        return found

    @staticmethod
    def parameters(answer: str, text: str) -> List[Parameter]:
        found = [Parameter(answer, None)]
        for parameter in " ".join(text.split()).split(", "):
            kind, name = parts_of(r"(.*?)(\w+)", parameter)
            found.append(Parameter(kind.rstrip(" "), name))
        return found


def unlike(what: str, wanted: object, got: object) -> List[str]:
    return [] if wanted == got else [f"{what}: the sources have {wanted}, the header {got}"]


def problems_of_struct(layout: Layout, header: Header) -> List[str]:
    """Whether the header has these fields, in this order, and asserts these places, and no others."""
    short = layout.name.replace("port1_", "", 1)
    wanted = [(place.name, place.type) for place in layout.places]
    sizes = [int(size) for name, size in ASSERTED_SIZE.findall(header.text) if name == short]
    places = [(field, int(at)) for name, field, at in ASSERTED_PLACE.findall(header.text) if name == short]
    return [
        *unlike("fields", wanted, header.structs.get(layout.name)),
        *unlike("size that is asserted", [layout.size], sizes),
        *unlike("places that are asserted", [(place.name, place.offset) for place in layout.places], places),
    ]


def problems_of_function(name: str, sources: Sources, header: Header) -> List[str]:
    wanted, got = sources.functions().get(name, []), header.functions.get(name, [])
    problems = unlike("types", [each.type for each in wanted], [each.type for each in got])
    names = [(each.name, other.name) for each, other in zip(wanted, got) if each.name is not None]
    return problems + [part for each, other in names for part in unlike("parameter", each, other)]


def problems_of_version(top: Path, header: Header) -> List[str]:
    version = version_of(top)
    parts = [header.defined.get(f"PORT1_VERSION_{part}") for part in ("MAJOR", "MINOR", "PATCH")]
    problems = unlike("PORT1_VERSION", f'"{version}"', header.defined.get("PORT1_VERSION"))
    return problems + unlike("its parts", version.split("."), parts)


def results_of_header(top: Path = TOP) -> Iterator[Result]:
    """Row by row what differs; `top` is the folder of the repository, or of a copy of it."""
    sources, header = Sources(top), Header(top)
    for layout in sources.layouts.values():
        yield f"header: struct {layout.name}", problems_of_struct(layout, header)
    there = sorted(layout.name for layout in sources.layouts.values())
    yield "header: no other struct", unlike("structs", there, sorted(header.structs))
    yield "header: statuses, kinds and causes", [
        part
        for name in sorted({*sources.codes(), *header.codes})
        for part in unlike(name, sources.codes().get(name), header.codes.get(name))
    ]
    for name in sorted({*sources.functions(), *header.functions}):
        yield f"header: {name}", problems_of_function(name, sources, header)
    yield "header: PORT1_FRAME_BITS", unlike("number", str(MOST_BITS), header.defined.get("PORT1_FRAME_BITS"))
    yield "header: version", problems_of_version(top, header)

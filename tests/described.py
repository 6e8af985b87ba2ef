"""Whether each list and limit that stands in several places is everywhere that of its source, in a crate where one has
it; and whether a place that forgets a new one is named: each place is changed in turn, in a copy of these files."""

import re
import shutil
import subprocess
import tempfile
from pathlib import Path
from typing import Dict, Iterator, List, NamedTuple, Sequence, Set, Tuple

TOP = Path(__file__).resolve().parent.parent

Result = Tuple[str, List[str]]

NAME = r'"(\w+)"'
VARIANT = r"^    (\w+)\b"
NUMBERED = r"(\w+)(?:: u32)? = (\d+)"


class Place(NamedTuple):
    """Where a list or a limit stands: a file, a form with one group for it, and a form of each thing in it. Things with
    numbers come by them."""

    file: str
    form: str
    item: str = r"(.+)"
    is_ordered: bool = True
    without: Sequence[str] = ()  # words between the things, and things that this place leaves out
    more: int = 0  # by how much a limit is higher here


class Fact(NamedTuple):
    """What stands in several places, its source first; and what betrays a place that is not among them."""

    name: str
    places: Sequence[Place]
    trace: str = ""


HEADER = "c/include/port1.h"
PYTHON = "bindings/python/port1/__init__.py"
KINDS = "scripts/modules/listing/kinds.js"
DICTIONARY = "scripts/modules/dictionary/dictionary.js"
CAPTURES = "scripts/modules/capture/forms.js"
HELP = "crates/bus_arguments/src/arguments/help.rt"
PAGE = "cli/port1.1"
SCHEMA = "examples/dictionary.schema.json"

# The texts of lists in the examples in C.
IN_C = r"\*const {}\[\] = \{{\"\", (.*?)\}};"

FACTS = [
    Fact(
        "kinds of lines",
        [
            Place("crates/bus_text/src/kind.rt", r"match self \{(.*?)^        \}", r'=> "(\w+)"', False),
            Place(HELP, r'pub const KIND: &str = "\\\n(.*?)";', r"\b([a-z]+)\b(?=[, ]|$)", False, ["lines", "of", "this", "or"]),
            Place("cli/help/list.txt", r"Only lines of this kind: (.*?)\n  -h", r"(\w+)", False, ["or"]),
            Place("cli/help/list.txt", r"\nplace, the place past.*?\n(.*?)\nA line", r"^  ([a-z]+(?:, [a-z]+)*)\b", False),
            Place(PAGE, r"Write only lines of this kind:\n(.*?)^\.It ", r"\b([a-z]+)\b", False, ["or"]),
            Place(PAGE, r"^\.Sh OUTPUT OF LIST\n(.*?)^\.El", r"(?:\.It Li| ,) (\w+)", False),
            Place("cli/completions/port1.bash", r"--kind\)\n +words='(.*?)'", r"(\w+)", False),
            Place("cli/completions/_port1", r":kind:\((.*?)\)", r"(\w+)", False),
            Place("cli/completions/port1.fish", r"-l kind .*?-a '(.*?)'", r"(\w+)", False),
            Place("docs/TROUBLESHOOTING.md", r"^\| `unknown kind` \|.*?\| one of (.*?) \|$", r"`(\w+)`", False),
            Place("docs/CAPTURES.md", r"^\| Line \| Meaning .*?\n(.*?)\n\n", r"^\| `(\w+)", False),
            Place(KINDS, r"(const REPORTS = .*?\"pending\"\])", NAME, False),
            Place("tests/table/lists.py", r"^KINDS = \[\n(.*?)^\]", NAME, False),
            Place("scripts/tests/completions.py", r'^KINDS = "(.*?)"', r"(\w+)", False),
        ],
        r"(?i)\boverlong\W{1,4}abort\W{1,4}idle\W{1,4}(?:\w+\W{1,4}){2}",
    ),
    Fact(
        "reports",
        [
            Place("crates/bus_line/src/event.rt", r"pub enum EventKind \{\n(.*?)^\}", VARIANT),
            Place("crates/port1_c/src/report.rt", r"NONE: u32 = 0;\n(.*?)^/// The causes", NUMBERED),
            Place(HEADER, r"PORT1_NONE = 0,(.*?)\};", NUMBERED),
            Place(PYTHON, r"^class Kind\(IntEnum\):(.*?)\n\n\n", NUMBERED),
            Place(KINDS, r"^const REPORTS = .*?\(\[(.*?)\]\)", NAME),
            *[Place(f"c/examples/{name}.c", IN_C.format("kinds"), NAME) for name in ("list", "tap", "mcu/listing")],
            Place("bindings/sigrok/nema_port1/pd.py", r"^SHORT = \{(.*?)\}", r'"(\w+)":', True, ["frame"]),
            Place("scripts/tests/annotated.py", r"^PIECES = \((.*?)\)", NAME),
        ],
        r"(?i)\boverlong\W{1,4}abort\W{1,4}idle\b",
    ),
    Fact(
        "verdicts",
        [
            Place("crates/bus_pairing/src/outcome.rt", r"pub enum Outcome \{\n(.*?)^\}", VARIANT, False),
            Place("crates/port1_c/src/seen.rt", r"0 where nothing was decided\.\n(.*?)^///", r"const (\w+): u32", False),
            Place("bench/run", r'split\("frame .*? stray (.*?)", kinds\)', r"(\w+)", False),
        ],
    ),
    Fact(
        "verdicts in C",
        [
            Place("crates/port1_c/src/seen.rt", r"0 where nothing was decided\.\n(.*?)^///", NUMBERED),
            Place(HEADER, r"What became of a command; 0 .*?enum \{(.*?)\};", NUMBERED),
            Place(PYTHON, r"^class Outcome\(IntEnum\):(.*?)\n\n\n", NUMBERED),
            Place(KINDS, r"^export const VERDICTS = .*?\(\[(.*?)\]\)", NAME),
            *[Place(f"c/examples/{name}.c", IN_C.format("verdicts"), NAME) for name in ("watch", "mcu/listing")],
            Place("c/tests/examples.py", r"^FOLLOWS = \((.*?)\)", NAME, True, ["stray", "pending"]),
        ],
        r"(?i)\bansw\w+\W{1,4}late\W{1,4}missing\W{1,4}spoilt\b",
    ),
    Fact(
        "causes of damage",
        [
            Place("crates/bus_line/src/cause.rt", r"pub enum Cause \{\n(.*?)^\}", VARIANT),
            Place("crates/port1_c/src/report.rt", r"causes of a damaged piece, likewise\.\n(.*?)^///", NUMBERED),
            Place(HEADER, r"The cause of PORT1_DAMAGED\. \*/\nenum \{(.*?)\};", NUMBERED),
            Place(PYTHON, r"^class Cause\(IntEnum\):(.*?)\n\n\n", NUMBERED),
            Place(KINDS, r'^export const CAUSES = \["", (.*?)\]', NAME),
            *[Place(f"c/examples/{name}.c", IN_C.format("causes"), r'" ?(\w+)"') for name in ("list", "tap", "mcu/listing")],
            Place(HELP, r"  damaged CAUSE +a piece that is no frame: (.*?)$", r"(\w+)", True, ["or"]),
            Place("cli/help/list.txt", r"  damaged CAUSE +a piece that is no frame: (.*?)$", r"(\w+)", True, ["or"]),
            Place(PAGE, r"^The cause is\n(.*?)^\.It", r"^\.Li (\w+)", False),
            Place("docs/CAPTURES.md", r"^\| Line \| Meaning .*?\n(.*?)\n\n", r"^\| `damaged (\w+)", False),
            Place("scripts/modules/commands/list-to-jsonl.txt", r"cause +of damage: (.*?)$", r"(\w+)", False),
            Place("scripts/modules/tests/support/listing.js", r"\|damaged \((.*?)\)", r"(\w+)", False),
            Place("scripts/modules/tests/support/made_listing.js", r"^const CAUSES = \[(.*?)\]", r'"damaged (\w+)"', False),
            Place("scripts/tests/sigrok.py", r"^ALL_KINDS = \[(.*?)^\]", r'"damaged (\w+)"', False),
        ],
        r"(?i)\bunstuffed\W{1,6}short\W{1,6}unaligned\b",
    ),
    Fact(
        "standings in C",
        [
            Place("crates/port1_c/src/seen.rt", r"with PORT1_ before each name\.\n(.*?)^///", NUMBERED),
            Place(HEADER, r"How a frame stands to the table; .*?enum \{(.*?)\};", NUMBERED),
            Place(PYTHON, r"^class Standing\(IntEnum\):(.*?)\n\n\n", NUMBERED),
            Place("scripts/modules/listing/listing.js", r"NO_HEAD = 0;\n(.*?)^const HEADS", NUMBERED, True, ["known"]),
        ],
    ),
    Fact(
        "statuses in C",
        [
            Place("crates/port1_c/src/status.rt", r"OK: u32 = 0;\n(.*)\Z", NUMBERED),
            Place(HEADER, r"PORT1_OK = 0,(.*?)\};", NUMBERED),
            Place(PYTHON, r"^OK, (.*?) = range\(6\)", r"(\w+)"),
        ],
    ),
    Fact(
        "letters of packed captures",
        [
            Place("crates/bus_formats/src/packed_head.rt", r"^//! .*?\n(.*?)^const MOST", r'b"(TS2BITS\w+)"'),
            Place(CAPTURES, r"^export const FORMS = \{(.*?)^\}", r'magic: "(\w+)"'),
            Place(HELP, r"pub const WHOLE(.*?)^pub const LIST", r"(TS2BITS\w+)"),
            Place("cli/help/port1.txt", r"\A(.*)\Z", r"(TS2BITS\w+)"),
            Place(PAGE, r"^\.Sh CAPTURES(.*?)^\.Sh", r"(TS2BITS\w+)"),
            Place("bench/generate.c", r"fputs\((arrive \? .*?), stdout", r'"(\w+)"', False),
        ],
        r"TS2BITS3",
    ),
    Fact(
        "marks of arrivals",
        [
            Place("crates/bus_formats/src/text_arrivals.rt", r"match octet \{(.*?)_ =>", r"b'(.)' =>"),
            Place(CAPTURES, r'^  arrivals: \{ .*?marks: "(.*?)"', r"(.)"),
            Place("bench/generate.c", r'arrive \? "(.*?)"\[', r"(.)"),
            Place("tests/jobs.py", r'\["(.*?)"\.index', r"(.)"),
        ],
    ),
    Fact(
        "forms of recordings",
        [
            Place("scripts/modules/recording/forms.js", r"^export const FORMS = .*?\(\[(.*?)\]\)", NAME),
            Place("scripts/modules/commands/recording-to-bits.txt", r"\[--format \{(.*?)\}\]", r"(\w+)"),
            Place("scripts/modules/commands/recording-to-bits.txt", r"--format FORM +(.*?), where", r"(\w+)", True, ["or"]),
            Place("page/src/view/job.js", r"^  packed3.*?\n(.*?)^  listing", r"^  (\w+):", False, ["binary"]),
            Place("page/index.html", r'"packed3".*?\n(.*?)<option value="listing"', r'value="(\w+)"', False, ["binary"]),
        ],
    ),
    Fact(
        "windows",
        [
            Place("crates/bus_dictionary/src/fields.rt", r"Some\(window\) if answered && (.*?) =>", r"([\d_]+)"),
            *[
                Place(f"crates/bus_dictionary/{file}", form, r"(\d+)")
                for file, form in [
                    ("src/dictionary.rt", r"in version 2, of a type that is answered, (\d+ to \d+):"),
                    ("src/entry.rt", r"the answer is to begin, (\d+ to \d+),"),
                    ("src/fault.rt", r"is no integer from (\d+ to \d+),"),
                    ("specs/Entry.antt", r"-- a window is (\d+ to \d+) bits"),
                    ("specs/Entry.antt", r"^if_window .*?&& \((.*?)\) then"),
                    ("specs/FaultTable.antt", r"w ≡ integer \(pos x\) → (.*?) → ⊥"),
                    ("specs/Laws.antt", r"e\.window ≡ Some w → (.*?) × IsTrue"),
                ]
            ],
            Place(SCHEMA, r'"window": \{(.*?)\}', r'imum": (\d+)'),
            Place(DICTIONARY, r"(export const LEAST_WINDOW.*?MOST_WINDOW = .*?;)", r"([\d_]+);"),
            Place(PAGE, r"lie between the command and its answer, (.*?)\.$", r"(\d+)"),
            Place("docs/DICTIONARY.md", r"^\| `frame\.window` \| (.*?) \|", r"(\d+)"),
            Place("docs/DICTIONARY.md", r"^\| `frame N: bad window` \| version 2: not (\d+ to \d+)", r"(\d+)"),
        ],
        r"1_?048_?576",
    ),
    Fact(
        "lengths of entries",
        [
            Place("crates/bus_dictionary/src/entry/read.rt", r'number_at\(value, "length", (\d+)\)'),
            Place(DICTIONARY, r"^const LENGTHS = (\d+);"),
            Place(SCHEMA, r'"length": \{.*?"maximum": (\d+)', more=-1),
            Place(PAGE, r"without the check, 0 to (\d+); needed", more=-1),
            Place("docs/DICTIONARY.md", r"^\| `frame\.length` \| 0 to (\d+) \|", more=-1),
            Place("docs/DICTIONARY.md", r"^\| `frame N: bad length` \| no `length`, or not 0 to (\d+) \|", more=-1),
        ],
    ),
    Fact(
        "lengths of names",
        [
            Place("crates/bus_dictionary/src/fields.rt", r"1 <= text\.len\(\) && text\.len\(\) <= (\d+)"),
            Place(DICTIONARY, r"^const NAME = /\^\[!-~\]\{1,(\d+)\}"),
            Place(SCHEMA, r'"pattern": "\^\[!-~\]\{1,(\d+)\}'),
            Place(PAGE, r"^1 to (\d+) printable ASCII"),
            Place("docs/DICTIONARY.md", r"^\| `frame\.name` \| 1 to (\d+) printable"),
        ],
    ),
    Fact(
        "longest frames",
        [
            Place("crates/bus_line/src/decoder_words.rt", r"if (longest < \d+ \|\| longest > \d+) \{", r"(\d+)"),
            Place(HEADER, r"longest: the longest frame in octets, address through information, (\d+ to \d+), else", r"(\d+)"),
            Place(HEADER, r"the longest frame is not of (\d+ to \d+) octets", r"(\d+)"),
            Place(PYTHON, r"^SHORTEST_LONGEST, LONGEST = (.*?)$", r"(\d+)"),
            Place(PYTHON, r"address through information, (\d+ to \d+)\. origin", r"(\d+)"),
        ],
    ),
    Fact(
        "depths of the history",
        [
            Place("crates/bus_arguments/src/arguments/rows.rt", r'name: "depth",\n(.*?)    help', r"(\d+)"),
            Place("cli/help/check.txt", r"--depth <N> +(.*?)$", r"(\d+)"),
            Place(PAGE, r"^\.It Fl Fl depth Ar n\n(.*?)^\.It", r"(\d+)"),
            Place("scripts/definitions/by_definition.py", r'"--depth", (.*?)$', r"(\d+)"),
        ],
    ),
    Fact(
        "silence before a rest",
        [
            Place("crates/bus_tap/src/rest.rt", r"pub const SILENCE: u64 = (\d+);"),
            Place("crates/bus_arguments/src/arguments.rt", r"^const REST: u64 = (\d+);"),
            Place("crates/bus_arguments/src/arguments/rows.rt", r'name: "rest",\n    defaults: &\["(\d+)"\]'),
            Place(HEADER, r"^#define PORT1_SILENCE (\d+)$"),
            Place("bindings/python/port1/taps.py", r"^SILENCE = (\d+)$"),
            Place("scripts/modules/port1.js", r"^export const SILENCE = (\d+);$"),
            Place("scripts/modules/commands/recording-to-bits.txt", r"into the next: (\d+) unless given"),
            Place("page/index.html", r'id="rest" value="(\d+)"'),
            Place("scripts/definitions/by_definition.py", r"^SILENCE = (\d+)$"),
            Place("cli/help/list.txt", r"--rest <N> [^\n]*\[default: (\d+)\]"),
            Place("cli/help/check.txt", r"--rest <N> [^\n]*\[default: (\d+)\]"),
            Place(PAGE, r"^The default is (\d+); with 0 none are put in\.$"),
            Place("docs/CAPTURES.md", r"After (\d+) places without one \(`--rest N`\)"),
        ],
    ),
]

# Where copies of lists are not looked for: definitions and proofs, which the prover compares, and what names some.
NO_COPIES = re.compile(
    r"crates/\w+/(proofs|wrong-bodies|must-fail)/|crates/\w+_tests/|crates/bus_seen/|crates/\w+/specs/|(CHANGELOG|tests/described)"
    r"|examples/vectors/|docs/PROMISES\.toml|scripts/modules/tests/|page/tests/|(tests|scripts/tests)/\w+"
)

# A new kind, verdict and limit, as one might be added: in the source alone.
ADDED = [
    ("reports", "    Idle,\n}", "    Idle,\n    /// A piece of under eight bits.\n    Runt,\n}"),
    ("kinds of lines", '            Kind::Pending => "pending",', '            Kind::Pending => "pending",\n            Kind::Runt => "runt",'),
    ("verdicts", "    Late,\n}", "    Late,\n    /// It came before the command had ended.\n    Early,\n}"),
    ("windows", "1_048_576", "2_097_152"),
    ("silence before a rest", "SILENCE: u64 = 40", "SILENCE: u64 = 48"),
]


def passage(place: Place, text: str) -> "re.Match[str]":
    found = [*re.finditer(place.form, text, re.MULTILINE | re.DOTALL)]
    if len(found) != 1:
        raise ValueError(f"{place.form} is there {len(found)} times")
    return found[0]


def things_in(place: Place, text: str) -> List[str]:
    """The words or numbers of a place, as all places have them."""
    found = passage(place, text)[1]
    pairs = [(each, "") if isinstance(each, str) else each for each in re.findall(place.item, found, re.MULTILINE)]
    pairs.sort(key=lambda pair: int(pair[1] or 0))
    wrong = [pair for at, pair in enumerate(pairs, 1) if pair[1] and int(pair[1]) != at]
    words = [word for name, _ in pairs for word in re.split(", ", name) if word not in place.without]
    plain = [str(int(word) - place.more) if re.fullmatch(r"\d[\d_]*", word) else spelled(word) for word in words]
    return plain + [f"{name} is {number}" for name, number in wrong]


def spelled(word: str) -> str:
    """A name as lines of a listing have it."""
    return word.replace("PORT1_", "").lower()


def unlike(top: Path, fact: Fact) -> Iterator[Tuple[Place, str]]:
    """The places that differ from the source, and in what."""
    source, *others = fact.places
    wanted = things_in(source, (top / source.file).read_text(encoding="utf-8"))
    for place in others:
        due = [word for word in wanted if word not in place.without]
        try:
            got = things_in(place, (top / place.file).read_text(encoding="utf-8"))
        except ValueError as fault:
            yield place, str(fault)
            continue
        is_alike = due == got if place.is_ordered else set(due) == set(got)
        if not is_alike:
            yield place, f"{place.file}: {source.file} has {' '.join(due)}, this has {' '.join(got)}"


def files_of(fact: Fact) -> Set[str]:
    return {place.file for place in fact.places}


def copies_of(fact: Fact, texts: Dict[str, str]) -> Iterator[str]:
    """The files with a copy that is not compared."""
    named = {file for each in FACTS for file in files_of(each)}
    for name, text in texts.items():
        if name not in named and not NO_COPIES.match(name) and re.search(fact.trace, text):
            yield f"{name} has a copy: compare it here, or read it from a place that is"


def tracked_texts() -> Dict[str, str]:
    names = subprocess.run(["git", "ls-files"], cwd=TOP, capture_output=True, text=True, check=True).stdout.splitlines()
    paths = [name for name in names if (TOP / name).is_file() and not name.endswith((".png", ".ts2", ".bits", ".sr"))]
    return {name: (TOP / name).read_text(encoding="utf-8", errors="replace") for name in paths}


def copied(folder: Path) -> Path:
    """The files of all places, in a folder of their own."""
    shutil.rmtree(folder, ignore_errors=True)
    for name in {file for fact in FACTS for file in files_of(fact)}:
        (folder / name).parent.mkdir(parents=True, exist_ok=True)
        shutil.copyfile(TOP / name, folder / name)
    return folder


def changed(place: Place, text: str) -> str:
    """The text with another thing in place of the last one."""
    found = passage(place, text)
    *_, last = re.finditer(place.item, found[1], re.MULTILINE)
    word = last[1].split(", ")[-1]
    other = str(int(word) + 1) if word.replace("_", "").isdigit() else "x" if len(word) == 1 else f"{word}y"
    begin = found.start(1) + last.end(1) - len(word)
    return text[:begin] + other + text[begin + len(word) :]


def missed_at(folder: Path, fact: Fact, place: Place) -> List[str]:
    """Whether a place that differs is named, and no other."""
    top = copied(folder)
    path = top / place.file
    path.write_text(changed(place, path.read_text(encoding="utf-8")), encoding="utf-8")
    named = [found for found, _ in unlike(top, fact)]
    return [] if place in named and all(found.file == place.file for found in named) else [f"named: {named}"]


def missed_of(folder: Path, fact: Fact, old: str, new: str) -> List[str]:
    """Whether each place that lacks what the source has anew is named."""
    top = copied(folder)
    path = top / fact.places[0].file
    text = path.read_text(encoding="utf-8")
    path.write_text(text.replace(old, new), encoding="utf-8")
    named = [found for found, _ in unlike(top, fact)]
    left = [place.file for place in fact.places[1:] if place not in named]
    return [f"not named: {left}"] if left or text.count(old) != 1 else []


def results_of_descriptions() -> Iterator[Result]:
    texts = tracked_texts()
    for fact in FACTS:
        yield f"{fact.name}: all places", [text for _, text in unlike(TOP, fact)]
        if fact.trace:
            yield f"{fact.name}: copies", [*copies_of(fact, texts)]
    with tempfile.TemporaryDirectory(prefix="port1-") as folder:
        for fact in FACTS:
            for place in fact.places[1:]:
                yield f"{fact.name}: another in {place.file}", missed_at(Path(folder) / "copy", fact, place)
        for name, old, new in ADDED:
            (fact,) = [each for each in FACTS if each.name == name]
            yield f"{name}: one more", missed_of(Path(folder) / "copy", fact, old, new)

"""The definitions, run: beside the program, edited, and in forms that the translator does not know."""

import importlib
import itertools
import os
import random
import shutil
import subprocess
import sys
from pathlib import Path
from typing import Dict, Iterator, List, NamedTuple, Sequence, Tuple

from beside import Minutes
from definitions import values
from definitions.by_definition import Answer, Definitions, read_words
from definitions.manners import Fault
from definitions.python import Translation, with_room
from table.captures import packed_marks
from tests.case import CALL, DICTIONARY, SECONDS, TOP, WINDOWS, Run, packed, ran, random_bits, sampler, unlike
from tests.parts import OPTIONS, dirty_line, packed_two, polling

HEAD = "usage: by-definition [-h] COMMAND ...\nby-definition: error: "

LIST_HEAD = (
    "usage: by-definition list [-h] [--dict TEXT | --dictionary FILE] [--bits]\n"
    "                          [--two | --arrivals] [--rest N] [--origin N]\n"
    "                          [--station N] [--type N] [--kind K]\nby-definition list: error: "
)

# Counted by hand: 40 bits of data in 5 octets, one frame of six steps.
LEDGER = b"assembled 40\nstored 5\ncopied 5\nhandled 6\n"

# On the second line the same; on the first fifteen ones, an idle line of three steps.
IDLE_LEDGER = b"1 assembled 0\n1 stored 0\n1 copied 0\n1 handled 3\n"

BOTH = "".join(str(1 * (at < 15) + 2 * int(bit)) for at, bit in enumerate(CALL.replace(" ", ""))).encode()

TWO_LEDGERS = IDLE_LEDGER + b"".join(b"2 " + line + b"\n" for line in LEDGER.splitlines())

RUNS = [
    Run("no command", ["by-definition"], b"", b"", HEAD + "the following arguments are required: COMMAND\n", 2),
    Run(
        "an origin past the last place", ["by-definition", "list", "--origin", str(2**60 + 1)], b"",
        stderr=f"{LIST_HEAD}argument --origin: {2**60 + 1} is not 0 to {2**60}\n", status=2,
    ),
    Run("no kind", ["by-definition", "list", "--kind", "x"], b"", b"", "by-definition: unknown kind\n", 2),
    Run("a bad mark", ["by-definition", "list", "--bits"], b"0 1 2", b"", "by-definition: capture: bad_mark 4\n", 2),
    Run("a short head", ["by-definition", "check"], b"TS2BITS1", b"", "by-definition: capture: short_head\n", 2),
    Run(
        "a dictionary's fault",
        ["by-definition", "list", "--dict", 'version = 1\nframe = [{ type = 0, name = "a b" }]'], b"",
        stderr="by-definition: dictionary: BadName 1\n", status=2,
    ),
    Run("a ledger", ["by-definition", "ledger", "--bits"], CALL.encode(), LEDGER),
    Run("three wires", ["by-definition", "sample", "0", "1", "2"], b"", b"", HEAD + "the wires are TXC and TXD, or also RXC and RXD\n", 2),
    Run("a record cut off", ["by-definition", "sample", "--octets", "2", "0", "1"], b"\0\1\2", b"", "by-definition: the last sample is cut off\n", 2),
    Run("two ledgers", ["by-definition", "ledger", "--bits", "--two"], BOTH, TWO_LEDGERS),
]

# What the program says of each fault of a capture.
FAULTS = {
    "": "",
    "bad_mark": "octet {} is no bit",
    "magic": "wrong magic",
    "too_many": "too many bits",
    "pad_bits": "spare bits are not 0",
    "trailing": "octets after the end",
    "place_limit": "place limit",
    "short_head": "short head",
    "short_body": "short body",
}


# And of each fault of a dictionary.
DICTIONARY_FAULTS = {
    "NotToml": "not TOML",
    "Version": "version is not 1 or 2",
    "NoFrames": "no frames",
    "BadType": "frame {}: bad type",
    "BadName": "frame {}: bad name",
    "BadLength": "frame {}: bad length",
    "BadAnswered": "frame {}: bad answered",
    "BadWindow": "frame {}: bad window",
    "BadBit": "frame {}: bad bit",
    "TwiceType": "type {} twice",
    "NoAnswerEntry": "type {} has no answer entry",
}


def answered(words: Sequence[str], capture: bytes) -> Answer:
    """What the program writes of a capture, and its fault."""
    command = [os.environ["PORT1"], *words]
    got = subprocess.run(command, input=capture, capture_output=True, timeout=SECONDS)
    return Answer(got.stdout, got.stderr.decode().rstrip("\n"))


def in_words_of_port1(answer: Answer) -> Answer:
    name, _, value = answer.fault[len("capture: ") :].partition(" ")
    return Answer(answer.text, f"port1: capture: {FAULTS[name].format(value)}" if name else "")


def compared(definitions: Definitions, words: Sequence[str], capture: bytes, what: str) -> List[str]:
    """Whether the definitions say of a capture what the program writes, octet for octet."""
    got = in_words_of_port1(definitions.answer(read_words(words), capture))
    return unlike(f"{what}: {' '.join(words)[:60]}", answered(words, capture), got)


def definitions_of(top: Path) -> Definitions:
    return Definitions(top / "crates")


def dictionary_of(example: Path) -> List[str]:
    """Options with the dictionary of an example: its own, if it has one."""
    own = example.with_suffix(".toml")
    text = own.read_text(encoding="ascii") if own.is_file() else WINDOWS
    return ["--dict", text.rstrip("\n")]


# Octets of a capture that takes half a minute.
LONG = 50_000


def examples() -> Iterator[Tuple[Path, List[str]]]:
    """Each capture of the examples, as it is meant and as it is not."""
    for example in sorted((TOP / "examples").iterdir()):
        if example.suffix in (".bits", ".ts2"):
            for form in [[], ["--bits"]]:
                for lines in [[], ["--two"]]:
                    yield example, [*form, *lines]


def problems_of_examples() -> List[str]:
    definitions = definitions_of(TOP)
    problems: List[str] = []
    for example, options in examples():
        capture, dictionary = example.read_bytes(), dictionary_of(example)
        for words in [["list", *dictionary], ["check", *dictionary], ["list"]][: 1 if len(capture) > LONG else 3]:
            problems += compared(definitions, [words[0], *options, *words[1:]], capture, example.name)
    return problems


def damaged(generator: random.Random, capture: bytes) -> bytes:
    """A capture as it is, or with one octet other, fewer or more."""
    at, octet = generator.randrange(len(capture) + 1), bytes([generator.choice(b"01 23\n\tx\x00\xff")])
    ways = [capture] * 5 + [capture[:at] + octet + capture[at + 1 :], capture[:at], capture[:at] + octet + capture[at:]]
    return generator.choice(ways)


def lines_of(generator: random.Random, count: int) -> Tuple[str, str]:
    """The bits of two lines: traffic, or noise."""
    if generator.randrange(3):
        first, second = polling(generator, max(count, 1))
    else:
        first, second = dirty_line(generator, count), dirty_line(generator, count)
    return first[:count], second[:count]


class Form(NamedTuple):
    """Captures of some lines: the option that reads them, how packed ones begin, and the marks of texts. A line has so
    many bits at most: the definition of arrivals looks at all before each."""

    options: Sequence[str]
    magic: bytes
    marks: str
    most: int


ONE = Form([], b"TS2BITS1", "01", 500)
TWO = Form(["--two"], b"TS2BITS2", "0123", 500)
ARRIVALS = Form(["--arrivals"], b"TS2BITS3", "01oi", 160)


def arriving(generator: random.Random, lines: Sequence[Sequence[int]]) -> Iterator[int]:
    """The marks of the bits of two lines as they arrive: in turn, or one line ahead of the other, now and then far."""
    left = [list(reversed(bits)) for bits in lines]
    while left[0] or left[1]:
        line = generator.choice([at for at in (0, 1) if left[at]])
        for _ in range(min(len(left[line]), generator.choice([1, 1, 1, 2, 20]))):
            yield left[line].pop() + 2 * line


def random_capture(generator: random.Random, form: Form) -> Tuple[bytes, List[str]]:
    """A capture of a few hundred bits, and how it is read."""
    count = generator.randrange(form.most)
    lines = lines_of(generator, count)
    if form is ONE and generator.randrange(3):
        lines = (dirty_line(generator, count) if generator.randrange(4) else random_bits(generator, count), "")
    first, second = ([int(bit) for bit in line] for line in lines)
    if form is ONE:
        marks = first
    elif form is TWO:
        marks = [one + 2 * other for one, other in zip(first, second)]
    else:
        marks = list(arriving(generator, (first, second)))
    options = [*form.options, *(["--rest", str(generator.choice([0, 7, 60]))] if form is ARRIVALS else [])]
    if generator.randrange(2):
        return packed(lines[0]) if form is ONE else packed_marks(form.magic, marks), options
    blanks = [generator.choice(["", "", "", "", "", "\n", " ", "\r\n"]) for _ in marks]
    return "".join(form.marks[mark] + blank for mark, blank in zip(marks, blanks)).encode(), [*options, "--bits"]


def problems_of_random(seed: int, count: int) -> List[str]:
    """Listings and checks of random captures, of one line, of two, and of two with a clock each in turn."""
    definitions = definitions_of(TOP)
    generator = random.Random(seed)
    problems: List[str] = []
    minutes = Minutes()
    for number in range(count):
        minutes.tell(f"{number} of {count} captures, {len(problems)} differ")
        capture, options = random_capture(generator, [ONE, TWO, ARRIVALS][number % 3])
        listed = generator.choice(OPTIONS)
        is_filter = any(word.startswith(("--kind", "--station", "--type")) for word in listed)
        command = "list" if is_filter or generator.randrange(3) else "check"
        if not generator.randrange(20):
            listed, command = ["--origin", str(2**60 - generator.randrange(300))], "list"
        problems += compared(definitions, [command, *options, *listed], damaged(generator, capture), f"random {number}")
    return problems


def levels_of(generator: random.Random, count: int) -> List[int]:
    """The levels of a wire in so many samples: each stands for a few, or for long."""
    levels: List[int] = []
    while len(levels) < count:
        levels += [(levels or [0])[-1] ^ 1] * generator.choice([1, 2, 3, 3, 4, 4, 20])
    return levels[:count]


def random_recording(generator: random.Random) -> Tuple[bytes, List[str]]:
    """Samples of one line or two, with other bits beside, or runs of them; and how they are read."""
    wires = [str(number) for number in generator.sample(range(8), generator.choice([2, 4]))]
    count = generator.randrange(160)
    samples = [0] * count
    for number in range(8):
        for at, level in enumerate(levels_of(generator, count)):
            samples[at] |= level << number
    options = ["--hold", str(generator.randrange(3)), "--rest", str(generator.choice([0, 5, 12, 30]))]
    options += ["--falling"] * generator.randrange(2)
    if generator.randrange(2):
        return bytes(samples), [*options, *wires]
    runs = [(level, len([*alike])) for level, alike in itertools.groupby(samples)]
    return b"".join(bytes([level]) + length.to_bytes(7, "little") for level, length in runs), [*options, "--runs", *wires]


def problems_of_recordings(seed: int, count: int) -> List[str]:
    definitions = definitions_of(TOP)
    generator = random.Random(seed)
    problems: List[str] = []
    for number in range(count):
        samples, words = random_recording(generator)
        got = subprocess.run([sampler(), *words], input=samples, capture_output=True, timeout=SECONDS).stdout
        defined = definitions.answer(read_words(["sample", *words]), samples).text
        problems += unlike(f"recording {number}: {' '.join(words)}", got, defined)
    return problems


def on_random_recordings(folder: Path) -> List[str]:
    """Samples of clocks that stop, of glitches and of other wires beside."""
    return run_deep(lambda: problems_of_recordings(12, 60))


def as_the_program(folder: Path) -> List[str]:
    """All examples, read as what they are and as what they are not."""
    return run_deep(problems_of_examples)


def on_random_captures(folder: Path) -> List[str]:
    return run_deep(lambda: problems_of_random(11, 60))


def run_deep(problems) -> List[str]:
    found: List[str] = []
    with_room(lambda: found.extend(problems()))
    return found


def dictionaries_of_the_table() -> Dict[str, str]:
    """The texts of the dictionaries in the program's table of runs, and what each run says of its own."""
    sys.path.append(str(TOP / "tests"))
    rows = importlib.import_module("table.dictionaries").DICTIONARIES
    return {row.words[row.words.index("--dict") + 1]: row.stderr for row in rows}


def fault_of(definitions: Definitions, text: str) -> str:
    """What the program says of the fault that a dictionary has by the definitions, if it has one."""
    try:
        definitions.dictionary(definitions.options(read_words(["list", f"--dict={text}"])))
        return ""
    except Fault as fault:
        name, _, value = str(fault)[len("dictionary: ") :].partition(" ")
        return f"port1: dictionary: {DICTIONARY_FAULTS[name].format(value)}\n"


def on_dictionaries_with_faults(folder: Path) -> List[str]:
    """Each way to have each fault, and those at a limit that have none."""
    definitions = definitions_of(TOP)
    texts = dictionaries_of_the_table()
    problems = [] if len(texts) > 500 else [f"there are {len(texts)} dictionaries"]
    for text, said in texts.items():
        problems += unlike(text, said, fault_of(definitions, text))
    return problems


def on_long_captures(folder: Path) -> List[str]:
    """Definitions that call themselves once for each bit of a list."""
    definitions = definitions_of(TOP)
    capture, pairs = packed("01" * 25_000), packed_two("0" * 25_000, "1" * 25_000)
    return run_deep(
        lambda: compared(definitions, ["list"], capture, "50000 bits")
        + compared(definitions, ["check", "--two"], pairs, "25000 pairs")
    )


def on_too_long_a_capture(folder: Path) -> List[str]:
    """More bits than Python has room for calls within calls."""
    got = ran(["by-definition", "list", "--bits"], b"0" * 600_000)
    wanted = "by-definition: the capture is too long for this way to list it\n"
    return unlike("600000 bits", (b"", wanted, 2), (got.stdout, got.stderr.decode(), got.returncode))


class Edit(NamedTuple):
    """A place in the definitions, and what stands there instead."""

    file: str
    old: str
    new: str


# Edits of which each changes what is said of a call and its reply.
EDITS = [
    Edit("bus_line/specs/Mark.antt", "false ∷ true ∷ true ∷ true", "true ∷ true ∷ true ∷ true"),
    Edit("bus_line/specs/Due.antt", "first = p + 8; past = m })", "first = p + 7; past = m })"),
    Edit("bus_line/specs/Spelling.antt", "option_map (λ d. ones 5 ++ d)", "option_map (λ d. ones 4 ++ d)"),
    Edit("bus_fcs/specs/Division.antt", "false ∷ true ∷ []", "true ∷ true ∷ []"),
    Edit("bus_dictionary/specs/Standing.antt", "slice_index octets 1 == 0x83", "slice_index octets 1 == 0x84"),
    Edit("bus_pairing/specs/Talk.antt", "ftype == p.ftype + 128", "ftype == p.ftype + 127"),
    Edit("bus_text/specs/Kinds.antt", 'kind_word Answered = codes "answered"', 'kind_word Answered = codes "heard"'),
]


def as_it_is_written(folder: Path) -> List[str]:
    """The text is what runs: an edit of it changes the listing."""
    options = read_words(["list", "--bits", "--dict", DICTIONARY])
    capture = (TOP / "examples" / "in-time-late-missing.bits").read_bytes()
    others = shutil.ignore_patterns("src", "proofs", "out", "must-fail", "wrong-bodies")
    shutil.copytree(TOP / "crates", folder / "crates", ignore=others)
    plain = definitions_of(folder).answer(options, capture)
    problems = unlike("the copy", answered(["list", "--bits", "--dict", DICTIONARY], capture), plain)
    for edit in EDITS:
        path = folder / "crates" / edit.file
        text = path.read_text(encoding="utf-8")
        if text.count(edit.old) != 1:
            problems.append(f"{edit.old!r} is not once in {edit.file}")
        path.write_text(text.replace(edit.old, edit.new), encoding="utf-8")
        if definitions_of(folder).answer(options, capture) == plain:
            problems.append(f"{edit.new!r} changes nothing")
        path.write_text(text, encoding="utf-8")
    return problems


# What stands before the definitions below.
BEGINNING = """\
use Rattle.std.specs.Prelude.{ℕ, zero, suc, ◌+◌, ◌∷◌, List, [], length, map, sum_by, reverse, Option, Some, None}
use Rattle.some.specs.Other.{there}
pub data Kind : Type 0 where
  Odd : ℕ → Kind
"""

# Definitions of `it`, and what is said of them; the first is known.
UNKNOWN: List[Tuple[str, str]] = [
    ("abbrev it : ℕ → ℕ\nit n = n + 1\n", ""),
    ("abbrev it : List ℕ → List ℕ\nit xs = reverse xs\n", "6: not known: reverse"),
    ("abbrev it : ℕ → ℕ\nit n = there n\n", "6: not known: there"),
    ("abbrev it : ℕ → ℕ\nit n = n ⊕ 1\n", "6: not known: ⊕"),
    ("abbrev it : ℕ → ℕ\nit n = n * 1\n", "6: not known: ◌*◌"),
    ("abbrev it : ℕ → ℕ\nit n = true\n", "6: not known: true"),
    ("abbrev it : ℕ → ℕ\nit there = 1\n", "6: not known: a form of an argument: there"),
    ("pub data Two : Type 0 where\n  A B : Two\n", "6: not known: a case without a type: A"),
    ("abbrev it : ℕ → ℕ\nit 3 = 4\n", "6: not known: a form of an argument"),
    ("abbrev it : ℕ → ℕ\nit (Even n) = n\n", "6: not known: a form of an argument: Even"),
    ("abbrev it : ℕ → ℕ\nit n = elim n [ zero ↦ 1 ]\n", "6: not known here: elim"),
    ("abbrev it : ℕ → ℕ\nit n = record n { a = 1 }\n", "6: { is missing before: n"),
    ("abbrev it : ℕ → ℕ\nit n = 0b2\n", "6: not known here: 0b2"),
    ("abbrev it : ℕ → ℕ\nit n = length {A} n\n", "6: not known here: {"),
    ("abbrev it : ℕ → ℕ\nit n = (n\n", "6: ) is missing before: the end"),
    ("abbrev it : ℕ → ℕ\nit n = n +\n", "6: not known here: the end"),
    ("abbrev it : ℕ → Type 0\nit n = n ≡ 1\n", "6: not known here: ≡"),
    ("abbrev it : ℕ → ℕ\nit n = do m ← n\n", "6: not known: steps that are no block of lines"),
    ('abbrev it : List ℕ\nit = length "\\q"\n', "6: not known in a text: \\q"),
    ('abbrev it : List ℕ\nit = length "é"\n', '6: not known in a text: "é"'),
    ("abbrev it : ℕ → ℕ\nit zero = 1\nit = 2\n", "5: not known: clauses of different lengths"),
    ("abbrev it : ℕ → ℕ\n", "5: not known: it has no clause"),
    ("abbrev it : ℕ → ℕ\nit n = n.a.b and \"x\n", "6: not read: '\"x\\n'"),
]


def unknown_forms(folder: Path) -> List[str]:
    """What the translator does not know it refuses, with its line."""
    path = folder / "some" / "specs" / "Text.antt"
    path.parent.mkdir(parents=True)
    problems = []
    for text, said in UNKNOWN:
        path.write_text(BEGINNING + text, encoding="utf-8")
        try:
            Translation(folder).functions([("some.specs.Text", "it")])
            got = ""
        except Fault as fault:
            got = str(fault).replace(f"{path}:", "")
        problems += unlike(text, said, got)
    return problems


ONE_TWO = "(1 ∷ 2 ∷ [])"

TIMES = "\nabbrev there : ℕ → ℕ → ℕ\nthere n m = n * m\n"

# Definitions, what `it` is called with, and what it gives: each form of the language that is known.
KNOWN: List[Tuple[str, Sequence[object], object]] = [
    ("abbrev it : ℕ → ℕ\nit n = n - 5 + 2 ^ 3 ^ 1 * 2 / 3 % 4\n", [3], 1),
    ("abbrev it : ℕ → ℕ\nit zero = 7\nit (suc (suc n)) = n\nit n = 9\n", [5], 3),
    ("abbrev it : ℕ → ℕ\nit n = let m = n + 1 in m * m\n", [2], 9),
    ("abbrev it : ℕ → ℕ\nit n = (λ x (y : ℕ) z. x * y - z) n 4 1\n", [2], 7),
    ("abbrev it : ℕ → ℕ\nit n = if n == 0x1F then 1 else if n == 2 then 3 else 5\n", [2], 3),
    ("abbrev it : ℕ → ℕ\nit n = (record { a = (n, 4); b = 1 }).a.1\n", [2], 4),
    ("abbrev it : List ℕ → ℕ\nit (x ∷ y ∷ []) = x\nit (x ∷ y ∷ z) = length z\nit xs = 8\n", [(1, 2, 3, 4)], 2),
    ("abbrev it : List ℕ → ℕ\nit (x ∷ y ∷ []) = x\nit (x ∷ y ∷ z) = length z\nit xs = 8\n", [(6, 5)], 6),
    ("abbrev it : ℕ → ℕ\nit n = of (Kind.Odd n)\nabbrev of : Kind → ℕ\nof (Odd n) = n\n", [3], 3),
    ("abbrev it : ℕ → ℕ\nit n = length (map (there n) (1 ∷ []))\nabbrev there : ℕ → ℕ → ℕ\nthere n m = n\n", [3], 1),
    (f"abbrev it : ℕ → ℕ\nit n = sum_by (λ x. there n x + length (n ∷ [])) {ONE_TWO}{TIMES}", [3], 11),
    (f"abbrev it : ℕ → ℕ\nit n = sum_by (λ x. let y = x + 1 in there n y) {ONE_TWO}{TIMES}", [3], 15),
    ("abbrev it : Option ℕ → Option ℕ → ℕ\nit None _ = 1\nit _ None = 2\nit (Some a) (Some b) = a\n", [4, 3], 4),
]


def as_value(value: object) -> object:
    return values.items_of(value) if isinstance(value, tuple) else value


def known_forms(folder: Path) -> List[str]:
    path = folder / "some" / "specs" / "Text.antt"
    path.parent.mkdir(parents=True)
    first = BEGINNING.replace("use Rattle.some.specs.Other.{there}\n", "")
    first = first.replace("◌∷◌", "◌∷◌, ◌*◌, ◌-◌, ◌/◌, ◌%◌, ◌^◌, ◌==◌")
    problems = []
    for text, given, wanted in KNOWN:
        path.write_text(first + text, encoding="utf-8")
        arguments = [values.Case("Some", each) if "Option" in text else as_value(each) for each in given]
        got = Translation(folder).functions([("some.specs.Text", "it")])[0](*arguments)
        problems += unlike(text, wanted, got)
    return problems


def lists_of_cells(folder: Path) -> List[str]:
    """Lists that share cells, beside tuples: none changes when another is made of it."""
    generator = random.Random(2)
    made: Dict[Tuple[int, ...], values.Items] = {(): values.items_of(())}
    problems = []
    for _ in range(3000):
        (one, left), (other, right) = (generator.choice([*made.items()]) for _ in range(2))
        item, at = generator.randrange(2), generator.randrange(5)
        wanted, got = generator.choice(
            [
                ((item, *one), values.before(item, left)),
                (one + other, values.joined(left, right)),
                (one[at:], left.from_place(at)),
                (one[:at], left.up_to(at)),
            ]
        )
        if len(wanted) < 40:
            made[wanted] = got
        problems += [f"{each}: {tuple(items)}" for each, items in [(wanted, got)] if each != tuple(items)]
    return problems + [f"{each} became {tuple(items)}" for each, items in made.items() if each != tuple(items)]


def what_is_run(folder: Path) -> List[str]:
    """`python` writes the translation, which Python can read, with each definition's file and line."""
    text = ran(["by-definition", "python"]).stdout.decode()
    compile(text, "python", "exec")
    lines = (TOP / "crates" / "bus_line" / "specs" / "Due.antt").read_text(encoding="utf-8").splitlines()
    number = 1 + next(at for at, line in enumerate(lines) if line.startswith("abbrev pub due_at"))
    due_at = f"# bus_line.specs.Due, line {number}\ndef bus_line__Due__due_at(a0, a1, a2):"
    wanted = [due_at, "# std.specs.Prelude.drop: "]
    return [f"{each!r} is not written" for each in wanted if each not in text]

"""Which goal refused each must-fail edit, by what `rt` says of it, and which clause the edit names.

An edit names what is to refuse it in a comment, which `rt` does not read:

    # refused-by: FUNCTION CLAUSE..
    # refused-by: proof FUNCTION GOAL: WHY

FUNCTION is a function of the crate, as `LineDecoder::take`, with its module before it where there are two of the name.
CLAUSE is one of its `ensures`, `_` where that has no name, and `contract` where the prover has one goal for all; or it
is `requires`, what a call in its body asks for, `invariant`, that of a type, or `safe`, that no sum, index or cast goes
wrong. Where a body breaks several clauses, and the prover may begin with any of them, all of these are named.

The second form is for an edit that is refused by a proof by hand alone: at the invariant of a loop, in a lemma, or at
an answer that fits the code no longer, though its goal is none that the body breaks. FUNCTION and GOAL are then what
the comparison prints, and WHY says how the contract refuses the body all the same.
"""

import re
from pathlib import Path
from typing import Dict, Iterator, List, NamedTuple, Optional, Tuple

from contracts import CLAUSE, FUNCTION, header_of
from edits import named_bodies

IMPL = re.compile(r"impl(?:<.*?>)? (?:(\w+)(?:<[^{]*?>)? for )?(\w+)")

TRAIT = re.compile(r"(?:pub )?trait (\w+)")

# What stands in a trait for all who have it, and may be a law.
MEMBER = re.compile(r"    ghost (\w+):")

# The name of all clauses of a function, where the prover has one goal for them.
WHOLE = "contract"

# What else can be named beside clauses, by the names of goals.
GOALS = {
    "safe": re.compile(r"^(overflow_|nonzero_|bounds-|slice_bounds-|offset_bounds-|unreachable|prove-)"),
    "requires": re.compile(r"-requires(-|$)"),
    "invariant": re.compile(r"^invariant_of-"),
}

NAMED = re.compile(r"^# refused-by: (?:proof (\S+) (\S+): (\S.*)|(\S+)((?: \w+)+))$", re.MULTILINE)

TOLD = re.compile(r"^(?:rt: )?must-fail (\w+)/([\w.-]+)\.edit: (.*)$", re.MULTILINE)

REFUSED = "refused, as it must be"

# Why an edit was refused, of which rt prints the first 160 characters.
#
# A goal that is left open, an answer to a goal that is refused, a law of a trait, and anything else in a proof. An
# answer may be refused only because it cites a goal, or a step of the code, that has another name now.
OPEN = re.compile(
    r"note: (?:\./)?(src/[\w/]+\.rt):(\d+):\d+: it is not proved that .*\(`([\w+'-]+)(?:(`)\)(; the facts)?|$)")
ANSWER = re.compile(r"(?:\./)?proofs/([\w/+]+)/Answers\.antt:(\d+):\d+: error: `([^`]+)`(: record `|: `goal\.)?")
LAW = re.compile(r"(?:\./)?(src/[\w/]+\.rt):(\d+):\d+: error: `(\w+)(?:-\w+)?`")
PROOF = re.compile(r"(?:note: )?(?:\./)?proofs/([\w/+]+)\.antt:\d+:\d+: (?:error: )?(?:`([^`]+)`)?")


class Function(NamedTuple):
    """A function of a crate: its module, the type that it belongs to and the trait that it is of, where it stands, and
    its clauses, `_` for one without a name. One with no name is a whole trait, or what a type has of it: its clauses
    are the laws."""

    module: str
    block: str
    trait: str
    name: str
    file: str
    first: int
    last: int
    clauses: Tuple[str, ...]

    def short(self) -> str:
        return "::".join(filter(None, [self.block, self.name]))

    def full(self) -> str:
        return f"{self.module}::{self.short()}" if self.module else self.short()

    def is_proved_in(self, folder: str) -> bool:
        """Whether this is the folder of its proof; that of a type's function is in the module of the type."""
        if self.block:
            return f"/{folder}".endswith(f"/{self.block}{self.trait}/{self.name}")
        return folder == "/".join([*filter(None, self.module.split("::")), self.name])


class Named(NamedTuple):
    """What an edit names: a function, and its clauses or a goal that is none's, for which it says why."""

    function: str
    words: Tuple[str, ...]
    why: str


class Refusal(NamedTuple):
    """What rt says of an edit: the function whose goal failed, the goal, its clause, if it is that of one, and how."""

    function: str
    goal: str
    word: str
    how: str


class Crate(NamedTuple):
    """What the log is read by: the functions of a crate, and the lines of its answers, by folder."""

    functions: List[Function]
    answers: Dict[str, List[str]]


class Found(NamedTuple):
    """How an edit compares: `agree`, or what is wrong with it."""

    kind: str
    edit: str
    said: str


def begun_at(lines: List[str], at: int) -> int:
    """Where a function begins, with its attributes and what is said of it."""
    while at > 0 and lines[at - 1].strip().startswith(("#[", "///")):
        at -= 1
    return at


def functions_of_file(text: str, file: Path) -> Iterator[Function]:
    lines = text.splitlines()
    module = "::".join(part for part in file.with_suffix("").parts if part not in ("lib", "main"))
    place = f"src/{file}"
    starts = [begun_at(lines, at) for at, line in enumerate(lines) if FUNCTION.match(line)]
    ends = [at for at, line in enumerate(lines) if line.startswith("}")]
    block, trait = "", ""
    for at, line in enumerate(lines):
        opened, own, found = IMPL.match(line), TRAIT.match(line), FUNCTION.match(line)
        if opened is not None:
            block, trait = opened[2], opened[1] or ""
        elif own is not None:
            block, trait = own[1], ""
        elif line.startswith("}"):
            block, trait = "", ""
        if own is not None or opened is not None and trait:
            end = min([end for end in ends if end >= at], default=at)
            laws = tuple(member[1] for member in map(MEMBER.match, lines[at:end]) if member)
            yield Function(module, block, trait, "", place, at + 1, end + 1, laws)
        if found is not None:
            last = min([start for start in starts if start > at], default=len(lines))
            first = begun_at(lines, at) + 1
            clauses = tuple(name or "_" for name in CLAUSE.findall("\n".join(header_of(lines, at))))
            yield Function(module, block, trait, found[2], place, first, last, clauses)


def crate_of(folder: Path) -> Crate:
    functions: List[Function] = []
    for path in sorted((folder / "src").rglob("*.rt")):
        functions += functions_of_file(path.read_text(encoding="utf-8"), path.relative_to(folder / "src"))
    answers = {
        str(path.parent.relative_to(folder / "proofs")): path.read_text(encoding="utf-8").splitlines()
        for path in sorted((folder / "proofs").rglob("Answers.antt"))
    }
    return Crate(functions, answers)


def crates_of(crates: Path) -> Dict[str, Crate]:
    """All crates. A function that is of a trait has the clauses of the trait, where that is of the repository."""
    found = {path.parent.name: crate_of(path.parent) for path in sorted(crates.glob("*/src"))}
    every = [function for crate in found.values() for function in crate.functions]
    of_traits = {(function.block, function.name): function.clauses for function in every if not function.trait}
    for crate in found.values():
        crate.functions[:] = [
            each._replace(clauses=each.clauses + of_traits.get((each.trait, each.name), ("*",))) if each.trait else each
            for each in crate.functions
        ]
    return found


def name_of(function: Function, crate: Crate) -> str:
    """The name by which an edit names it: with its module, where there is another of the name."""
    alike = [each for each in crate.functions if each.short() == function.short()]
    return function.short() if len(alike) == 1 else function.full()


def function_named(name: str, crate: Crate) -> Optional[Function]:
    found = [function for function in crate.functions if name == name_of(function, crate)]
    return found[0] if len(found) == 1 else None


def named_by(text: str) -> Optional[Named]:
    """What the text of an edit names, if it does so once."""
    found = NAMED.findall(text)
    if len(found) != 1 or text.count("refused-by") != 1:
        return None
    proof, goal, why, function, words = found[0]
    return Named(proof, (goal,), why) if proof else Named(function, tuple(words.split()), "")


def word_of(goal: str, function: Optional[Function]) -> str:
    """The clause of a goal, or else what it is; nothing, where it is none that an edit can name."""
    for word, form in GOALS.items():
        if form.search(goal):
            return word
    if not goal.startswith("returns"):
        return ""
    clause = goal.partition("-clause-")[2]
    if not clause and function is not None:
        clause = function.clauses[0] if len(function.clauses) == 1 else WHOLE
    return clause


def field_at(lines: List[str], line: int) -> str:
    """The field of an answer, a record of the clauses, in which a line stands."""
    for text in reversed(lines[:line]):
        field = re.match(r" +(\w+) =", text)
        if field is not None:
            return field[1]
        if re.match(r"\S", text):
            break
    return ""


def is_in(function: Function, file: str, line: int) -> bool:
    return function.file == file and function.first <= line <= function.last


def refusal_of(why: str, crate: Crate) -> Refusal:
    """The goal of a refusal, by the line that rt prints of it."""
    left_open = OPEN.match(why)
    if left_open is not None:
        at = int(left_open[2])
        inside = [each for each in crate.functions if each.name and is_in(each, left_open[1], at)]
        function = inside[0] if inside else None
        name = name_of(function, crate) if function else left_open[1]
        if left_open[4] is None:
            return Refusal(name, f"{left_open[3]}..", "", "cut off")
        how = "false" if left_open[5] else "open"
        return Refusal(name, left_open[3], word_of(left_open[3], function), how)
    answer = ANSWER.match(why)
    if answer is not None:
        proved = [each for each in crate.functions if each.is_proved_in(answer[1])]
        function = proved[0] if proved else None
        name = name_of(function, crate) if function else answer[1]
        field = field_at(crate.answers.get(answer[1], []), int(answer[2]))
        goal = answer[3]
        word = word_of(goal, function)
        if function is not None and word == WHOLE and field in function.clauses:
            word = field
        return Refusal(name, goal, "", "gone") if answer[4] else Refusal(name, goal, word, "answer")
    law = LAW.match(why)
    if law is not None:
        having = [each for each in crate.functions if law[3] in each.clauses and is_in(each, law[1], int(law[2]))]
        return Refusal(name_of(having[0], crate) if having else law[1], law[3], law[3] if having else "", "open")
    proof = PROOF.match(why)
    if proof is not None:
        return Refusal(proof[1], proof[2] or "_", "", "lemma")
    return Refusal("", why, "", "unknown")


def refusals(log: str, crates: Dict[str, Crate]) -> Dict[str, Optional[Refusal]]:
    """What a log of rt says of each edit: how it was refused, or nothing where it was not."""
    found: Dict[str, Optional[Refusal]] = {}
    for crate, edit, told in TOLD.findall(log):
        if crate not in crates or not told.startswith(REFUSED):
            found[f"{crate}/{edit}"] = None
        elif told.startswith(f"{REFUSED} ("):
            found[f"{crate}/{edit}"] = Refusal("", told[len(REFUSED) + 1:], "", "no goal")
        else:
            found[f"{crate}/{edit}"] = refusal_of(told[len(REFUSED) + 2:], crates[crate])
    return found


def fault_of(named: Optional[Named], crate: Crate) -> Optional[str]:
    """What is wrong with what an edit names."""
    if named is None:
        return "it names no clause, or not in the form of a name"
    function = function_named(named.function, crate)
    if named.why:
        return None
    if function is None:
        return f"no one function {named.function}"
    for word in named.words:
        if word not in (*function.clauses, *GOALS, WHOLE) and "*" not in function.clauses:
            return f"{named.function} has no clause {word}"
    return None


def unnamed_edits(crates: Path) -> Iterator[str]:
    """The must-fail edits, and such wrong bodies as name a clause, that name nothing that is there."""
    every = crates_of(crates)
    for edit in named_bodies(crates):
        fault = fault_of(named_by(edit.text), every[edit.crate])
        if fault is not None:
            yield f"{edit.name}: {fault}"


def compared(edit: str, text: str, crate: Crate, told: Dict[str, Optional[Refusal]]) -> Found:
    """How what an edit names compares with the goal that refused it."""
    named = named_by(text)
    fault = fault_of(named, crate)
    if named is None or fault is not None:
        return Found("unnamed", edit, fault or "")
    if edit not in told:
        return Found("untold", edit, "the log says nothing of it")
    refusal = told[edit]
    if refusal is None:
        return Found("passed", edit, "it counts for nothing")
    is_there = refusal.function == named.function
    goal = f"{refusal.function} {refusal.goal}".strip()
    is_by_hand = not refusal.word or refusal.how == "answer"
    if named.why and is_there and is_by_hand and named.words == (refusal.goal,):
        return Found("reason", edit, f"{goal}: {named.why}")
    if not named.why and is_there and refusal.word in named.words:
        return Found(refusal.how, edit, f"{named.function} {refusal.word}")
    kind = "another" if refusal.word or named.why else "proof"
    if refusal.how in ("unknown", "cut off"):
        kind = refusal.how
    return Found(kind, edit, f"{named.function} {' '.join(named.words)} is named, and {goal} failed ({refusal.how})")

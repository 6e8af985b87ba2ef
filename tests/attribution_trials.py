"""Logs of `rt` on which the comparison of tests/attribution.py tries itself: each way to agree, and each fault."""

from typing import Iterator, NamedTuple

from attribution import Crate, Function, compared, refusals

# A crate with a trait's type, two functions and an answer.
MADE_UP = Crate(
    [
        Function("line", "Line", "Check", "", "src/line.rt", 1, 45, ("cost",)),
        Function("line", "Line", "Check", "take", "src/line.rt", 10, 40, ("limit", "answer")),
        Function("line", "", "", "spare", "src/line.rt", 50, 60, ("_",)),
    ],
    {"line/LineCheck/take": ["pub returns : goal", "returns c = record {", "  limit = a;", "  answer =", "   b;"]},
)

EDIT = "file: src/line.rt\nold: a\nnew: b\n"

SAID = "rt: must-fail made/up.edit: "

TOLD = f"{SAID}refused, as it must be: "

ANSWERS = f"{TOLD}./proofs/line/LineCheck/take/Answers.antt:"


def left_open(line: int, goal: str) -> str:
    """What rt says of a goal that is left open; the goal's name is as much of it as there is room for."""
    return f"{TOLD}note: src/line.rt:{line}:1: it is not proved that what the function ensures holds (at `a`) (`{goal}"


class Trial(NamedTuple):
    """What an edit names, what a log says of it, and how it is to compare."""

    name: str
    named: str
    log: str
    kind: str


def named(name: str, says: str, log: str, kind: str) -> Trial:
    return Trial(name, f"# refused-by: {says}", log, kind)


TRIALS = [
    named("a clause that is false", "Line::take limit", left_open(12, "returns-clause-limit`); the facts kn"), "false"),
    named("a clause that is open", "Line::take limit", left_open(12, "returns-in-Err-clause-limit`)"), "open"),
    named("one of two clauses", "Line::take limit answer", left_open(40, "returns-clause-answer`)"), "open"),
    named("a clause without a name", "spare _", left_open(52, "returns-then-x`); `search` gave up"), "open"),
    named("a law", "Line cost", f"{TOLD}src/line.rt:44:2: error: `cost-value`: `search`: no proof", "open"),
    named("an answer", "Line::take answer", f"{ANSWERS}9:3: error: `returns-clause-answer`: no", "answer"),
    named("a field of an answer", "Line::take answer", f"{ANSWERS}5:9: error: `returns`: no", "answer"),
    named("an answer to all", "Line::take contract", f"{ANSWERS}2:9: error: `returns`: no", "answer"),
    named("a sum", "spare safe", left_open(52, "overflow_add-x`); the facts kn"), "false"),
    named("a call", "spare requires", left_open(52, "fold-requires-clause-few`)"), "open"),
    named("a type's invariant", "Line::take invariant", f"{ANSWERS}5:9: error: `invariant_of-self`: no", "answer"),
    named("a loop, with a reason", "proof spare loop-x-init: why", left_open(55, "loop-x-init`)"), "reason"),
    named("a lemma, with a reason", "proof Some all: why", f"{TOLD}./proofs/Some.antt:5:1: error: `all`: no", "reason"),
    named("an answer, with a reason", "proof Line::take returns: why", f"{ANSWERS}3:9: error: `returns`: no", "reason"),
    named("another clause", "Line::take limit", left_open(12, "returns-clause-answer`)"), "another"),
    named("another function", "spare _", left_open(12, "returns-clause-limit`)"), "another"),
    named("another's answer", "spare _", f"{ANSWERS}3:9: error: `returns`: no", "another"),
    named("another field of it", "Line::take answer", f"{ANSWERS}3:9: error: `returns`: no", "another"),
    named("no clause, but a sum", "spare _", left_open(52, "overflow_add-x`)"), "another"),
    named("a reason that is not so", "proof spare loop-x-init: why", left_open(52, "returns`)"), "another"),
    named("a reason of another loop", "proof spare loop-x-init: why", left_open(52, "loop-y-init`)"), "another"),
    named("a loop, without a reason", "spare _", left_open(55, "loop-x-preserved`); the facts kn"), "proof"),
    named("a loop's answer", "Line::take limit", f"{ANSWERS}1:9: error: `loop-x-init`: no", "proof"),
    named("a lemma", "spare _", f"{TOLD}./proofs/LineLemmas.antt:5:1: error: `all`: no", "proof"),
    named("names that are gone", "spare _", f"{SAID}refused, as it must be (only because a proof fi", "proof"),
    named("a step that is gone", "Line::take limit", f"{ANSWERS}3:9: error: `returns`: record `Take.After`", "proof"),
    named("a goal that is gone", "Line::take limit", f"{ANSWERS}3:9: error: `returns`: `goal.returns` is", "proof"),
    named("a limit", "spare _", f"{SAID}refused, as it must be (only by a limit of the prover", "proof"),
    named("a goal cut off", "Line::take limit", left_open(12, "returns-clause-li"), "cut off"),
    named("another form of words", "spare _", f"{TOLD}whatever", "unknown"),
    Trial("no name", "", left_open(52, "returns`)"), "unnamed"),
    Trial("two names", "# refused-by: spare _\n# refused-by: spare _", left_open(52, "returns`)"), "unnamed"),
    named("one of all clauses", "Line::take limit", f"{ANSWERS}2:9: error: `returns`: no", "another"),
    named("no such clause", "spare limit", left_open(52, "returns`)"), "unnamed"),
    named("no such function", "spares _", left_open(52, "returns`)"), "unnamed"),
    named("a function alone", "spare", left_open(52, "returns`)"), "unnamed"),
    named("no reason", "proof spare loop-x-init", left_open(55, "loop-x-init`)"), "unnamed"),
    named("not refused", "spare _", f"{SAID}NOT REFUSED: the crate is still proved with this", "passed"),
    named("a bad edit", "spare _", f"{SAID}BAD EDIT: an 'old:' text is in src/line.rt 0 times", "passed"),
    named("not tried", "spare _", f"{SAID}NOT TRIED: its check was killed", "passed"),
    named("another edit's line", "spare _", "rt: must-fail made/down.edit: refused, as it must be: x", "untold"),
]


def missed_trials() -> Iterator[str]:
    """The trials that come to something else."""
    for trial in TRIALS:
        found = compared("made/up", f"{trial.named}\n{EDIT}", MADE_UP, refusals(trial.log, {"made": MADE_UP}))
        if found.kind != trial.kind:
            yield f"a made-up log: {trial.name}: {found.kind}, and not {trial.kind}: {found.said}"

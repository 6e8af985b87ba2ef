"""Papers with one fault each, all of which tests/promises has to find."""

import contextlib
import copy
from typing import Any, Callable, Iterator, NamedTuple

from edits import Change, Edit, edits_in, misfits
from promise_problems import MAP, NO_PROMISE, TOP, Papers, Tree, problems_of
from promised import NOTHING

class Fault(NamedTuple):
    """A way to spoil the papers, and what is then to be found."""

    name: str
    spoil: Callable[[Papers], Papers]
    found: str


def with_proved(old: str, new: str) -> Callable[[Papers], Papers]:
    return lambda papers: papers._replace(proved=papers.proved.replace(old, new, 1))


def with_mistakes(old: str, new: str) -> Callable[[Papers], Papers]:
    return lambda papers: papers._replace(mistakes=papers.mistakes.replace(old, new, 1))


def with_promise(**changes: Any) -> Callable[[Papers], Papers]:
    """The first promise with other values, or without those that are None."""

    def spoil(papers: Papers) -> Papers:
        chart = copy.deepcopy(papers.chart)
        promise = {**chart["promise"][0], **{key.replace("_", "-"): value for key, value in changes.items()}}
        chart["promise"][0] = {key: value for key, value in promise.items() if value is not None}
        return papers._replace(chart=chart)

    return spoil


def with_none(said: str, papers: Papers) -> Papers:
    """A statement more that is listed to promise nothing."""
    return papers._replace(chart={**papers.chart, NO_PROMISE: [*papers.chart[NO_PROMISE], said]})


def with_false_none(papers: Papers) -> Papers:
    """A false sentence that is listed so."""
    return with_none(FALSE, papers._replace(proved=papers.proved.replace("\n\n### ", f" {FALSE}\n\n### ", 1)))


def with_paper(name: str, text: str) -> Callable[[Papers], Papers]:
    """A paper with more at its end."""
    return lambda papers: papers._replace(texts={**papers.texts, name: f"{papers.texts[name]}\n\n{text}\n"})


def with_comment(text: str) -> Callable[[Papers], Papers]:
    return lambda papers: papers._replace(comments=[*papers.comments, text])


def with_readme(text: str) -> Callable[[Papers], Papers]:
    return lambda papers: papers._replace(readme=f"{papers.readme}\n\n{text}\n")


def with_unfit_body(papers: Papers) -> Papers:
    """A law with a wrong body and a test of something else."""
    chart = copy.deepcopy(papers.chart)
    promise = next(each for each in chart["promise"] if each["row"] == "settled_places")
    promise["wrong-bodies"] = ["bus_fcs/cost_is_nine"]
    promise["tests"] = ["bus_bits_tests/src/bits.rt steps_are_added"]
    return papers._replace(chart=chart)


FALSE = "`push` never takes more than a microsecond."

FAULTS = [
    Fault("a false sentence among others", with_proved("\n\n### ", f" {FALSE}\n\n### "), "in no promise"),
    Fault("a false sentence in a cell", with_proved(" | – |", f". {FALSE} | – |"), "more than one statement"),
    Fault("a false statement in a cell", with_proved(" | – |", f"; {FALSE[:-1]} | – |"), "more than one statement"),
    Fault("a false sentence in README.md", with_readme(FALSE), "README.md: in no promise"),
    Fault("a false table in README.md", with_readme(f"| Speed |\n|---|\n| {FALSE[:-1]} |"), "README.md: in no promise"),
    Fault("a false sentence before", with_paper("README.md", "The whole program and its page are proved correct."),
          "in no promise"),
    Fault("a false sentence behind", with_paper("docs/PROVED.md", "The stack is proved large enough."), "in no promise"),
    Fault("a false sentence elsewhere", with_paper("docs/WATCH.md", "It is proved to lose no incident."), "in no promise"),
    Fault("a false comment of the map", with_paper("docs/PROMISES.toml", "All scripts are proved."), "in no promise"),
    Fault("a false doc comment", with_comment("It is proved that no bit is ever lost."), "in no promise"),
    Fault("a false heading", with_proved("### bus_fcs: the", "### bus_fcs: all damage is found by the"), "in no promise"),
    Fault("a false table", with_proved("\n\n### ", f"\n\n| Call | Word |\n|---|---|\n| `fold` | {FALSE[:-1]} |\n\n### "),
          "in no promise"),
    Fault("a false line", with_proved("\n\n### ", f"\n\n    {FALSE}\n\n### "), "in no promise"),
    Fault("a false sentence that promises nothing", with_false_none, "what promises nothing was changed"),
    Fault("a false sentence of a row", with_promise(readme=["Counted steps never pass two for each bit."]), "was changed"),
    Fault("a law with a wrong body", with_unfit_body, "a law with wrong bodies"),
    Fault("other words in a cell", with_proved("never pass seventeen", "never pass two"), "was changed"),
    Fault("more words in a cell", with_proved(" | –", ", and no frame is ever lost | –"), "was changed"),
    Fault("a false row", with_proved("|---|---|---|---|---|\n", f"|---|---|---|---|---|\n| false: `run` | {FALSE[:-1]} | – | "
          "`status` | `check_lists` |\n"), "1 rows and 0 promises: false: run"),
    Fault("no such call", with_proved("| `run_all`", "| `runs_all`"), "no public function runs_all"),
    Fault("no such clause", with_proved("`is_after`", "`is_before`"), "no clause is_before"),
    Fault("a call without a clause", with_proved("`is_after` `are` `only`", ""), "no clause of reports_are"),
    Fault("no such wrong body in a row", with_proved("`run_all_skips_the_last_piece`", "`a_b`"), "no wrong body a_b"),
    Fault("no wrong body in a row", with_proved("`run_all_skips_the_last_piece`", NOTHING), "no wrong body"),
    Fault("a row less", with_proved("\n| `run_all`", "\n| x |\n| x `run_all`"), "0 rows and 1 promises"),
    Fault("no such wrong body", with_promise(wrong_bodies=["a/b"]), "no wrong body a/b"),
    Fault("a wrong body twice", with_promise(wrong_bodies=["bus_watch/run_all_skips_the_last_piece"]), "named twice"),
    Fault("no such test", with_promise(tests=["a.rt t"]), "no test a.rt t"),
    Fault("no tests", with_promise(tests=None), "no tests"),
    Fault("no row", with_promise(row=None), "1 rows and 0 promises"),
    Fault("other words", with_promise(readme=["Never said."]), "README.md does not say: Never said."),
    Fault("a misspelt key", with_promise(test=[]), "a key without meaning: test"),
    Fault("a mistake less", with_mistakes("`late_is_stray`", NOTHING), "0 mistakes and 1 edits of the gate"),
    Fault("no such edit of the gate", with_mistakes("`late_is_stray`", "`a_b`"), "1 mistakes and 0 edits of the gate: a_b"),
    Fault("none that is one", lambda papers: with_none("Never said.", papers), "nothing says: Never said."),
]


UNFIT = Edit("a/b", "", [Change(MAP.relative_to(TOP), "nowhere in " "it", "")])

# Edits with a fault each, by what is found.
SPOILT_EDITS = {
    "has it 0 times": [UNFIT], "it changes nothing": [Edit("a/b", "", [])], "two edits have this name": [UNFIT, UNFIT]
}

UNNAMED_EDIT = "edit: a\nold: b\nnew: c\n\nold: d\nnew: e\n"


def missed(papers: Papers, tree: Tree) -> Iterator[str]:
    """The faults that this script does not find."""
    for fault in FAULTS:
        if not any(fault.found in problem for problem in problems_of(fault.spoil(papers), tree)):
            yield f"not found: {fault.name}"
    for said, edits in SPOILT_EDITS.items():
        if not any(said in problem for problem in misfits(edits, TOP)):
            yield f"not found: {said}"
    with contextlib.suppress(ValueError):
        yield f"not found: the second edit has no name: {[*edits_in(UNNAMED_EDIT, 'src/lib.rt')]}"

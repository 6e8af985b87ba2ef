"""Rows of the command line: help, and words that are refused, before anything is read."""

from pathlib import Path
from typing import Sequence, Union

from version import version_of

from .captures import CALLS, LAST_ORIGIN
from .case import Case, fault

HELP = Path(__file__).resolve().parent.parent.parent / "cli" / "help"

# What may not be read.
UNREAD = b"1" * 15

HELP_WORDS = [
    ("port1", ["--help"]),
    ("port1", ["-h"]),
    ("port1", ["help"]),
    *[(command, [command, "--help"]) for command in ["list", "check", "show", "encode"]],
    *[(command, [command, "-h"]) for command in ["list", "check", "show", "encode"]],
    *[(command, ["help", command]) for command in ["list", "check", "show", "encode"]],
    # Help that is asked for comes before what is missing and what is wrong after it.
    ("show", ["show", "--help", "--nonsense"]),
    ("list", ["list", "--bits", "--dict", "", "--help"]),
]

HELPS = [
    Case(
        f"help: {' '.join(words)}", words, UNREAD, (HELP / f"{topic}.txt").read_text(encoding="ascii"),
        leaves_input=True,
    )
    for topic, words in HELP_WORDS
] + [
    Case(f"version: {word}", [word], UNREAD, f"port1 {version_of()}\n", leaves_input=True)
    for word in ["--version", "-V"]
]

USAGES = {
    "port1": "port1 [COMMAND]",
    "list": "port1 list [OPTIONS] < CAPTURE",
    "check": "port1 check [OPTIONS] < CAPTURE",
    "show": "port1 show [OPTIONS] <HEX>",
    "encode": "port1 encode < LINES",
}


def refusal(words: Sequence[Union[str, bytes]], stderr: str) -> Case:
    """Words that are refused."""
    return Case(str(words), words, UNREAD, stderr=stderr, status=2, leaves_input=True)


def error(why: str, tip: str = "", usage: str = "") -> str:
    """The text of what is wrong, with a tip and the usage where they are told."""
    tip_text = f"\n  tip: {tip}\n" if tip else ""
    usage_text = f"\nUsage: {usage}\n" if usage else ""
    return f"error: {why}\n{tip_text}{usage_text}\nFor more information, try '--help'.\n"


def unexpected(words: Sequence[str], word: str, tip: str = "", usage: str = "") -> Case:
    """A word that the command does not take."""
    usage = usage or USAGES.get(words[0], USAGES["port1"])
    return refusal(words, error(f"unexpected argument '{word}' found", tip, usage))


def bad_value(words: Sequence[str], option: str, value: str, why: str) -> Case:
    """A value that the option does not take."""
    return refusal(words, error(f"invalid value '{value}' for '{option}': {why}"))


def no_command(words: Sequence[str], word: str, tip: str = "") -> Case:
    """A word that is no command."""
    return refusal(words, error(f"unrecognized subcommand '{word}'", tip, USAGES["port1"]))


def no_value(words: Sequence[str], option: str) -> Case:
    """An option without its value."""
    return refusal(words, error(f"a value is required for '{option}' but none was supplied"))


def twice(words: Sequence[str], option: str) -> Case:
    """An option that stands twice."""
    why = f"the argument '{option}' cannot be used multiple times"
    return refusal(words, error(why, usage=USAGES[words[0]]))


def together(words: Sequence[str], option: str, other: str) -> Case:
    """Two options of which one excludes the other."""
    why = f"the argument '{option}' cannot be used with '{other}'"
    return refusal(words, error(why, usage=USAGES[words[0]]))


NO_NUMBER = "invalid digit found in string"
PAST_ORIGIN = str(LAST_ORIGIN + 1)
NO_ORIGIN = f"{PAST_ORIGIN} is not in 0..={LAST_ORIGIN}"
NO_OCTET = "256 is not in 0..=255"

COMMANDS = [
    no_command(["nonsense"], "nonsense"),
    no_command([""], ""),
    no_command(["List"], "List", tip="a similar subcommand exists: 'list'"),
    no_command(["chek"], "chek", tip="a similar subcommand exists: 'check'"),
    no_command(["help", "nonsense"], "nonsense"),
    unexpected(["--bits"], "--bits"),
    unexpected(["--bits", "list"], "--bits", tip="'list --bits' exists"),
    unexpected(["-x"], "-x"),
    unexpected(["--", "list"], "list", tip="subcommand 'list' exists; to use it, remove the '--' before it"),
]

UNKNOWN_WORDS = [
    unexpected(["list", "more"], "more"),
    unexpected(["list", "--nonsense"], "--nonsense"),
    unexpected(["list", "--depth", "1"], "--depth"),
    unexpected(["list", "--orign", "1"], "--orign", tip="a similar argument exists: '--origin'"),
    unexpected(["list", "--version"], "--version"),
    unexpected(["list", "list"], "list"),
    unexpected(["check", "more"], "more"),
    unexpected(["check", "--kind", "frame"], "--kind"),
    unexpected(["check", "--station", "16"], "--station"),
    unexpected(["check", "--type=0"], "--type"),
    unexpected(["show", "10", "83"], "83"),
    unexpected(["encode", "more"], "more"),
    unexpected(["encode", "--bits"], "--bits"),
    unexpected(["encode", "--dict", CALLS], "--dict"),
    unexpected(["--two"], "--two"),
    unexpected(["show", "--two", "1013ccb8"], "--two", tip="to pass '--two' as a value, use '-- --two'"),
    unexpected(["encode", "--two"], "--two"),
]

VALUES = [
    no_value(["list", "--dict"], "--dict <TEXT>"),
    no_value(["list", "--kind"], "--kind <K>"),
    no_value(["check", "--depth"], "--depth <N>"),
    no_value(["show", "--dict"], "--dict <TEXT>"),
    bad_value(["list", "--origin", "x"], "--origin <N>", "x", NO_NUMBER),
    bad_value(["list", "--origin=-1"], "--origin <N>", "-1", NO_NUMBER),
    bad_value(["list", "--origin", "1.5"], "--origin <N>", "1.5", NO_NUMBER),
    bad_value(["list", "--origin="], "--origin <N>", "", "cannot parse integer from empty string"),
    bad_value(["list", "--origin", PAST_ORIGIN], "--origin <N>", PAST_ORIGIN, NO_ORIGIN),
    bad_value(["check", f"--origin={PAST_ORIGIN}"], "--origin <N>", PAST_ORIGIN, NO_ORIGIN),
    bad_value(
        ["list", "--origin", str(1 << 64)], "--origin <N>", str(1 << 64), "number too large to fit in target type"
    ),
    bad_value(["list", "--station", "256"], "--station <N>", "256", NO_OCTET),
    bad_value(["list", "--station", "all"], "--station <N>", "all", NO_NUMBER),
    bad_value(["list", "--type=256"], "--type <N>", "256", NO_OCTET),
    bad_value(["check", "--depth", "0"], "--depth <N>", "0", "0 is not in 1..=1024"),
    bad_value(["check", "--depth=1025"], "--depth <N>", "1025", "1025 is not in 1..=1024"),
    bad_value(["check", "--depth", "few"], "--depth <N>", "few", NO_NUMBER),
    refusal(
        ["list", "--bits=yes"],
        error("unexpected value 'yes' for '--bits' found; no more were expected", usage=USAGES["list"]),
    ),
    refusal(
        ["check", "--two=1"],
        error("unexpected value '1' for '--two' found; no more were expected", usage=USAGES["check"]),
    ),
    together(["list", "--two", "--arrivals"], "--two", "--arrivals"),
    together(["check", "--two", "--arrivals"], "--two", "--arrivals"),
    together(["list", "--two", "--rest", "5"], "--two", "--rest <N>"),
    *[
        refusal(
            [command, "--bits", "--rest", "40"],
            error("the following required arguments were not provided:\n  --arrivals", usage=USAGES[command]),
        )
        for command in ["list", "check"]
    ],
    twice(["list", "--bits", "--bits"], "--bits"),
    twice(["check", "--two", "--two"], "--two"),
    twice(["list", "--origin", "1", "--origin", "1"], "--origin <N>"),
    twice(["check", "--dict", CALLS, "--dict", CALLS], "--dict <TEXT>"),
    refusal(["show"], error("the following required arguments were not provided:\n  <HEX>", usage="port1 show <HEX>")),
]

# Judged after all other words, and before the dictionary.
UNKNOWN_KINDS = [
    *[
        refusal(["list", "--bits", "--kind", kind], fault("unknown kind"))
        for kind in ["Frame", "frames", "begun", "", " frame", "strays"]
    ],
    refusal(["list", "--kind", "x", "--dict", ""], fault("unknown kind")),
    bad_value(["list", "--kind", "x", "--station", "y"], "--station <N>", "y", NO_NUMBER),
]

# The words of a process need not be text.
NO_TEXT = [
    refusal([b"list", b"--bits", b"--kind", b"\xff"], fault("an argument is not UTF-8")),
    refusal([b"\xc3\x28"], fault("an argument is not UTF-8")),
]

WORDS = [*HELPS, *COMMANDS, *UNKNOWN_WORDS, *VALUES, *UNKNOWN_KINDS, *NO_TEXT]

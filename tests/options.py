"""Compares the man page and the completions with the help texts: every option, and no other."""

import re
import subprocess
from pathlib import Path
from typing import Dict, Iterator, List, Set, Tuple

TOP = Path(__file__).resolve().parent.parent

COMMANDS = ["list", "check", "show", "encode"]

# An option with its short form, at the beginning of a line of a help text.
HELP_OPTION = re.compile(r"^ +(?:(-\w), )?(--[\w-]+)", re.MULTILINE)

# The same in the man page.
PAGE_OPTION = re.compile(r"^\.It Fl (?:(\w) , Fl )?Fl ([\w-]+)", re.MULTILINE)

# An option in the text of a completion for zsh.
ZSH_OPTION = re.compile(r"['{,](--?[\w-]+)(?=[\[,}])")

# An option in a line of a completion for fish.
FISH_OPTION = re.compile(r" -(s|l) ([\w-]+)")

# The completions of port1-sample that are looked at as texts.
SAMPLER = ["_port1-sample", "port1-sample.fish"]

Options = Dict[str, Set[str]]


def help_text(name: str) -> str:
    return (TOP / "cli" / "help" / f"{name}.txt").read_text(encoding="ascii")


def options_of_help() -> Options:
    """What each command takes, and the program without a command, by its help text."""
    found = {}
    for name in ["port1", *COMMANDS]:
        options = help_text(name).split("\nOptions:\n")[1].split("\n\n")[0]
        found[name] = {word for match in HELP_OPTION.finditer(options) for word in match.groups() if word}
    return found


def options_of_page() -> Options:
    """The same by the man page: the items of each subsection, and those before the first."""
    text = (TOP / "cli" / "port1.1").read_text(encoding="ascii").split("\n.Sh CAPTURES\n")[0]
    sections = re.split(r"^\.Ss (\w+)\n", text, flags=re.MULTILINE)
    found = {"port1": sections[0], **dict(zip(sections[1::2], sections[2::2]))}
    options: Options = {}
    for name, text in found.items():
        pairs = PAGE_OPTION.findall(text)
        options[name] = {f"-{short}" for short, _ in pairs if short} | {f"--{long}" for _, long in pairs}
    return options


def options_of_synopsis() -> Options:
    """The options with a place in the synopsis, where those that print help have none."""
    text = (TOP / "cli" / "port1.1").read_text(encoding="ascii")
    synopsis = text.split("\n.Sh SYNOPSIS\n")[1].split("\n.Sh ")[0]
    uses = synopsis.split("\n.Nm\n.Cm ")[1:]
    return {use.split("\n")[0]: set(re.findall(r"(?<=Op Fl Fl )[\w-]+", use)) for use in uses}


def words_of_bash(line: str) -> Set[str]:
    """What bash offers after a line that ends with a space, or with the beginning of a word."""
    words = line.split(" ")
    quoted = " ".join(f"'{word}'" for word in words)
    script = (
        f'. "$1"; COMP_WORDS=({quoted}); COMP_CWORD={len(words) - 1}; '
        f"_{words[0].replace('-', '_')}; printf '%s\\n' \"${{COMPREPLY[@]}}\""
    )
    completion = TOP / "cli" / "completions" / f"{words[0]}.bash"
    ran = subprocess.run(["bash", "-c", script, "bash", completion], capture_output=True, text=True, check=True)
    return set(ran.stdout.split())


def options_of_bash() -> Options:
    return {
        name: {word for word in words_of_bash("port1 " if name == "port1" else f"port1 {name} ") if word[0] == "-"}
        for name in ["port1", *COMMANDS]
    }


def options_of_zsh() -> Options:
    """By the text: the shared options by their arrays, and each command's by its branch."""
    text = (TOP / "cli" / "completions" / "_port1").read_text(encoding="ascii")
    shared = dict(re.findall(r"^  (\w+)=\((.*)\)$", text, flags=re.MULTILINE))
    for name, options in shared.items():
        text = text.replace(f"${name} ", f"{options} ").replace(f"${name}\n", f"{options}\n")
    parts = dict(re.findall(r"^    (\w+)\)\n(.*?)\n      ;;", text, flags=re.MULTILINE | re.DOTALL))
    parts["port1"] = text.split("_describe")[1].split("return")[0]
    return {name: set(ZSH_OPTION.findall(parts[name])) for name in ["port1", *COMMANDS]}


def options_of_fish() -> Options:
    """By the text: each line's options belong to the commands that its condition names."""
    text = (TOP / "cli" / "completions" / "port1.fish").read_text(encoding="ascii").replace("\\\n", "")
    found: Options = {name: set() for name in ["port1", *COMMANDS]}
    for line in text.splitlines():
        condition = re.search(r'-n "(not )?__fish_seen_subcommand_from ([^"]*)"(.*)', line)
        if condition is None:
            continue
        negated, names, rest = condition.groups()
        options = {f"-{word}" if form == "s" else f"--{word}" for form, word in FISH_OPTION.findall(rest)}
        if not negated:
            to = names.split()
        elif names == "help":
            to = list(found)
        else:
            to = ["port1"]
        for name in to:
            if name in found:
                found[name] |= options
    return found


def differences(wanted: Set[str], got: Set[str]) -> List[str]:
    problems = [f"it lacks {word}" for word in sorted(wanted - got)]
    return problems + [f"it has {word}, the help text has not" for word in sorted(got - wanted)]


def options_of_sampler(sampler: Path) -> Dict[str, Set[str]]:
    """The options of port1-sample by its help text, its man page and the texts of its completions."""
    help_text = subprocess.run([sampler, "--help"], capture_output=True, text=True, check=True).stdout
    page = (TOP / "cli" / "port1-sample.1").read_text(encoding="ascii")
    items = " ".join(re.findall(r"^\.It (Fl .*)$", page, re.MULTILINE))
    texts = {name: (TOP / "cli" / "completions" / name).read_text(encoding="ascii") for name in SAMPLER}
    return {
        "help": {word for match in HELP_OPTION.finditer(help_text) for word in match.groups() if word},
        "man page": {f"-{each}" for each in re.findall(r"Fl (\w)\b(?!\w)", items)}
        | {f"--{each}" for each in re.findall(r"Fl Fl ([\w-]+)", items)},
        "bash": words_of_bash("port1-sample "),
        "zsh": set(re.findall(r"(?<=['{,])(?:\([^)]*\))?(--?[a-zA-Z][\w-]*)(?=[\[,}])", texts["_port1-sample"])),
        "fish": {
            f"-{word}" if form == "s" else f"--{word}" for form, word in FISH_OPTION.findall(texts["port1-sample.fish"])
        },
    }


def results_of_sampler(sampler: Path) -> Iterator[Tuple[str, List[str]]]:
    wanted, *others = options_of_sampler(sampler).items()
    for place, options in others:
        yield f"options of port1-sample in {place}", differences(wanted[1], options)


def results_of_options() -> Iterator[Tuple[str, List[str]]]:
    """Each place where options stand, and how it differs from the help texts."""
    wanted = options_of_help()
    told = {
        "man page": options_of_page(), "bash": options_of_bash(), "zsh": options_of_zsh(), "fish": options_of_fish()
    }
    for place, options in told.items():
        for name in wanted:
            yield f"options of {name} in {place}", differences(wanted[name], options.get(name, set()))
    synopsis = options_of_synopsis()
    for name in COMMANDS:
        plain = {option[2:] for option in wanted[name] if option.startswith("--")} - {"help"}
        yield f"options of {name} in the synopsis", differences(plain, synopsis.get(name, set()))
    commands = {word for word in words_of_bash("port1 ") if word[0] != "-"}
    yield "commands in bash", differences({*COMMANDS, "help"}, commands)

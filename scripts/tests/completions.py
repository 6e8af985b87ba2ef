"""The completions, in the shells themselves: what is typed at a terminal, and what must appear there."""

import fcntl
import os
import pty
import re
import select
import signal
import struct
import termios
import time
from contextlib import contextmanager
from pathlib import Path
from typing import Iterator, List, NamedTuple, Sequence

from needs import BASH_COMPLETION, needs, needs_file
from tests.asleep import is_asleep
from tests.case import CALL, DICTIONARY, SECONDS, TOP, plain

COMPLETIONS = TOP / "cli" / "completions"

# How long a shell is given to begin with what was typed, in seconds.
REST = 0.2

PROMPT = "ready> "

ROWS, COLUMNS = 50, 160

# What a terminal shows no character for.
ESCAPES = re.compile(
    r"\x1b\[[0-9;?<>=]*[a-zA-Z]|\x1b\][^\x07\x1b]*(?:\x07|\x1b\\)|\x1b[()][A-Z0-9]|\x1b[=>78M]|[\r\x07\x0f]"
)


class Row(NamedTuple):
    """What is typed after a prompt, what must appear then, and what must not; in these shells."""

    typed: str
    appears: Sequence[str]
    never: Sequence[str] = ()
    shells: Sequence[str] = ("bash", "zsh", "fish")


KINDS = "frame damaged overlong abort idle stray answered missing spoilt late open pending".split()

FRAME = "8 49 frame 108300fde5"

# What is no value of an option: files, and other options.
NO_VALUES = ["written.txt", "bus.toml", "--two"]

# Where a line end is typed, the command runs, and what it writes shows what the shell had completed.
TABLE = [
    Row("port1 \t\t", ["list", "check", "show", "encode"], ["one-call"]),
    Row("port1 help \t\t", ["list", "check", "show", "encode"], ["one-call", "--version"]),
    Row("port1 help sh\t\n", ["Usage: port1 show"]),
    Row("port1 li\t --bits < one-call.bits\n", [FRAME]),
    Row("port1 ch\t --bits < one-call.bits\n", ["frames 1"]),
    Row("port1 sh\t 108300fde5\n", ["station 16 type 0 unknown"]),
    Row("echo flag | port1 en\t\n", ["01111110"]),
    Row("port1 he\t show\n", ["Usage: port1 show"]),
    Row("port1 list --\t\t", ["--dict", "--origin", "--bits", "--two", "--station", "--type", "--kind"], ["--depth"]),
    Row("port1 check --\t\t", ["--dict", "--origin", "--bits", "--two", "--depth"], ["--kind"]),
    Row("port1 list --bits --origi\t 100 < one-call.bits\n", ["108 149 frame 108300fde5"]),
    Row("port1 list --kind \t\t", KINDS, ["one-call"]),
    Row("port1 list --bits --kind fra\t < one-call.bits\n", [FRAME]),
    Row("port1 list --bits --kind=fra\t < one-call.bits\n", [FRAME], [], ["bash", "fish"]),
    Row("port1 list --bits < \t\t", ["one-call.bits", "bus.toml"], ["--origin"]),
    Row("port1 list --bits < one-\t\n", [FRAME]),
    Row("port1 list --bits <one-\t\n", [FRAME]),
    Row("port1 list --bits < one-\t --kin\t frame\n", [FRAME]),
    Row('port1 list --bits --kind missing --dict "$(cat bus.toml)" < two\t\n', ["8 49 missing station 16 type 0"]),
    Row('port1 list --bits --kind pending --dict "$(cat bus.t\t)" < one-call.bits\n', ["8 49 pending station 16"]),
    Row("port1 list --bits < one-call.bits > writ\t; cat written.txt\n", [FRAME]),
    *[
        Row(f"port1 {command} --bits {option} \t\t{value} < one-call.bits\n", [text], NO_VALUES, ["bash", "zsh"])
        for command, option, value, text in [
            ("list", "--station", "16", FRAME),
            ("list", "--type", "0", FRAME),
            ("list", "--origin", "100", "108 149 frame 108300fde5"),
            ("list", "--dict", "version=1", "port1: dictionary: no frames"),
            ("check", "--depth", "1", "last 8 49 108300fde5"),
        ]
    ],
]


def furnish(folder: Path) -> None:
    """Captures, a dictionary, the program and the completions, which are where `make install` puts them."""
    (folder / "bin").mkdir()
    (folder / "bin" / "port1").symlink_to(os.environ["PORT1"])
    files = {"one-call.bits": plain(CALL), "two calls.bits": plain(CALL) * 2, "bus.toml": DICTIONARY, "written.txt": ""}
    for name, text in files.items():
        (folder / name).write_text(text, encoding="ascii")
    share = folder / ".local" / "share"
    places = {
        "port1.bash": share / "bash-completion" / "completions" / "port1",
        "_port1": share / "zsh" / "site-functions" / "_port1",
        "port1.fish": share / "fish" / "vendor_completions.d" / "port1.fish",
    }
    for name, place in places.items():
        place.parent.mkdir(parents=True)
        place.symlink_to(COMPLETIONS / name)


class Shell(NamedTuple):
    """A shell: its terminal, and its process."""

    terminal: int
    process: int


@contextmanager
def at_terminal(words: Sequence[str], folder: Path) -> Iterator[Shell]:
    """A shell at a terminal of its own, whose home is the folder."""
    path = f"{folder / 'bin'}:{os.environ.get('PATH', os.defpath)}"
    environment = {"PATH": path, "HOME": str(folder), "TERM": "xterm", "LC_ALL": "C", "PS1": PROMPT}
    process, terminal = pty.fork()
    if process == 0:
        try:
            os.chdir(folder)
            os.execvpe(words[0], words, environment)
        finally:
            os._exit(127)
    fcntl.ioctl(terminal, termios.TIOCSWINSZ, struct.pack("HHHH", ROWS, COLUMNS, 0, 0))
    try:
        yield Shell(terminal, process)
    finally:
        os.close(terminal)
        os.kill(process, signal.SIGKILL)
        os.waitpid(process, 0)


def text_of(octets: bytes) -> str:
    """What appears, without what only moves or colours."""
    return ESCAPES.sub("", octets.decode(errors="replace"))


def read(terminal: int, before: bytes, wanted: Sequence[str], seconds: float) -> bytes:
    """What has appeared, with that before, as soon as all that is wanted has, or after so long."""
    octets, end = before, time.monotonic() + seconds
    while not wanted or any(word not in text_of(octets) for word in wanted):
        left = end - time.monotonic()
        if left <= 0:
            break
        if select.select([terminal], [], [], left)[0]:
            try:
                octets += os.read(terminal, 4096)
            except OSError:
                break
    return octets


def read_until_asleep(shell: Shell, before: bytes) -> bytes:
    """What has appeared, with that before, when the shell has nothing to do but to wait for a key."""
    octets, end = read(shell.terminal, before, [], REST), time.monotonic() + SECONDS
    while time.monotonic() < end and (not is_asleep(shell.process) or select.select([shell.terminal], [], [], 0)[0]):
        octets = read(shell.terminal, octets, [], 0.02)
    return octets


def shown_after(shell: Shell, row: Row) -> str:
    """What appears after a row is typed: what a Tab does is waited for before the next key."""
    octets = b""
    for key in re.split(r"(\t)", row.typed):
        os.write(shell.terminal, key.encode())
        octets = read_until_asleep(shell, octets)
    octets = read(shell.terminal, octets, row.appears, SECONDS)
    return text_of(read_until_asleep(shell, octets))


def problems_of_shell(shell: str, words: Sequence[str], folder: Path) -> List[str]:
    """Each row of the table in a shell of its own."""
    problems = []
    for row in TABLE:
        if shell not in row.shells:
            continue
        with at_terminal(words, folder) as at:
            start = text_of(read(at.terminal, b"", [PROMPT], SECONDS))
            text = shown_after(at, row) if PROMPT in start else ""
        missing = [word for word in row.appears if word not in text]
        wrong = [word for word in row.never if word in text]
        if missing or wrong:
            problems.append(f"{row.typed!r}: {missing} did not appear, {wrong} did: {start[-80:]!r} {text!r}")
    return problems


def bash_by_itself(folder: Path) -> List[str]:
    """bash, which has read the completion."""
    needs("bash")
    furnish(folder)
    (folder / ".bashrc").write_text(f". {COMPLETIONS / 'port1.bash'}\nPS1='{PROMPT}'\n", encoding="utf-8")
    return problems_of_shell("bash", ["bash", "--noprofile", "--rcfile", str(folder / ".bashrc"), "-i"], folder)


def bash_with_package(folder: Path) -> List[str]:
    """bash with the package bash-completion, which finds the completion in the home by itself."""
    needs("bash")
    needs_file(BASH_COMPLETION)
    furnish(folder)
    (folder / ".bashrc").write_text(f". {BASH_COMPLETION}\nPS1='{PROMPT}'\n", encoding="utf-8")
    return problems_of_shell("bash", ["bash", "--noprofile", "--rcfile", str(folder / ".bashrc"), "-i"], folder)


def zsh_with_compinit(folder: Path) -> List[str]:
    """zsh, with the lines of the README."""
    needs("zsh")
    furnish(folder)
    lines = ["fpath+=($HOME/.local/share/zsh/site-functions)", "autoload -Uz compinit", "compinit", f"PS1='{PROMPT}'"]
    (folder / ".zshrc").write_text("".join(f"{line}\n" for line in lines), encoding="ascii")
    return problems_of_shell("zsh", ["zsh", "-d", "-i"], folder)


def fish_by_itself(folder: Path) -> List[str]:
    """fish, which finds the completion in the home by itself."""
    needs("fish")
    furnish(folder)
    # Where this is missing, fish fills it from all man pages, and goes on when its terminal is closed.
    (folder / ".local" / "share" / "fish" / "generated_completions").mkdir()
    words = f"set fish_greeting; function fish_prompt; echo -n '{PROMPT}'; end"
    return problems_of_shell("fish", ["fish", "--private", "--init-command", words], folder)

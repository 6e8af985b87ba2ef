"""Where the processor time of `rt` goes: its checks by `rattle`, as /proc shows them from second to second.

`rt ci` prints no times, so they are seen from outside: a check's crate and part by its words and its folder, its time
with that of all it started. What a check took after the last look at it is taken from what `rt` has of its ended
children. The functions of a check that keeps its work come from the files that it writes: it has one for each module,
and what passed since the last is the time of that module. It includes what the prover loaded for it.
"""

import os
import time
from bisect import bisect_left
from pathlib import Path
from typing import Dict, Iterator, List, NamedTuple, Optional, Sequence, Tuple

# How often the processes are looked at, in seconds.
LOOKS = 1.0

# The ticks of a processor's second.
TICKS = os.sysconf("SC_CLK_TCK")

# The parts of a crate in the gate: its proof, that of its tests, the check that its wrong bodies begin with, these, the
# check whether what they began with is sound, and what compiles a proved program.
PARTS = ["proof", "tests", "seed", "edit", "sound", "compile"]

# A process: its number, and when it began.
Key = Tuple[int, int]


class Process(NamedTuple):
    """A process: its parent, when it began, its seconds of a processor and those of its ended children."""

    parent: int
    begun: int
    own: float
    ended: float


class Kind(NamedTuple):
    """What a check is of: the crate, the part, the edit, and the folder in which it keeps its work, if it does."""

    crate: str
    part: str
    edit: str = ""
    kept: Optional[Path] = None


class Function(NamedTuple):
    crate: str
    name: str
    seconds: float


class Check(NamedTuple):
    """A check that has ended: its seconds of a processor, and when it began and ended, in seconds from the start."""

    kind: Kind
    seconds: float
    begin: float
    end: float


class Seen:
    """A check that runs: at each look the clock's time, and its seconds of a processor so far."""

    def __init__(self, kind: Kind, now: float) -> None:
        self.kind, self.times, self.seconds = kind, [now], [0.0]

    def add(self, now: float, seconds: float) -> None:
        self.times.append(now)
        self.seconds.append(max(seconds, self.seconds[-1]))

    def seconds_at(self, now: float) -> float:
        """The seconds of a processor at a time between two looks."""
        at = bisect_left(self.times, now)
        if at in (0, len(self.times)):
            return self.seconds[min(at, len(self.times) - 1)]
        part = (now - self.times[at - 1]) / (self.times[at] - self.times[at - 1])
        return self.seconds[at - 1] + part * (self.seconds[at] - self.seconds[at - 1])


def process_of(number: str) -> Optional[Process]:
    """A process, or nothing where it has just ended."""
    try:
        words = Path("/proc", number, "stat").read_text(encoding="utf-8", errors="replace").rpartition(")")[2].split()
        own, ended = (int(words[11]) + int(words[12])) / TICKS, (int(words[13]) + int(words[14])) / TICKS
        return Process(int(words[1]), int(words[19]), own, ended)
    except (OSError, ValueError, IndexError):
        return None


def processes() -> Dict[int, Process]:
    found = {int(name): process_of(name) for name in os.listdir("/proc") if name.isdigit()}
    return {number: process for number, process in found.items() if process}


def seconds_of(number: int, every: Dict[int, Process], children: Dict[int, List[int]]) -> float:
    """The seconds of a processor of a process, with all that it started."""
    process = every[number]
    return process.own + process.ended + sum(seconds_of(child, every, children) for child in children.get(number, []))


def word_after(words: Sequence[str], option: str) -> str:
    return words[words.index(option) + 1] if option in words[:-1] else ""


def edit_at(crates: Path, crate: str, number: int) -> str:
    """The name of an edit by its place among the crate's, in which order `rt` tries them."""
    names = sorted(path.name for path in crates.joinpath(crate, "must-fail").glob("*.edit"))
    return names[number][: -len(".edit")] if number < len(names) else ""


def kind_of(words: Sequence[str], folder: str, crates: Path) -> Optional[Kind]:
    """What a process checks by its words and its folder, or nothing."""
    if len(words) < 2 or not words[0].endswith("/rattle") or words[1] not in ("check", "build"):
        return None
    crate, kept = word_after(words, "--crate-name"), word_after(words, "--incremental")
    place = Path(folder, kept) if kept and word_after(words, "--jobs") in ("", "1") else None
    if Path(folder).name.startswith("rt-edit-"):
        name = Path(kept).name
        if name == "seed":
            return Kind(crate, "seed", kept=place)
        return Kind(crate, "edit", edit_at(crates, crate, int(name)) if name.isdigit() else "")
    if "--crate-checked" in words:
        return Kind(crate, "compile")
    return Kind(crate, "tests" if "--test" in words else "proof", kept=place)


def kind_of_process(number: int, crates: Path) -> Optional[Kind]:
    try:
        words = Path("/proc", str(number), "cmdline").read_text(encoding="utf-8", errors="replace").split("\0")
        return kind_of(words, os.readlink(f"/proc/{number}/cwd"), crates)
    except OSError:
        return None


def function_of(module: str, crate: str) -> str:
    """The function of a module of a crate's proofs, the file of lemmas, or nothing."""
    begin = f"Rattle-{crate}-proofs."
    parts = module[len(begin) :].split(".") if module.startswith(begin) else [""]
    ends = [at for at, part in enumerate(parts) if part[:1].islower() and "-" not in part]
    found = "::".join(parts[: ends[-1] + 1] if ends else parts[:1])
    return "" if found.startswith("TheLink") else found


def modules_in(folder: Path) -> List[Tuple[float, str]]:
    """The modules that a check keeps, by the times at which it wrote them."""
    found = []
    try:
        for path in folder.glob("*/*.oantt"):
            found.append((path.stat().st_mtime, path.name[: -len(".oantt")]))
    except OSError:
        pass
    return sorted(found)


def functions_of(seen: Seen) -> Iterator[Function]:
    """What a check took for each function that it kept."""
    crate, total, before = seen.kind.crate, {}, seen.seconds[0]
    modules = modules_in(seen.kind.kept) if seen.kind.kept else []
    for written, module in modules:
        if seen.times[0] <= written <= seen.times[-1]:
            seconds, name = seen.seconds_at(written), function_of(module, crate)
            total[name] = total.get(name, 0.0) + seconds - before
            before = seconds
    yield from (Function(crate, name, seconds) for name, seconds in total.items() if name)


class Sampler:
    """The checks below a process of `rt`, which `look` is called with again and again."""

    def __init__(self, crates: Path) -> None:
        self.crates, self.begun, self.looked, self.ended = crates, time.time(), 0.0, 0.0
        self.running: Dict[Key, Seen] = {}
        self.checks: List[Check] = []
        self.functions: List[Function] = []

    def look(self, rt: int) -> None:
        now = time.time()
        if now - self.looked < LOOKS:
            return
        every, since, self.looked = processes(), now - self.looked, now
        if rt not in every:
            return
        children: Dict[int, List[int]] = {}
        for number, process in every.items():
            children.setdefault(process.parent, []).append(number)
        here = {(number, every[number].begun): number for number in children.get(rt, [])}
        self.end([key for key in self.running if key not in here], now, every[rt].ended - self.ended, since)
        self.ended = every[rt].ended
        for key, number in here.items():
            self.note(key, now, seconds_of(number, every, children))

    def note(self, key: Key, now: float, seconds: float) -> None:
        """Notes the seconds of a process so far, if it is a check."""
        if key not in self.running:
            kind = kind_of_process(key[0], self.crates)
            if kind is None:
                return
            has_edits = any(check.kind[:2] == (kind.crate, "edit") for check in self.checks)
            is_sound = kind.part == "seed" and has_edits
            self.running[key] = Seen(kind._replace(part="sound", kept=None) if is_sound else kind, now)
        self.running[key].add(now, seconds)

    def end(self, keys: Sequence[Key], now: float, ended: float, since: float) -> None:
        """Notes that checks have ended; what `rt` has of ended children beyond their known seconds is theirs."""
        over = [self.running.pop(key) for key in keys]
        rest = ended - sum(seen.seconds[-1] for seen in over)
        for seen in over:
            more = min(max(rest / len(over), 0.0), since)
            seen.add(now, seen.seconds[-1] + more)
            self.checks.append(Check(seen.kind, seen.seconds[-1], seen.times[0] - self.begun, now - self.begun))
            self.functions += functions_of(seen)

    def finish(self) -> None:
        """Notes the end of what ran at the last look."""
        self.end([*self.running], time.time(), 0.0, 0.0)

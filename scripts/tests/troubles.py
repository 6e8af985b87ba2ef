"""Cabinets in trouble, simulated: what is listed of a recording is what was sent, and what was done about it."""

from collections import Counter
from pathlib import Path
from typing import Any, Iterator, List, NamedTuple, Sequence, Tuple

from tests.case import listed, ran
from tests.simulated import cabinet
from tests.simulated.cabinet import FLAG, RATE, Cabinet, recorded_from

SAMPLES = 4_000_000

# After so many bits without an edge a line rests, unless it is told otherwise.
REST = 40

# What becomes of a command by its fate, where that has another word. Damage may have been the answer.
VERDICTS = {"notice": "missing", "answer": "spoilt", "cut": "spoilt"}


class Trouble(NamedTuple):
    """What happens to a cabinet, and how far off, in parts per million, the clock of its stations is."""

    kind: str
    ppm: int = 0
    gated: bool = True
    bits: float = 0  # for how long a clock stands still within a frame
    glitches: int = 0  # samples inverted on each channel
    polls: int = 40

    def name(self) -> str:
        """What tells it from the others."""
        more = [f"{self.bits:g} bits"] * (self.bits > 0) + [f"{self.glitches} glitches"] * (self.glitches > 0)
        clock = "gated" if self.gated else "free"
        return ", ".join([self.kind, f"{self.ppm} ppm", clock, *more, f"{self.polls} polls"])

    def rest(self) -> List[str]:
        """The option for a clock that stands still within a frame for longer than one at rest."""
        return ["--rest=0"] if self.bits > REST else []

    def is_doubtful(self) -> bool:
        """Whether the edges of the controller's clock are not where they are due."""
        return self.kind == "a stop of the controller" or self.glitches > 0


PLAIN = [Trouble("plain", ppm, gated) for ppm in (0, 80, -80, 5000, -5000, 20000, -20000) for gated in (True, False)]
FILLED = (0, 80, -80, 2000, -2000, 20000, -20000)
FLAGS = [Trouble(kind, ppm, False) for kind in ("flags", "shared flags") for ppm in FILLED]
STOPS = [Trouble("a stop of the stations", 80, True, bits) for bits in (0.8, 2, 5, 30, 300)]
STOPS += [Trouble("a stop of the controller", 80, gated, bits) for bits in (5, 50) for gated in (True, False)]
CUTS = [Trouble("cut", 80, gated) for gated in (True, False)]
GLITCHES = [Trouble("plain", 80, gated, glitches=count) for count in (40, 200) for gated in (True, False)]
LONG = [Trouble("flags", ppm, False, polls=1600) for ppm in (80, -80)]


def bus_of(trouble: Trouble, made: "Cabinet") -> "cabinet.Bus":
    """A bus on which that happens."""

    class Bus(cabinet.Bus):
        def fate(self) -> str:
            fate = super().fate()
            return "cut" if trouble.kind == "cut" and self.generator.random() < 0.3 else fate

        def poll(self) -> None:
            if trouble.kind == "a stop of the controller":
                self.pauses.append((self.count + 8 + self.generator.randrange(10, 40), trouble.bits / RATE))
            super().poll()

        def answer(self, body: str, delay: float) -> None:
            if self.fates[-1][0] == "cut":
                bits = FLAG + body[: self.generator.randrange(20, len(body) - 10)]
                self.answers.append(cabinet.Answer(self.count + delay, bits))
            elif trouble.kind == "a stop of the stations":
                pause = (8 + self.generator.randrange(5, len(body) - 5), trouble.bits)
                self.answers.append(cabinet.Answer(self.count + delay, FLAG + body + FLAG, [pause]))
            else:
                super().answer(body, delay)

        def filled(self, count: int) -> str:
            fill = {"flags": FLAG, "shared flags": FLAG[1:]}.get(trouble.kind, "")
            return fill * -(-count // len(fill)) if fill else super().filled(count)

    bus = Bus(made)
    for _ in range(made.polls):
        bus.poll()
    return bus


def verdicts_due(fates: Sequence[Tuple[str, int, int]]) -> List[Tuple[str, int, int]]:
    """The verdicts of the commands that stations got. A damaged command behind one without an answer may be that."""
    behind = [fate for fate, _, _ in fates[1:]] + [""]
    return [
        ("spoilt" if (fate, after) == ("missing", "command") else VERDICTS.get(fate, fate), station, kind)
        for (fate, station, kind), after in zip(fates, behind)
        if fate != "command"
    ]


class Listed(NamedTuple):
    """What a listing has: reports but idles, by line, without their places, and verdicts in their order."""

    reports: "Counter[str]"
    verdicts: List[Tuple[str, int, int]]


def listed_of(text: str) -> Listed:
    reports: "Counter[str]" = Counter()
    verdicts = []
    for words in map(str.split, text.splitlines()):
        if words[3] in ("answered", "late", "missing", "spoilt"):
            verdicts.append((words[3], int(words[5]), int(words[7])))
        elif words[3] not in ("idle", "open", "pending", "stray"):
            reports[f"{words[0]} {words[3]} {words[4] if len(words) > 4 else ''}"] += 1
    return Listed(reports, verdicts)


def sent_of(recorded: Any) -> "Counter[str]":
    """The reports of the bits that were sent, each line by itself."""
    reports: "Counter[str]" = Counter()
    for line, bits in [(1, recorded.first[1]), (2, "".join(some for _, some in recorded.second))]:
        text = listed(bits.encode(), ["--bits", "--dict", cabinet.DICTIONARY]).stdout.decode()
        reports += listed_of("".join(f"{line} {each}\n" for each in text.splitlines())).reports
    return reports


class Differences(NamedTuple):
    """How many reports and verdicts differ from the truth, of how many, and how many recordings were warned of."""

    reports: int = 0
    verdicts: int = 0
    warned: int = 0
    all_reports: int = 0
    all_verdicts: int = 0


def differences(trouble: Trouble, seed: int) -> Differences:
    made = Cabinet(seed, trouble.ppm, trouble.gated, SAMPLES, trouble.polls, glitches=trouble.glitches)
    bus = bus_of(trouble, made)
    recorded = recorded_from(made, bus)
    words = ["recording-to-bits", "0", "1", "2", "3", f"--samplerate={SAMPLES}", *trouble.rest()]
    taken = ran(words, recorded.samples.tobytes())
    options = ["--bits", "--arrivals", *trouble.rest(), "--dict", cabinet.DICTIONARY]
    got = listed_of(listed(taken.stdout, options).stdout.decode())
    sent, due = sent_of(recorded), verdicts_due(bus.fates)[:-1]
    # A piece that is broken off ends by the rule of rest, and not with its line's bits.
    reports = 0 if trouble.kind == "cut" else sum(((sent - got.reports) + (got.reports - sent)).values())
    verdicts = sum(one != other for one, other in zip(got.verdicts, due)) + max(0, len(due) - len(got.verdicts))
    return Differences(reports, verdicts, int(b"warning" in taken.stderr), sum(sent.values()), len(due))


def totals(troubles: Sequence[Trouble], seeds: Sequence[int]) -> Iterator[Tuple[Trouble, Differences]]:
    for trouble in troubles:
        yield trouble, Differences(*map(sum, zip(*(differences(trouble, seed) for seed in seeds))))


def problems_of(troubles: Sequence[Trouble], seeds: Sequence[int]) -> List[str]:
    """Where a listing differs from the truth, and where a recording is warned of whose controller's clock is as due."""
    return [
        f"{trouble.name()}: {found}"
        for trouble, found in totals(troubles, seeds)
        if found.reports + found.verdicts > 0 or (found.warned > 0 and not trouble.is_doubtful())
    ]


def troubles(_: Path) -> List[str]:
    """Time fill of flags, clocks that stop within frames, answers that break off, glitches."""
    return problems_of([*FLAGS[1::3], *STOPS[2::3], *CUTS, *GLITCHES[2:]], [1])


def many_troubles(_: Path) -> List[str]:
    """More of each, clocks that are off by up to 20000 parts in a million, and twelve seconds of flags."""
    return problems_of([*PLAIN, *FLAGS, *STOPS, *CUTS, *GLITCHES], range(5)) + problems_of(LONG, [1])

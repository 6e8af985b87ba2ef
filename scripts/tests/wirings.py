"""Wrong wirings of a simulated cabinet, one table: what is said of each, and that its cure helps.

Nothing is wrong on the bus. What recording-to-bits warns of and what bus-summary says first is due to the wires alone,
so that all of it is in the table, and nothing else may be said.
"""

import json
import os
import re
import subprocess
from functools import lru_cache
from pathlib import Path
from tempfile import TemporaryDirectory
from typing import Callable, Dict, Iterator, List, NamedTuple, Optional, Sequence, Tuple

import numpy as np
from tests.case import SCRIPTS, SECONDS, sampler
from tests.simulated import cabinet
from tests.simulated.cabinet import Cabinet, HealthyBus

SAMPLES = 1_920_000

POLLS = 40

# One of so many samples makes 320 000 of them a second, two for a bit.
PACE = 6

NAMES = ["TXC", "TXD", "RXC", "RXD"]

# Whether the stations' clock runs only with their answers, and what fills the lines.
BUSES = {
    "gated": (True, "1"), "gated, flags": (True, "01111110"), "free": (False, "1"), "free, flags": (False, "01111110")
}

Change = Callable[[np.ndarray], np.ndarray]


class Setting(NamedTuple):
    """How a recording is read: the channels of the four wires, those whose wires are exchanged, and at which edges."""

    channels: Tuple[int, ...] = (0, 1, 2, 3)
    inverted: Tuple[str, ...] = ()
    falling: bool = False

    def swapped(self, *pairs: Tuple[str, str]) -> "Setting":
        channels = list(self.channels)
        for one, other in pairs:
            at, to = NAMES.index(one), NAMES.index(other)
            channels[at], channels[to] = channels[to], channels[at]
        return self._replace(channels=tuple(channels))

    def options(self) -> List[str]:
        return [f"--invert-{name.lower()}" for name in self.inverted] + ["--falling"] * self.falling


class Said(NamedTuple):
    """What is said: all warnings, without their times, and the sentences of what is wrong, with N for each number."""

    warnings: List[str]
    sentences: List[str]
    summary: str


Due = Tuple[Sequence[str], Optional[Sequence[str]]]


class Wiring(NamedTuple):
    """A wrong wiring: what is warned of, and what is said to be wrong, which may be anything where it is None. Where it
    is another on a bus, that stands there."""

    name: str
    change: Change
    warnings: Sequence[str]
    sentences: Optional[Sequence[str]]
    elsewhere: Dict[str, Due] = {}
    is_cured: bool = False  # by what is said
    pace: int = 1  # only one of so many samples is there

    def due(self, bus: str) -> Due:
        return self.elsewhere.get(bus, (self.warnings, self.sentences))


@lru_cache(maxsize=None)
def healthy(bus_name: str) -> np.ndarray:
    """A recording of a bus on which all commands are answered."""
    gated, fill = BUSES[bus_name]

    class Bus(HealthyBus):
        def fill(self, count: int) -> None:
            self.send((fill * count)[: count // 8 * 8] + "1" * 16)

        def filled(self, count: int) -> str:
            return fill * -(-count // len(fill))

    return Bus(Cabinet(5, 80, gated, SAMPLES, POLLS)).samples()


def held(channel: str, level: int, begin: float = 0, end: float = 1) -> Change:
    """A wire that has a level from a part of the recording to another."""

    def changed(samples: np.ndarray) -> np.ndarray:
        mask, kept = np.uint8(1 << NAMES.index(channel)), samples.copy()
        part = slice(round(begin * len(samples)), round(end * len(samples)))
        kept[part] = kept[part] | mask if level else kept[part] & ~mask
        return kept

    return changed


def both(*changes: Change) -> Change:
    def changed(samples: np.ndarray) -> np.ndarray:
        for change in changes:
            samples = change(samples)
        return samples

    return changed


def turned(*channels: str) -> Change:
    mask = sum(1 << NAMES.index(channel) for channel in channels)
    return lambda samples: samples ^ np.uint8(mask)


def order(*channels: str) -> Change:
    """The wires of these channels in place of the four."""
    places = [NAMES.index(channel) for channel in channels]
    return lambda samples: sum((samples >> place & 1) << at for at, place in enumerate(places)).astype(np.uint8)


def glitches(channel: str, begin: float = 0, end: float = 1) -> Change:
    def changed(samples: np.ndarray) -> np.ndarray:
        changed, generator = samples.copy(), np.random.default_rng(3)
        low, high = (round(part * len(samples)) for part in (begin, end))
        changed[generator.integers(low, high, 60)] ^= np.uint8(1 << NAMES.index(channel))
        return changed

    return changed


def lost(*begins: float) -> Change:
    """Samples that the analyser lost at parts of the recording, a bit and a half at each."""

    def changed(samples: np.ndarray) -> np.ndarray:
        count = round(1.5 * SAMPLES / cabinet.RATE)
        return np.delete(samples, [round(begin * len(samples)) + at for begin in begins for at in range(count)])

    return changed


NO_EDGES, FLAT = "{} has no edges", "{} never changes"
ENDS, STOPS = "{} stops, and does not go on until the recording ends", "{} stops"
EDGE = "the data changes at the edge of {} that is taken: try it with --falling"
TURNED = "the data changes at the edge of {0} that is taken: say --invert {0}, or exchange the wires of its pair"
RESTS = "{0} rests at 0: if the two wires of its pair are exchanged, say --invert {0}"
CROSSED = "{} has the edges of a clock, and {} has not: are the two exchanged?"
CLOCKS = "RXC always runs, as the controller's clock does, and TXC does not: are the two exchanged?"
PAIRS = "RXC always runs, as the controller's clock does, and TXC does not: are the two pairs exchanged?"
DATA = "TXD and RXD do not change with their clocks: are the two exchanged?"
SLOW = "TXC has fewer than four samples a bit: record 1 million samples a second or more"
JUMPS = "the edges of {} jump: its wire has glitches, or samples were lost"

NEVER_1 = (
    "No frame came on line 1, where commands are, but N frames on line 2: was the first pair recorded, and is each of"
    " its wires on?"
)
LOST_1 = "No frame came on line 1, where commands are, {}, but N frames on line 2: is a wire of the first pair loose?"
FROM_1, WHILE_1 = LOST_1.replace("{},", "from N s on,"), LOST_1.replace("{},", "from N s to N s,")
NEVER_2 = "No frame came on line 2, where answers are: was the second pair recorded, or does no station answer?"
MUTE = "No station answered from N s on: N commands in a row, to N stations."
LOST_2 = "No station answered from N s to N s: N commands in a row, to N stations. Is a wire of the second pair loose?"
SEAMS = "The recording lacks samples, or has wrong ones, where N stand: no station is to blame for what is wrong there."
UNSURE = "Nothing of this recording is sure: record again. It has N; no station is to blame for what is wrong there."
LOSSES = "the analyser lost samples: TXC is out of step from places on"
MISREAD = (
    "Line {}, where {} are, has N damaged pieces and no frame: are its clock and its data the right wires, and are the"
    " two wires of a pair exchanged?"
)
MISREAD_1, MISREAD_2 = MISREAD.format(1, "commands"), MISREAD.format(2, "answers")
MISREAD_BOTH = (
    "Both lines have N damaged pieces and no frame: are the clock and the data of each the right wires, and are the two"
    " wires of a pair exchanged?"
)
LINES = "N commands came on line 2: are the two lines exchanged?"
DATA_WIRES = "N {} came on line {}: are the data wires of the two pairs exchanged?"


def dead_wires() -> Iterator[Wiring]:
    """Wires without a level of their own, from the beginning or from a time on."""
    for channel, warning in zip(NAMES, (NO_EDGES, FLAT, NO_EDGES, FLAT)):
        of_first = channel in ("TXC", "TXD")
        for level in (0, 1):
            never = [NEVER_1] if of_first else [NEVER_2]
            yield Wiring(f"{channel} is {level}", held(channel, level), [warning.format(channel)], never)
            for begin in (0.1, 0.4, 0.7):
                sentence = FROM_1 if of_first else MUTE
                name = f"{channel} is {level} from {begin} on"
                yield Wiring(name, held(channel, level, begin), [ENDS.format(channel)], [sentence])
    yield Wiring("TXC and TXD are 0", both(held("TXC", 0), held("TXD", 0)), [NO_EDGES.format("TXC")], [NEVER_1])
    yield Wiring("RXC and RXD are 0", both(held("RXC", 0), held("RXD", 0)), [NO_EDGES.format("RXC")], [NEVER_2])
    clocks = [NO_EDGES.format("TXC"), NO_EDGES.format("RXC")]
    yield Wiring("TXC and RXC are 0", both(held("TXC", 0), held("RXC", 0)), clocks, [])
    yield Wiring("TXC is 0 for a while", held("TXC", 0, 0.4, 0.5), [STOPS.format("TXC")], [WHILE_1])
    yield Wiring("TXD is 1 for a while", held("TXD", 1, 0.4, 0.6), [], [WHILE_1])
    yield Wiring("TXC is 1 for a while, early", held("TXC", 1, 0.05, 0.2), [STOPS.format("TXC")], [WHILE_1])
    yield Wiring("RXC is 0 for a while", held("RXC", 0, 0.4, 0.5), [], [LOST_2])
    yield Wiring("RXD is 1 for a while", held("RXD", 1, 0.4, 0.6), [], [LOST_2])
    yield Wiring("RXD is 0 for a while", held("RXD", 0, 0.4, 0.6), [], [LOST_2])
    ends = [ENDS.format("TXC"), ENDS.format("TXD")]
    yield Wiring("TXC and TXD are 0 from 0.4 on", both(held("TXC", 0, 0.4), held("TXD", 0, 0.4)), ends, [FROM_1])
    ends, one = [ENDS.format("RXC"), ENDS.format("RXD")], [ENDS.format("RXD")]
    elsewhere: Dict[str, Due] = {"free": (one, [MUTE]), "free, flags": (one, [MUTE])}
    yield Wiring("RXC and RXD are 0 from 0.4 on", both(held("RXC", 0, 0.4), held("RXD", 0, 0.4)), ends, [MUTE], elsewhere)


def turned_wires() -> Iterator[Wiring]:
    """Pairs whose two wires are exchanged. Data that is filled with flags does not rest, and looks no different."""
    no_rest, one_rest = [], [RESTS.format("RXD")]
    yield Wiring("TXC is inverted", turned("TXC"), [TURNED.format("TXC")], [MISREAD_1], is_cured=True)
    yield Wiring("RXC is inverted", turned("RXC"), [TURNED.format("RXC")], [MISREAD_2], is_cured=True)
    rests, flags = [RESTS.format("TXD")], ([], [MISREAD_1])
    elsewhere = {"gated, flags": flags, "free, flags": flags}
    yield Wiring("TXD is inverted", turned("TXD"), rests, [MISREAD_1], elsewhere, is_cured=True)
    elsewhere = {"free, flags": ([], [MISREAD_2])}
    yield Wiring("RXD is inverted", turned("RXD"), [RESTS.format("RXD")], [MISREAD_2], elsewhere, is_cured=True)
    edges = [EDGE.format("TXC"), EDGE.format("RXC")]
    yield Wiring("the other edges", turned("TXC", "RXC"), edges, [MISREAD_BOTH], is_cured=True)
    rests = [RESTS.format("TXD"), RESTS.format("RXD")]
    elsewhere = {"gated, flags": (one_rest, [MISREAD_BOTH]), "free, flags": (no_rest, [MISREAD_BOTH])}
    yield Wiring("both data are inverted", turned("TXD", "RXD"), rests, [MISREAD_BOTH], elsewhere, is_cured=True)
    warnings = [TURNED.format("TXC"), RESTS.format("TXD")]
    flags = (warnings[:1], [MISREAD_1])
    elsewhere = {"gated, flags": flags, "free, flags": flags}
    yield Wiring("TXC and TXD are inverted", turned("TXC", "TXD"), warnings, [MISREAD_1], elsewhere, is_cured=True)
    warnings = [TURNED.format("RXC"), RESTS.format("RXD")]
    elsewhere = {"free, flags": (warnings[:1], [MISREAD_2])}
    yield Wiring("RXC and RXD are inverted", turned("RXC", "RXD"), warnings, [MISREAD_2], elsewhere, is_cured=True)


def exchanged_wires() -> Iterator[Wiring]:
    """Wires in each other's place. Where both clocks always run, only data tells which is which."""
    tx, rx = CROSSED.format("TXD", "TXC"), CROSSED.format("RXD", "RXC")
    far, near = CROSSED.format("RXD", "TXC"), CROSSED.format("TXD", "RXC")
    yield Wiring("TXC and TXD", order("TXD", "TXC", "RXC", "RXD"), [tx], [MISREAD_1], is_cured=True)
    yield Wiring("RXC and RXD", order("TXC", "TXD", "RXD", "RXC"), [rx], [MISREAD_2], is_cured=True)
    yield Wiring("clock and data of both", order("TXD", "TXC", "RXD", "RXC"), [tx, rx], [MISREAD_BOTH], is_cured=True)
    elsewhere: Dict[str, Due] = {"gated": ([CLOCKS], [NEVER_1]), "free": ([DATA], None), "free, flags": ([DATA], None)}
    yield Wiring("TXC and RXC", order("RXC", "TXD", "TXC", "RXD"), [CLOCKS], [MISREAD_1], elsewhere, is_cured=True)
    commands: Due = ([DATA], [DATA_WIRES.format("commands", 2)])
    elsewhere = {"free": commands, "free, flags": commands}
    answers = [DATA_WIRES.format("answers", 1)]
    yield Wiring("TXD and RXD", order("TXC", "RXD", "RXC", "TXD"), [DATA], answers, elsewhere, is_cured=True)
    elsewhere = {"free": ([], [LINES]), "free, flags": ([], [LINES])}
    yield Wiring("the pairs", order("RXC", "RXD", "TXC", "TXD"), [PAIRS], [LINES], elsewhere, is_cured=True)
    elsewhere = {"gated": ([far], [MISREAD_2]), "free": ([far], [MISREAD_2])}
    yield Wiring("TXC and RXD", order("RXD", "TXD", "RXC", "TXC"), [far], [MISREAD_BOTH], elsewhere, is_cured=True)
    elsewhere = {"gated": ([near], [MISREAD_1]), "free": ([near], [MISREAD_1])}
    yield Wiring("TXD and RXC", order("TXC", "RXC", "TXD", "RXD"), [near], [MISREAD_BOTH], elsewhere, is_cured=True)
    elsewhere = {"free": ([tx, rx], [MISREAD_BOTH]), "free, flags": ([tx, rx], [MISREAD_BOTH])}
    yield Wiring("all", order("RXD", "RXC", "TXD", "TXC"), [far], [MISREAD_BOTH], elsewhere, is_cured=True)


def unsteady_wires() -> Iterator[Wiring]:
    """Edges that are not the clock's, samples that are lost, and too few: damage comes of all."""
    elsewhere: Dict[str, Due] = {"gated": ([], []), "gated, flags": ([], [])}
    yield Wiring("glitches on TXC", glitches("TXC"), [JUMPS.format("TXC")], [])
    yield Wiring("glitches on RXC", glitches("RXC"), [JUMPS.format("RXC")], [], elsewhere)
    yield Wiring("glitches on TXD", glitches("TXD"), [], [])
    yield Wiring("glitches on RXD", glitches("RXD"), [], [])
    yield Wiring("many glitches on TXC", glitches("TXC", 0.5, 0.55), [JUMPS.format("TXC")], None)
    yield Wiring("many glitches on RXC", glitches("RXC", 0.5, 0.55), [JUMPS.format("RXC")], None, elsewhere)
    yield Wiring("samples are lost", lost(0.2, 0.5, 0.8), [LOSSES], [SEAMS])
    yield Wiring("320 000 samples a second", lambda samples: samples[::PACE], [SLOW], [UNSURE], pace=PACE)


def wirings() -> List[Wiring]:
    return [*dead_wires(), *turned_wires(), *exchanged_wires(), *unsteady_wires()]


Read = Tuple[np.ndarray, Setting, int]


def said_of(recordings: Sequence[Read]) -> List[Said]:
    """What is said of recordings, as the programs take and list them."""
    with TemporaryDirectory() as folder:
        given = []
        for number, (samples, setting, rate) in enumerate(recordings):
            file = Path(folder) / str(number)
            samples.tofile(file)
            how = {"channels": setting.channels, "options": setting.options(), "rate": rate}
            given.append({"file": str(file), **how})
        asked = json.dumps({"dictionary": cabinet.DICTIONARY, "names": NAMES, "recordings": given})
        words = ["node", SCRIPTS / "modules" / "tests" / "support" / "wirings.js"]
        sampling = {**os.environ, "PORT1_SAMPLE": str(sampler())}
        got = subprocess.run(words, input=asked.encode(), env=sampling, stdout=subprocess.PIPE, check=True, timeout=SECONDS)
    return [said_in(each["warnings"], each["summary"]) for each in json.loads(got.stdout)]


def said_in(warnings: Sequence[str], summary: str) -> Said:
    head = summary.split("\n\n")[1]
    texts = " ".join(line.strip() for line in head.splitlines()[1:] if re.match(r"   |\d+\. ", line))
    sentences = [re.sub(r"\d+(\.\d+)?(?= (frame|s|command|station|damaged|answer|piece|stray))", "N", text).strip()
                 for text in re.split(r"(?:^| )\d+\. (?=[A-Z0-9])", texts) if text]
    # What lies beside lost samples is another on each bus, as is where they are.
    sentences = [re.sub(r"(where|It has) N .*?( stand|;)s?", r"\1 N\2", text) for text in sentences]
    warnings = [re.sub(r"places [\d, ]+", "places ", re.sub(r" \([^()]*\)$", "", text)) for text in warnings]
    return Said(warnings, sentences, summary)


# Cures in a row, each of which is said of what the one before makes.
MOST_CURES = 4

WELL = "Nothing is wrong: nothing is damaged, missing, spoilt or late, and no gap between commands stands out."


def cured(setting: Setting, said: Said) -> Setting:
    """What is said to be done: all that the warnings say or, without one, what the summary says."""
    for text in said.warnings:
        named = re.findall(r"\b[TR]X[CD]\b", text)
        if "are the two pairs exchanged?" in text:
            setting = setting.swapped(("TXC", "RXC"), ("TXD", "RXD"))
        elif "are the two exchanged?" in text:
            setting = setting.swapped((named[0], named[1]))
        elif "--invert" in text:
            setting = setting._replace(inverted=(*setting.inverted, named[0]))
        elif "--falling" in text:
            setting = setting._replace(falling=True)
    for text in said.sentences if not said.warnings else []:
        if text == LINES:
            setting = setting.swapped(("TXC", "RXC"), ("TXD", "RXD"))
        elif text in (MISREAD_1, MISREAD_2, MISREAD_BOTH):
            names = {MISREAD_1: ["TXD"], MISREAD_2: ["RXD"]}.get(text, ["TXD", "RXD"])
            setting = setting._replace(inverted=(*setting.inverted, *names))
    return setting


def wrong_wirings(_: Path) -> List[str]:
    """Each wiring of the table, on each bus: what is warned of, what is said to be wrong, and nothing else."""
    problems = []
    for bus in BUSES:
        rows = wirings()
        recordings = [(row.change(healthy(bus)), Setting(), SAMPLES // row.pace) for row in rows]
        for row, said in zip(rows, said_of(recordings)):
            warnings, sentences = row.due(bus)
            what = f"{row.name}, {bus}"
            problems += [] if said.warnings == list(warnings) else [f"{what}: wanted {warnings}, got {said.warnings}"]
            is_due = sentences is None or said.sentences == list(sentences)
            problems += [] if is_due else [f"{what}: wanted {sentences}, got {said.sentences}"]
            problems += [f"{what}: the dictionary is blamed"] if "the dictionary may lack" in said.summary else []
    return problems


def cures(_: Path) -> List[str]:
    """Who does what is said, and again what is said then, comes to a recording of which nothing is said."""
    rows = [(row, bus) for bus in BUSES for row in wirings() if row.is_cured]
    left = [(f"{row.name}, {bus}", row.change(healthy(bus)), Setting()) for row, bus in rows]
    for _ in range(MOST_CURES):
        found = said_of([(samples, setting, SAMPLES) for _, samples, setting in left])
        sick = [(one, said) for one, said in zip(left, found) if said.warnings or WELL not in said.summary]
        left = [(what, samples, cured(setting, said)) for (what, samples, setting), said in sick]
        if not left:
            return []
    return [f"{what}: in the end read with {setting}: {said}" for (what, _, setting), said in sick]


def right_wiring(_: Path) -> List[str]:
    """Of the bus as it is nothing is said."""
    found = said_of([(healthy(bus), Setting(), SAMPLES) for bus in BUSES])
    return [f"{bus}: {said}" for bus, said in zip(BUSES, found) if said.warnings or WELL not in said.summary]

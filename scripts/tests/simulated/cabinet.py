"""A simulated cabinet whose truth is known: a controller and its stations on four wires, recorded by a logic analyser.

The controller's clock runs all the time. The stations share the other pair: either the one that answers drives its own
clock while it sends (gated), or one clock runs all the time (free). Bits change at falling edges and are taken at
rising ones.
"""

import random
from dataclasses import dataclass, field
from typing import Iterator, List, NamedTuple, Sequence, Tuple

import numpy as np
from table.captures import FLAG, sent

# Bits a second.
RATE = 153600

# The shortest recording.
LEAST_BITS = 4

# Channels, in the order of their bits in a sample.
TXC, TXD, RXC, RXD = range(4)

DICTIONARY = """version = 2
[[frame]]
type = 0
name = "call"
length = 2
answered = true
window = 200
[[frame]]
type = 1
name = "poll"
length = 0
answered = true
window = 200
[[frame]]
type = 9
name = "notice"
length = 4
[[frame]]
type = 128
name = "reply"
length = 6
[[frame]]
type = 129
name = "state"
length = 20
"""

# Octets after the type of each command, and of its answer.
LENGTHS = {0: (2, 6), 1: (0, 20)}


def damaged(bits: str, generator: random.Random) -> str:
    """Bits, one of which was inverted on the way."""
    place = generator.randrange(len(bits))
    return bits[:place] + ("1" if bits[place] == "0" else "0") + bits[place + 1 :]


# A frame that a station sends right after an answer.
OTHER = sent(bytes([3, 0x83, 129, *range(20)]))


# A bit before which a clock stands still, and for how long.
Pause = Tuple[int, float]


class Stretch(NamedTuple):
    """Bits that are sent one after the other, the first taken at a time, with a rate and pauses, in seconds."""

    begin: float
    bits: str
    rate: float
    pauses: Sequence[Pause] = ()

    def rises(self) -> "np.ndarray":
        """When the clock rises."""
        places = np.arange(len(self.bits))
        return self.begin + places / self.rate + sum(np.where(places >= bit, pause, 0) for bit, pause in self.pauses)


class Answer(NamedTuple):
    """What stations send from a time on, in bits of the controller, with pauses in its bits, too."""

    begin: float
    bits: str
    pauses: Sequence[Pause] = ()


@dataclass(frozen=True)
class Cabinet:
    """What is simulated. Parts per million are those of the answering clocks against the controller's."""

    seed: int
    ppm: float = 0
    gated: bool = True
    samples: int = 4_000_000  # a second
    polls: int = 40
    jitter: int = 1  # an edge is seen so many samples too late at most
    glitches: int = 0  # samples inverted on each channel
    whole: bool = True  # else the recording begins and ends anywhere


class Recorded(NamedTuple):
    """Samples, channel 0 lowest, and the bits of both lines with the samples in which their clocks rose."""

    samples: "np.ndarray"
    first: Tuple["np.ndarray", str]
    second: List[Tuple["np.ndarray", str]]  # stretch by stretch


class Bus:
    """Goes through the polls, and writes down what the controller sends, and what the stations do."""

    def __init__(self, cabinet: Cabinet):
        self.cabinet = cabinet
        self.generator = random.Random(cabinet.seed)
        self.phase = self.generator.random() / RATE  # of the stations' clocks against the controller's
        self.first: List[str] = ["1" * 40]
        self.count = 40
        self.answers: List[Answer] = []
        self.pauses: List[Pause] = []  # of the controller's clock
        self.fates: List[Tuple[str, int, int]] = []  # of the commands, with station and type

    def send(self, bits: str) -> None:
        self.first.append(bits)
        self.count += len(bits)

    def fill(self, count: int) -> None:
        """Flags or ones, until something is to be sent."""
        whole = self.generator.choice([FLAG, "1"])
        self.send((whole * count)[: count // 8 * 8] + "1" * 16)

    def fate(self) -> str:
        """What comes of a command: an answer, in time or late, no answer, or damage of either."""
        fates = ["answered", "late", "missing", "command", "answer", "notice"]
        return self.generator.choices(fates, [8, 1, 1, 1, 1, 1])[0]

    def poll(self) -> None:
        """A command and what comes of it."""
        generator = self.generator
        kind = generator.choice([0, 1])
        station = generator.randrange(1, 20)
        command, answer = LENGTHS[kind]
        data = [generator.randrange(256) for _ in range(command)]
        body = sent(bytes([station, 0x83, kind, *data]))
        fate = self.fate()
        self.fates.append((fate, station, kind))
        self.send(FLAG + (damaged(body, generator) if fate == "command" else body) + FLAG)
        if fate == "notice":
            self.send(sent(bytes([255, 0x83, 9, 1, 2, 3, 4])) + FLAG)
        if fate not in ("missing", "command", "notice"):
            reply = sent(bytes([station, 0x83, kind + 128, *(generator.randrange(256) for _ in range(answer))]))
            delay = generator.uniform(300, 400) if fate == "late" else generator.uniform(9, 150)
            self.answer(damaged(reply, generator) if fate == "answer" else reply, delay)
        self.fill(generator.randrange(900, 1100))

    def answer(self, body: str, delay: float) -> None:
        """An answer, and sometimes another frame at once after it, from the same station or from another."""
        first = FLAG + body + FLAG
        behind, later = self.generator.choice([("", 0), ("", 0), (OTHER + FLAG, 0), (FLAG + OTHER + FLAG, 0.8)])
        self.answers.append(Answer(self.count + delay, first + behind, [(len(first), later * self.generator.random())]))

    def time_of(self, bit: float) -> float:
        """When the controller sends a bit, in seconds."""
        return bit / RATE + sum(pause for before, pause in self.pauses if before <= bit)

    def stretches(self) -> Iterator[Stretch]:
        """The answers as their clocks take them."""
        rate = RATE * (1 + self.cabinet.ppm / 1e6)
        if self.cabinet.gated:
            for answer in self.answers:
                pauses = [(bit, pause / RATE) for bit, pause in answer.pauses]
                yield Stretch(self.time_of(answer.begin), answer.bits, rate, pauses)
            return
        bits = ""
        for answer in self.answers:
            bits += self.filled(round(self.time_of(answer.begin) * rate) - len(bits)) + answer.bits
        bits += self.filled(round(self.time_of(self.count) * rate) - len(bits))
        yield Stretch(self.phase, bits, rate)

    def filled(self, count: int) -> str:
        """The time fill of stations whose clock runs all the time, of so many bits."""
        return "1" * count


class HealthyBus(Bus):
    """A bus on which all commands are answered, by three stations in turn."""

    def poll(self) -> None:
        number, generator = len(self.fates), self.generator
        station, kind = [1, 2, 16][number % 3], number % 2
        self.fates.append(("answered", station, kind))
        command, answer = ([generator.randrange(256) for _ in range(count)] for count in LENGTHS[kind])
        self.send(FLAG + sent(bytes([station, 0x83, kind, *command])) + FLAG)
        reply = FLAG + sent(bytes([station, 0x83, kind + 128, *answer])) + FLAG
        self.answers.append(Answer(self.count + generator.uniform(9, 150), reply))
        self.fill(generator.randrange(900, 1100))

    def fill(self, count: int) -> None:
        self.send("1" * count)

    def samples(self) -> "np.ndarray":
        """Its recording, when all polls have been sent."""
        for _ in range(self.cabinet.polls):
            self.poll()
        self.send("1" * 64)
        return recorded_from(self.cabinet, self).samples


@dataclass
class Wire:
    """The samples in which a channel changes, and its levels from there on."""

    times: List["np.ndarray"] = field(default_factory=list)
    levels: List["np.ndarray"] = field(default_factory=list)

    def add(self, times: "np.ndarray", levels: "np.ndarray") -> None:
        self.times.append(times)
        self.levels.append(levels)

    def sampled(self, count: int, rest: int) -> "np.ndarray":
        times = np.concatenate([np.zeros(1, dtype=np.int64), *self.times, np.array([count])])
        levels = np.concatenate([np.full(1, rest, dtype=np.uint8), *self.levels])
        return np.repeat(levels, np.diff(np.maximum.accumulate(np.clip(times, 0, count))))


def levels_of(bits: str) -> "np.ndarray":
    return np.frombuffer(bits.encode(), dtype=np.uint8) - ord("0")


class Analyser:
    """Samples the wires."""

    def __init__(self, cabinet: Cabinet):
        self.cabinet = cabinet
        self.generator = np.random.default_rng(cabinet.seed)

    def seen(self, times: "np.ndarray") -> "np.ndarray":
        """The samples that are the first to see what happens at times in seconds."""
        exact = np.ceil(times * self.cabinet.samples).astype(np.int64)
        return exact + self.generator.integers(0, self.cabinet.jitter + 1, len(times))

    def record(self, clock: Wire, data: Wire, stretch: Stretch, rest: int) -> "np.ndarray":
        """Puts a stretch on the wires; the clock rests at a level, the data at 1. Returns when the clock rises."""
        rises = stretch.rises()
        half = 0.5 / stretch.rate
        seen = self.seen(rises)
        falls = np.append(self.seen(rises - half), self.seen(rises[-1:] + half) if rest == 0 else seen[-1:])
        both = np.empty(2 * len(seen) + 1, dtype=np.int64)
        both[0::2], both[1::2] = falls, seen
        levels = np.tile(np.array([0, 1], dtype=np.uint8), len(seen) + 1)[: len(both)]
        levels[-1] = rest
        clock.add(both, levels)
        ends = self.seen(np.append(rises - half, rises[-1] + half))
        data.add(ends, np.append(levels_of(stretch.bits), 1).astype(np.uint8))
        return seen


def samples_of(analyser: Analyser, wires: Sequence[Wire], count: int, rest: int) -> "np.ndarray":
    samples = np.zeros(count, dtype=np.uint8)
    for channel, (wire, level) in enumerate(zip(wires, [0, 1, rest, 1])):
        levels = wire.sampled(count, level)
        levels[analyser.generator.integers(0, count, analyser.cabinet.glitches)] ^= 1
        samples |= levels << channel
    return samples


def cut(recorded: Recorded, begin: int, end: int) -> Recorded:
    """What is left of a recording of these samples alone. An edge in the first of them is none."""

    def kept(times: "np.ndarray", bits: str) -> Tuple["np.ndarray", str]:
        low, high = np.searchsorted(times, [begin + 1, end])
        return times[low:high] - begin, bits[low:high]

    stretches = [kept(*stretch) for stretch in recorded.second]
    return Recorded(recorded.samples[begin:end], kept(*recorded.first), [some for some in stretches if some[1]])


def recorded_of(cabinet: Cabinet) -> Recorded:
    """A recording of the cabinet."""
    bus = Bus(cabinet)
    for _ in range(cabinet.polls):
        bus.poll()
    return recorded_from(cabinet, bus)


def recorded_from(cabinet: Cabinet, bus: Bus) -> Recorded:
    """A recording of what went over a bus."""
    analyser = Analyser(cabinet)
    wires = [Wire() for _ in range(4)]
    rest = bus.generator.choice([0, 1])
    bits = "".join(bus.first)
    edges = analyser.record(wires[TXC], wires[TXD], Stretch(0.5 / RATE, bits, RATE, bus.pauses), 0)
    second = [(analyser.record(wires[RXC], wires[RXD], stretch, rest), stretch.bits) for stretch in bus.stretches()]
    count = int(edges[-1]) + cabinet.samples // RATE
    recorded = Recorded(samples_of(analyser, wires, count, rest), (edges, bits), second)
    if cabinet.whole:
        return recorded
    begin, end = sorted(bus.generator.sample(range(count), 2))
    least = LEAST_BITS * cabinet.samples // RATE
    return cut(recorded, max(0, min(begin, end - least)), max(end, least))


def arrivals_of(recorded: Recorded) -> str:
    """The bits in the order in which they were taken; of two in one sample the first line's first."""
    lines = [[recorded.first], recorded.second]
    edges = [(int(time), line, bit) for line, parts in enumerate(lines) for times, bits in parts for time, bit in zip(times, bits)]
    return "".join("01oi"[2 * line + int(bit)] for _, line, bit in sorted(edges, key=lambda edge: edge[:2]))

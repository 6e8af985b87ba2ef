"""Recordings of simulated cabinets, whose truth is known: their bits, and what they are warned of."""

import os
import re
import subprocess
from itertools import product
from pathlib import Path
from typing import Any, Iterator, List, NamedTuple, Optional, Sequence

import numpy as np
from table.captures import sent
from tests.case import SCRIPTS, TOP, plain, ran
from tests.recordings import CHANNELS, SCRIPT
from tests.simulated import cabinet
from tests.simulated.cabinet import Cabinet, Recorded, arrivals_of, recorded_of

# What the clocks of the stations may be off, in parts per million, and samples a second, in millions.
PPM = [0, 20, -20, 80, -80, 150, -150, 1000, -1000]
MEGAHERTZ = [1, 2, 4, 12, 24]

WARNING = "warning: "


class Outcome(NamedTuple):
    """What became of a recording: its bits as they were sent, without 1s behind stops, the warnings, and the other
    lines."""

    bits: str
    warnings: List[str]
    others: List[str]


def outcome_of(samples: np.ndarray, rate: int, *options: str) -> Outcome:
    got = ran([SCRIPT, *CHANNELS, f"--samplerate={rate}", "--rest=0", *options], samples.tobytes())
    told = [line.partition(WARNING) for line in got.stderr.decode().splitlines()]
    warnings = [text for _, warning, text in told if warning]
    return Outcome(plain(got.stdout.decode()), warnings, [text for text, warning, _ in told if not warning])


def edges_told(recorded: Recorded) -> str:
    """How many edges there are: as many as bits were sent."""
    counts = [len(recorded.first[1]), sum(len(bits) for _, bits in recorded.second)]
    texts = [f"{2 * at} has {count} {'edge' if count == 1 else 'edges'}" for at, count in enumerate(counts)]
    return f"{SCRIPT}: {', '.join(texts)}"


def problems_of(recorded: Recorded, what: str, rate: int) -> List[str]:
    """What is wrong with a recording that can be told right: other bits, and other warnings than are due."""
    bits, warnings, others = outcome_of(recorded.samples, rate)
    due = [] if recorded.second else ["2 has no edges"]
    # Data that never changes is told of, also where it is at rest for all of a short recording.
    lines_of = [recorded.first[1], "".join(some for _, some in recorded.second)]
    due += [f"{2 * at + 1} never changes" for at, sent in enumerate(lines_of) if len(sent) >= 16 and is_flat(recorded, 2 * at + 1)]
    problems = [] if bits == arrivals_of(recorded) else [f"{what}: other bits"]
    problems += [] if others == [edges_told(recorded)] else [f"{what}: {others}"]
    return problems + ([] if sorted(warnings) == sorted(due) else [f"{what}: wanted {due}, got {warnings}"])


def is_flat(recorded: Recorded, channel: int) -> bool:
    return len(np.unique(recorded.samples >> channel & 1)) == 1


def cabinets(_: Path) -> List[str]:
    """Clocks that are off by so much, gated and free, seen at so many samples a second: the bits as they were sent."""
    problems: List[str] = []
    for seed, (ppm, gated, megahertz) in enumerate(product(PPM, [True, False], MEGAHERTZ)):
        samples = megahertz * 1_000_000
        recorded = recorded_of(Cabinet(seed, ppm, gated, samples, polls=16, whole=seed % 3 > 0))
        problems += problems_of(recorded, f"{ppm} ppm, {'gated' if gated else 'free'}, {megahertz} MHz", samples)
    return problems


def many_cabinets(_: Path) -> List[str]:
    """Phases and cuts, many of them: recordings that begin and end anywhere, but that the last levels stand."""
    problems = []
    for seed in range(200):
        made = Cabinet(1000 + seed, PPM[seed % 7], seed % 2 == 0, 2_000_000, polls=12, whole=False)
        recorded = recorded_of(made)
        stands = recorded._replace(samples=np.append(recorded.samples, recorded.samples[-1:]))
        problems += problems_of(stands, f"seed {seed}", made.samples)
    return problems


def glitches(_: Path) -> List[str]:
    """Glitches of one sample on all wires are left out: the bits as they were sent, and no warning."""
    problems = []
    for seed, samples in enumerate([4_000_000, 12_000_000, 24_000_000] * 3):
        recorded = recorded_of(Cabinet(2000 + seed, 80, seed % 2 == 0, samples, polls=8))
        generator = np.random.default_rng(seed)
        for channel in range(4):
            places = lonely_places(recorded.samples >> channel & 1, generator, 6)
            recorded.samples[places] ^= 1 << channel
        problems += problems_of(recorded, f"seed {seed}", samples)
    return problems


def lonely_places(levels: np.ndarray, generator: Any, count: int) -> np.ndarray:
    """Samples near which a channel does not change."""
    changes = np.flatnonzero(np.diff(levels))
    middles = (changes[:-1] + 1 + changes[1:]) // 2
    return generator.choice(middles, count, replace=False)


class Told(NamedTuple):
    """A warning that is due, with {} for each of its times, and these times in seconds."""

    form: str
    times: Sequence[float] = ()

    def is_in(self, text: str) -> bool:
        """Whether a text is this warning. A time is that of the bit, which is 6.5 microseconds long."""
        found = re.fullmatch(re.escape(self.form).replace(r"\{\}", r"(\d+\.\d{6})"), text)
        return found is not None and all(abs(float(told) - due) < 2e-6 for told, due in zip(found.groups(), self.times))


class Doubtful(NamedTuple):
    """A recording that can't be right, or not for certain, what is to be told, and which options mend it, if any do;
    and with which options it is read."""

    name: str
    warnings: Sequence[Told]
    samples: np.ndarray
    mends: Optional[Sequence[str]] = None
    options: Sequence[str] = ()


def held(samples: np.ndarray, channels: Sequence[int], begin: int, end: int) -> np.ndarray:
    """Samples in which channels keep their levels."""
    mask = np.uint8(sum(1 << channel for channel in channels))
    kept = samples.copy()
    kept[begin:end] = samples[begin:end] & ~mask | samples[begin] & mask
    return kept


def inverted(samples: np.ndarray, *channels: int) -> np.ndarray:
    return samples ^ np.uint8(sum(1 << channel for channel in channels))


def rises_of(samples: np.ndarray, channel: int) -> np.ndarray:
    """The samples in which a channel has gone high."""
    return np.flatnonzero(np.diff((samples >> channel & 1).astype(np.int8)) == 1) + 1


def stop_of(samples: np.ndarray, rate: int) -> Told:
    """Where the first clock rises no more for longest."""
    rises = rises_of(samples, 0)
    at = int(np.argmax(np.diff(rises)))
    return Told("0 stops (for {} s from {} s on)", [(rises[at + 1] - rises[at]) / rate, rises[at] / rate])


def loss_of(samples: np.ndarray, rate: int) -> Told:
    """The bit of the first clock whose distance from the one before is that of no clock."""
    rises, bit = rises_of(samples, 0), rate / cabinet.RATE
    place = int(np.flatnonzero(np.abs(np.diff(rises) - bit) > bit / 3)[0]) + 1
    text = f"the analyser lost samples: 0 is out of step from place {place} on (at {{}} s)"
    return Told(text, [rises[place] / rate])


def at_rest_in_the_end(rate: int) -> Recorded:
    made = Cabinet(3, 80, True, rate)
    bus = cabinet.Bus(made)
    for _ in range(8):
        bus.poll()
    bus.send("1" * 400)
    return cabinet.recorded_from(made, bus)


def doubtful(rate: int) -> Iterator[Doubtful]:
    """What the script has to warn of: dead wires, wires exchanged, clocks that stop, and samples that were lost."""
    samples, (edges, _), _ = at_rest_in_the_end(rate)
    txc, txd, rxc, rxd = range(4)
    ends = len(samples)
    yield Doubtful("no first clock", [Told("0 has no edges")], held(samples, [txc], 0, ends))
    yield Doubtful("no second clock", [Told("2 has no edges")], held(samples, [rxc], 0, ends))
    yield Doubtful("no first data", [Told("1 never changes")], held(samples, [txd], 0, ends))
    yield Doubtful("no second data", [Told("3 never changes")], held(samples, [rxd], 0, ends))
    stopped = np.insert(samples, edges[3000], [samples[edges[3000]]] * (26 * rate // 1000))
    yield Doubtful("a stop", [stop_of(stopped, rate)], stopped)
    ended = held(samples, [txc], edges[3000], ends)
    told = Told("0 stops, and does not go on until the recording ends (at {} s)", [rises_of(ended, 0)[-1] / rate])
    yield Doubtful("a stop at the end", [told], ended)
    lost = np.delete(samples, np.arange(edges[3000], edges[3000] + 9 * rate // 1_000_000))
    yield Doubtful("samples lost", [loss_of(lost, rate)], lost)
    wrong_edge = "the data changes at the edge of {} that is taken: {}"
    for name, clocks, mends in [("both", [txc, rxc], ["--falling"]), ("first", [txc], ["--invert=0"])]:
        cure = "try it with --falling" if len(clocks) > 1 else "say --invert 0, or exchange the wires of its pair"
        warnings = [Told(wrong_edge.format(clock, cure)) for clock in clocks]
        yield Doubtful(f"edges of {name}", warnings, inverted(samples, *clocks), mends)
    warnings = [Told(wrong_edge.format(clock, "try it without --falling")) for clock in (txc, rxc)]
    yield Doubtful("falling edges in vain", warnings, samples, [], ["--falling"])
    told = Told("1 rests at 0: if the two wires of its pair are exchanged, say --invert 1")
    yield Doubtful("a pair exchanged", [told], inverted(samples, txd), ["--invert=1"])


def doubts(_: Path) -> List[str]:
    """Where the result can't be right for certain, the script says so, once, with count and time, and nothing else; and
    with the right option it is."""
    problems = []
    rate = 4_000_000
    truth = arrivals_of(at_rest_in_the_end(rate))
    for name, wanted, samples, mends, options in doubtful(rate):
        told = outcome_of(samples, rate, *options).warnings
        if len(told) != len(wanted) or not all(due.is_in(text) for due, text in zip(wanted, told)):
            problems.append(f"{name}: wanted {wanted}, got {told}")
        if mends is not None and outcome_of(samples, rate, *mends)[:2] != (truth, []):
            problems.append(f"{name}: {mends} gives {outcome_of(samples, rate, *mends).warnings}")
    return problems


def one_clock_for_two(_: Path) -> List[str]:
    """The stations' data taken with the controller's clock: it has a clock of its own, and that is told."""
    recorded = recorded_of(Cabinet(3, 80, False, 4_000_000, polls=8))
    got = ran([SCRIPT, "0", "1", "3", "--samplerate=4M"], recorded.samples.tobytes()).stderr.decode()
    told = "3 does not change with the clock: it has a clock of its own, whose channel is to be named"
    wanted = f"{SCRIPT}: 0 has {len(recorded.first[1])} edges\n{SCRIPT}: {WARNING}{told}\n"
    return [] if got == wanted else [f"wanted {wanted!r}, got {got!r}"]


def long_recordings(_: Path) -> List[str]:
    """A long recording takes no more memory than a short one, and no more time a sample."""
    block = recorded_of(Cabinet(9, 80, True, 4_000_000, polls=40)).samples.tobytes()
    usage = []
    for count in (5, 100):
        words = [SCRIPTS / SCRIPT, *CHANNELS]
        with subprocess.Popen(words, stdin=subprocess.PIPE, stdout=subprocess.DEVNULL, stderr=subprocess.DEVNULL) as run:
            assert run.stdin is not None
            for _ in range(count):
                run.stdin.write(block)
            run.stdin.close()
            _, status, used = os.wait4(run.pid, 0)
            run.returncode = status
        usage.append(used)
    most = 200_000
    return [f"{used.ru_maxrss} kB" for used in usage if used.ru_maxrss > most]


def four_wires() -> bytes:
    """The example: a call to station 16 and its reply, as Logic exports a recording of 4 million samples a second."""
    made = Cabinet(1, ppm=80, gated=True, samples=4_000_000, jitter=0)
    bus = cabinet.Bus(made)
    call, reply = (sent(bytes([16, 0x83, kind])) for kind in (0, 128))
    bus.send(cabinet.FLAG + call + cabinet.FLAG)
    bus.answers.append(cabinet.Answer(bus.count + 20.4, cabinet.FLAG + reply + cabinet.FLAG))
    bus.send("1" * 100)
    samples = cabinet.recorded_from(made, bus).samples
    changes = np.flatnonzero(np.concatenate(([True], np.diff(samples) != 0)))
    texts = ["Time [s],TXC,TXD,RXC,RXD"]
    for change in changes:
        levels = ",".join(str(samples[change] >> channel & 1) for channel in range(4))
        texts.append(f"{change / made.samples:.9f},{levels}")
    return "".join(f"{text}\n" for text in texts).encode()


def example_of_four_wires(_: Path) -> List[str]:
    """The example is the recording that it says it is."""
    return [] if (TOP / "examples" / "four-wires.csv").read_bytes() == four_wires() else ["the file is another"]

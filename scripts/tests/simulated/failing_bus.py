#!/usr/bin/env python3
"""Half a second of a bus on which three things are wrong: examples/port1-failure.bits, and what is true of it.

    scripts/tests/simulated/failing_bus.py > examples/port1-failure.bits

Each 20 ms the controller sends a command to each of three stations. Station 16 answers in time; five of its commands in
a row are destroyed on the way. Station 1 never answers. Station 2 answers some of its commands late.
"""

import random
import sys
from pathlib import Path
from typing import List, NamedTuple, Tuple

sys.path.append(str(Path(__file__).resolve().parents[3] / "tests"))

from table.captures import FLAG, sent

RATE = 153600

# Bits of a round, and how many there are.
ROUND = 3072
ROUNDS = 25

# Where in a round the commands begin, in bits; it begins up to so many bits later.
STARTS = (40, 840, 1440)
JITTER = 6

# The rounds whose command to station 16 is destroyed, and the most bits of it that are inverted.
DESTROYED = range(9, 14)
MOST_INVERTED = 3

# The rounds in which station 2 is late, and how soon answers begin, in bits, with the flag before them.
LATE = (2, 5, 6, 11, 15, 16, 20, 23)
IN_TIME_AFTER = (150, 440)
LATE_AFTER = (500, 1100)

CONTROL = 0x83


class Told(NamedTuple):
    """A command: the place of its first bit, and what became of it. The time to its answer is in bits."""

    station: int
    first: int
    fate: str
    reply_bits: int = 0


class Line:
    """A line that rests at 1 where nothing is sent."""

    def __init__(self) -> None:
        self.bits = ["1"] * (ROUND * ROUNDS)

    def send(self, first: int, bits: str) -> int:
        """Sends a frame whose first bit has a place, with a flag on each side. Returns the place after its bits."""
        framed = FLAG + bits + FLAG
        self.bits[first - len(FLAG) : first + len(bits) + len(FLAG)] = framed
        return first + len(bits)

    def invert(self, place: int) -> None:
        self.bits[place] = "0" if self.bits[place] == "1" else "1"


class Bus:
    """The two lines, and what was done on them."""

    def __init__(self, seed: int) -> None:
        self.generator = random.Random(seed)
        self.commands = Line()
        self.answers = Line()
        self.told: List[Told] = []

    def octet(self) -> int:
        return self.generator.randrange(256)

    def answer(self, station: int, first: int, past: int, after: Tuple[int, int], frame_type: int) -> None:
        reply_bits = self.generator.randrange(*after)
        self.answers.send(past + reply_bits, sent(bytes([station, CONTROL, frame_type, self.octet(), self.octet()])))
        fate = "late" if after == LATE_AFTER else "answered"
        self.told.append(Told(station, first, fate, reply_bits))

    def to_monitor(self, first: int, destroyed: bool) -> None:
        past = self.commands.send(first, sent(bytes([16, CONTROL, 0, self.octet(), self.octet()])))
        if not destroyed:
            self.answer(16, first, past, IN_TIME_AFTER, 128)
            return
        count = self.generator.randrange(1, MOST_INVERTED + 1)
        for place in self.generator.sample(range(first, past), count):
            self.commands.invert(place)
        self.told.append(Told(16, first, "destroyed"))

    def round(self, number: int) -> None:
        starts = [number * ROUND + start + self.generator.randrange(JITTER) for start in STARTS]
        self.to_monitor(starts[0], number in DESTROYED)
        self.commands.send(starts[1], sent(bytes([1, CONTROL, 1])))
        self.told.append(Told(1, starts[1], "missing"))
        past = self.commands.send(starts[2], sent(bytes([2, CONTROL, 1])))
        self.answer(2, starts[2], past, LATE_AFTER if number in LATE else IN_TIME_AFTER, 129)

    def text(self) -> str:
        """The capture of two lines as text."""
        marks = "".join(str(int(one) + 2 * int(other)) for one, other in zip(self.commands.bits, self.answers.bits))
        return "".join(marks[at : at + 64] + "\n" for at in range(0, len(marks), 64))


def failing_bus(seed: int = 1) -> Bus:
    bus = Bus(seed)
    for number in range(ROUNDS):
        bus.round(number)
    return bus


if __name__ == "__main__":
    sys.stdout.write(failing_bus().text())

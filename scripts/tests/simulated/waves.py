"""Lines as a logic analyser records them, sample by sample, and random traffic on them."""

import os
import random
import subprocess
from typing import List, NamedTuple, Sequence, Tuple

from table.captures import FLAG
from tests.case import SECONDS, random_bits

# Samples a second of the recordings: a sample is a microsecond. What the rate of the line is does not matter.
RATE = 1_000_000

# The channels of a recording, in the order of the bits of a sample.
CHANNELS = "txc=0:txd=1"
SECOND = ":rxc=2:rxd=3"


class Wave(NamedTuple):
    """A line as it is recorded: its bits, and when the clock rises in each."""

    bits: str
    rises: List[int]  # samples
    change: int  # how many samples before a rise the data takes the value of its bit


def wave(bits: str, period: int = 6, begin: int = 8, change: int = 3, drift: int = 0) -> Wave:
    """Bits of a steady clock. With a drift it makes one sample more every so many bits."""
    rises = [begin + period * place + (place // drift if drift else 0) for place in range(len(bits))]
    return Wave(bits, rises, change)


def levels(line: Wave, count: int) -> Tuple[bytearray, bytearray]:
    """Clock and data of a line, sample by sample. The clock falls two samples after it rose; the line ends at 1."""
    clock, data = bytearray(count), bytearray(b"\1" * count)
    begins = [rise - line.change for rise in line.rises] + [line.rises[-1] + 2]
    for place, rise in enumerate(line.rises):
        clock[rise : rise + 2] = b"\1\1"
        width = begins[place + 1] - begins[place]
        data[begins[place] : begins[place + 1]] = bytes([int(line.bits[place])]) * width
    return clock, data


def recording(first: Wave, second: Wave, inverted_clock: bool = False) -> bytes:
    """A recording of raw samples, an octet each: clock and data of the first line, then those of the second."""
    count = max(first.rises[-1], second.rises[-1]) + 4
    columns = [*levels(first, count), *levels(second, count)]
    turned = 0b0101 if inverted_clock else 0
    return bytes((a | b << 1 | c << 2 | d << 3) ^ turned for a, b, c, d in zip(*columns))


REST = Wave("1", [8], 3)


def encoded(texts: Sequence[str]) -> List[str]:
    """The bits of each line of text, by `port1 encode`."""
    words = [os.environ["PORT1"], "encode"]
    text = "".join(f"{text}\n" for text in texts)
    got = subprocess.run(words, input=text, capture_output=True, text=True, check=True, timeout=SECONDS)
    return got.stdout.split()


TEXTS = [
    "frame 108300",
    "frame 108380",
    "frame ff8309",
    "frame 11830001",
    "frame 108342aabbcc",
    "frame 1073",
    "frame 1083",
    "frame 1022334455",
    "flag",
    "idle",
]


def damaged(generator: random.Random, bits: str) -> str:
    """Bits with a fault: one turned, one lost, an abort in place of the end, five ones before a flag, or noise."""
    at = generator.randrange(len(bits))
    kind = generator.randrange(5)
    if kind == 0:
        return bits[:at] + "10"[int(bits[at])] + bits[at + 1 :]
    if kind == 1:
        return bits[:at] + bits[at + 1 :]
    if kind == 2:
        return bits + "0" * 40 + "1" * 5 + FLAG
    return bits[:at] + "1" * 7 if kind == 3 else random_bits(generator, 60)


def traffic(generator: random.Random, pieces: int) -> str:
    """The bits of a line with all kinds of pieces, a fifth of them with faults."""
    bits = encoded([generator.choice(TEXTS) for _ in range(pieces)])
    return "".join(damaged(generator, piece) if generator.random() < 0.2 else piece for piece in bits)

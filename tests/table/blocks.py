"""Rows of `list` with texts that are longer than a block of those into which they are packed."""

from typing import List

from .captures import CALL, FLAG, LAST_ORIGIN
from .case import Case, faulty

BITS = ["list", "--bits"]

# A flag and a call, of which the call is reported when the next flag has ended.
PERIOD = (FLAG + CALL).replace(" ", "")


def calls(count: int) -> str:
    """So many calls, each between flags."""
    return PERIOD * count + FLAG


def lines_of(bits: int, origin: int = 0) -> str:
    """The lines of the calls that are reported within the first so many bits."""
    spans = [(49 * number + 8, 49 * number + 49) for number in range(bits // 49)]
    return "".join(f"{origin + first} {origin + past} frame 108300fde5\n" for first, past in spans if past + 8 <= bits)


def cut(bits: str, length: int, end: str) -> bytes:
    """The bits in lines of so many."""
    return "".join(bits[at : at + length] + end for at in range(0, len(bits), length)).encode()


def spread(bits: str) -> bytes:
    """The bits with runs of blanks between them, each run and each stretch longer than the last."""
    parts: List[str] = []
    at = 0
    for length in range(1, len(bits)):
        parts.append(bits[at : at + length] + " \t\r\n"[length % 4] * (length % 5))
        at += length
    return "".join(parts).encode()


# More bits than the larger block has room for, and their lines.
MANY = calls(400)

LINES = [
    Case(f"lines of {length} bits that end in {end!r}", BITS, cut(MANY, length, end), lines_of(len(MANY)))
    for length in (1, 3, 4, 8, 15, 16, 17, 48, 60, 63, 64, 65, 72, 76, 80, 81, 96, 128, 1000)
    for end in ("\n", "\r\n")
] + [
    Case("one long line", BITS, MANY.encode(), lines_of(len(MANY))),
    Case("longer and longer stretches", BITS, spread(MANY), lines_of(len(MANY))),
]

# The smaller block is full after some 850 bits, the larger after some 16300.
BAD = [
    faulty(
        f"a bad octet after {place} bits", BITS, f"capture: octet {place} is no bit",
        (MANY[:place] + "2" + MANY[place:rest]).encode(), lines_of(place)
    )
    for place, rest in [
        *((place, 1000) for place in range(830, 960)), *((place, 18000) for place in range(16180, 16400, 20))
    ]
]

ENDS = [
    Case(
        f"a text of {length} bits", BITS, MANY[:length].encode(),
        lines_of(length) + (f"{49 * (length // 49) + 8} {length} open\n" if length % 49 > 8 else ""),
    )
    for length in [49 * number + 40 for number in range(1, 40)]
]

PLACES = [
    faulty(
        f"{room} places for more bits", [*BITS, f"--origin={LAST_ORIGIN - room}"], "capture: place limit",
        cut(MANY, 80, "\n"), lines_of(room, LAST_ORIGIN - room)
    )
    for room in (1, 63, 64, 65, 500, 847, 848, 849, 1000, 16000, 16300)
]

BLOCKS = [*LINES, *BAD, *ENDS, *PLACES]

"""Rows of captures of two lines with a clock each: of `list --arrivals` and `check --arrivals`."""

from typing import List, Tuple

from .captures import CALL, CALL_AND_REPLY, FLAG, LAST_ORIGIN, REPLY, packed_marks
from .case import Case, faulty
from .checks import report
from .pairs import PACKED_CALL
from .vectors import VECTORS, capture, cases

DICTIONARY = CALL_AND_REPLY.replace("version = 1", "version = 2").replace(
    "answered = true", "answered = true\nwindow = 40"
)

BY_CALLS = ["list", "--bits", "--arrivals", "--dict", DICTIONARY]

PACKED_BY_CALLS = ["list", "--arrivals", "--dict", DICTIONARY]


def packed(marks: bytes) -> bytes:
    """As pairs are packed: the bit is the lower, and whether it is of the second line the higher."""
    return packed_marks(b"TS2BITS3", [b"01oi".index(mark) for mark in marks])


assert packed(b"01oi")[16:] == bytes([0b11100100])

# A call of 57 bits on the first line from place 0, and its reply of 57 bits on the second.
GATED, GATED_LINES = capture("arrivals", "a clock that runs while its station sends")

# The reply is broken off after a 0, and the first line goes on.
BROKEN_OFF, _ = capture("arrivals", "a second line that rests unless it is said")

RESTED = [
    ("never", "0", "2 68 90 open\n"),
    ("after 10 places", "10", "2 68 90 abort\n2 99 100 idle\n"),
    ("after 411 places", "411", "2 68 90 abort\n2 500 501 idle\n"),
    ("after all places", "467", "2 68 90 abort\n2 556 557 idle\n"),
    ("after a place more than there are", "468", "2 68 90 open\n"),
]

# Of a broken reply; without a dictionary.
RESTS = [
    Case(
        f"a second line that rests {name}", ["list", "--bits", "--arrivals", "--rest", rest], BROKEN_OFF,
        f"1 8 49 frame 108300fde5\n1 57 72 idle\n{lines}",
    )
    for name, rest, lines in RESTED
]

# How often a frame and a flag are sent on each line, 49 bits, behind a flag.
FRAMES = 60

LINES = [(FLAG + times * (frame.replace(" ", "") + FLAG)) for times, frame in ((FRAMES, CALL), (FRAMES, REPLY))]


def drifting(first: int, second: int) -> Tuple[bytes, str]:
    """The lines, where so many bits of the first come in the time of so many of the second, and the list of frames.

    A bit of the second line stands at the place of the last bit of the first before it.
    """
    times = [(number / speed, line) for line, speed in enumerate((first, second)) for number in range(len(LINES[line]))]
    marks, numbers = bytearray(), [0, 0]
    places: List[int] = []
    told: List[str] = []
    for _, line in sorted(times):
        number = numbers[line]
        numbers[line] += 1
        marks += b"01oi"[2 * line + int(LINES[line][number]) :][:1]
        places += [max(numbers[0] - 1, 0)] if line else []
        if number % 49 == 7 and number > 7:  # the last bit of a flag that closes a frame
            begin, last = number - 48, number - 8
            at = (places[begin], places[last]) if line else (begin, last)
            told.append(f"{line + 1} {at[0]} {at[1] + 1} frame {('108300fde5', '108380f561')[line]}\n")
    return bytes(marks), "".join(told)


DRIFTS = [
    Case(f"{FRAMES} frames on each line, {form}, clocks {name}", ["list", *words, "--kind", "frame"], change(marks), told)
    for name, speeds in [("alike", (1, 1)), ("2 % apart", (50, 51)), ("as 2 to 3", (2, 3)), ("as 7 to 1", (7, 1))]
    for marks, told in [drifting(*speeds)]
    for form, words, change in [("text", ["--bits", "--arrivals"], bytes), ("packed", ["--arrivals"], packed)]
]

FAULTS = [
    faulty(f"fault: {name}", ["list", *words], f"capture: {why}", stdin)
    for name, words, stdin, why in [
        ("a mark of pairs", ["--bits", "--arrivals"], b"0o 2", "octet 3 is no bit"),
        ("a mark of arrivals in pairs", ["--bits", "--two"], b"01o", "octet 2 is no bit"),
        ("a mark of arrivals in one line", ["--bits"], b"01i", "octet 2 is no bit"),
        ("packed, pairs", ["--arrivals"], PACKED_CALL, "wrong magic"),
        ("packed, arrivals as pairs", ["--two"], packed(GATED), "wrong magic"),
        ("packed, arrivals as one line", [], packed(GATED), "wrong magic"),
        ("packed, a short head", ["--arrivals"], packed(GATED)[:15], "short head"),
        ("packed, no body", ["--arrivals"], packed(b"0")[:16], "short body"),
        ("packed, an unused 1", ["--arrivals"], packed(b"0")[:16] + b"\x40", "spare bits are not 0"),
        ("packed, an octet too many", ["--arrivals"], packed(b"0") + b"\0", "octets after the end"),
        ("packed, too many", ["--arrivals"], b"TS2BITS3" + (2**60 + 1).to_bytes(8, "little"), "too many bits"),
        ("no place", ["--bits", "--arrivals", "--origin", str(LAST_ORIGIN - 1)], b"0 0", "place limit"),
    ]
]

CHECKED = report(
    "station 16 answered 1 missing 0 spoilt 0 late 0", "last 1 8 49 108300fde5", "last 2 68 109 108380f561", frames=2,
    idles=2, answered=1,
)

ARRIVALS = [
    *cases("arrivals"),
    *[
        Case(f"packed, {one.name}", PACKED_BY_CALLS, packed(one.marks.encode()), one.listing)
        for one in VECTORS
        if one.kind == "arrivals" and one.dictionary == DICTIONARY
    ],
    Case("with space", BY_CALLS, b" \t\r\n".join(bytes([mark]) for mark in GATED), GATED_LINES),
    *RESTS,
    *DRIFTS,
    *FAULTS,
    Case("check", ["check", *BY_CALLS[1:]], GATED, CHECKED),
    Case("check: packed", ["check", *PACKED_BY_CALLS[1:]], packed(GATED), CHECKED),
]

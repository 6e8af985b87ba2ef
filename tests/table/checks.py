"""Rows of `check`."""

from typing import List

from .captures import (
    CALL, CALLS, FLAG, IDLE, LAST_ORIGIN, LONG, NOTICE, PACKED, REPLY, SHORT, WITHIN, WITHIN_1, sent, text
)
from .case import Case, faulty
from .lists import ALL_KINDS, IN_TIME, LATE, MISSING_AND_SPOILT

BITS = ["check", "--bits"]

BY_CALLS = ["check", "--bits", "--dict", CALLS]


def report(
    *lines: str,
    frames: int = 0,
    damaged: int = 0,
    overlong: int = 0,
    aborts: int = 0,
    idles: int = 0,
    strays: int = 0,
    answered: int = 0,
    missing: int = 0,
    spoilt: int = 0,
    late: int = 0,
) -> str:
    """The counts, and the lines of stations and of the last frames after them."""
    counts = f"""\
frames {frames}
damaged {damaged}
overlong {overlong}
aborts {aborts}
idles {idles}
strays {strays}
answered {answered}
missing {missing}
spoilt {spoilt}
late {late}
"""
    return counts + "".join(f"{line}\n" for line in lines)


MISSING_AND_SPOILT_REPORT = """\
frames 2
damaged 1
overlong 0
aborts 0
idles 0
strays 0
answered 0
missing 1
spoilt 1
late 0
station 16 answered 0 missing 1 spoilt 1 late 0
last 8 49 108300fde5
last 57 98 108300fde5
"""

ONE_CALL_REPORT = report("last 8 49 108300fde5", frames=1)

THREE_FRAMES = text(FLAG, CALL, FLAG, REPLY, FLAG, NOTICE, FLAG)

STATION_16_ANSWERED = "station 16 answered 1 missing 0 spoilt 0 late 0"


def notices(count: int) -> bytes:
    """A capture of so many notices: number `i`, counted from 0, has 42 bits from 8 + 50 * i on."""
    return text(FLAG, *[NOTICE + FLAG] * count)


def last_notices(first: int, past: int) -> List[str]:
    """The lines of those from `first` up to `past`."""
    places = [8 + 50 * number for number in range(first, past)]
    return [f"last {place} {place + 42} ff83095a3b" for place in places]


# A call to each of two stations, the greater one first, and what answers the second.
TWO_STATIONS = text(*[FLAG, sent(b"\xc8\x83\x00"), FLAG, sent(b"\x03\x83\x00")], *[FLAG, sent(b"\x03\x83\x80"), FLAG])

REPORTS = [
    Case("of nothing", BY_CALLS, stdout=report()),
    Case("of missing and spoilt", BY_CALLS, MISSING_AND_SPOILT, MISSING_AND_SPOILT_REPORT, status=1),
    Case(
        "of all kinds", BY_CALLS, ALL_KINDS,
        report(
            "station 16 answered 1 missing 1 spoilt 1 late 0", "last 8 49 108300fde5", "last 57 98 108380f561",
            "last 106 147 108300fde5", "last 155 196 108300fde5", "last 323 364 108380f561", "last 372 413 108300fde5",
            frames=6, damaged=1, overlong=1, aborts=1, idles=1, strays=1, answered=1, missing=1, spoilt=1,
        ),
        status=1,
    ),
    Case(
        "of two stations, by rising number", [*BY_CALLS, "--depth", "1"], TWO_STATIONS,
        report(
            "station 3 answered 1 missing 0 spoilt 0 late 0", "station 200 answered 0 missing 1 spoilt 0 late 0",
            "last 104 144 038380040b", frames=3, answered=1, missing=1,
        ),
        status=1,
    ),
    Case(
        "without a dictionary", BITS, MISSING_AND_SPOILT,
        report("last 8 49 108300fde5", "last 57 98 108300fde5", frames=2, damaged=1), status=1,
    ),
    Case(
        "of strays without a dictionary", BITS, text(FLAG, REPLY, FLAG),
        report("last 8 49 108380f561", frames=1, strays=1),
    ),
    Case("of a packed capture", ["check", "--dict", CALLS], PACKED, ONE_CALL_REPORT),
    Case("of a packed capture without a dictionary", ["check"], PACKED, ONE_CALL_REPORT),
    Case("from place 1000", ["check", "--origin", "1000"], PACKED, report("last 1008 1049 108300fde5", frames=1)),
]


def answer_in_window(name: str, dictionary: str, capture: bytes, first: int, is_late: bool = False) -> Case:
    """A check of a call and its reply, which begins at `first`: late alone is amiss."""
    late = int(is_late)
    answered = 1 - late
    return Case(
        name, ["check", "--bits", "--dict", dictionary], capture,
        report(
            f"station 16 answered {answered} missing 0 spoilt 0 late {late}", "last 8 49 108300fde5",
            f"last {first} {first + 41} 108380f561", frames=2, answered=answered, late=late,
        ),
        status=late,
    )


STATUSES = [
    Case("damage alone is amiss", BY_CALLS, text(FLAG, SHORT, FLAG), report(damaged=1), status=1),
    Case("an overlong piece alone is amiss", BY_CALLS, text(FLAG, LONG, FLAG), report(overlong=1), status=1),
    answer_in_window("a late answer alone is amiss", WITHIN, LATE, first=73, is_late=True),
    answer_in_window("an answer at the end of its window is in time", WITHIN, IN_TIME, first=65),
    answer_in_window("an answer that only version 2 calls late", WITHIN_1, LATE, first=73),
    Case(
        "a missing answer alone is amiss", [*BY_CALLS, "--depth=1"], text(FLAG, CALL, FLAG, NOTICE, FLAG),
        report("station 16 answered 0 missing 1 spoilt 0 late 0", "last 57 99 ff83095a3b", frames=2, missing=1),
        status=1,
    ),
    Case(
        "a call that an abort spoils is amiss", BY_CALLS, text(FLAG, CALL, FLAG, "00001000", "1111111"),
        report("station 16 answered 0 missing 0 spoilt 1 late 0", "last 8 49 108300fde5", frames=1, aborts=1, spoilt=1),
        status=1,
    ),
    Case("an abort and an idle line alone are not", BY_CALLS, text(FLAG, "00001000", IDLE), report(aborts=1, idles=1)),
    Case("a stray alone is not", BY_CALLS, text(FLAG, REPLY, FLAG), report("last 8 49 108380f561", frames=1, strays=1)),
    Case("a call that waits and a piece that is open are not", BY_CALLS, text(FLAG, CALL, FLAG, "0"), ONE_CALL_REPORT),
]

DEPTHS = [
    Case(
        "the last two frames", [*BY_CALLS, "--depth", "2"], THREE_FRAMES,
        report(STATION_16_ANSWERED, "last 57 98 108380f561", "last 106 148 ff83095a3b", frames=3, answered=1),
    ),
    Case(
        "the last frame", [*BY_CALLS, "--depth=1"], THREE_FRAMES,
        report(STATION_16_ANSWERED, "last 106 148 ff83095a3b", frames=3, answered=1),
    ),
    Case("sixteen of sixteen frames", BITS, notices(16), report(*last_notices(0, 16), frames=16)),
    Case("sixteen of seventeen frames", BITS, notices(17), report(*last_notices(1, 17), frames=17)),
    Case(
        "seventeen of eighteen frames", [*BITS, "--depth", "17"], notices(18), report(*last_notices(1, 18), frames=18)
    ),
    Case("1024 of 1025 frames", [*BITS, "--depth", "1024"], notices(1025), report(*last_notices(1, 1025), frames=1025)),
]

# A fault leaves nothing of the report.
FAULTS = [
    faulty(
        "an octet that is no bit after a frame", BY_CALLS, "capture: octet 57 is no bit",
        text(FLAG, CALL.replace(" ", ""), FLAG, "x")
    ),
    faulty(
        "one bit past the last place", [*BITS, f"--origin={LAST_ORIGIN - 57}"], "capture: place limit",
        text(FLAG, CALL, FLAG, "0")
    ),
    faulty("a packed capture of nothing", ["check"], "capture: short head"),
    faulty("a packed capture without its last octet", ["check"], "capture: short body", PACKED[:-1]),
    faulty("a packed capture with an octet after its end", ["check"], "capture: octets after the end", PACKED + b"\0"),
    faulty(
        "a packed capture with a spare bit that is 1", ["check"], "capture: spare bits are not 0",
        PACKED[:-1] + b"\x80"
    ),
    faulty("text taken for a packed capture", ["check"], "capture: wrong magic", MISSING_AND_SPOILT),
    faulty("a packed capture with too great a count", ["check"], "capture: too many bits", PACKED[:8] + b"\xff" * 8),
]

CHECKS = [*REPORTS, *STATUSES, *DEPTHS, *FAULTS]

"""Rows of captures of two lines: of `list --two` and `check --two`.

Both lines have as many bits. A line that has nothing to say rests at 1.
"""

from typing import Tuple

from .captures import (
    CALL, CALLS, FLAG, IDLE, LAST_ORIGIN, LONG, NOTICE, PACKED, REPLY, SHORT, WITHIN, marks, packed_pairs
)
from .case import Case, faulty
from .checks import report
from .lists import KINDS, chosen
from .vectors import capture, cases

# The bits of two lines.
Lines = Tuple[str, str]

TWO = ["list", "--bits", "--two"]

BY_CALLS = [*TWO, "--dict", CALLS]

PACKED_BY_CALLS = ["list", "--two", "--dict", CALLS]

CHECK_BY_CALLS = ["check", "--bits", "--two", "--dict", CALLS]

# Frames between two flags: the first two have 57 bits, the third 58.
CALLED = FLAG + CALL.replace(" ", "") + FLAG

REPLIED = FLAG + REPLY.replace(" ", "") + FLAG

NOTICED = FLAG + NOTICE.replace(" ", "") + FLAG

REST = "1" * 57

# A call on the first line, and after it the reply on the second.
CALL_AND_REPLY = (CALLED + REST, REST + REPLIED)

_, CALL_AND_REPLY_LINES = capture("two lines", "a call and its reply")

CALL_AND_REPLY_REPORT = report(
    "station 16 answered 1 missing 0 spoilt 0 late 0", "last 1 8 49 108300fde5", "last 2 65 106 108380f561", frames=2,
    idles=2, answered=1,
)

# Both frames end at one place.
AT_ONE_PLACE = (CALLED, REPLIED)

_, AT_ONE_PLACE_LINES = capture("two lines", "frames that end at one place")

# The reply comes on the first line, where it answers nothing.
ANSWER_ON_FIRST = (CALLED + REPLY.replace(" ", "") + FLAG, "1" * 106)

ONE_CALL = (CALLED, REST)

_, ONE_CALL_LINES = capture("two lines", "one call")

# Lines of all kinds but `late`. The second call is followed by a notice before its reply comes; the third by damage on
# the second line, where a long piece ends one bit before the call does.
ALL_KINDS = (
    CALLED + REST + CALLED + NOTICED + REST + CALLED + "1" * 40 + CALLED + "0",
    "".join([*[REST, REPLIED, "1" * 115, REPLIED, LONG, FLAG, SHORT, FLAG], *["00001000", "1" * 49, FLAG, "00"]]),
)

_, ALL_KINDS_LINES = capture("two lines", "all kinds")

# The packed form of one call on the first line.
PACKED_CALL = packed_pairs(*ONE_CALL)

CALL_LINES = chosen(ONE_CALL_LINES, 1, 2)


def of_kind(kind: str) -> str:
    """The lines of all kinds that are of this one, whose word stands fourth."""
    every = ALL_KINDS_LINES.splitlines(keepends=True)
    return "".join(line for line in every if line.split()[3] == kind)


AT_THE_LAST_PLACE = """\
1 1152921504606846927 1152921504606846968 frame 108300fde5
2 1152921504606846927 1152921504606846968 frame 108380f561
"""

ORIGINS = [
    Case(
        "from place 100", [*BY_CALLS, "--origin", "100"], marks(*AT_ONE_PLACE),
        AT_ONE_PLACE_LINES.replace(" 8 49 ", " 108 149 "),
    ),
    Case(
        "pieces not closed, from place 100", [*BY_CALLS, "--origin=100"], marks(CALLED + "0", "1" * 50 + FLAG),
        """\
2 100 115 idle
1 108 149 frame 108300fde5 station 16 type 0 call
1 157 158 open
1 108 149 pending station 16 type 0
""",
    ),
    Case("to the last place", [*TWO, f"--origin={LAST_ORIGIN - 57}"], marks(*AT_ONE_PLACE), AT_THE_LAST_PLACE),
    faulty(
        "one pair past the last place", [*TWO, f"--origin={LAST_ORIGIN - 57}"], "capture: place limit",
        marks(*AT_ONE_PLACE) + b"0", AT_THE_LAST_PLACE
    ),
    faulty(
        "packed, one pair past the last place", ["list", "--two", f"--origin={LAST_ORIGIN - 57}"],
        "capture: place limit", packed_pairs(CALLED + "0", REPLIED + "0"), AT_THE_LAST_PLACE
    ),
    Case("three pairs at three places", [*TWO, "--origin", str(LAST_ORIGIN - 3)], b"303"),
    faulty("four pairs at three places", [*TWO, "--origin", str(LAST_ORIGIN - 3)], "capture: place limit", b"3030"),
    Case("no pairs at no place", [*TWO, "--origin", str(LAST_ORIGIN)]),
    faulty(
        "one pair at no place", ["list", "--two", "--origin", str(LAST_ORIGIN)], "capture: place limit",
        packed_pairs("1", "1")
    ),
]


def filtered(name: str, words: list, *numbers: int) -> Case:
    """A listing of all kinds, of which lines with these numbers, counted from 1, are left."""
    return Case(name, [*BY_CALLS, *words], marks(*ALL_KINDS), chosen(ALL_KINDS_LINES, *numbers))


FILTERS = [
    *[Case(f"of kind {kind}", [*BY_CALLS, "--kind", kind], marks(*ALL_KINDS), of_kind(kind)) for kind in KINDS],
    filtered("of station 16", ["--station", "16"], 2, 4, 5, 7, 9, 11, 12, 14, 17, 20, 23),
    filtered("of station 255", ["--station=255"], 8),
    # Where line and station are mixed up, these have lines.
    filtered("of station 1", ["--station", "1"]),
    filtered("of station 2", ["--station", "2"]),
    filtered("of type 0", ["--type", "0"], 2, 5, 7, 9, 14, 17, 20, 23),
    filtered("of type 128", ["--type=128"], 4, 11, 12),
    filtered("of type 128 and kind stray", ["--type", "128", "--kind", "stray"], 12),
    filtered("of station 16, type 0 and kind frame", ["--kind=frame", "--station=16", "--type=0"], 2, 7, 14, 20),
    Case(
        "of kind late", [*TWO, "--dict", WITHIN.replace("16", "15"), "--kind", "late"], marks(*CALL_AND_REPLY),
        "1 8 49 late station 16 type 0\n",
    ),
    Case(
        "of kind stray, where an answer is late", [*TWO, "--dict", WITHIN.replace("16", "15"), "--kind", "stray"],
        marks(*CALL_AND_REPLY),
    ),
    faulty(
        "a fault after lines that are left out", [*TWO, "--kind", "abort"], "capture: octet 15 is no bit",
        marks(IDLE, IDLE) + b"4"
    ),
]

TEXT_FAULTS = [
    faulty("an octet that is no mark", BY_CALLS, "capture: octet 0 is no bit", b"4"),
    *[
        faulty(f"{octet!r} after marks and spaces", BY_CALLS, "capture: octet 6 is no bit", b"0123 \t" + octet)
        for octet in [b"4", b"9", b"/", b"x", b",", b"\v", b"\0", b"\xb2"]
    ],
    faulty(
        "an octet that is no mark, after a line", BY_CALLS, "capture: octet 115 is no bit",
        marks(*CALL_AND_REPLY) + b" 4", CALL_AND_REPLY_LINES
    ),
    faulty("a packed capture taken for text", BY_CALLS, "capture: octet 0 is no bit", PACKED_CALL),
    *[
        faulty(
            f"marks of two lines taken for one: {' '.join(words) or 'no words'}", words, "capture: octet 3 is no bit",
            b"10 2"
        )
        for words in [[], ["list", "--bits"], ["check", "--bits"]]
    ],
]

# Fifteen pairs of ones: the last octet has three of them.
PACKED_IDLE = bytes.fromhex("5453324249545332 0f00000000000000 ffffff3f")

PACKED_CAPTURES = [
    Case("packed, idle lines", ["list", "--two"], PACKED_IDLE, "1 0 15 idle\n2 0 15 idle\n"),
    Case("packed, one call", PACKED_BY_CALLS, PACKED_CALL, ONE_CALL_LINES),
    Case("packed, a call and its reply", PACKED_BY_CALLS, packed_pairs(*CALL_AND_REPLY), CALL_AND_REPLY_LINES),
    Case("packed, frames that end at one place", PACKED_BY_CALLS, packed_pairs(*AT_ONE_PLACE), AT_ONE_PLACE_LINES),
    Case("packed, all kinds", PACKED_BY_CALLS, packed_pairs(*ALL_KINDS), ALL_KINDS_LINES),
    Case("packed, no pairs", ["list", "--two"], packed_pairs("", "")),
    *[
        faulty(
            f"packed, {name} of the fourth pair of the last octet is 1", ["list", "--two"],
            "capture: spare bits are not 0", PACKED_IDLE[:-1] + last
        )
        for name, last in [("the second bit", b"\xbf"), ("the first bit", b"\x7f")]
    ],
    faulty("packed, of two lines taken for one", ["list"], "capture: wrong magic", PACKED_IDLE),
    faulty("packed, of one line taken for two", ["list", "--two"], "capture: wrong magic", PACKED),
    faulty(
        "packed, without its last octet", PACKED_BY_CALLS, "capture: short body", PACKED_CALL[:-1],
        chosen(ONE_CALL_LINES, 1)
    ),
    faulty(
        "packed, with an octet after its end", PACKED_BY_CALLS, "capture: octets after the end", PACKED_CALL + b"\0",
        CALL_LINES
    ),
    faulty(
        "packed, a number of pairs as if they were bits", PACKED_BY_CALLS, "capture: short body",
        PACKED_CALL[:8] + (2 * 57).to_bytes(8, "little") + PACKED_CALL[16:], CALL_LINES
    ),
    faulty(
        "packed, with too great a count", PACKED_BY_CALLS, "capture: too many bits",
        PACKED_CALL[:8] + (LAST_ORIGIN + 1).to_bytes(8, "little")
    ),
    faulty(
        "packed, with the greatest count", PACKED_BY_CALLS, "capture: short body",
        PACKED_CALL[:8] + LAST_ORIGIN.to_bytes(8, "little") + PACKED_CALL[16:], CALL_LINES
    ),
    faulty("text taken for a packed capture", ["list", "--two"], "capture: wrong magic", marks(*ONE_CALL)),
    faulty("packed, nothing", ["list", "--two"], "capture: short head"),
]

CHECKED = [
    Case("check: nothing", CHECK_BY_CALLS, stdout=report()),
    Case("check: a call and its reply", CHECK_BY_CALLS, marks(*CALL_AND_REPLY), CALL_AND_REPLY_REPORT),
    Case(
        "check: packed, a call and its reply", ["check", "--two", "--dict", CALLS], packed_pairs(*CALL_AND_REPLY),
        CALL_AND_REPLY_REPORT,
    ),
    Case(
        "check: a reply on the first line", CHECK_BY_CALLS, marks(*ANSWER_ON_FIRST),
        report(
            "station 16 answered 0 missing 1 spoilt 0 late 0", "last 1 8 49 108300fde5", "last 1 57 98 108380f561",
            frames=2, idles=1, strays=1, missing=1,
        ),
        status=1,
    ),
    Case(
        "check: frames that end at one place, of which the last is kept", [*CHECK_BY_CALLS, "--depth", "1"],
        marks(*AT_ONE_PLACE),
        report("station 16 answered 1 missing 0 spoilt 0 late 0", "last 2 8 49 108380f561", frames=2, answered=1),
    ),
    Case(
        "check: all kinds", CHECK_BY_CALLS, marks(*ALL_KINDS),
        report(
            "station 16 answered 1 missing 1 spoilt 1 late 0", "last 1 8 49 108300fde5", "last 2 65 106 108380f561",
            "last 1 122 163 108300fde5", "last 1 179 221 ff83095a3b", "last 2 237 278 108380f561",
            "last 1 294 335 108300fde5", "last 1 391 432 108300fde5", frames=7, damaged=1, overlong=1, aborts=1,
            idles=6, strays=1, answered=1, missing=1, spoilt=1,
        ),
        status=1,
    ),
    Case(
        "check: the last three frames of both lines", [*CHECK_BY_CALLS, "--depth=3", "--origin=1000"],
        marks(*(line[:343] for line in ALL_KINDS)),
        report(
            "station 16 answered 1 missing 1 spoilt 0 late 0", "last 1 1179 1221 ff83095a3b",
            "last 2 1237 1278 108380f561", "last 1 1294 1335 108300fde5", frames=6, overlong=1, idles=4, strays=1,
            answered=1, missing=1,
        ),
        status=1,
    ),
    Case(
        "check: a late answer alone is amiss", ["check", "--bits", "--two", "--dict", WITHIN.replace("16", "15")],
        marks(*CALL_AND_REPLY),
        report(
            "station 16 answered 0 missing 0 spoilt 0 late 1", "last 1 8 49 108300fde5", "last 2 65 106 108380f561",
            frames=2, idles=2, late=1,
        ),
        status=1,
    ),
    Case(
        "check: damage on the second line alone is amiss", CHECK_BY_CALLS,
        marks("1" * 14 + "0" * 26, FLAG + SHORT + FLAG), report(damaged=1), status=1,
    ),
    Case(
        "check: a call on the second line is not", CHECK_BY_CALLS, marks(REST, CALLED),
        report("last 2 8 49 108300fde5", frames=1, idles=1),
    ),
    faulty(
        "check: an octet that is no mark, after lines", CHECK_BY_CALLS, "capture: octet 114 is no bit",
        marks(*CALL_AND_REPLY) + b"4"
    ),
    faulty(
        "check: one pair past the last place", ["check", "--bits", "--two", f"--origin={LAST_ORIGIN - 57}"],
        "capture: place limit", marks(*AT_ONE_PLACE) + b"0"
    ),
    *[
        faulty(f"check: {name}", ["check", *words], f"capture: {why}", stdin)
        for name, words, stdin, why in [
            ("packed, without its last octet", ["--two"], PACKED_CALL[:-1], "short body"),
            ("packed, with an octet after its end", ["--two"], PACKED_CALL + b"\0", "octets after the end"),
            ("packed, with a spare bit that is 1", ["--two"], PACKED_IDLE[:-1] + b"\xbf", "spare bits are not 0"),
            ("packed, of two lines taken for one", [], PACKED_IDLE, "wrong magic"),
            ("packed, of one line taken for two", ["--two"], PACKED, "wrong magic"),
        ]
    ],
]

PAIRS = [*cases("two lines"), *ORIGINS, *FILTERS, *TEXT_FAULTS, *PACKED_CAPTURES, *CHECKED]

"""Rows of `list`, and of the program without words."""

from .captures import CALL, CALLS, FLAG, IDLE, LAST_ORIGIN, PACKED, WITHIN, packed, text
from .case import Case, faulty
from .vectors import capture, cases

BITS = ["list", "--bits"]

BY_CALLS = ["list", "--bits", "--dict", CALLS]

CALL_LINE = "8 49 frame 108300fde5 station 16 type 0 call\n"

ONE_CALL, ONE_CALL_LINES = capture("one line", "one call")

MISSING_AND_SPOILT, MISSING_AND_SPOILT_LINES = capture("one line", "a call without an answer, and one spoilt")

IN_TIME, _ = capture("one line", "an answer 16 bits after its command, with a window of sixteen in version 2")

LATE, _ = capture("one line", "an answer 24 bits after its command, with a window of sixteen in version 2")

# Lines of all kinds but `late`.
ALL_KINDS, ALL_KINDS_LINES = capture("one line", "all kinds")

KINDS = [
    *["frame", "damaged", "overlong", "abort", "idle", "stray"],
    *["answered", "missing", "spoilt", "late", "open", "pending"],
]

# Frames to two stations, of several types, without a type, and with another control octet.
ALL_HEADS, ALL_HEADS_LINES = capture("one line", "all heads")

_, ALL_HEADS_PLAIN = capture("one line", "heads without a dictionary")


def chosen(lines: str, *numbers: int) -> str:
    """Those of the lines, counted from 1."""
    every = lines.splitlines(keepends=True)
    return "".join(every[number - 1] for number in numbers)


def of_kind(lines: str, kind: str) -> str:
    """The lines of a kind, whose word stands third."""
    every = lines.splitlines(keepends=True)
    return "".join(line for line in every if line.split()[2] == kind)


PLAIN = [
    Case(
        "no words", stdin=b"01111110 00001000110000010000000010111110110100111 01111110\n",
        stdout="8 49 frame 108300fde5\n",
    ),
    Case("no words and no input"),
    Case("no words, and heads", stdin=ALL_HEADS, stdout=ALL_HEADS_PLAIN),
    faulty("no words, and a fault", (), "capture: octet 15 is no bit", text(IDLE, "2"), "0 15 idle\n"),
]

ORIGINS = [
    Case("from place 0", [*BY_CALLS, "--origin", "0"], ONE_CALL, ONE_CALL_LINES),
    Case(
        "from place 100", [*BY_CALLS, "--origin", "100"], ONE_CALL,
        """\
108 149 frame 108300fde5 station 16 type 0 call
108 149 pending station 16 type 0
""",
    ),
    Case("a packed capture from place 100", ["list", "--origin=100"], PACKED, "108 149 frame 108300fde5\n"),
    Case(
        "to the last place", [*BITS, f"--origin={LAST_ORIGIN - 57}"], ONE_CALL,
        "1152921504606846927 1152921504606846968 frame 108300fde5\n",
    ),
    faulty(
        "one bit past the last place", [*BY_CALLS, f"--origin={LAST_ORIGIN - 57}"], "capture: place limit",
        ONE_CALL + b"0", "1152921504606846927 1152921504606846968 frame 108300fde5 station 16 type 0 call\n"
    ),
    Case("three bits at three places", [*BITS, "--origin", str(LAST_ORIGIN - 3)], b"000"),
    faulty("four bits at three places", [*BITS, "--origin", str(LAST_ORIGIN - 3)], "capture: place limit", b"0000"),
    Case("no bits at no place", [*BITS, "--origin", str(LAST_ORIGIN)]),
    faulty("one bit at no place", ["list", "--origin", str(LAST_ORIGIN)], "capture: place limit", packed("1")),
]

FILTERS = [
    *[
        Case(f"of kind {kind}", [*BY_CALLS, "--kind", kind], ALL_KINDS, of_kind(ALL_KINDS_LINES, kind))
        for kind in KINDS
    ],
    Case("of station 16", [*BY_CALLS, "--station", "16"], ALL_HEADS, chosen(ALL_HEADS_LINES, 1, 3, 5, 6, 7, 8)),
    Case("of station 255", [*BY_CALLS, "--station=255"], ALL_HEADS, chosen(ALL_HEADS_LINES, 2, 4)),
    Case("of station 0", [*BY_CALLS, "--station", "0"], ALL_HEADS),
    Case("of type 0", [*BY_CALLS, "--type", "0"], ALL_HEADS, chosen(ALL_HEADS_LINES, 1, 3, 4)),
    Case("of type 9", [*BY_CALLS, "--type=9"], ALL_HEADS, chosen(ALL_HEADS_LINES, 2)),
    Case("of type 254", [*BY_CALLS, "--type", "254"], ALL_HEADS, chosen(ALL_HEADS_LINES, 7, 8)),
    Case("of type 255", [*BY_CALLS, "--type", "255"], ALL_HEADS),
    # Where type and station are mixed up, this has lines.
    Case("of type 16", [*BY_CALLS, "--type", "16"], ALL_HEADS),
    # The third octet, which is one of the check, is no type.
    Case("of type 69", [*BY_CALLS, "--type", "69"], ALL_HEADS),
    # With another control octet there is no type.
    Case("of type 204", [*BY_CALLS, "--type", "204"], ALL_HEADS),
    Case(
        "of station 16 and type 0", [*BY_CALLS, "--station", "16", "--type", "0"], ALL_HEADS,
        chosen(ALL_HEADS_LINES, 1, 3),
    ),
    Case(
        "of station 255 and type 0", [*BY_CALLS, "--type", "0", "--station", "255"], ALL_HEADS,
        chosen(ALL_HEADS_LINES, 4),
    ),
    Case(
        "of station 16, type 254 and kind stray", [*BY_CALLS, "--kind", "stray", "--station", "16", "--type", "254"],
        ALL_HEADS, chosen(ALL_HEADS_LINES, 8),
    ),
    Case(
        "of station 16 and kind frame", [*BY_CALLS, "--station", "16", "--kind", "frame"], MISSING_AND_SPOILT,
        chosen(MISSING_AND_SPOILT_LINES, 1, 2),
    ),
    Case("of kind late", ["list", "--bits", "--dict", WITHIN, "--kind", "late"], LATE, "8 49 late station 16 type 0\n"),
    Case("of kind stray, where an answer is late", ["list", "--bits", "--dict", WITHIN, "--kind", "stray"], LATE),
    Case("of kind missing", [*BY_CALLS, "--kind", "missing"], MISSING_AND_SPOILT, "8 49 missing station 16 type 0\n"),
    Case("of type 128, where there is none", [*BY_CALLS, "--type", "128"], MISSING_AND_SPOILT),
    Case(
        "lines without a station", [*BY_CALLS, "--station", "16"], ALL_KINDS,
        chosen(ALL_KINDS_LINES, 1, 2, 3, 4, 5, 6, 8, 12, 13, 14, 16),
    ),
    Case("lines without a type", [*BY_CALLS, "--type", "128"], ALL_KINDS, chosen(ALL_KINDS_LINES, 2, 12, 13)),
    Case("of station 255 without a dictionary", [*BITS, "--station", "255"], ALL_HEADS, chosen(ALL_HEADS_PLAIN, 2, 3)),
    Case("of type 0 without a dictionary", [*BITS, "--type", "0"], ALL_HEADS, chosen(ALL_HEADS_PLAIN, 1, 3)),
    Case("of kind stray without a dictionary", [*BITS, "--kind", "stray"], ALL_HEADS),
    faulty(
        "a fault after lines that are left out", [*BITS, "--kind", "abort"], "capture: octet 15 is no bit",
        text(IDLE, "2")
    ),
]

TEXT_FAULTS = [
    faulty("an octet that is no bit", BY_CALLS, "capture: octet 9 is no bit", b"01111110 2"),
    faulty(
        "an octet that is no bit after a line", BY_CALLS, "capture: octet 58 is no bit",
        text(FLAG, CALL.replace(" ", ""), FLAG, "0x"), CALL_LINE
    ),
    faulty("a packed capture taken for text", BITS, "capture: octet 0 is no bit", PACKED),
]

PACKED_CAPTURES = [
    Case("packed, one call", ["list", "--dict", CALLS], PACKED, ONE_CALL_LINES),
    Case("packed, without a dictionary", ["list"], PACKED, "8 49 frame 108300fde5\n"),
    Case("packed, all kinds", ["list", "--dict", CALLS], packed(ALL_KINDS.decode().replace(" ", "")), ALL_KINDS_LINES),
    Case("packed, no bits", ["list"], packed("")),
    faulty("packed, without its last octet", ["list", "--dict", CALLS], "capture: short body", PACKED[:-1]),
    faulty(
        "packed, with a spare bit that is 1", ["list", "--dict", CALLS], "capture: spare bits are not 0",
        PACKED[:-1] + b"\x02"
    ),
    faulty(
        "packed, with an octet after its end", ["list", "--dict", CALLS], "capture: octets after the end",
        PACKED + b"\0", CALL_LINE
    ),
    faulty("packed, with another first octet", ["list", "--dict", CALLS], "capture: wrong magic", b"\x55" + PACKED[1:]),
    faulty("text taken for a packed capture", ["list"], "capture: wrong magic", ONE_CALL),
    faulty("packed, ten octets", ["list", "--dict", CALLS], "capture: short head", PACKED[:10]),
    faulty("packed, nothing", ["list"], "capture: short head"),
    faulty(
        "packed, with too great a count", ["list", "--dict", CALLS], "capture: too many bits",
        PACKED[:8] + (LAST_ORIGIN + 1).to_bytes(8, "little")
    ),
    faulty(
        "packed, with the greatest count", ["list", "--dict", CALLS], "capture: short body",
        PACKED[:8] + LAST_ORIGIN.to_bytes(8, "little") + PACKED[16:], CALL_LINE
    ),
]

LISTS = [*cases("one line"), *PLAIN, *ORIGINS, *FILTERS, *TEXT_FAULTS, *PACKED_CAPTURES]

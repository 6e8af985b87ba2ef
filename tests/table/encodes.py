"""Rows of `encode`."""

from .captures import CALL, FLAG, IDLE, TYPE_254, sent
from .case import Case, fault, faulty

ENCODE = ["encode"]


def line(*parts: str) -> str:
    """A line of the bits `0` and `1`."""
    return "".join(parts).replace(" ", "") + "\n"


LONGEST = b"\xff" * 256

ENCODES = [
    Case("no lines", ENCODE),
    Case("empty lines", ENCODE, b"\n\r\n\n\r"),
    Case(
        "two frames and an idle line", ENCODE, b"frame 108300\nidle\nframe 1083fe\n",
        line(FLAG, CALL, FLAG) + line(IDLE) + line(FLAG, TYPE_254, FLAG),
    ),
    *[
        Case(
            f"digits of either case: {digits}", ENCODE, f"frame {digits}".encode(),
            line(FLAG, sent(bytes.fromhex("10abcdef")), FLAG),
        )
        for digits in ["10abcdef", "10aBCdEF", "10ABCDEF"]
    ],
    # Where a flag or a frame stands before it, its closing flag opens the next.
    Case("a frame after a flag", ENCODE, b"flag\nframe 108300", line(FLAG) + line(CALL, FLAG)),
    Case(
        "a frame after a frame", ENCODE, b"frame 108300\n\nframe 1083FE\n",
        line(FLAG, CALL, FLAG) + line(TYPE_254, FLAG),
    ),
    Case("two flags", ENCODE, b"flag\nflag\n", line(FLAG) + line(FLAG)),
    Case("ends of lines", ENCODE, b"\r\nflag\r\n\nidle\r", line(FLAG) + line(IDLE)),
    *[
        Case(f"a flag, its line written {octets!r}", ENCODE, octets, line(FLAG))
        for octets in [b"flag", b"flag\r", b"flag\r\n", b"\n\nflag\n\n"]
    ],
    *[
        faulty(f"a bad line: {octets!r}", ENCODE, f"line {number}: bad line", octets, before)
        for octets, before, number in [
            (b"flag\r\r\n", "", 1),
            (b"flag\n\nFLAG\n", line(FLAG), 3),
            (b"flag\nframe\nidle", line(FLAG), 2),
            (b"idle\nframe ", line(IDLE), 2),
            (b"frame 108\n", "", 1),
            (b"frame 1g\n", "", 1),
        ]
    ],
    Case("the shortest frame", ENCODE, b"frame 1083\n", line(FLAG, sent(b"\x10\x83"), FLAG)),
    Case("the longest frame", ENCODE, f"frame {LONGEST.hex()}\n".encode(), line(FLAG, sent(LONGEST), FLAG)),
    faulty("a frame of one octet", ENCODE, "line 1: frame is not 2 to 256 octets", b"frame 10"),
    faulty(
        "a frame of 257 octets", ENCODE, "line 3: frame is not 2 to 256 octets", b"idle\n\nframe " + b"00" * 257,
        line(IDLE)
    ),
    faulty("a word that is none", ENCODE, "line 2: bad line", b"flag\nframes 1083\nidle\n", line(FLAG)),
    faulty("a word of upper case", ENCODE, "line 1: bad line", b"FLAG\n"),
    faulty("a space after a word", ENCODE, "line 1: bad line", b"flag \n"),
    faulty("a frame of no digits", ENCODE, "line 2: bad line", b"\nframe \n"),
    faulty("a frame of an odd number of digits", ENCODE, "line 1: bad line", b"frame 10830"),
    faulty("two spaces before the digits", ENCODE, "line 1: bad line", b"frame  1083"),
    # Two digits for each octet: 297 octets give a line of 600, which any line may have.
    *[
        Case(
            f"a frame of {octets} octets, its line ended by {end!r}", ENCODE, b"frame " + b"ff" * octets + end,
            "" if why else line(FLAG, sent(b"\xff" * octets), FLAG), stderr=fault(f"line 1: {why}") if why else "",
            status=2 if why else 0,
        )
        for octets, why in [
            (2, ""),
            (256, ""),
            (257, "frame is not 2 to 256 octets"),
            (297, "frame is not 2 to 256 octets"),
            (298, "bad line"),
        ]
        for end in [b"", b"\n", b"\r\n"]
    ],
    faulty("a line of 600 octets", ENCODE, "line 1: frame is not 2 to 256 octets", b"frame " + b"00" * 297 + b"\n"),
    faulty(
        "a line of 600 octets, one of which is no digit", ENCODE, "line 1: bad line", b"frame " + b"0" * 593 + b"x\n"
    ),
    faulty("a line of 602 octets", ENCODE, "line 1: bad line", b"frame " + b"00" * 298 + b"\n"),
]

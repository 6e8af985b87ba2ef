"""Rows of `show`, which reads no input."""

from typing import Optional

from .captures import CALLS, STATES, fcs
from .case import Case, fault

STATE = "10838101026e1f"

STATE_TEXT = """\
frame 10838101026e1f good
station 16 type 129 state
0 call1
9 flash
"""

# Octets of the longest frame and its check, and one octet more.
LONGEST = bytes(256) + fcs(bytes(256))
TOO_LONG = bytes(259)


def shown(name: str, hex_digits: str, stdout: str, dictionary: Optional[str] = None) -> Case:
    """A frame that is shown."""
    options = [] if dictionary is None else ["--dict", dictionary]
    words = ["show", *options, hex_digits]
    return Case(name, words, b"unread", stdout, leaves_input=True)


def refused(name: str, hex_digits: str, why: str, dictionary: Optional[str] = None) -> Case:
    """A frame that is not shown."""
    options = [] if dictionary is None else [f"--dict={dictionary}"]
    words = ["show", hex_digits, *options]
    return Case(name, words, b"unread", stderr=fault(why), status=2, leaves_input=True)


SHOWS = [
    shown("a state and its bits", STATE, STATE_TEXT, dictionary=STATES),
    shown("digits of upper case", STATE.upper(), STATE_TEXT, dictionary=STATES),
    shown("a wrong check", "1083810102ffff", STATE_TEXT.replace("6e1f good", "ffff bad"), dictionary=STATES),
    shown(
        "each named bit", "108381ffff0000",
        "frame 108381ffff0000 bad\nstation 16 type 129 state\n0 call1\n7 ped\n9 flash\n", dictionary=STATES,
    ),
    shown("no named bit", "1083817efd0000", "frame 1083817efd0000 bad\nstation 16 type 129 state\n", dictionary=STATES),
    shown("another length", "10830174f4", "frame 10830174f4 good\nstation 16 type 1 length\n", dictionary=STATES),
    shown("a call", "108300fde5", "frame 108300fde5 good\nstation 16 type 0 call\n", dictionary=CALLS),
    shown("a notice", "ff83095a3b", "frame ff83095a3b good\nstation 255 type 9 notice\n", dictionary=CALLS),
    shown(
        "a type that the dictionary lacks", "1083fe0cfb", "frame 1083fe0cfb good\nstation 16 type 254 unknown\n",
        dictionary=CALLS,
    ),
    shown("no information", "1083452c", "frame 1083452c good\nuntyped\n", dictionary=CALLS),
    shown("another control octet", "1013ccb8", "frame 1013ccb8 good\ncontrol 19\n", dictionary=CALLS),
    shown("without a dictionary", STATE, f"frame {STATE} good\nstation 16 type 129 unknown\n"),
    shown("no information, without a dictionary", "1083452C", "frame 1083452c good\nuntyped\n"),
    shown("as many octets as a frame has at most", LONGEST.hex(), f"frame {LONGEST.hex()} good\ncontrol 0\n"),
    Case("after two dashes", ["show", "--", "1013ccb8"], stdout="frame 1013ccb8 good\ncontrol 19\n"),
    refused("an odd number of digits", "10835", "bad hex"),
    refused("no digits", "", "bad hex"),
    refused("a letter that is no digit", "108300fdeg", "bad hex"),
    refused("spaces between digits", "10 83 00 fd e5", "bad hex"),
    refused("a letter after many digits", "10" * 1000 + "1G", "bad hex"),
    refused("one octet", "10", "frame is not 4 to 258 octets"),
    refused("a thousand octets", "10" * 1000, "frame is not 4 to 258 octets"),
    refused("three octets", "108345", "frame is not 4 to 258 octets"),
    refused("259 octets", TOO_LONG.hex(), "frame is not 4 to 258 octets"),
    refused("hex before size and dictionary", "10835", "bad hex", dictionary="version = 3"),
    refused("size before dictionary", "108345", "frame is not 4 to 258 octets", dictionary="version = 3"),
    refused("a dictionary of another version", STATE, "dictionary: version is not 1 or 2", dictionary="version = 3"),
]

"""Packed captures with one bit flipped, where that is a fault."""

from dataclasses import dataclass
from typing import Iterator, List, Optional

from .captures import CALLS, LAST_ORIGIN, PACKED, packed_pairs
from .case import Case, faulty
from .pairs import CALLED, REPLIED


@dataclass(frozen=True)
class Form:
    """A capture in a packed form, and how it is listed."""

    name: str
    capture: bytes
    words: List[str]
    # The places in an octet.
    places: int
    # What is listed of the bits before a fault at its end.
    lines: str


FORMS = [
    Form(
        name="a packed capture", capture=PACKED, words=[], places=8,
        lines="8 49 frame 108300fde5 station 16 type 0 call\n",
    ),
    Form(
        name="a packed capture of two lines", capture=packed_pairs(CALLED, REPLIED), words=["--two"], places=4,
        lines="""\
1 8 49 frame 108300fde5 station 16 type 0 call
2 8 49 frame 108380f561 station 16 type 128 reply
1 8 49 answered station 16 type 0
""",
    ),
]


def why_refused(form: Form, octets: bytes) -> Optional[str]:
    """The first fault of a packed capture: of its head, of an octet as it comes, of its end."""
    if len(octets) < 16:
        return "short head"
    if octets[:8] != form.capture[:8]:
        return "wrong magic"
    count = int.from_bytes(octets[8:16], "little")
    if count > LAST_ORIGIN:
        return "too many bits"
    body = octets[16:]
    whole, used = divmod(count, form.places)
    if used and len(body) > whole and body[whole] >> used * 8 // form.places:
        return "spare bits are not 0"
    wanted = whole + (used > 0)
    if len(body) == wanted:
        return None
    return "octets after the end" if len(body) > wanted else "short body"


def flips(form: Form) -> Iterator[Case]:
    for place in range(8 * len(form.capture)):
        octets = bytearray(form.capture)
        octets[place // 8] ^= 1 << place % 8
        why = why_refused(form, bytes(octets))
        if why is None:
            continue
        # A body that proves too short was taken whole; any other fault stands before the last flag.
        stdout = form.lines if why == "short body" else ""
        for command in ["list", "check"]:
            yield faulty(
                f"{command}: bit {place % 8} of octet {place // 8} of {form.name} flipped",
                [command, *form.words, "--dict", CALLS], f"capture: {why}", bytes(octets),
                stdout if command == "list" else ""
            )


FLIPS = [case for form in FORMS for case in flips(form)]

"""Runs to be repeated with each request for memory refused in turn.

The one request that is needless is that of the standard library for room for all words at once,
before it takes the first: where it is refused, room is asked for again with the first word.
"""

from typing import Sequence

from .case import Case, Refusals
from .checks import CHECKS
from .encodes import ENCODES
from .lists import LISTS
from .pairs import PAIRS
from .shows import SHOWS
from .words import WORDS


def found(cases: Sequence[Case], name: str) -> Case:
    """The row of a name."""
    return next(case for case in cases if case.name == name)


REFUSALS = [
    Refusals(found(LISTS, "no words"), needless=4),
    Refusals(found(LISTS, "heads without a dictionary"), needless=6),
    Refusals(found(LISTS, "a call without an answer, and one spoilt"), needless=9),
    Refusals(found(LISTS, "an answer 24 bits after its command, with a window of sixteen in version 2"), needless=9),
    Refusals(found(LISTS, "packed, without a dictionary"), needless=5),
    Refusals(found(LISTS, "packed, one call"), needless=7),
    Refusals(found(LISTS, "an octet that is no bit after a line"), needless=9),
    Refusals(found(CHECKS, "of missing and spoilt"), needless=9),
    Refusals(found(CHECKS, "of a packed capture"), needless=7),
    Refusals(found(CHECKS, "1024 of 1025 frames"), needless=9),
    Refusals(found(PAIRS, "a call and its reply"), needless=10),
    Refusals(found(PAIRS, "packed, idle lines"), needless=6),
    Refusals(found(PAIRS, "check: a call and its reply"), needless=10),
    Refusals(found(PAIRS, "packed, of one line taken for two"), needless=6),
    Refusals(found(SHOWS, "a state and its bits"), needless=9),
    Refusals(found(SHOWS, "without a dictionary"), needless=6),
    Refusals(found(SHOWS, "an odd number of digits"), needless=6),
    Refusals(found(ENCODES, "two frames and an idle line"), needless=5),
    Refusals(found(WORDS, "help: --help"), needless=5),
    Refusals(found(WORDS, "help: list --help"), needless=6),
]

# Listings whose largest requests are compared with those of checks.
LISTED = [
    found(LISTS, "a call without an answer, and one spoilt"),
    found(LISTS, "packed, one call"),
    found(PAIRS, "a call and its reply"),
    found(PAIRS, "packed, idle lines"),
]

"""Tests of the crates to be run with each of their requests for memory refused in turn, and how many they make.

The numbers are those that the documents give: reading a dictionary takes memory, an analyser of either kind takes it
once, for its history, and nothing else does but `reports_whole`.
"""

from dataclasses import dataclass
from typing import Optional

LINE = "bus_line_tests"
DICTIONARIES = "bus_dictionary_tests"
WATCH = "bus_watch_tests"
PAIRS = "bus_pairs_tests"
TOOL = "bus_tool_tests"


@dataclass(frozen=True)
class Asking:
    """A test of a crate by its full name, and how many requests for memory it makes.

    `requests` is None where no document says how many, and then it makes some. `dictionaries` is how many times it
    reads that of DICTIONARY, which adds to them. A test that `tries_again` makes one attempt, and where that lacks
    memory another: it has all requests up to the refused one, and then all of them.
    """

    crate: str
    test: str
    requests: Optional[int] = None
    dictionaries: int = 0
    tries_again: bool = False


def growths(count: int, least: int) -> int:
    """How many requests a `Vec` makes that takes so many elements one by one: it doubles, from `least` on."""
    room, made = 0, 0
    while room < count:
        room, made = max(2 * room, least), made + 1
    return made


# The data bits of the pieces between two flags in the list of `each_report`, and how many of them have octets: those of
# whole octets, at least four and no more than the longest frame and its check.
DATA = [40, 24, 33, 32, 8, 48]
WITH_OCTETS = 2
REPORTS = 8

# Data is collected one by one, and so are the reports; a frame's octets are given their room at once. A `Vec` begins
# with room for eight octets, or for four of what is larger.
EACH_REPORT = sum(growths(count, 8) for count in DATA) + WITH_OCTETS + growths(REPORTS, 4)

DICTIONARY = Asking(WATCH, "watch::memory::read", tries_again=True)

ASKING = [
    # no call of a decoder is given an allocator; this pushes 2^20 bits to each of two
    Asking(LINE, "line::limits::endless_piece", 0),
    Asking(LINE, "line::memory::no_report", 0),
    Asking(LINE, "line::memory::each_report", EACH_REPORT, tries_again=True),
    DICTIONARY,
    Asking(DICTIONARIES, "dictionary::limits::empty_takes_no_memory", 0),
    Asking(DICTIONARIES, "dictionary::limits::refused_memory"),
    # two analysers without a dictionary, and each of their calls
    Asking(WATCH, "watch::memory::one_request", 2),
    Asking(WATCH, "watch::memory::made", 1, dictionaries=1, tries_again=True),
    Asking(WATCH, "watch::memory::many_bits", 1, dictionaries=1, tries_again=True),
    # two, each of which then takes 2^20 bits of one piece
    Asking(WATCH, "watch::limits::refused_memory", 2, dictionaries=2),
    # six of two lines, of three depths
    Asking(PAIRS, "pairs::memory::one_request", 6),
    Asking(PAIRS, "pairs::memory::made", 1, dictionaries=1, tries_again=True),
    Asking(PAIRS, "pairs::memory::many_pairs", 1, dictionaries=1, tries_again=True),
    Asking(PAIRS, "pairs::memory::refused_memory", 1, dictionaries=1),
    Asking(TOOL, "encodes::takes_no_memory", 0),
    Asking(TOOL, "shows::takes_no_memory", 0),
    Asking(TOOL, "shows::refused_memory"),
    Asking(TOOL, "listings::refused_memory"),
    Asking(TOOL, "program::refused_memory"),
]

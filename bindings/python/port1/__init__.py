"""Frames of a synchronous HDLC line from its bits, what answered them, and bits from frames, by the C library of port1.

    from port1 import Entry, Kind, LineDecoder, LineEncoder, Pairing

    decoder = LineDecoder(longest=256, origin=0)
    for report in decoder.feed(octets):
        if report.kind is Kind.FRAME:
            handle(report.octets)

    pairing = Pairing({0: Entry(length=0, answered=True, window=460), 128: Entry(length=2)})
    print(pairing.take(report).verdict)

    encoder = LineEncoder()
    sent = encoder.flag() + encoder.frame(b"\\x10\\x83\\x00") + encoder.flag() + encoder.end()

Octets are taken and given with the first bit lowest; `feed_high_first` takes them with the first bit highest. A place
is a number of bits: that of the decoder's first bit is `origin`. A report says which bits it is of, from `first` to
just before `past`, and `str(report)` is the line that `port1 list` writes without a dictionary. Nothing is shared
between two decoders or encoders, so each thread may have its own; a call holds Python's global lock.

The library is libport1.so.3: that of the environment variable PORT1_LIBRARY, else one beside this module, or in `lib`
of a folder above it, where `make install-library` puts it. Else it is one that was built in the repository, or what the
system's loader finds. The library is proved; this module, which calls it by ctypes, is not. It runs on 64-bit Linux.
"""

import ctypes
import os
from enum import IntEnum
from functools import lru_cache
from pathlib import Path
from typing import Any, Iterator, List, Mapping, NamedTuple, Optional, Tuple, Union

__all__ = [
    "BadState",
    "Cause",
    "Command",
    "Entry",
    "Fault",
    "Kind",
    "LineDecoder",
    "LineEncoder",
    "NoLibrary",
    "Outcome",
    "OutOfRange",
    "Pairing",
    "PlaceLimit",
    "Report",
    "Seen",
    "Standing",
    "Verdict",
]

# The version of the library that this came with.
__version__ = "3.1.0"

NAME = "libport1.so.3"

# What a call returns: OK, and why it refused.
OK, BAD_LENGTH, PLACE_LIMIT, BAD_STATE, BAD_ARGUMENT, NO_ROOM = range(6)

# Octets of a frame, address through information: of the longest frame of a decoder, and of one that is sent.
SHORTEST_LONGEST, LONGEST = 3, 256
SHORTEST_SENT = 2

# Frame types.
TYPES = 256

# The place that no bit has, and none after it.
PLACES = 1 << 60

# Octets that hold the bits of the longest frame after those of an octet that is not full.
ROOM = (2492 + 7) // 8 + 1

Octets = Union[bytes, bytearray, memoryview]


class Kind(IntEnum):
    """What a report is of."""

    FRAME = 1
    DAMAGED = 2
    OVERLONG = 3
    ABORT = 4
    IDLE = 5


class Cause(IntEnum):
    """Which rule a damaged piece breaks."""

    UNSTUFFED = 1
    SHORT = 2
    UNALIGNED = 3
    FCS = 4


class Fault(Exception):
    """Why a call is refused."""


class NoLibrary(Fault):
    """The library is not there, or this is another machine than it was made for."""


class OutOfRange(Fault, ValueError):
    """A length or an origin is out of range. Nothing has changed."""


class PlaceLimit(Fault, OverflowError):
    """A bit would have the place 2^60. All bits before it were taken."""


class BadState(Fault):
    """The memory holds no decoder or no sender: something else wrote it."""


class Report(NamedTuple):
    """What the bits from `first` to just before `past` are. A frame has its octets, those of the check at the end."""

    kind: Kind
    first: int
    past: int
    cause: Optional[Cause] = None
    octets: bytes = b""

    def __str__(self) -> str:
        words = [str(self.first), str(self.past), self.kind.name.lower()]
        if self.cause is not None:
            words.append(self.cause.name.lower())
        if self.kind is Kind.FRAME:
            words.append(self.octets.hex())
        return " ".join(words)


class Standing(IntEnum):
    """How a frame stands to the entries."""

    OTHER_CONTROL = 1
    UNTYPED = 2
    UNKNOWN = 3
    WRONG_LENGTH = 4
    KNOWN = 5


class Outcome(IntEnum):
    """What became of a command."""

    ANSWERED = 1
    LATE = 2
    MISSING = 3
    SPOILT = 4


class Entry(NamedTuple):
    """What is known of a frame type: the octets after it, the check aside; whether commands are answered; and within how
    many bits the answer is to begin, 0 for no limit."""

    length: int
    answered: bool = False
    window: int = 0


class Command(NamedTuple):
    """A command: its bits from `first` to just before `past`, its station and its frame type."""

    first: int
    past: int
    station: int
    ftype: int


class Verdict(NamedTuple):
    """What became of which command. Its `str` is the line that `port1 list` writes."""

    outcome: Outcome
    command: Command

    def __str__(self) -> str:
        first, past, station, ftype = self.command
        return f"{first} {past} {self.outcome.name.lower()} station {station} type {ftype}"


class Seen(NamedTuple):
    """What follows from a report: of a frame its standing, its station, and its type or control octet where it has one;
    the verdict on the command that waited; and whether the frame is an answer to no command."""

    standing: Optional[Standing]
    station: Optional[int]
    ftype: Optional[int]
    control: Optional[int]
    verdict: Optional[Verdict]
    is_stray: bool


class LineState(ctypes.Structure):
    """struct port1_line."""

    _fields_ = [
        ("longest", ctypes.c_uint64),
        ("origin", ctypes.c_uint64),
        ("place", ctypes.c_uint64),
        ("settles_at", ctypes.c_uint64),
        ("folded", ctypes.c_uint64),
        ("stored", ctypes.c_uint64),
        ("assembled", ctypes.c_uint64),
        ("data_bits", ctypes.c_uint64),
        ("partial", ctypes.c_uint64),
        ("last_bits", ctypes.c_uint64),
        ("count", ctypes.c_uint32),
        ("spare", ctypes.c_uint16),
        ("check", ctypes.c_uint16),
        ("octets", ctypes.c_uint8 * 272),
    ]


class ReportState(ctypes.Structure):
    """struct port1_report."""

    _fields_ = [
        ("kind", ctypes.c_uint32), ("cause", ctypes.c_uint32), ("first", ctypes.c_uint64), ("past", ctypes.c_uint64)
    ]


class SenderState(ctypes.Structure):
    """struct port1_sender."""

    _fields_ = [("behind_flag", ctypes.c_uint32)]


class EntryState(ctypes.Structure):
    """struct port1_entry."""

    _fields_ = [
        ("known", ctypes.c_uint8),
        ("length", ctypes.c_uint8),
        ("answered", ctypes.c_uint8),
        ("spare", ctypes.c_uint8),
        ("window", ctypes.c_uint32),
    ]


class PairState(ctypes.Structure):
    """struct port1_pair."""

    _fields_ = [
        ("first", ctypes.c_uint64),
        ("past", ctypes.c_uint64),
        ("waits", ctypes.c_uint32),
        ("station", ctypes.c_uint8),
        ("ftype", ctypes.c_uint8),
        ("spare", ctypes.c_uint16),
    ]


class SeenState(ctypes.Structure):
    """struct port1_seen."""

    _fields_ = [
        ("standing", ctypes.c_uint32),
        ("verdict", ctypes.c_uint32),
        ("first", ctypes.c_uint64),
        ("past", ctypes.c_uint64),
        ("stray", ctypes.c_uint32),
        ("station", ctypes.c_uint8),
        ("control", ctypes.c_uint8),
        ("ftype", ctypes.c_uint8),
        ("command_station", ctypes.c_uint8),
        ("command_type", ctypes.c_uint8),
        ("spare", ctypes.c_uint8 * 7),
    ]


# The structures by their names in C, and their sizes there.
STRUCTURES = {
    **{"port1_line": (LineState, 360), "port1_report": (ReportState, 24), "port1_sender": (SenderState, 4)},
    **{"port1_entry": (EntryState, 8), "port1_pair": (PairState, 24), "port1_seen": (SeenState, 40)},
}


def places() -> Iterator[str]:
    """Where the library may be, the likeliest first."""
    given = os.environ.get("PORT1_LIBRARY")
    if given:
        yield given
        return
    here = Path(__file__).resolve().parent
    for folder in [here, *(parent / part for parent in here.parents for part in ("lib", "crates/port1_c/out"))]:
        for name in (NAME, "libport1.so"):
            if (folder / name).is_file():
                yield str(folder / name)
    yield NAME


@lru_cache()
def loaded() -> ctypes.PyDLL:
    """The library, which is loaded once."""
    wrong = [name for name, (structure, size) in STRUCTURES.items() if ctypes.sizeof(structure) != size]
    if wrong or ctypes.sizeof(ctypes.c_void_p) != 8:
        raise NoLibrary("the library is for 64-bit Linux")
    path = next(places())
    try:
        return ctypes.PyDLL(path)
    except OSError as fault:
        raise NoLibrary(f"{fault}; `make install-library` makes it, and PORT1_LIBRARY says where it is") from None


def held_octets(octets: Octets) -> bytes:
    """The octets of an object that has some; a number, of which `bytes` would make zeros, is a TypeError."""
    return octets if isinstance(octets, bytes) else bytes(memoryview(octets))


def refusal(status: int) -> Fault:
    """The exception for a status that an object of this module does not meet with its own calls alone."""
    if status == BAD_STATE:
        return BadState("the memory holds no decoder or no sender")
    return Fault(f"the library refuses with status {status}")


def decoder_words(longest: int, origin: int) -> Tuple[ctypes.c_uint64, ctypes.c_uint64]:
    """The longest frame and the origin of a decoder, as the library gets them."""
    if not SHORTEST_LONGEST <= longest <= LONGEST:
        raise OutOfRange(f"the longest frame is of {SHORTEST_LONGEST} to {LONGEST} octets, not {longest}")
    if not 0 <= origin <= PLACES:
        raise OutOfRange(f"the origin is 0 to 2^60, not {origin}")
    return ctypes.c_uint64(longest), ctypes.c_uint64(origin)


def reported(found: ReportState, line: LineState) -> Report:
    """A report of a line, which has the octets of a frame."""
    kind = Kind(found.kind)
    if kind is Kind.FRAME:
        return Report(kind, found.first, found.past, None, bytes(line.octets[: line.count]))
    return Report(kind, found.first, found.past, Cause(found.cause) if found.cause else None)


class LineDecoder:
    """Finds the frames, damage, aborts and idle lines in the bits of one line.

    longest: the longest frame in octets, address through information, 3 to 256. origin: the place of the first bit, at
    most 2^60.
    """

    # There may be a call for each bit, so its arguments are made once, and ctypes is told no types, which it would check
    # each time: a pointer goes by `byref`, a small number as an int.

    def __init__(self, longest: int = LONGEST, origin: int = 0):
        given = decoder_words(longest, origin)
        library = loaded()
        self._state = LineState()
        self._told = ReportState()
        self._line = ctypes.byref(self._state)
        self._report = ctypes.byref(self._told)
        self._push = library.port1_line_push
        self._feed = library.port1_line_feed
        self._feed_high_first = library.port1_line_feed_high_first
        self._open = library.port1_line_open
        status = library.port1_line_init(self._line, *given)
        if status != OK:
            raise refusal(status)

    def feed(self, octets: Octets, bits: Optional[int] = None) -> Iterator[Report]:
        """Takes the bits of these octets, or the first so many, and gives the reports that they decide.

        All bits are taken when this returns, whether the reports are asked for or not. Where the places end,
        PlaceLimit comes after the reports.
        """
        held = held_octets(octets)
        end = 8 * len(held) if bits is None else bits
        if not 0 <= end <= 8 * len(held):
            raise OutOfRange(f"{len(held)} octets have no {end} bits")
        at, count, last = ctypes.c_uint64(0), ctypes.c_uint64(len(held)), ctypes.c_uint64(end)
        place, reports, status = ctypes.byref(at), [], OK
        while at.value < end and status == OK:
            status = self._feed(self._line, held, count, place, last, self._report)
            if status == OK and self._told.kind:
                reports.append(self._reported())
        if status not in (OK, PLACE_LIMIT):
            raise refusal(status)
        return told(reports, status)

    def feed_high_first(self, octets: Octets) -> Iterator[Report]:
        """Takes the bits of these octets, the highest of each first, and gives the reports that they decide.

        All bits are taken when this returns, and PlaceLimit comes as it does of `feed`.
        """
        at, reports, status = ctypes.c_uint64(0), [], OK
        place = ctypes.byref(at)
        for octet in held_octets(octets):
            at.value = 0
            while at.value < 8 and status == OK:
                status = self._feed_high_first(self._line, octet, place, self._report)
                if status == OK and self._told.kind:
                    reports.append(self._reported())
        if status not in (OK, PLACE_LIMIT):
            raise refusal(status)
        return told(reports, status)

    def push(self, bit: int) -> Optional[Report]:
        """Takes a bit, 0 or 1, and returns the report that it decides."""
        if bit not in (0, 1):
            raise OutOfRange(f"a bit is 0 or 1, not {bit}")
        status = self._push(self._line, bit, self._report)
        if status:
            raise limit() if status == PLACE_LIMIT else refusal(status)
        return self._reported() if self._told.kind else None

    def _reported(self) -> Report:
        """The report of the last call."""
        return reported(self._told, self._state)

    @property
    def longest(self) -> int:
        """The longest frame in octets, address through information."""
        return int(self._state.longest)

    @property
    def origin(self) -> int:
        """The place of the first bit."""
        return int(self._state.origin)

    @property
    def place(self) -> int:
        """The place of the next bit."""
        return int(self._state.place)

    @property
    def open(self) -> Optional[int]:
        """The place of the first bit of a piece that nothing has ended yet."""
        has_begun, first = ctypes.c_uint8(0), ctypes.c_uint64(0)
        status = self._open(self._line, ctypes.byref(has_begun), ctypes.byref(first))
        if status:
            raise refusal(status)
        return first.value if has_begun.value else None


def limit() -> PlaceLimit:
    return PlaceLimit("a bit would have the place 2^60")


def told(reports: List[Report], status: int) -> Iterator[Report]:
    """The reports, and then the limit where it was reached."""
    yield from reports
    if status == PLACE_LIMIT:
        raise limit()


class LineEncoder:
    """Makes the bits of a line from frames, flags and idle lines.

    A call returns the octets that are full; the bits after them wait for the next call, and `pending` says how many
    they are. One flag closes a frame and opens the next.
    """

    def __init__(self) -> None:
        library = loaded()
        self._library = library
        self._sender = SenderState()
        self._octets = (ctypes.c_uint8 * ROOM)()
        self._at = ctypes.c_uint64(0)
        status = library.port1_sender_init(ctypes.byref(self._sender))
        if status != OK:
            raise refusal(status)

    def flag(self) -> bytes:
        """Sends a flag, 8 bits."""
        return self._sent(self._library.port1_send_flag)

    def idle(self) -> bytes:
        """Sends fifteen ones, which make the line idle."""
        return self._sent(self._library.port1_send_idle)

    def frame(self, octets: Octets) -> bytes:
        """Sends a frame of 2 to 256 octets, address through information; its check and its flags are added."""
        held = held_octets(octets)
        if not SHORTEST_SENT <= len(held) <= LONGEST:
            raise OutOfRange(f"a frame is of {SHORTEST_SENT} to {LONGEST} octets, not {len(held)}")
        return self._sent(self._library.port1_send_frame, held, ctypes.c_uint64(len(held)))

    def end(self) -> bytes:
        """The octet that is not full, its other bits 0; none where no bits wait. What comes next begins an octet."""
        octets = bytes([self._octets[0] & ((1 << self.pending) - 1)]) if self.pending else b""
        self._at.value = 0
        return octets

    @property
    def pending(self) -> int:
        """How many bits wait for an octet to be full, 0 to 7."""
        return int(self._at.value)

    def _sent(self, call: Any, *given: Union[bytes, ctypes.c_uint64]) -> bytes:
        """Calls, and drains the buffer: the bits after the full octets go to its front."""
        bits, room = ctypes.c_uint64(0), ctypes.c_uint64(ROOM)
        named: Tuple[Any, ...] = (self._octets, room, ctypes.byref(self._at), ctypes.byref(bits))
        status = call(ctypes.byref(self._sender), *given, *named)
        if status != OK:
            raise refusal(status)
        full, rest = divmod(self._at.value, 8)
        octets = bytes(self._octets[:full])
        if rest:
            self._octets[0] = self._octets[full]
        self._at.value = rest
        return octets


class Pairing:
    """Pairs commands with their answers, by what is known of the frame types.

    It is given each report of a line in order: of one line, `line` is 0. Of two lines it is 1 for the controller's, on
    which commands wait, and 2 for that of the answers; the places of both count the same bits.
    """

    def __init__(self, entries: Mapping[int, Entry]):
        self._entries = (EntryState * TYPES)()
        for ftype, entry in entries.items():
            length, answered, window = entry
            if not (0 <= ftype < TYPES and 0 <= length < TYPES and 0 <= window < 1 << 32):
                raise OutOfRange(f"type {ftype} cannot have length {length} and window {window}")
            self._entries[ftype] = EntryState(1, length, int(answered), 0, window)
        self._library = loaded()
        self._state, self._seen = PairState(), SeenState()
        status = self._library.port1_pair_init(ctypes.byref(self._state))
        if status != OK:
            raise refusal(status)

    def take(self, report: Report, line: int = 0) -> Seen:
        """Takes a report, and says what follows from it."""
        if line not in (0, 1, 2):
            raise OutOfRange(f"a line is 0, 1 or 2, not {line}")
        given = ReportState(report.kind, report.cause or 0, report.first, report.past)
        pointers = (ctypes.byref(self._state), self._entries, ctypes.c_uint64(TYPES), line, ctypes.byref(given))
        octets = (report.octets, ctypes.c_uint64(len(report.octets)))
        status = self._library.port1_pair_take(*pointers, *octets, ctypes.byref(self._seen))
        if status == BAD_ARGUMENT:
            raise OutOfRange("a frame has at least four octets, those of the check among them")
        if status != OK:
            raise refusal(status)
        return self._found()

    def _found(self) -> Seen:
        seen = self._seen
        command = Command(seen.first, seen.past, seen.command_station, seen.command_type)
        verdict = Verdict(Outcome(seen.verdict), command) if seen.verdict else None
        if not seen.standing:
            return Seen(None, None, None, None, verdict, False)
        standing = Standing(seen.standing)
        control = seen.control if standing is Standing.OTHER_CONTROL else None
        ftype = seen.ftype if standing > Standing.UNTYPED else None
        return Seen(standing, seen.station, ftype, control, verdict, bool(seen.stray))

    @property
    def waiting(self) -> Optional[Command]:
        """The command that waits for its answer."""
        state = self._state
        return Command(state.first, state.past, state.station, state.ftype) if state.waits else None

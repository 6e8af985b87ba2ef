"""Bits of one line or two from the samples of a logic analyser, their reports, and the rule by which a line comes to
rest.

    from port1.taps import Tap, TwoClocks, Wire

    tap = Tap(first=(Wire(0), Wire(1)), second=(Wire(2, is_inverted=True), Wire(3)), hold=1)
    clocks = TwoClocks()
    for arrival in tap.feed(octets):
        report = clocks.push(arrival)
        if report is not None:
            print(arrival.line, report, pairing.take(report, arrival.line).verdict)

Line 1 is the controller's, line 2 that of the stations. Where a line's clock rises, a bit of it arrives: the level of
its data just before; of two bits in one sample line 1's comes first. An inverted clock has its falling edges taken.
"""

import ctypes
from typing import Any, List, NamedTuple, Optional, Tuple

from . import LONGEST, OK, PLACE_LIMIT, LineState, Octets, OutOfRange, PlaceLimit, Report, ReportState
from . import decoder_words, held_octets, limit, loaded, refusal, reported

__all__ = ["SILENCE", "Arrival", "Gap", "LineFacts", "Occurrences", "RestRule", "Tap", "TwoClocks", "Wire"]

# The silence that suits a traffic cabinet, in bits of line 1.
SILENCE = 40

# Bits of a sample, octets that it may have, and how many arrivals a call has room for.
WIRES = 64
WIDEST = 8
ROOM = 4096


class Wire(NamedTuple):
    """A wire: its bit of a sample, the lowest 0, and whether its level is the other one."""

    number: int
    is_inverted: bool = False


class Arrival(NamedTuple):
    """A bit that arrives, on line 1 or 2."""

    line: int
    bit: int


class Occurrences(NamedTuple):
    """Samples in which something happens, numbered from 0: how many, the first and the last, which are 0 of none."""

    count: int
    first: int
    last: int


class Gap(NamedTuple):
    """The distance of two samples, and the first of them."""

    length: int
    start: int


class LineFacts(NamedTuple):
    """What is counted of a line, by the levels that count, and these at the end.

    `data_changes_high` are changes of the data while the clock is high. `gap` is the longest distance of two bits in a
    row; `jumps` are bits whose distance to the bit before differs by more than `jump` from the distance before.
    """

    clock_changes: Occurrences
    data_changes: Occurrences
    data_changes_high: Occurrences
    bits: Occurrences
    gap: Gap
    jumps: Occurrences
    clock: int
    data: int


class WireState(ctypes.Structure):
    """struct port1_wire."""

    _fields_ = [(name, ctypes.c_uint8) for name in ("used", "number", "inverted", "spare")]


class WiresState(ctypes.Structure):
    """struct port1_wires."""

    _fields_ = [(name, WireState) for name in ("first_clock", "first_data", "second_clock", "second_data")]


class ArrivalState(ctypes.Structure):
    """struct port1_arrival."""

    _fields_ = [("line", ctypes.c_uint8), ("bit", ctypes.c_uint8)]


class OccurrencesState(ctypes.Structure):
    """struct port1_occurrences."""

    _fields_ = [(name, ctypes.c_uint64) for name in ("count", "first", "last")]


class GapState(ctypes.Structure):
    """struct port1_gap; its field `from` is no name in Python."""

    _fields_ = [("length", ctypes.c_uint64), ("from", ctypes.c_uint64)]


class LineFactsState(ctypes.Structure):
    """struct port1_line_facts."""

    _fields_ = [
        *((name, OccurrencesState) for name in ("clock_changes", "data_changes", "data_changes_high", "bits")),
        ("gap", GapState),
        ("step", ctypes.c_uint64),
        ("jumps", OccurrencesState),
    ]


class WireLevelState(ctypes.Structure):
    """struct port1_wire_level."""

    _fields_ = [("level", ctypes.c_uint32), ("others", ctypes.c_uint32)]


class TapState(ctypes.Structure):
    """struct port1_tap."""

    _fields_ = [
        ("samples", ctypes.c_uint64),
        ("jump", ctypes.c_uint64),
        ("first", LineFactsState),
        ("second", LineFactsState),
        *((name, WireLevelState) for name in ("first_clock", "first_data", "second_clock", "second_data")),
        ("hold", ctypes.c_uint32),
        ("begun", ctypes.c_uint32),
        ("wires", WiresState),
        *((name, ctypes.c_uint64) for name in ("rest", "first_until", "second_until")),
    ]


class RestState(ctypes.Structure):
    """struct port1_rest."""

    _fields_ = [(name, ctypes.c_uint64) for name in ("most", "silent", "ones")]


class ClocksState(ctypes.Structure):
    """struct port1_clocks."""

    _fields_ = [
        ("first", LineState),
        ("second", LineState),
        ("reached", ctypes.c_uint64),
        ("recent", ctypes.c_uint64 * 16),
        ("opened", ctypes.c_uint64),
    ]


# The structures by their names in C, and their sizes there.
STRUCTURES = {
    **{"port1_wire": (WireState, 4), "port1_wires": (WiresState, 16), "port1_arrival": (ArrivalState, 2)},
    **{"port1_occurrences": (OccurrencesState, 24), "port1_gap": (GapState, 16), "port1_rest": (RestState, 24)},
    **{"port1_line_facts": (LineFactsState, 144), "port1_wire_level": (WireLevelState, 8)},
    **{"port1_tap": (TapState, 384), "port1_clocks": (ClocksState, 864)},
}


def wire_state(wire: Wire) -> WireState:
    if not 0 <= wire.number < WIRES:
        raise OutOfRange(f"a wire is a bit of a sample, 0 to {WIRES - 1}, not {wire.number}")
    return WireState(1, wire.number, int(wire.is_inverted), 0)


def occurrences(state: OccurrencesState) -> Occurrences:
    return Occurrences(state.count, state.first, state.last)


class Tap:
    """Takes the bits of one line or two from samples.

    first, second: clock and data of either line. hold: a level counts once it stood in `hold` + 1 samples in a row.
    jump: by how many samples two distances of bits may differ. rest: a clock that stands for more samples has stopped,
    and fifteen ones of its line come before its next bit; with 0 none has.
    """

    def __init__(
        self,
        first: Tuple[Wire, Wire],
        second: Optional[Tuple[Wire, Wire]] = None,
        hold: int = 1,
        jump: int = 2,
        rest: int = 0,
    ):
        if not 0 <= hold < 1 << 32 or not 0 <= jump < 1 << 64 or not 0 <= rest < 1 << 64:
            raise OutOfRange(f"hold is 0 to 2^32 - 1, jump and rest 0 to 2^64 - 1, not {hold}, {jump} and {rest}")
        wires = WiresState(*(wire_state(Wire(*wire)) for wire in (*first, *(second or ()))))
        self._library = loaded()
        self._state = TapState()
        self._arrivals = (ArrivalState * ROOM)()
        self._arrived = ctypes.c_uint64(0)
        self._tap = ctypes.byref(self._state)
        given = (ctypes.byref(wires), ctypes.c_uint32(hold), ctypes.c_uint64(jump), ctypes.c_uint64(rest))
        status = self._library.port1_tap_init(self._tap, *given)
        if status != OK:
            raise refusal(status)

    def feed(self, octets: Octets, width: int = 1) -> List[Arrival]:
        """Takes samples of `width` octets each, the lowest first, and returns the bits that arrive."""
        held = held_octets(octets)
        if not 1 <= width <= WIDEST or len(held) % width:
            raise OutOfRange(f"{len(held)} octets are no samples of {width} octets, which may be 1 to {WIDEST}")
        at, found = ctypes.c_uint64(0), []
        given = (held, ctypes.c_uint64(len(held)), ctypes.c_uint32(width), ctypes.byref(at))
        while at.value < len(held) // width:
            found += self._taken(self._library.port1_tap_feed, *given)
        return found

    def push(self, sample: int, count: int = 1) -> List[Arrival]:
        """Takes a sample as often as it stands, and returns the bits that arrive."""
        if not 0 <= sample < 1 << WIRES or not 0 <= count < 1 << 64:
            raise OutOfRange(f"a sample is 0 to 2^64 - 1, and stands so often at most, not {sample}, {count} times")
        left, found = ctypes.c_uint64(count), []
        while left.value > 0:
            found += self._taken(self._library.port1_tap_push, ctypes.c_uint64(sample), ctypes.byref(left))
        return found

    def _taken(self, call: Any, *given: Any) -> List[Arrival]:
        """What arrives at a call, which ends early where there is no more room."""
        room = (self._arrivals, ctypes.c_uint64(ROOM), ctypes.byref(self._arrived))
        status = call(self._tap, *given, *room)
        if status == PLACE_LIMIT:
            raise PlaceLimit("there would be more than 2^60 samples; of this call none was taken")
        if status != OK:
            raise refusal(status)
        octets = bytes(self._arrivals)[: 2 * self._arrived.value]
        return [Arrival(line, bit) for line, bit in zip(octets[::2], octets[1::2])]

    @property
    def samples(self) -> int:
        """How many samples were taken."""
        return int(self._state.samples)

    @property
    def facts(self) -> Tuple[LineFacts, LineFacts]:
        """What was counted of either line."""
        state = self._state
        levels = [(state.first_clock, state.first_data), (state.second_clock, state.second_data)]
        return self._facts_of(state.first, *levels[0]), self._facts_of(state.second, *levels[1])

    @staticmethod
    def _facts_of(facts: LineFactsState, clock: WireLevelState, data: WireLevelState) -> LineFacts:
        counted = [facts.clock_changes, facts.data_changes, facts.data_changes_high, facts.bits]
        gap = Gap(facts.gap.length, getattr(facts.gap, "from"))
        levels = int(clock.level != 0), int(data.level != 0)
        return LineFacts(*map(occurrences, counted), gap, occurrences(facts.jumps), *levels)


def arrival_state(arrival: Arrival) -> ArrivalState:
    line, bit = arrival
    if line not in (1, 2) or bit not in (0, 1):
        raise OutOfRange(f"a line is 1 or 2 and a bit 0 or 1, not {line} and {bit}")
    return ArrivalState(line, bit)


class TwoClocks:
    """Decodes two lines with a clock each, with the reports of both in places of line 1, as `Pairing` wants them.

    longest, origin: as of LineDecoder; `origin` is the place of line 1's first bit.
    """

    def __init__(self, longest: int = LONGEST, origin: int = 0):
        given = decoder_words(longest, origin)
        self._library = loaded()
        self._state, self._report = ClocksState(), ReportState()
        status = self._library.port1_clocks_init(ctypes.byref(self._state), *given)
        if status != OK:
            raise refusal(status)

    def push(self, arrival: Arrival) -> Optional[Report]:
        """Takes a bit that arrives, and returns the report that it decides on its line."""
        given = arrival_state(arrival)
        pointers = (ctypes.byref(part) for part in (self._state, given, self._report))
        status = self._library.port1_clocks_push(*pointers)
        if status:
            raise limit() if status == PLACE_LIMIT else refusal(status)
        line = self._state.first if given.line == 1 else self._state.second
        return reported(self._report, line) if self._report.kind else None

    def open(self, line: int) -> Optional[Tuple[int, int]]:
        """Of a piece of line 1 or 2 that nothing has ended yet, the place of its first bit and that past its last."""
        if line not in (1, 2):
            raise OutOfRange(f"a line is 1 or 2, not {line}")
        has_begun, first, past = ctypes.c_uint8(0), ctypes.c_uint64(0), ctypes.c_uint64(0)
        pointers = (ctypes.byref(part) for part in (has_begun, first, past))
        status = self._library.port1_clocks_open(ctypes.byref(self._state), line, *pointers)
        if status:
            raise refusal(status)
        return (first.value, past.value) if has_begun.value else None


class RestRule:
    """Brings line 2 to rest where its clock has stopped: after `silence` bits of line 1 without one of its own."""

    def __init__(self, silence: int = SILENCE):
        if not 0 <= silence < 1 << 64:
            raise OutOfRange(f"a silence is 0 to 2^64 - 1 bits, not {silence}")
        self._library = loaded()
        self._state = RestState()
        status = self._library.port1_rest_init(ctypes.byref(self._state), ctypes.c_uint64(silence))
        if status != OK:
            raise refusal(status)

    def push(self, arrival: Arrival) -> bool:
        """Takes a bit that arrives; whether fifteen ones of line 2 arrive right after it, which are not pushed here."""
        rests = ctypes.c_uint8(0)
        given = arrival_state(arrival)
        status = self._library.port1_rest_push(ctypes.byref(self._state), ctypes.byref(given), ctypes.byref(rests))
        if status != OK:
            raise refusal(status)
        return bool(rests.value)

"""The decoder: bits from samples, annotations from reports."""

from bisect import bisect_right
from typing import Any, Dict, List, NamedTuple, Optional, Tuple

import sigrokdecode as srd

from .dictionary import Entry, entries_of, longest_of
from .library import line_decoder, pairing_by

TXC, TXD, RXC, RXD = range(4)

# Annotation classes of a line, one after the other; the second line's come after the first's.
FRAME, DAMAGE, IDLE = range(3)
CLASSES = 3
REPLY_TIME = 2 * CLASSES
NO_ANSWER = REPLY_TIME + 1

# How a bit stands in the binary output, and at the end of each line there, which has so many bits.
TEXTS = (b"0", b"1")
TEXT_ENDS = (b"0\n", b"1\n")
TEXT_WIDTH = 64

# How many bits of a line have their samples kept, at least: far more than a frame and its answer have. A multiple of
# TEXT_WIDTH.
EDGES = 1 << 16

SHORT = {"damaged": "D", "overlong": "O", "abort": "A", "idle": "I"}


class Samples(NamedTuple):
    """The samples of a piece: from the edge of its first bit to that of the bit just past it."""

    begin: int
    end: int


class Line:
    """A line of the bus: its decoder, and at which samples its bits were taken.

    It keeps the samples of the last bits, and that of the first bit of a piece that is open for longer.
    """

    def __init__(self, decoder: Any):
        self.decoder = decoder
        self.samples: List[int] = []
        self.base = 0  # the place of the first bit whose sample is kept
        self.begin = 0  # the sample of the first bit of a piece that began before that

    def take(self, sample: int, bit: int) -> Any:
        """Takes a bit, and returns the report that it decided, or None."""
        samples = self.samples
        samples.append(sample)
        if len(samples) == 2 * EDGES:
            self.forget()
        return self.decoder.push(bit)

    def forget(self) -> None:
        """Drops the older half of the samples."""
        open_piece = self.decoder.open
        if open_piece is not None:
            self.begin = self.sample_of(open_piece)
        del self.samples[:EDGES]
        self.base += EDGES

    def sample_of(self, place: int) -> int:
        """The sample of the bit at a place; of the last bit where that one has not come yet."""
        at = place - self.base
        if at < 0:
            return self.begin
        return self.samples[at] if at < len(self.samples) else self.samples[-1]

    def place_at(self, sample: int) -> int:
        """The place of the last bit taken at a sample or before it."""
        return max(self.base + bisect_right(self.samples, sample) - 1, 0)


class Decoder(srd.Decoder):
    api_version = 3
    id = "nema_port1"
    name = "Port 1"
    longname = "NEMA TS 2 Port 1"
    desc = "Bus of traffic-signal cabinets (SDLC)."
    license = "gplv3+"
    inputs = ["logic"]
    outputs: List[str] = []
    tags = ["Embedded/industrial"]
    channels = (
        {"id": "txc", "name": "TxC", "desc": "Clock of the controller's line"},
        {"id": "txd", "name": "TxD", "desc": "Data of the controller's line"},
    )
    optional_channels = (
        {"id": "rxc", "name": "RxC", "desc": "Clock of the answers (else TxC)"},
        {"id": "rxd", "name": "RxD", "desc": "Data of the answers"},
    )
    options = (
        {"id": "edge", "desc": "Edge that takes a bit", "default": "rising", "values": ("rising", "falling")},
        {"id": "dictionary", "desc": "Path of a dictionary", "default": ""},
        {"id": "longest", "desc": "Longest frame in octets (0: dictionary)", "default": 0},
    )
    annotations = (
        ("controller-frame", "Frame of the controller"),
        ("controller-damage", "Damage on the controller's line"),
        ("controller-idle", "Idle controller's line"),
        ("answer-frame", "Frame of a station"),
        ("answer-damage", "Damage on the line of the answers"),
        ("answer-idle", "Idle line of the answers"),
        ("reply-time", "Time from a command to its answer"),
        ("no-answer", "Command without its answer"),
    )
    annotation_rows = (
        ("controller-frames", "Controller", (0,)),
        ("controller-damages", "Controller: damage and idle", (1, 2)),
        ("answer-frames", "Answers", (3,)),
        ("answer-damages", "Answers: damage and idle", (4, 5)),
        ("reply-times", "Reply times", (6, 7)),
    )
    binary = (
        ("bits", "Bits of the controller's line, as text"), ("answer-bits", "Bits of the line of the answers, as text")
    )

    def __init__(self) -> None:
        self.reset()

    def reset(self) -> None:
        self.samplerate: Optional[int] = None
        self.lines: List[Line] = []

    def metadata(self, key: int, value: Any) -> None:
        if key == srd.SRD_CONF_SAMPLERATE:
            self.samplerate = value

    def start(self) -> None:
        self.annotation = self.register(srd.OUTPUT_ANN)
        self.text = self.register(srd.OUTPUT_BINARY)
        path = self.options["dictionary"]
        self.entries: Optional[Dict[int, Entry]] = entries_of(path) if path else None
        entries = self.entries or {}
        self.lines = [Line(line_decoder(self.options["longest"] or longest_of(entries))) for _ in range(2)]
        self.pairing = pairing_by(entries)
        self.command = Samples(0, 0)  # of the controller's last frame, which may be a command
        self.has_second = bool(self.has_channel(RXD))

    def placed(self, report: Any) -> Any:
        """A report of the answers' line, in places of the controller's."""
        first, second = self.lines
        begin, last = (first.place_at(second.sample_of(place)) for place in (report.first, report.past - 1))
        return report._replace(first=begin, past=last + 1)

    def name_of(self, seen: Any) -> str:
        """What the dictionary calls the type of a frame."""
        if self.entries is None:
            return ""
        standing = seen.standing.name
        if standing == "KNOWN":
            return self.entries[seen.ftype].name
        return "length" if standing == "WRONG_LENGTH" else "unknown"

    def frame_texts(self, octets: bytes, seen: Any) -> List[str]:
        """What is shown of a frame, the longest first; the longest is that of the listing of port1."""
        frame = f"frame {octets.hex()}"
        if seen.ftype is None:
            standing = "untyped" if seen.control is None else f"control {seen.control}"
            return [frame if self.entries is None else f"{frame} {standing}", standing, "F"]
        name = self.name_of(seen)
        standing = f"station {seen.station} type {seen.ftype} {name}".rstrip()
        name = name or f"type {seen.ftype}"
        return [f"{frame} {standing}", standing, f"{name} {seen.station}", name, str(seen.ftype)]

    def show_verdict(self, verdict: Any, first: int, begin: int) -> None:
        """The time to the answer, which begins at a place and a sample, or that there is none."""
        outcome, command = verdict
        texts = [outcome.name.lower()]
        if texts[0] not in ("answered", "late"):
            texts = [f"{texts[0]} station {command.station} type {command.ftype}", *texts]
            self.put(*self.command, self.annotation, [NO_ANSWER, texts])
            return
        if begin < self.command.end:
            return
        late = ", late" if texts[0] == "late" else ""
        bits = f"{first - command.past} bits"
        texts = [bits + late]
        if self.samplerate:
            milliseconds = f"{(begin - self.command.end) * 1000 / self.samplerate:.3f} ms"
            texts = [f"{milliseconds}, {bits}{late}", milliseconds + late]
        self.put(self.command.end, begin, self.annotation, [REPLY_TIME, texts])

    def show(self, number: int, report: Any) -> None:
        """Shows a report of a line, and what the library finds to follow from it."""
        line = self.lines[number]
        kind = report.kind.name.lower()
        begin, end = line.sample_of(report.first), line.sample_of(report.past)
        report = self.placed(report) if number else report
        seen = self.pairing.take(report, number + 1 if self.has_second else 0)
        if kind == "frame":
            shown, texts = FRAME, self.frame_texts(report.octets, seen)
        else:
            words = f"{kind} {report.cause.name.lower()}" if report.cause else kind
            shown, texts = IDLE if kind == "idle" else DAMAGE, [words, kind, SHORT[kind]]
        self.put(begin, end, self.annotation, [CLASSES * number + shown, texts])
        if seen.verdict:
            self.show_verdict(seen.verdict, report.first, begin)
        if kind == "frame" and number == 0:
            self.command = Samples(begin, end)

    def take(self, number: int, bit: int) -> None:
        """Takes a bit of a line at this sample. Nothing says when the samples end, so its text is not held back."""
        line, sample = self.lines[number], self.samplenum
        report = line.take(sample, bit)
        text = TEXTS[bit] if len(line.samples) % TEXT_WIDTH else TEXT_ENDS[bit]
        self.put(sample, sample, self.text, [number, text])
        if report is not None:
            self.show(number, report)

    def edges_of(self, clock: int, data: int) -> Tuple[dict, dict]:
        """Each edge of a clock, and those where the data changes at the same sample."""
        edge = self.options["edge"][0]
        return {clock: edge}, {clock: edge, data: "e"}

    def decode(self) -> None:
        conditions = list(self.edges_of(TXC, TXD))
        if self.has_second:
            conditions += self.edges_of(RXC if self.has_channel(RXC) else TXC, RXD)
        while True:
            pins = self.wait(conditions)
            matched = self.matched
            if matched[0]:
                self.take(0, pins[TXD] ^ matched[1])
            if self.has_second and matched[2]:
                self.take(1, pins[RXD] ^ matched[3])

"""What the page says of each input.

Expected words come from what was put into the files: talks whose faults are known, and recordings that are spoilt.
"""

import io
import json
import re
import sys
import tempfile
import zipfile
from pathlib import Path
from typing import Callable, Dict, Iterator, List, NamedTuple, Sequence, Tuple

import browser
from paged import TOP, address_of, opened, read_file

sys.path.insert(0, str(TOP / "scripts" / "tests" / "simulated"))

from failing_bus import CONTROL, FLAG, RATE
from table.captures import sent


class Line:
    """A line of the bus that rests at 1 where nothing is sent."""

    def __init__(self, milliseconds: float) -> None:
        self.bits = ["1"] * round(milliseconds * RATE / 1000)

    def send(self, at: float, *octets: int) -> float:
        """Sends a frame whose first bit comes after so many milliseconds; when its last bit has gone."""
        bits = sent(bytes(octets))
        first = round(at * RATE / 1000)
        self.bits[first - len(FLAG) : first + len(bits) + len(FLAG)] = FLAG + bits + FLAG
        return (first + len(bits)) * 1000 / RATE


# What a station does in a round: after how many milliseconds it answers, or that it does not, or that it is not asked.
NO_ANSWER, NOT_ASKED = -1.0, -2.0
Habit = Callable[[int, int], float]


def talk(rounds: int, habit: Habit, rest: float = 0.0) -> Tuple[Line, Line]:
    """Both lines of a talk in which stations 1 and 2 are asked each 20 ms, and then rest for some milliseconds."""
    commands, answers = Line(20 * rounds + rest + 20), Line(20 * rounds + rest + 20)
    for round_number in range(rounds):
        for station in (1, 2):
            reply = habit(station, round_number)
            at = 20 * round_number + 10 * (station - 1) + 1
            if reply == NOT_ASKED:
                continue
            past = commands.send(at, station, CONTROL, 0)
            if reply != NO_ANSWER:
                answers.send(past + reply, station, CONTROL, 128)
    return commands, answers


def text_of(commands: Line, answers: Line) -> bytes:
    """A capture of two lines."""
    return "".join(str(int(one) + 2 * int(other)) for one, other in zip(commands.bits, answers.bits)).encode()


def well(_: int, __: int) -> float:
    return 1.0


def dictionary(window: str = "window = 768\n") -> bytes:
    """One type of command, which is to be answered within five milliseconds, or without a word of that."""
    call = f'[[frame]]\ntype = 0\nname = "call"\nlength = 0\nanswered = true\n{window}'
    return f'version = 2\n{call}[[frame]]\ntype = 128\nname = "reply"\nlength = 0\n'.encode()


def levels_of(lines: Sequence[Line]) -> Iterator[int]:
    """The four wires of a talk: TXC, TXD, RXC, RXD in the bits 0 to 3, two samples a bit; clocks rise in the middle."""
    for one, other in zip(*(line.bits for line in lines)):
        data = int(one) << 1 | int(other) << 3
        yield data
        yield data | 0b0101


NAMES = ("TXC", "TXD", "RXC", "RXD")


# How many samples of a session have the same levels: of a bit there are twice as many.
ALIKE = 4


def session_of(lines: Sequence[Line], names: Sequence[str] = NAMES, lost: Sequence[int] = ()) -> bytes:
    """A session as PulseView saves it; some samples may be lost."""
    probes = "".join(f"probe{at}={name}\n" for at, name in enumerate(names, 1))
    rate = f"samplerate={2 * ALIKE * RATE} Hz"
    written = io.BytesIO()
    with zipfile.ZipFile(written, "w", zipfile.ZIP_DEFLATED) as archive:
        archive.writestr("version", "2")
        archive.writestr("metadata", f"[device 1]\ncapturefile=logic-1\n{rate}\n{probes}unitsize=1\n")
        samples = bytearray(level for level in levels_of(lines) for _ in range(ALIKE))
        for at in reversed(lost):
            del samples[at]
        archive.writestr("logic-1-1", bytes(samples))
    return written.getvalue()


def with_stops(levels: Iterator[int], stops: Dict[int, int]) -> Iterator[int]:
    """Levels of which those at some numbers stand for so many samples more, as where all clocks stop."""
    for at, level in enumerate(levels):
        yield from [level] * (1 + stops.get(at, 0))


def rows_of(
    lines: Sequence[Line], names: Sequence[str] = NAMES, flipped: int = 0, stops: Dict[int, int] = {}, dead: int = 0
) -> bytes:
    """A table as sigrok writes it; some wires may be inverted or dead, and all may stand still at some samples."""
    head = f"; Channels (4/4): {', '.join(names)}\n; Samplerate: {2 * RATE}\n{','.join(['logic'] * 4)}\n"
    rows = (level & ~dead ^ flipped for level in with_stops(levels_of(lines), stops))
    return (head + "".join(",".join(str(row >> at & 1) for at in range(4)) + "\n" for row in rows)).encode()


def dump_of(lines: Sequence[Line]) -> bytes:
    """A value change dump, a time for each sample."""
    head = "$timescale 1 us $end\n" + "".join(f"$var wire 1 {at} {name} $end\n" for at, name in enumerate(NAMES))
    levels = enumerate(levels_of(lines))
    rows = (f"#{3 * at} " + " ".join(f"{level >> wire & 1}{wire}" for wire in range(4)) for at, level in levels)
    return (head + "$enddefinitions $end\n" + "\n".join(rows) + "\n").encode()


def cut_in_time(dump: bytes) -> bytes:
    """A dump that ends within its last time."""
    return dump[: dump.rindex(b"#") + 3]


# What is said of inputs.


class Input(NamedTuple):
    """Files that are dropped, and what is then to be read: the verdict, and where else which words."""

    name: str
    files: Dict[str, bytes]
    verdict: str
    words: Dict[str, str]  # patterns, by what has the text


WELL = text_of(*talk(60, well))
SHORT = talk(10, well)
ONE_MISSING = text_of(*talk(120, lambda station, number: NO_ANSWER if (station, number) == (1, 50) else 1.0))
OFTEN_MISSING = text_of(*talk(60, lambda station, number: NO_ANSWER if (station, number) == (1, 50) else 1.0))
SLOW = text_of(*talk(60, lambda station, number: 4.0 if station == 2 and number in (7, 30) else 1.0))
LATE = text_of(*talk(60, lambda station, number: 6.0 if station == 2 and number in (7, 30) else 1.0))
QUIET = text_of(*talk(60, lambda _, number: NOT_ASKED if 30 <= number < 40 else 1.0))
MANY_GAPS = text_of(*talk(600, lambda _, number: NOT_ASKED if number % 40 >= 35 else 1.0))
MUTE = text_of(*talk(60, lambda _, number: NO_ANSWER if number >= 30 else 1.0))
SILENT = text_of(*talk(60, lambda station, _: NO_ANSWER if station == 2 else 1.0))
NO_ANSWERS = text_of(*talk(60, lambda *_: NO_ANSWER))
SWAPPED = text_of(*reversed(talk(60, well)))
UNTYPED = (FLAG + sent(bytes([1, CONTROL])) + FLAG).encode()
DEAD = text_of(*talk(60, well, rest=2000))

SEVERAL = text_of(*talk(120, lambda station, number: NO_ANSWER if number == 50 and station == 2 else 6.0 if number == 7 else 1.0))

# Two samples a bit: TXC stands still for 0.05 s after 0.06 s, and for 0.1 s after 0.14 s.
STOPS = {round(2 * RATE * second): round(2 * RATE * length) for second, length in [(0.06, 0.05), (0.14, 0.1)]}

# Half a bit within the first command of the sixth round.
LOST = [round(2 * ALIKE * RATE * 0.10115) + at for at in range(ALIKE)]

DICT = {"cabinet.toml": dictionary()}
OPEN = {"open.toml": dictionary("")}
NOT_LATE = {"#counts": "0missing\u2013late0spoilt", "#replies p": "none is judged late"}
FIRST, SHORTLY, LACKS, STATUS = "#sentences .jump", "#verdict-short", "#lacks", "#status"

INPUTS = [
    Input(
        "all is well", {**DICT, "a.bits": WELL}, "No fault found",
        {SHORTLY: "^Every answer came in time", "#counts": "^0gaps0missing0late0spoilt0damaged$", "#replies p": "0 late"},
    ),
    Input(
        "no dictionary", {"a.bits": WELL}, "Not all judged",
        {LACKS: "^Nothing is damaged, missing or spoilt.*Judged by a draft of a dictionary.*See it", **NOT_LATE},
    ),
    Input(
        "one in 60 missing, and no dictionary", {"a.bits": OFTEN_MISSING}, "Fault",
        {FIRST: r"^Station 1 gave no answer to 1 of 60 commands of type 0(?! \()"},
    ),
    Input("a silent station, and no dictionary", {"a.bits": SILENT}, "Fault", {FIRST: "^Station 2 is silent"}),
    Input("frames without a type", {"a.bits": UNTYPED}, "Not judged", {LACKS: "There is no dictionary"}),
    Input(
        "no window", {**OPEN, "a.bits": WELL}, "Not all judged",
        {SHORTLY: "^No reply was judged late", LACKS: "^Nothing is damaged, missing or spoilt, and no gap", **NOT_LATE},
    ),
    Input(
        "slow replies, and no window", {**OPEN, "a.bits": SLOW}, "Look closer",
        {FIRST: "^Station 2 took 4 ms for 2 of 60 answers.*usual", LACKS: "^No reply was judged late"},
    ),
    Input("late replies", {**DICT, "a.bits": LATE}, "Look closer", {FIRST: "^Station 2 answered 2 of 60"}),
    Input("one in 120 missing", {**DICT, "a.bits": ONE_MISSING}, "Look closer", {FIRST: "to 1 of 120"}),
    Input("one in 60 missing", {**DICT, "a.bits": OFTEN_MISSING}, "Fault", {FIRST: "to 1 of 60"}),
    Input("a silent station", {**DICT, "a.bits": SILENT}, "Fault", {FIRST: "^Station 2 is silent"}),
    Input("no command for 200 ms", {**DICT, "a.bits": QUIET}, "Fault", {SHORTLY: "^No command at all for 2"}),
    Input("no answer from 0.6 s on", {**DICT, "a.bits": MUTE}, "Fault", {FIRST: "^No station answered from 0.60"}),
    Input("nothing on line 2", {**DICT, "a.bits": NO_ANSWERS}, "Fault", {FIRST: "^No frame came on line 2"}),
    Input("lines exchanged", {**DICT, "a.bits": SWAPPED}, "Fault", {FIRST: "^120 commands came on line 2"}),
    Input("a dead end", {**DICT, "a.bits": DEAD}, "Fault", {FIRST: "^Nothing came on either line from 1.19"}),
    Input(
        "a session of PulseView", {**DICT, "tap.sr": session_of(SHORT)}, "No fault found",
        {"#head": "^40 frames", "#command": r"recording-to-bits TXC TXD RXC RXD < tap.sr \| port1 list --bits --arrivals"},
    ),
    Input(
        "channels without names", {**DICT, "d.sr": session_of(SHORT, ["D0", "D1", "D2", "D3"])}, "No fault found",
        {"#guess": "^The channels D0, D1, D2, D3 were taken for TXC, TXD, RXC, RXD, in this order"},
    ),
    Input(
        "channels out of order, and without names",
        {**DICT, "d.csv": rows_of(talk(10, well), ["D2", "D3", "D0", "D1"])}, "Fault",
        {FIRST: "came on line 2", "#channels": "D0"},
    ),
    Input(
        "wires of the answers exchanged", {**DICT, "d.csv": rows_of(SHORT, ["D0", "D1", "D3", "D2"])}, "Fault",
        {SHORTLY: "^Wires seem to be in each other's place . No station answers$", "#warnings": "D3 has the edges of a clock"},
    ),
    Input(
        "clocks inverted", {**DICT, "tap.csv": rows_of(SHORT, flipped=0b0101)}, "",
        {"#warnings": "^The recording is doubtful.*just where a bit is taken.*Take the bits at the other edge"},
    ),
    Input(
        "answers inverted", {**DICT, "tap.csv": rows_of(SHORT, flipped=0b1000)}, "",
        {"#warnings": "RXD rests at 0.*two wires may be exchanged.*Read it inverted"},
    ),
    Input(
        "a wire that never changes", {**DICT, "tap.csv": rows_of((SHORT[0], Line(220)))}, "",
        {"#warnings": "RXD never changes.*Is it the right channel"},
    ),
    Input(
        "several findings", {**DICT, "a.bits": SEVERAL}, "Look closer",
        {SHORTLY: "^Station 2: 1 answer missing . Station 1: 1 answer late . 1 more finding$"},
    ),
    Input(
        "a clock that stops twice", {**DICT, "tap.csv": rows_of(SHORT, stops=STOPS)}, "",
        {
            "#warnings": r"TXC stops, and times with it: in the end they are 0\.150 s too early\. 2 times, for longest at 0\.140 s",
            "#facts": r"0\.370 s, 0\.220 s of them with a clock",
            "#head": r"in 0\.370 s, 0\.220 s of them with a clock",
        },
    ),
    Input(
        "a clock that is dead", {**DICT, "tap.csv": rows_of(SHORT, dead=0b0001)}, "",
        {"#warnings": "TXC never changes", "#facts": r"0\.220 s, 0\.000 s of them with a clock"},
    ),
    Input(
        "samples that are lost within a frame", {**DICT, "tap.sr": session_of(SHORT, lost=LOST)}, "",
        {"#warnings": "The analyser lost samples", "#head": "damaged pieces?, beside [1-9] where the recording lacks samples,"},
    ),
    Input(
        "channels of other numbers", {**DICT, "saleae.csv": rows_of(SHORT, [f"Channel {at}" for at in range(4)])}, "",
        {"#ask": "^saleae.csv has 4 channels", STATUS: "^Say which channels the recording has"},
    ),
    Input(
        "a table that is cut off", {**DICT, "tap.csv": rows_of(SHORT)[:-4]}, "Look closer",
        {"#warnings": "ends in the middle of a line.*save it whole", "#head": "^40 frames"},
    ),
    Input(
        "a dump that is cut off", {**DICT, "tap.vcd": cut_in_time(dump_of(SHORT))}, "Look closer",
        {"#warnings": "ends in the middle of a line", "#head": "^40 frames"},
    ),
    Input("a session that is cut off", {"tap.sr": session_of(SHORT)[:-400]}, "", {STATUS: "^tap.sr: The session is cut off"}),
    Input(
        "a capture that is cut off", {"a.ts2": b"TS2BITS1" + (90).to_bytes(8, "little") + b"\x7e\x7e"}, "Look closer",
        {"#fault": "^The file is cut off.*port1: capture: short body$"},
    ),
    Input("an empty file", {"empty.csv": b""}, "", {STATUS: "^empty.csv is empty"}),
    Input("a picture", {"tap.png": b"\x89PNG\r\n\x1a\n\0\0"}, "", {STATUS: "^tap.png is a picture"}),
    Input("words", {"notes.txt": b"station 16 flashes\n"}, "", {STATUS: "^notes.txt is text, but no capture"}),
    Input("a dictionary alone", DICT, "", {STATUS: "^The dictionary is kept. Now drop a recording.$"}),
    Input(
        "what cannot be read beside what can", {**DICT, "a.bits": WELL, "notes.txt": b"station 16 flashes\n"},
        "No fault found", {STATUS: "^notes.txt is text, but no capture"},
    ),
]


def text_at(session: browser.Session, selector: str) -> str:
    found: str = session.value(f"document.querySelector({json.dumps(selector)})?.textContent ?? ''")
    return re.sub(r"\s+", " ", found).strip()


def problems_of_input(session: browser.Session, given: Input) -> Iterator[str]:
    with tempfile.TemporaryDirectory(prefix="port1-") as folder:
        files = [Path(folder, name) for name in given.files]
        for file, octets in zip(files, given.files.values()):
            file.write_bytes(octets)
        read_file(session, files)
        word = text_at(session, "#result:not([hidden]) #verdict-word")
        if given.verdict and given.verdict != word:
            yield f"the verdict is {word!r}"
        for selector, pattern in given.words.items():
            text = text_at(session, selector)
            if not re.search(pattern, text):
                yield f"{selector} is {text[:300]!r}"


def problems_of_inputs(page: Path, name: str) -> List[str]:
    """Whether each input is named for what it is."""
    problems = []
    with opened(name, address_of(page)) as session:
        for given in INPUTS:
            session.visit(address_of(page))
            problems += [f"{given.name}: {problem}" for problem in problems_of_input(session, given)]
        return problems + [f"the console says {text}" for text in session.complaints()]

"""Writes small recordings: heads, names, times, cells and words of every kind, by hand, and faults of each."""

import json
import random
import sys
from typing import Iterator, List, NamedTuple, Sequence, Tuple

BITS = "0111111000010110111110"

LEVELS = [f"{clock},{bit}" for bit in BITS for clock in (0, 1)]


class Text(NamedTuple):
    """A recording, and which channels of it are taken."""

    form: str
    octets: bytes
    channels: Sequence[str]


def table(head: str, rows: Sequence[str] = LEVELS, channels: Sequence[str] = ("a", "b")) -> Text:
    return Text("csv", (head + "".join(f"{row}\n" for row in rows)).encode("utf-8", "surrogateescape"), channels)


def timed(times: Sequence[str], head: str = "Time [s],a,b\n") -> Text:
    return table(head, [f"{time},{levels}" for time, levels in zip(times, LEVELS)])


HEADS = [
    "a,b\n",
    "\ufeffa,b\n",
    "\ufeff; Samplerate: 2 MHz\n\ufeffa,b\n",
    '"a","b"\n',
    '"\u00a0a\u00a0" ,\u2003b\n',
    ";Channels: a , b\n;Samplerate:4M\n",
    "; Channels (2/2): a, b\n; Samplerate: 2.5 kHz\nlogic,logic\n",
    "; Samplerate: 1 MHz\na,b\n; Samplerate: 8\n",
    "; Samplerate: 0.4 Hz\na,b\n",
    "; Samplerate: fast\na,b\n",
    "; Samplerate: it's \\ fa\"st\u200b\u00e9\x07\n",
    "; Samplerate: it's\n",
    "; Samplerate\na,b\n",
    "; Channels\n",
    "other,head\na,b\n",
    "\n\n \n a , b \n",
    "a,a\n",
    "b,a,a,b\n",
    "Time\n",
    "Time [s]\n",
    "Time [h]\n",
    "a a, b\n",
    "",
]

UNITS = ["Time [s]", "Time[s]", "time [US]", " TIME [ns] ", "Seconds", "Microseconds", "ps", "fs", "s", "Time [h]"]
UNITS += ["Milliseconds", "nanoseconds", "Picoseconds", "time [ms]"]
UNITS += ["Time(s)", "Time", "timer", "a", "Time [m s]", '"Time [s]"', "Time's \"unit\""]

NAMES: List[Tuple[str, ...]] = [("0", "1"), ("1", "0"), ("01", "+1"), ("2", "0"), ("a", "c"), (" a ", "b\t")]
NAMES += [("a", "a"), ("", "a"), ("\u0660", "a"), ("a", "b", "a"), ("a", "b", "b", "a"), ("9" * 30, "a")]

CELLS = ["1", "0", " 1 ", "\t0", "\u00a01", "x", "", "2", "01", '"1"', "1\x1c", "\x000", "\udce91", "\u20281"]
CELLS += ["1 1", "\ufeff1"]

TIMES = ["1", "1.5", "-1", "+1", ".5", "1.", "1e-3", "1_0", "1__0", "_1", "0x1", "inf", "nan", "", " 1\t"]
TIMES += ["1 1", "1e400", "9007199.254740991", "0.00000000050", "\u0661", "1,", "--1", "1.2.3", "."]

SCALES = ["1us", "1 ns", "100 ns", "10 ps", "3fs", "1 s", "2s", "1 h", "", "us", "1  us x", "1000000 us"]

DEFINITIONS = [
    "$var wire 1 ! a $end $var wire 1 \" b $end",
    "$var wire 1 ! a [0] $end $var reg 1 \" b[3:0] $end $var wire 8 # a $end",
    "$var wire 1 ! a $end $var wire 1 \" b $end $var wire 1 # b $end",
    "$var wire 1 ! a $end $var wire 1 ! b $end",
    "$var wire 1 ! a $end $var wire 1 ! a $end $var wire 1 \" b [1] $end $var wire 1 \" b $end",
    "$var wire 1 ! $end $var wire 1 \" b $end",
    "$var wire 1 ! a b $end $var wire 1 \" b $end",
    "$comment $var wire 1 ! z $end $end junk $var wire 1 ! a $end $scope x $end $var wire 1 \" b $end",
    "$var wire 2 ! a $end",
    "$var wire 1 ! a[1][0] $end $var wire 1 \" b [1] [0] $end",
    "$var wire 1 ! ] $end $var wire 1 \" [] $end $var wire 1 # a] $end $var wire 1 $ [1]b $end",
    "$var wire 1 ! \ufeffa $end $var wire 1 \" b $end",
    "",
]

CHANGES = "#0 0! 0\" #10 1! #20 0! 1\" #30 1! #40 0! #50 1! #60 0! 0\" #70 1! #80 0!"

LONG_CHANGES = " ".join(
    word + "0" * 13 if word[0] == "#" else word
    for word in f'{CHANGES} #81 1" #82 0" #90 1! #100 0!'.split(" ")
)

WORDS = ["b1 !", "b0 \"", "B1 !", "r0 !", "b10 !", "b !", "b 1!", "b01\" !", "bx \"", "$comment 1! #5 $end", "$dumpon"]
WORDS += ["x!", "Z\"", "x\"", "1", "0", "#", "1!!", "$end", "$comment", "b1", "#1_00", "#+100", "#-5", "#1__0", "#x"]
WORDS += ["#9007199254740991", "\udcff\udcfe!", "#\udcff", "#\u0661", "#0001000", "#1.5"]


def dump(scale: str, definitions: str, changes: str, channels: Sequence[str] = ("a", "b")) -> Text:
    words = f"$timescale {scale} $end {definitions} $enddefinitions $end\n{changes}"
    return Text("vcd", words.encode("utf-8", "surrogateescape"), channels)


def tables() -> Iterator[Text]:
    yield from (table(head) for head in HEADS)
    yield from (table(head, []) for head in HEADS)
    rows = [f"{8 * at},{levels}" for at, levels in enumerate(LEVELS)] + ["352,0,1", "353,0,0", "354,0,1", "360,1,1"]
    yield from (table(f"{unit},a,b\n", rows) for unit in UNITS)
    long = [f"{time}{'0' * 9},{levels}" for time, _, levels in (row.partition(",") for row in rows)]
    yield from (table(f"{unit},a,b\n", long) for unit in ("Picoseconds", "ps", "fs", "Nanoseconds", "us", "Time [ms]"))
    yield table("a,b,c,d\n", ["0,1,0,1"] * 5, ("a", "b", "c", "d"))
    yield from (timed([f"{at * 0.0078125 + 0.5}" for at in range(44)], f"{unit},a,b\n") for unit in UNITS)
    yield from (table("; Samplerate: 128\na,b\n", LEVELS, channels) for channels in NAMES)
    yield from (timed([str(at) for at in range(at)] + [time] * (44 - at)) for time in TIMES for at in (0, 1, 3))
    for cell in CELLS:
        yield table("a,b\n", [*LEVELS[:9], f"1,{cell}", f"{cell},1", f"1,{cell}", "0,0", "1,0", "0,1", "1,1"])
        yield table("Time [s],a,b\n", ["1,0,0", f"2,1,{cell}\r", f"3,0,{cell}", "4,1,1", "5,0,0"])
    for rows in (["0,0", "1", "1,1"], ["0,0", "", "1,1"], ["0,0,7", "1,1,,,", "0,1"], ["1", "2"], [""], [","]):
        yield table("a,b\n", rows)
        yield table("Time [s],a,b\n", [f"1,{row}" for row in rows])
        yield table("Time [s],a,b\n", ["1,,", "2,,", "3,", "4", *rows])


def dumps() -> Iterator[Text]:
    yield from (dump(scale, DEFINITIONS[0], LONG_CHANGES) for scale in SCALES)
    names: List[Tuple[str, ...]] = [("a", "b"), ("a [0]", "b"), ("a  [0]", "b[3:0]"), ("a b", "b"), ("0", "1")]
    names += [("", "b"), ("a[1]", "b [1]"), ("]", "[1]b"), ("a]", "")]
    yield from (dump("1us", known, CHANGES, some) for known in DEFINITIONS for some in names)
    parts = CHANGES.split(" ")
    for word in WORDS:
        for at in (0, 1, 5, 10, len(parts)):
            yield dump("1us", DEFINITIONS[0], " ".join([*parts[:at], word, *parts[at:]]))
            yield dump("1us", DEFINITIONS[0], "\v".join([*parts[:at], word, *parts[at:]]) + "\f")
    for text in ("", "$", "$enddefinitions", "$enddefinitions ", "$var", "$timescale 1 us", "#5"):
        yield Text("vcd", text.encode(), ("a", "b"))


def broken(count: int) -> Iterator[Text]:
    """Small recordings in which some octets were left out, put in or replaced."""
    sources = [table("; Samplerate: 1 MHz\na,b\n"), timed([f"{at * 1e-6:.9f}" for at in range(44)])]
    sources += [dump("1us", DEFINITIONS[0], CHANGES), dump("1us", DEFINITIONS[1], CHANGES, ("b", "a"))]
    for seed in range(count):
        generator = random.Random(seed)
        source = generator.choice(sources)
        yield source._replace(octets=spoilt(source.octets, generator))


def spoilt(octets: bytes, generator: random.Random) -> bytes:
    """Octets some of which were left out, put in or replaced."""
    spoiling = bytearray(octets)
    for _ in range(generator.choice([1, 1, 2, 5])):
        at = generator.randrange(len(spoiling))
        octet = generator.choice(b"01,#!\"\n\r ;:$bx.-+_e[]\t\x00\xff\xc3\xa9" + octets[:1000])
        spoiling[at : at + generator.randrange(3)] = bytes([octet] * generator.randrange(3))
    return bytes(spoiling)


def texts() -> Iterator[Text]:
    yield from tables()
    yield from dumps()
    yield from broken(300)


json.dump([[form, octets.decode("latin-1"), channels] for form, octets, channels in texts()], sys.stdout)

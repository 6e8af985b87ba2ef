"""Tables of inputs: recordings with faults of the analyser or of their file, and texts as people have them.

On the bus of a recording nothing is wrong: what is said of each is in the table, and no station is blamed. Texts are
read alike however they are written, or refused in one short line.
"""

import io
import re
import zipfile
from functools import lru_cache
from pathlib import Path
from typing import Callable, Dict, Iterator, List, NamedTuple, Sequence, Tuple

import numpy as np
from tests.case import DICTIONARY, TOP, Word, listed, ran
from tests.simulated import cabinet
from tests.simulated.cabinet import Cabinet, HealthyBus

NAMES = ["TXC", "TXD", "RXC", "RXD"]

POLLS = 24

# A loss is told within so many bits of its place.
NEAR = 200


@lru_cache(maxsize=None)
def healthy(samples: int, jitter: int = 0) -> np.ndarray:
    """So many samples a second of a bus on which all commands are answered."""
    return HealthyBus(Cabinet(5, 80, True, samples, POLLS, jitter)).samples()


def changes_of(samples: np.ndarray) -> np.ndarray:
    return np.flatnonzero(np.concatenate(([True], np.diff(samples) != 0)))


def dump(samples: np.ndarray, rate: int) -> bytes:
    """A value change dump, whose times are whole microseconds up to 1 MHz and nanoseconds above, as sigrok's are."""
    scale, ticks = ("1 us", 1_000_000) if rate <= 1_000_000 else ("1 ns", 1_000_000_000)
    words = [f"$timescale {scale} $end"]
    words += [f"$var wire 1 {code} {name} $end" for code, name in zip("abcd", NAMES)] + ["$enddefinitions $end"]
    for at in changes_of(samples):
        levels = " ".join(f"{samples[at] >> wire & 1}{code}" for wire, code in enumerate("abcd"))
        words.append(f"#{int(at) * ticks // rate} {levels}")
    return "".join(f"{word}\n" for word in words).encode()


def table(samples: np.ndarray, rate: int, time: str = "{:.9f}") -> bytes:
    """A table with a row for each change, as Logic exports it."""
    rows = [",".join(["Time [s]", *NAMES])]
    for at in changes_of(samples):
        rows.append(",".join([time.format(at / rate), *(str(samples[at] >> wire & 1) for wire in range(4))]))
    return "".join(f"{row}\n" for row in rows).encode()


def analog_table(samples: np.ndarray, rate: int) -> bytes:
    """A table of the wires' volts."""
    rows = [",".join(["Time [s]", *NAMES])]
    for at in range(1000):
        volts = [f"{3.29 * (samples[at] >> wire & 1) + 0.013:.3f}" for wire in range(4)]
        rows.append(",".join([f"{at / rate:.9f}", *volts]))
    return "".join(f"{row}\n" for row in rows).encode()


def samples_in(octets: bytes) -> np.ndarray:
    return np.frombuffer(bytes(octets), dtype=np.uint8)


def session(samples: np.ndarray, rate: int, lacking: Sequence[int] = (), wrong: int = 0) -> bytes:
    """A session of sigrok, its samples in three parts, some of which are lacking; one may have other samples."""
    made = io.BytesIO()
    probes = "".join(f"probe{at}={name}\n" for at, name in enumerate(NAMES, 1))
    with zipfile.ZipFile(made, "w", zipfile.ZIP_STORED) as archive:
        archive.writestr("version", "2")
        device = f"capturefile=logic-1\ntotal probes=4\nsamplerate={rate}\n{probes}unitsize=1\n"
        archive.writestr("metadata", f"[global]\nsigrok version=0.5.2\n\n[device 1]\n{device}")
        parts = np.array_split(samples, 3)
        for number, part in enumerate(parts, 1):
            if number not in lacking:
                archive.writestr(f"logic-1-{number}", part.tobytes())
    octets = bytearray(made.getvalue())
    if wrong:
        part = parts[wrong - 1].tobytes()
        begin, count = octets.index(part) + len(part) // 4, len(part) // 2
        octets[begin : begin + count] = (samples_in(octets[begin : begin + count]) ^ 2).tobytes()
    return bytes(octets)


class Lossy(NamedTuple):
    """Samples of which some are lacking, and the numbers of the bits that come there."""

    samples: np.ndarray
    places: List[int]


def lossy(samples: np.ndarray, rate: int, count: int) -> Lossy:
    """Loses so many stretches, each a number of bits that is not whole, in a part of the recording each."""
    generator, left, places, bit = np.random.default_rng(count), [], [], rate / cabinet.RATE
    kept = np.array_split(samples, count + 1)
    for number, part in enumerate(kept):
        lost = round((generator.integers(100, 400) + generator.uniform(0.2, 0.8)) * bit) if number else 0
        left.append(part[lost:])
    rises = [np.count_nonzero(np.diff(part & 1) == 1) for part in left]
    places = list(np.cumsum(rises)[:-1])
    return Lossy(np.concatenate(left), [int(place) for place in places])


class Row(NamedTuple):
    """A recording, and what is said of it: the warnings, or the fault; and what is said to be wrong. N stands for each
    number that is not known. Places of losses are compared apart."""

    name: str
    made: Callable[[], bytes]
    warnings: Sequence[str] = ()
    sentences: Sequence[str] = ()
    fault: str = ""
    places: Callable[[], Sequence[int]] = list


OUT_OF_STEP = "the analyser lost samples: TXC is out of step from places N on (N times, first at N s)"
BLAME = "no station is to blame for what is wrong there."
LACKS = f"The recording lacks samples, or has wrong ones, where N stand: {BLAME}"
UNSURE = "Nothing of this recording is sure: record again."
SLOW = "TXC has fewer than four samples a bit: record 1 million samples a second or more"
DIGITS = "rows of the table have the time of the row before them: export their times with all digits"
ROUNDED = f"{DIGITS} (N times, first at N s)"
ANALOG = 'row 1: "{}" is no level, 0 or 1: export digital channels, and no analog ones'

# Where a loss is.
Writer = Callable[[np.ndarray, int], bytes]


def lost(name: str, write: Writer, rate: int, count: int) -> Row:
    """Stretches of samples that are lacking."""

    def made() -> bytes:
        return write(lossy(healthy(rate), rate, count).samples, rate)

    return Row(name, made, [OUT_OF_STEP], [LACKS], places=lambda: lossy(healthy(rate), rate, count).places)


def coarse(name: str, write: Writer) -> Row:
    """Two samples a bit."""
    rate = 320_000
    return Row(name, lambda: write(healthy(6 * rate)[::6], rate), [SLOW], [UNSURE])


def right(name: str, write: Writer, rate: int, jitter: float = 0) -> Row:
    """A right recording, whose edges may come so many seconds too late or too soon."""
    return Row(name, lambda: write(healthy(rate, round(2 * jitter * rate)), rate))


def rows() -> List[Row]:
    megahertz = 1_000_000
    checksum = "the checksum of logic-1-2 is wrong: samples are damaged from places N to N (at N s)"
    return [
        *(right(f"right: session, {rate} MHz, 250 ns", session, rate * megahertz, 250e-9) for rate in (1, 4, 8)),
        right("right: dump, 4 MHz, 250 ns", dump, 4 * megahertz, 250e-9),
        right("right: table, 1 MHz", table, megahertz),
        lost("lost samples: session, 1 MHz", session, megahertz, 6),
        lost("lost samples: session, 8 MHz", session, 8 * megahertz, 6),
        lost("lost samples: dump, 1 MHz", dump, megahertz, 6),
        lost("lost samples: dump, 4 MHz", dump, 4 * megahertz, 6),
        lost("lost samples: table, 1 MHz", table, megahertz, 6),
        coarse("two samples a bit: session", session),
        coarse("two samples a bit: dump", dump),
        coarse("two samples a bit: table", table),
        Row("rounded times", lambda: table(healthy(megahertz), megahertz, "{:.2E}"), [ROUNDED], [UNSURE]),
        Row("volts", lambda: analog_table(healthy(megahertz), megahertz), fault=ANALOG.format("0.013")),
        Row("a part that is lacking", lambda: session(healthy(megahertz), megahertz, lacking=[2]),
            ["the recording lacks logic-1-2: samples were lost at place N (at N s)"], [LACKS]),
        Row("a wrong checksum", lambda: session(healthy(megahertz), megahertz, wrong=2), [checksum], [LACKS]),
    ]


class Said(NamedTuple):
    warnings: List[str]
    faults: List[str]
    sentences: List[str]
    places: List[int]


def plain(text: str) -> str:
    """A text with N for its numbers, as far as they depend on the bits."""
    text = re.sub(r"\d+(, \d+)+(?= on \()", "N", text)
    text = re.sub(r"(?<=places )\d+ to \d+|(?<=place )\d+", lambda found: re.sub(r"\d+", "N", found.group()), text)
    text = re.sub(r"\b\d+(\.\d+)?(?= (s\b|times,))", "N", text)
    return re.sub(r"(?<=record again\.) It has \d.*", "", re.sub(r"(?<=where )\d.* stands?(?=:)", "N stand", text))


def said_of(row: Row, folder: Path) -> Said:
    """What bus-report says of a recording."""
    recording, dictionary = folder / "recording", folder / "cabinet.toml"
    recording.write_bytes(row.made())
    dictionary.write_text(cabinet.DICTIONARY, encoding="ascii")
    got = ran(["bus-report", "--dictionary", dictionary, recording, folder / row.name, *NAMES])
    lines = [line.partition(": ")[2] for line in got.stderr.decode().splitlines()[1:]]
    warnings = [line.partition(": ")[2] for line in lines if line.startswith("warning: ")]
    faults = [line for line in lines if not line.startswith("warning: ") and " edges" not in line]
    head = got.stdout.decode().split("\n\n")[1:]
    wrong = next((text for text in head if text.startswith("What is wrong")), "")
    text = " ".join(line.strip() for line in wrong.splitlines()[1:] if re.match(r"   \S|\d+\. ", line))
    sentences = [each for each in re.split(r"(?:^| )\d+\. (?=[A-Z0-9])", text) if each]
    told = re.findall(r"places (.*) on ", "\n".join(warnings))
    places = [int(place) for each in told for place in re.findall(r"\d+", each)]
    return Said([plain(each) for each in warnings], faults, [plain(each) for each in sentences], places)


def problems_of(row: Row, folder: Path) -> List[str]:
    said = said_of(row, folder)
    pairs: List[Tuple[str, Sequence[str], Sequence[str]]] = [
        ("warnings", row.warnings, said.warnings),
        ("faults", [row.fault] * bool(row.fault), said.faults),
        ("sentences", row.sentences, said.sentences),
    ]
    problems = [f"{what}: wanted {wanted}, got {got}" for what, wanted, got in pairs if list(wanted) != list(got)]
    due = row.places()
    are_near = len(due) == len(said.places) and all(abs(one - other) <= NEAR for one, other in zip(due, said.places))
    return problems + ([] if are_near else [f"places: wanted {due}, got {said.places}"])


def faults_of_the_analyser(folder: Path) -> List[str]:
    """Each recording of the table: what is told of it, and that nothing else is."""
    return [f"{row.name}: {problem}" for row in rows() for problem in problems_of(row, folder)]


# How a text may be written.
WRITINGS: Dict[str, Callable[[str], bytes]] = {
    "a byte order mark": lambda text: b"\xef\xbb\xbf" + text.encode(),
    "CR LF": lambda text: text.replace("\n", "\r\n").encode(),
    "a byte order mark and CR LF": lambda text: b"\xef\xbb\xbf" + text.replace("\n", "\r\n").encode(),
    "CR": lambda text: text.replace("\n", "\r").encode(),
    "UTF-16": lambda text: b"\xff\xfe" + text.encode("utf-16-le"),
    "UTF-16, high octets first": lambda text: b"\xfe\xff" + text.replace("\n", "\r\n").encode("utf-16-be"),
}

# How a table may be written.
PARTINGS: Dict[str, Callable[[str], str]] = {
    "commas": lambda text: text,
    "semicolons and decimal commas": lambda text: text.replace(",", ";").replace(".", ","),
    "semicolons": lambda text: text.replace(",", ";"),
    "tabs": lambda text: text.replace(",", "\t"),
    "tabs and decimal commas": lambda text: text.replace(",", "\t").replace(".", ","),
    "sep=;": lambda text: "sep=;\n" + text.replace(",", ";").replace(".", ","),
    "sep=,": lambda text: "sep=,\n" + text,
    "sep=|": lambda text: "sep=|\n" + text.replace(",", "|"),
}

LIMITS = "[bus]\nframes = 2\ndamaged = 0\n"

Outcome = Tuple[int, bytes, bytes]


def outcome(words: Sequence[Word], stdin: bytes = b"") -> Outcome:
    got = ran(words, stdin)
    return got.returncode, got.stdout, got.stderr


def wires_as_text() -> str:
    return (TOP / "examples" / "four-wires.csv").read_text(encoding="ascii")


def dump_as_text() -> str:
    return (TOP / "examples" / "call-and-reply.vcd").read_text(encoding="ascii")


def listing_as_text() -> str:
    capture = (TOP / "examples" / "two-clocks.arrivals").read_bytes()
    return listed(capture, ["--bits", "--arrivals", "--dict", DICTIONARY]).stdout.decode()


class Reading(NamedTuple):
    """A text that a command reads: on standard input or, where a word is @, from a file."""

    words: Sequence[str]
    text: str
    stdin: bytes = b""


def readings(folder: Path) -> Iterator[Reading]:
    """Every command that reads a text of people. Other files that they need are in a folder."""
    listing = listing_as_text()
    (folder / "limits.toml").write_text(LIMITS, encoding="ascii")
    (folder / "unit.list").write_text(listing, encoding="ascii")
    arrivals = (TOP / "examples" / "two-clocks.arrivals").read_bytes()
    yield Reading(["recording-to-bits", "TXC", "TXD", "RXC", "RXD"], wires_as_text())
    yield Reading(["recording-to-bits", "clk", "tx", "rx"], dump_as_text())
    yield from (Reading(words, listing) for words in (["bus-summary"], ["list-to-jsonl"], ["draft-dictionary"]))
    yield Reading(["list-to-pcap", "--text", "153600"], listing)
    yield Reading(["bus-limits", str(folder / "limits.toml"), "unit=@"], listing)
    yield Reading(["bus-limits", "@", f"unit={folder / 'unit.list'}"], LIMITS)
    yield Reading(["dictionary-to-lua"], DICTIONARY)
    yield Reading(["bus-summary", "--dictionary", "@"], DICTIONARY, listing.encode())
    yield Reading(["bus-watch", "@/", "--begin", "2026-01-01T00:00:00Z", "--dictionary", "@"], DICTIONARY, arrivals)


def read_as(reading: Reading, octets: bytes, folder: Path) -> Outcome:
    """What a command makes of a text that is written in some way."""
    if not any("@" in word for word in reading.words):
        return outcome(reading.words, octets)
    folder.mkdir(parents=True)
    (folder / "text").write_bytes(octets)
    names = {"@/": str(folder / "made"), "@": str(folder / "text")}
    words = [names.get(word, word.replace("=@", f"={folder / 'text'}")) for word in reading.words]
    return outcome(words, reading.stdin)


def writings(folder: Path) -> List[str]:
    """Each command reads a text alike, however it is written."""
    problems = []
    for number, reading in enumerate(readings(folder)):
        name, own = " ".join(reading.words[:2]), folder / str(number)
        wanted = read_as(reading, reading.text.encode(), own / "plain")
        problems += [] if wanted[0] == 0 else [f"{name}: {wanted}"]
        for how, write in WRITINGS.items():
            got = read_as(reading, write(reading.text), own / how)
            problems += [] if got == wanted else [f"{name}: {how}: wanted {wanted}, got {got}"]
    return problems


def partings(_: Path) -> List[str]:
    """A table is read alike, whatever parts its cells and however it is written."""
    problems, words = [], ["recording-to-bits", "TXC", "TXD", "RXC", "RXD"]
    wanted = outcome(words, wires_as_text().encode())
    for parting, write in PARTINGS.items():
        for how in ("CR LF", "UTF-16"):
            got = outcome(words, WRITINGS[how](write(wires_as_text())))
            problems += [] if got == wanted else [f"{parting}, {how}: {got}"]
    return problems


class Refusal(NamedTuple):
    """An input that is refused: the words after a command, what it reads, and the one line that it says."""

    words: Sequence[str]
    stdin: bytes
    said: str


LONG = "x" * 3000

REFUSALS = [
    Refusal(["recording-to-bits", "--samplerate=0", "0", "1"], b"", 'error: --samplerate: "0" is no rate above 0'),
    Refusal(["recording-to-bits", "--octets=9", "0", "1"], b"", 'error: --octets: "9" is no whole number from 1 to 8'),
    Refusal(["recording-to-bits", f"--samplerate={LONG}", "0", "1"], b"",
            f'error: --samplerate: "{LONG[:80]}" .. is no rate'),
    Refusal(["recording-to-bits", "a", "b"], f"Time {LONG},a,b\n0,0,1\n".encode(),
            f'the times of the column "Time {LONG[:75]}" .. have no known unit: export them in seconds'),
    Refusal(["recording-to-bits", "a", "c"], f"a,b,{','.join([LONG] * 9)}\n0,1\n".encode(),
            f"no channel has the name c; there are: a, b, {LONG[:394]} .."),
    Refusal(["recording-to-bits", "a", "b"], "\u200ba,b\n0,1\n".encode(),
            "no channel has the name a; there are: \\u200ba, b"),
    Refusal(["recording-to-bits", "a", "b"], f"Time [s],a,b\n0,0,1\n1{LONG},1,1\n".encode(),
            f'row 2: "1{LONG[:79]}" .. is no time'),
    Refusal(["bus-summary"], "8 49 frame 108300fde5\n57\u00a098 idle\n".encode(),
            'line 2 is no line of `port1 list`: "57\\u00a098 idle"'),
    Refusal(["bus-summary"], b"8 49 frame 108300fde5\n57 98 idle\r\n",
            'line 2 is no line of `port1 list`: "57 98 idle\\r"'),
    Refusal(["bus-summary"], f"8 49 {LONG}\n".encode(), f'line 1 is no line of `port1 list`: "8 49 {LONG[:75]}" ..'),
    Refusal(["dictionary-to-lua"], b"version = 2 # \xe4\n",
            "standard input is no text in UTF-8 or UTF-16: save it as UTF-8"),
]


def refusals(_: Path) -> List[str]:
    """What is refused: its last line, which is short, with a status of 2."""
    problems = []
    for words, stdin, said in REFUSALS:
        status, _, stderr = outcome(words, stdin)
        last = stderr.decode().splitlines()[-1:]
        wanted = [f"{words[0]}: {said}"]
        problems += [] if (status, last) == (2, wanted) else [f"wanted {wanted}, got {status} {stderr[-600:]!r}"]
    return problems


def cut_listings(folder: Path) -> List[str]:
    """A listing that is cut within its last line never passes, however it is written."""
    (folder / "limits.toml").write_text(LIMITS, encoding="ascii")
    text, problems = listing_as_text(), []
    for how, write in {"plain": str.encode, **WRITINGS}.items():
        whole = write(text)
        last = len(write(text.splitlines(keepends=True)[-1])) - len(write(""))
        for cut in (1, 2, last // 2, last - 2):
            (folder / "unit.list").write_bytes(whole[: len(whole) - max(cut, len(write("\n")) - len(write("")))])
            got = outcome(["bus-limits", folder / "limits.toml", f"unit={folder / 'unit.list'}"])
            problems += [] if got[0] == 2 and b"PASS" not in got[1] else [f"{how}, without {cut} octets: {got}"]
    return problems

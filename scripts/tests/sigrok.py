"""The decoder for PulseView and sigrok-cli, in the real sigrok-cli, on recordings made sample by sample."""

import os
import random
import re
import subprocess
from pathlib import Path
from typing import List, NamedTuple, Sequence, Tuple

from needs import needs
from table.vectors import VECTORS
from tests.annotated import ANSWERS, BESIDE_FRAMES, CONTROLLER, REPLY_TIMES, Shown, annotations, built
from tests.annotated import differences, expected, input_words, shown_of, side_of, sigrok
from tests.case import CALL, DICTIONARY, REPLY, SCRIPTS, SECONDS, TOP, WINDOWS, Word, listed, plain, unlike
from tests.packages import DECODED
from tests.simulated.waves import CHANNELS, RATE, REST, SECOND, Wave, encoded, recording, traffic, wave

DECODER = TOP / "bindings" / "sigrok"


def dictionary_in(folder: Path, text: str) -> str:
    path = folder / "dictionary.toml"
    path.write_text(text, encoding="utf-8")
    return f":dictionary={path}"


def kinds_missing(wanted: Sequence[Shown], kinds: Sequence[str]) -> List[str]:
    """Kinds that a test was to have, and has not."""
    texts = {one.text for one in wanted}
    return [f"no {kind} in the test" for kind in kinds if not any(text.startswith(kind) for text in texts)]


ALL_KINDS = [
    "frame", "damaged fcs", "damaged short", "damaged unaligned", "damaged unstuffed", "overlong", "abort", "idle"
]


def pieces_of_one_line(folder: Path) -> List[str]:
    """Frames and damage of one line, with their places in samples, are those of the listing of its bits."""
    built(folder)
    line = wave(traffic(random.Random(1), 900), drift=7)
    wanted = expected(line, DICTIONARY, CONTROLLER)
    got = annotations(folder, recording(line, REST), CHANNELS + dictionary_in(folder, DICTIONARY))
    return kinds_missing(wanted, ALL_KINDS) + differences(side_of(got, CONTROLLER), wanted)


# Of examples/vectors/captures.json: each kind of piece, each standing of a frame, and what is encoded.
CAPTURES = [("one line", "all kinds"), ("one line", "all heads"), ("one line", "what is encoded")]


def pieces_of_vectors(folder: Path) -> List[str]:
    """The pieces of captures whose listings are written by hand."""
    built(folder)
    problems = []
    for vector in [vector for vector in VECTORS if (vector.kind, vector.name) in CAPTURES]:
        line = wave(vector.symbols + "1" * 20)
        wanted = shown_of(vector.listing, line, CONTROLLER)
        got = annotations(folder, recording(line, REST), CHANNELS + dictionary_in(folder, vector.dictionary))
        problems += [f"{vector.name}: {text}" for text in differences(side_of(got, CONTROLLER)[: len(wanted)], wanted)]
        problems += [] if len(wanted) > 2 else [f"{vector.name}: the listing has {len(wanted)} pieces"]
    return problems


def falling_edge(folder: Path) -> List[str]:
    """With edge=falling bits are taken where the clock falls."""
    built(folder)
    line = wave(traffic(random.Random(2), 60))
    samples = recording(line, REST, inverted_clock=True)
    got = annotations(folder, samples, CHANNELS + ":edge=falling" + dictionary_in(folder, DICTIONARY))
    return differences(side_of(got, CONTROLLER), expected(line, DICTIONARY, CONTROLLER))


def data_that_changes_with_the_edge(folder: Path) -> List[str]:
    """A bit is what the data was just before the edge."""
    built(folder)
    bits = traffic(random.Random(3), 60)
    period, begin = 6, 8
    # The data changes at the edge to the value of the next bit.
    line = Wave(bits, [begin + period * place for place in range(len(bits))], period)
    got = annotations(folder, recording(line, REST), CHANNELS + dictionary_in(folder, DICTIONARY))
    return differences(side_of(got, CONTROLLER), expected(line, DICTIONARY, CONTROLLER))


def without_dictionary(folder: Path) -> List[str]:
    """The limit is 256 octets, and a frame with a type has no name."""
    built(folder)
    long = "".join(encoded(["frame 1083" + "5a" * 254, "frame 10830001", "frame 1083"]))
    line = wave(traffic(random.Random(4), 80) + long)
    wanted = expected(line, "", CONTROLLER)
    typed = re.compile(r"frame (..)83(..)....(?:..)*")
    for at, one in enumerate(wanted):
        found = typed.fullmatch(one.text)
        if found:
            wanted[at] = one._replace(text=f"{one.text} station {int(found[1], 16)} type {int(found[2], 16)}")
    return differences(side_of(annotations(folder, recording(line, REST), CHANNELS), CONTROLLER), wanted)


def longest_frame(folder: Path) -> List[str]:
    """The option says the longest frame: with 4 octets a frame of 5 is overlong."""
    built(folder)
    bits = "01111110" + "0" * 4 + "".join(encoded(["frame 10830001", "frame 1083000102"]))
    line = wave(bits)
    got = annotations(folder, recording(line, REST), CHANNELS + ":longest=4")
    kinds = [one.text.split()[0] for one in got]
    return [] if kinds == ["damaged", "frame", "overlong"] else [f"{kinds}"]


class Poll(NamedTuple):
    """A command and its answer: bits between the two, if there is an answer, and what the answer is."""

    gap: int
    answer: str  # "" for none
    is_answer: bool


def polls(generator: random.Random, count: int) -> List[Poll]:
    made = []
    for _ in range(count):
        answer = generator.choice(["frame 108380"] * 4 + ["frame 118380", "frame 108381", "", "spoilt"])
        made.append(Poll(generator.randrange(8, 60), answer, answer == "frame 108380"))
    return made


def on_two_clocks(asked: Sequence[Poll], period: int) -> Tuple[Wave, Wave, List[Shown]]:
    """Two lines with a clock each, whose second stands still while nobody answers, and the reply times."""
    call, reply = plain(CALL), plain(REPLY)
    answers = {text: encoded([text])[0] for text in ("frame 108380", "frame 118380", "frame 108381")}
    answers["spoilt"] = reply[:20] + reply[21:]
    first = ""
    spots: List[Tuple[int, int, Poll]] = []  # of the call: where it ends and its poll
    for poll in asked:
        end = len(first) + len(call) - 8
        spots.append((end, end + poll.gap, poll))
        first += call + "1" * (poll.gap + 120)
    line = wave(first, period)
    bits, rises, times = "", [], []
    for end, begin, poll in spots:
        if not poll.answer:
            continue
        answer = answers[poll.answer] + "1" * 16
        # The address of the answer begins after a flag. Its clock is a little late.
        start = line.rises[begin] - 8 * (period + 1) + 1
        own = [start + (period + 1) * place for place in range(len(answer))]
        if poll.is_answer:
            samples = own[8] - line.rises[end]
            counted = sum(1 for rise in line.rises if line.rises[end] < rise <= own[8])
            text = f"{samples * 1000 / RATE:.3f} ms, {counted} bits"
            times.append(Shown(line.rises[end], own[8], REPLY_TIMES, text))
        bits += answer
        rises += own
    return line, Wave(bits, rises, 3), times


def two_lines_with_two_clocks(folder: Path) -> List[str]:
    """Both lines as their listings, and the time to each answer of the right station and type, and to no other."""
    built(folder)
    first, second, times = on_two_clocks(polls(random.Random(5), 60), 6)
    answers = expected(second, DICTIONARY, ANSWERS)
    got = annotations(folder, recording(first, second), CHANNELS + SECOND + dictionary_in(folder, DICTIONARY))
    return (
        differences(side_of(got, CONTROLLER), expected(first, DICTIONARY, CONTROLLER))
        + differences(side_of(got, ANSWERS), answers)
        + differences([one for one in side_of(got, REPLY_TIMES) if " ms" in one.text], times)
        + kinds_missing(answers, ["frame 108380f561 station 16", "frame 1183", "frame 108381", "damaged", "idle"])
        + ([] if len(times) > 20 else ["too few answers in the test"])
    )


def two_lines_with_one_clock(folder: Path) -> List[str]:
    """Without a second clock the second line is taken by the first. Gaps and window are those of the README."""
    built(folder)
    marks = (TOP / "examples" / "two-lines.bits").read_text().split()
    values = [int(mark) for mark in "".join(marks)]
    first = wave("".join(str(value & 1) for value in values))
    second = Wave("".join(str(value >> 1) for value in values), first.rises, 3)
    options = f"{CHANNELS}:rxd=3{dictionary_in(folder, WINDOWS)}"
    got = annotations(folder, recording(first, second), options)
    times = [(one.begin, one.text) for one in side_of(got, REPLY_TIMES)]
    wanted = [
        (first.rises[49], "0.096 ms, 16 bits"),
        (first.rises[163], "0.240 ms, 40 bits, late"),
        (first.rises[260], "missing station 16 type 0"),
        (first.rises[358], "0.096 ms, 16 bits"),
    ]
    return (
        differences(side_of(got, CONTROLLER), expected(first, WINDOWS, CONTROLLER))
        + differences(side_of(got, ANSWERS), expected(second, WINDOWS, ANSWERS))
        + ([] if times == wanted else [f"reply times {times}, wanted {wanted}"])
    )


# Commands that ask for an answer, with a window and without, and one that does not; lengths differ.
TALK = """version = 2
frame = [
    { type = 0, name = "call", length = 0, answered = true, window = 40 },
    { type = 1, name = "poll", length = 1, answered = true },
    { type = 2, name = "tell", length = 0 },
    { type = 128, name = "reply", length = 0 },
    { type = 129, name = "state", length = 2 },
    { type = 130, name = "told", length = 0 },
]
"""

# What is said on the two lines, and how often.
SPEECHES = {
    (1, "frame 108300"): 6,
    (2, "frame 108380"): 6,
    (1, "frame 1083015a"): 3,
    (2, "frame 1083810102"): 3,
    (2, "frame 10838101"): 1,
    (1, "frame 10830100ff"): 1,
    (1, "frame 108302"): 1,
    (2, "frame 108382"): 1,
    (1, "frame ff8300"): 3,
    (2, "frame ff8380"): 3,
    (1, "frame 108380"): 1,
    (2, "frame 118380"): 1,
    (2, "frame 1083"): 1,
    (1, "damage"): 1,
    (2, "damage"): 1,
    (1, "abort"): 1,
    (2, "idle"): 1,
}


def conversation(generator: random.Random, count: int) -> Tuple[str, str]:
    """The bits of two lines with one clock, of which only one sends at a time."""
    lines = {1: "", 2: ""}
    said = generator.choices(list(SPEECHES), list(SPEECHES.values()), k=count)
    bits = {text: encoded([text])[0] for _, text in SPEECHES if text.startswith("frame")}
    bits["damage"] = bits["frame 108300"][:20] + bits["frame 108300"][21:]
    bits["abort"] = bits["frame 108300"][:-8] + "1" * 8
    bits["idle"] = "1" * 15
    for line, text in said:
        rest = "1" * generator.randrange(2, 60)
        lines[line] += rest + bits[text]
        lines[3 - line] += rest + "1" * len(bits[text])
    return lines[1], lines[2]


def verdicts(first: str, second: str, dictionary: str, rises: Sequence[int]) -> List[Shown]:
    """What becomes of each command by the listing of both lines: its time where the line before is the answer."""
    marks = "".join(str(int(one) + 2 * int(two)) for one, two in zip(first, second))
    listing = listed(marks.encode(), ["--bits", "--two", "--dict", dictionary]).stdout.decode().splitlines()
    found = []
    for before, line in zip(listing, listing[1:]):
        _, start, end, outcome, *rest = line.split()
        if outcome in ("missing", "spoilt"):
            text = " ".join([outcome, *rest[:4]])
            found.append(Shown(rises[int(start)], rises[int(end)], REPLY_TIMES, text))
        if outcome in ("answered", "late"):
            begin, past = int(before.split()[1]), int(end)
            milliseconds = (rises[begin] - rises[past]) * 1000 / RATE
            text = f"{milliseconds:.3f} ms, {begin - past} bits" + (", late" if outcome == "late" else "")
            found.append(Shown(rises[past], rises[begin], REPLY_TIMES, text))
    return found


def what_becomes_of_commands(folder: Path) -> List[str]:
    """There is a reply time just where the listing of both lines says `answered` or `late`, and `missing` and `spoilt`
    are shown where it says so."""
    built(folder)
    bits = conversation(random.Random(7), 1500)
    first = wave(bits[0])
    second = Wave(bits[1], first.rises, 3)
    wanted = verdicts(*bits, TALK, first.rises)
    got = annotations(folder, recording(first, second), f"{CHANNELS}:rxd=3{dictionary_in(folder, TALK)}")
    kinds = [kind for kind in ("bits", "late", "missing", "spoilt") if sum(kind in one.text for one in wanted) < 10]
    return [f"too few {kind} in the test" for kind in kinds] + differences(side_of(got, REPLY_TIMES), wanted)


def answer_that_begins_too_early(folder: Path) -> List[str]:
    """A frame that begins before the end of the command and ends after it is shown, but has no reply time."""
    built(folder)
    first = wave(plain(CALL) + "1" * 40)
    second = Wave("1" * 10 + plain(REPLY) + "1" * 30, first.rises, 3)
    got = annotations(folder, recording(first, second), f"{CHANNELS}:rxd=3{dictionary_in(folder, DICTIONARY)}")
    rows = [one.row for one in got if one.text != "idle"]
    return [] if rows == [CONTROLLER, ANSWERS] else [f"{got}"]


def piece_longer_than_what_is_kept(folder: Path) -> List[str]:
    """A line that is stuck for many bits: the piece begins where it began, and what follows has its places."""
    built(folder)
    call = plain(CALL)
    line = wave(call + "0" * 300_000 + call + "1" * 20 + call, period=4, change=2)
    wanted = expected(line, DICTIONARY, CONTROLLER)
    got = annotations(folder, recording(line, REST), CHANNELS + dictionary_in(folder, DICTIONARY))
    # From the flag that ends the call to the next one.
    piece = Shown(line.rises[57], line.rises[300_057], CONTROLLER + BESIDE_FRAMES, "overlong")
    return differences(side_of(got, CONTROLLER), wanted) + ([] if piece in got else [f"there is no {piece}: {got}"])


def answer_after(ones: int, count: int) -> str:
    """A line of so many bits with an answer after some ones."""
    return ("1" * ones + plain(REPLY)).ljust(count, "1")


def reply_time_after_many_bits(folder: Path) -> List[str]:
    """The bits to an answer are counted where samples have been dropped, too."""
    built(folder)
    before = "1" * 150_000
    first = wave(before + plain(CALL) + "1" * 80, period=4, change=2)
    second = Wave(answer_after(len(before) + 65, len(first.bits)), first.rises, 2)
    got = annotations(folder, recording(first, second), f"{CHANNELS}:rxd=3{dictionary_in(folder, DICTIONARY)}")
    times = [one.text for one in side_of(got, REPLY_TIMES)]
    return [] if times == ["0.096 ms, 24 bits"] else [f"reply times {times}"]


def window_of_an_older_dictionary(folder: Path) -> List[str]:
    """Version 1 of dictionaries has no windows, so nothing is late by one."""
    built(folder)
    first = wave(plain(CALL) + "1" * 80)
    second = Wave(answer_after(65, len(first.bits)), first.rises, 3)
    problems = []
    for version, wanted in [(1, "0.144 ms, 24 bits"), (2, "0.144 ms, 24 bits, late")]:
        dictionary = dictionary_in(folder, WINDOWS.replace("version = 2", f"version = {version}"))
        got = annotations(folder, recording(first, second), f"{CHANNELS}:rxd=3{dictionary}")
        times = [one.text for one in side_of(got, REPLY_TIMES)]
        problems += [] if times == [wanted] else [f"version {version}: reply times {times}"]
    return problems


# Resets a decoder that was told a sample rate, without sigrok.
RESET = """\
import sys, types
sys.modules["sigrokdecode"] = types.SimpleNamespace(Decoder=object, SRD_CONF_SAMPLERATE=10000)
from nema_port1 import Decoder
decoder = Decoder()
decoder.metadata(10000, 4000000)
print(decoder.samplerate)
decoder.reset()
print(decoder.samplerate)
"""


def reset(folder: Path) -> List[str]:
    """A decoder that is used again knows nothing of the recording before."""
    words: List[Word] = ["python3", "-B", "-c", RESET]
    using = {**os.environ, "PYTHONPATH": str(built(folder))}
    got = subprocess.run(words, capture_output=True, text=True, env=using, timeout=SECONDS)
    return [] if got.stdout == "4000000\nNone\n" else [f"{got.stdout}{got.stderr}"]


def binary_output(folder: Path) -> List[str]:
    """The text of each line is its bits, all of them, 64 in a line."""
    decoders = built(folder)
    first, second, _ = on_two_clocks(polls(random.Random(6), 12), 6)
    words = [*input_words(folder, recording(first, second)), "-P", f"nema_port1:{CHANNELS}{SECOND}"]
    problems = []
    for name, bits in {"bits": first.bits, "answer-bits": second.bits}.items():
        got = sigrok(decoders, [*words, "-B", f"nema_port1={name}"])
        lines = "\n".join(bits[at : at + 64] for at in range(0, len(bits), 64))
        if got.stdout.rstrip("\n") != lines or got.stderr:
            problems.append(f"{name}: ends {got.stdout[-80:]!r}, wanted {lines[-80:]!r} {got.stderr}")
    return problems


def dump_of_the_examples(folder: Path) -> List[str]:
    """A value change dump, whose samples are microseconds; its edges are at 4 + 8 k."""
    decoders = built(folder)
    path = TOP / "examples" / "call-and-reply.vcd"
    options = f"txc=clk:txd=tx:rxd=rx{dictionary_in(folder, DICTIONARY)}"
    words = ["-i", path, "-I", "vcd", "-P", f"nema_port1:{options}", "-A", "nema_port1"]
    got = sigrok(decoders, [*words, "--protocol-decoder-samplenum"])
    return unlike("it shows", (DECODED, ""), (got.stdout, got.stderr))


# Options that are refused, and what is said.
FAULTS = {
    "dictionary=no-such-file.toml": "dictionary no-such-file.toml: ",
    f"dictionary={TOP / 'README.md'}": "README.md: ",
    f"dictionary={TOP / 'examples' / 'ci'}": "ci: ",
    "longest=2": "the longest frame is of 3 to 256 octets, not 2",
    "longest=257": "the longest frame is of 3 to 256 octets, not 257",
}


def faults(folder: Path) -> List[str]:
    """A fault stops the decoder, with a line that says why."""
    decoders = built(folder)
    words = input_words(folder, recording(wave(plain(CALL)), REST))
    calls = [(option, says, decoders) for option, says in FAULTS.items()]
    (folder / "bare").mkdir()
    (folder / "bare" / "nema_port1").symlink_to(DECODER / "nema_port1")
    calls.append(("longest=4", "no library of port1: ", folder / "bare"))
    problems = []
    for option, says, place in calls:
        got = sigrok(place, [*words, "-P", f"nema_port1:{CHANNELS}:{option}"])
        first = got.stderr.splitlines()[0] if got.stderr else ""
        if got.returncode == 0 or got.stdout or says not in first or not first.startswith("srd: Fault: "):
            problems.append(f"{option}: status {got.returncode}, {got.stdout}{got.stderr}")
    return problems


def installed(folder: Path) -> List[str]:
    """Once installed below a PREFIX, the decoder is found by sigrok; `make uninstall` takes all of it away."""
    built(folder)
    make: List[Word] = ["make", "-s", "-C", DECODER, f"OUT={folder / 'decoders' / 'nema_port1'}"]
    place = [f"DESTDIR={folder}/root", "PREFIX=/local"]
    subprocess.run([*make, "install", *place], check=True, capture_output=True, timeout=SECONDS)
    share = folder / "root" / "local" / "share"
    words = [*input_words(folder, recording(wave(plain(CALL)), REST)), "-P", f"nema_port1:{CHANNELS}"]
    got = sigrok(folder / "none", words, XDG_DATA_HOME=str(share))
    subprocess.run([*make, "uninstall", *place], check=True, capture_output=True, timeout=SECONDS)
    left = [str(path) for path in share.rglob("*") if path.is_file() or "nema" in path.name]
    wanted = "nema_port1-1: frame 108300fde5 station 16 type 0\n"
    return [f"left: {path}" for path in left] + ([] if got.stdout == wanted else [f"{got.stdout}{got.stderr}"])


def without_a_terminal(_: Path) -> List[str]:
    """The recorder's line of each paper, with sigrok's made-up analyser, gives bits where there is no terminal."""
    needs("sigrok-cli", "node")
    problems = []
    for paper in ("COOKBOOK", "WATCH"):
        text = (TOP / "docs" / f"{paper}.md").read_text(encoding="utf-8")
        form = r"^    (tail .*\| )?(?:timeout \d+ )?(sigrok-cli -d fx2lafw.*) \|\n *(recording-to-bits [^|]*) \|"
        found = re.search(form, text, re.MULTILINE)
        if found is None:
            problems.append(f"{paper}: no line")
            continue
        keep, recorder, script = found[1] or "", found[2].replace("fx2lafw", "demo"), SCRIPTS / found[3]
        line = f"{keep}timeout 3 {recorder} | {script} --format binary"
        pipes = {"stdin": subprocess.DEVNULL, "stdout": subprocess.PIPE, "stderr": subprocess.PIPE}
        bits = subprocess.Popen(["sh", "-c", line], **pipes)
        out, err = bits.communicate(timeout=SECONDS)
        if not out.strip():
            problems.append(f"{paper}: no bits: {err.decode()[:200]}")
    return problems

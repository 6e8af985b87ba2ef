"""What the scripts say of examples/port1-failure.bits, by how it was made."""

import re
from pathlib import Path
from typing import List

from tests.case import TOP, listed, ran, unlike
from tests.simulated.failing_bus import RATE, ROUNDS, failing_bus
from tests.listings import EXAMPLE, objects_of, timed
from tests.summaries import quantile, sentences_of, summary_of, table_of

EXAMPLE_DICTIONARY = (TOP / "examples" / "port1-failure.toml").read_text(encoding="ascii")


def example_is_generated(_: Path) -> List[str]:
    """The example is what its generator makes."""
    same = EXAMPLE.read_text(encoding="ascii") == failing_bus().text()
    return [] if same else [f"{EXAMPLE} is not what scripts/tests/simulated/failing_bus.py makes"]


def near(text: str, bits: int) -> bool:
    """Whether a text says how many milliseconds so many bits are, to half a unit of three digits."""
    exact = 1000 * bits / RATE
    return abs(float(text) - exact) <= (0.00501 if exact < 10 else 0.0501 if exact < 100 else 0.501)


MONITOR = re.compile(
    r"Station 16 got no type 0 \(outputs\) for ([\d.]+) ms from ([\d.]+) s on \(place (\d+)\)\. Usually it gets one"
    r" each ([\d.]+) ms, so 5 are lacking\. 5 damaged pieces lay within \(line 1: [^:]*\): commands may have been"
    r" destroyed\."
)

LATE = re.compile(
    r"Station 2 answered 8 of 25 commands of type 1 \(poll\) late, at ([\d., and]+) s: after ([\d.]+) to ([\d.]+) ms;"
    r" in time after ([\d.]+) to ([\d.]+) ms\."
)


def problems_of_gap(text: str) -> List[str]:
    """What is wrong with the sentence on station 16, by how the example was made."""
    found = MONITOR.fullmatch(text)
    monitor = [command for command in failing_bus().told if command.station == 16]
    destroyed = [number for number, command in enumerate(monitor) if command.fate == "destroyed"]
    before, after = monitor[destroyed[0] - 1].first, monitor[destroyed[-1] + 1].first
    sent = [command.first for command in monitor if command.fate != "destroyed"]
    usual = quantile([later - earlier for earlier, later in zip(sent, sent[1:])], 50)
    if found is None or len(destroyed) != 5 or destroyed[-1] - destroyed[0] != 4:
        return [f"the gap: {text}"]
    good = near(found[1], after - before) and found[3] == str(before) and near(found[4], usual)
    return [] if good and found[2] == f"{before / RATE:.3f}" else [f"the gap: {text}"]


def problems_of_late(text: str) -> List[str]:
    found = LATE.fullmatch(text)
    told = [command for command in failing_bus().told if command.station == 2]
    late = [command.reply_bits for command in told if command.fate == "late"]
    in_time = [command.reply_bits for command in told if command.fate == "answered"]
    wanted = [min(late), max(late), min(in_time), max(in_time)]
    begins = [f"{command.first / RATE:.3f}" for command in told if command.fate == "late"]
    if found is None or re.split(", | and ", found[1]) != begins or len(late) != 8:
        return [f"late: {text}"]
    return [] if all(near(part, bits) for part, bits in zip(found.groups()[1:], wanted)) else [f"late: {text}"]


def summary_of_example(_: Path) -> List[str]:
    """The three findings, in their order, and the numbers in the table."""
    listing = listed(EXAMPLE.read_bytes(), ["--bits", "--two", "--dict", EXAMPLE_DICTIONARY]).stdout
    summary = summary_of(listing)
    told = sentences_of(summary)
    if len(told) != 4:
        return [f"sentences: {told}"]
    silent = f"Station 1 is silent: it answered none of {ROUNDS} commands, of type 1 (poll)."
    problems = problems_of_gap(told[0]) + problems_of_late(told[2])
    problems += unlike("sentences", [silent, "5 pieces are damaged; see below."], [told[1], told[3]])
    cells = {kind: row[:6] for kind, row in table_of(summary).items()}
    wanted = {
        (1, 1): ["25", "0", "0", "25", "0", "100.0"],
        (2, 1): ["25", "17", "8", "0", "0", "32.0"],
        (16, 0): ["20", "20", "0", "0", "0", "0.0"],
    }
    return problems + unlike("table", wanted, cells)


def example_places(_: Path) -> List[str]:
    """Each command of the example becomes in the listing what the generator meant it to."""
    listing = listed(EXAMPLE.read_bytes(), ["--bits", "--two", "--dict", EXAMPLE_DICTIONARY]).stdout
    words = [line.split() for line in listing.decode().splitlines()]
    fates = {int(word[1]): word[3] for word in words if word[4:5] == ["station"]}
    told = failing_bus().told
    wanted = {command.first: command.fate for command in told if command.fate != "destroyed"}
    return unlike("places", wanted, fates)


def objects_of_example(_: Path) -> List[str]:
    """The objects of a listing of the program, against its words, and the times to answers against the truth."""
    listing = listed(EXAMPLE.read_bytes(), ["--bits", "--two", "--dict", EXAMPLE_DICTIONARY]).stdout
    objects = objects_of(listing, "--rate", str(RATE))
    words = [line.split() for line in listing.decode().splitlines()]
    heads = [(int(word[0]), int(word[1]), int(word[2]), word[3]) for word in words]
    got = [(found["line"], found["first"], found["past"], found["kind"]) for found in objects]
    problems = unlike("heads", heads, got)
    replies = [(found["first"], found["reply_bits"]) for found in objects if "reply_bits" in found]
    truth = [(command.first, command.reply_bits) for command in failing_bus().told if command.reply_bits]
    problems += unlike("replies", sorted(truth), sorted(replies))
    wrong = [found for found in objects if abs(found["time"] - found["first"] / RATE) > 1e-8]
    timed = [found for found in objects if "reply_ms" in found]
    wrong += [found for found in timed if abs(found["reply_ms"] * 153.6 - found["reply_bits"]) > 1e-3]
    return problems + [f"times: {found}" for found in wrong]


def draft_of_example(_: Path) -> List[str]:
    """The types, lengths and times that the generator put in; with the window of the draft nothing is late."""
    draft = ran(["draft-dictionary"], listed(EXAMPLE.read_bytes(), ["--bits", "--two"]).stdout).stdout.decode()
    wanted = []
    for number, length in [(0, 2), (128, 2), (1, 0), (129, 2)]:
        wanted += [f"type = {number}", f'name = "type{number}"', f"length = {length}"]
        if number < 128:
            station = 2 if number else 16
            longest = max(command.reply_bits for command in failing_bus().told if command.station == station)
            wanted += ["answered = true", f"# window = {longest}"]
    got = [line for line in draft.splitlines() if " = " in line and line[:6] not in ("versio", "[[fram")]
    return unlike("entries", wanted, got)

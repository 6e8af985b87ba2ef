"""What bus-summary says of listings that are made for it."""

import os
import random
import re
from decimal import ROUND_HALF_UP, Decimal
from pathlib import Path
from typing import Dict, List, Sequence, Tuple

from tests.case import Run, ran, unlike
from tests.simulated.failing_bus import RATE
from tests.listings import RATE_USAGE, Listing, bad_line, good_listing

MORE_USAGE = " [--dictionary FILE] [--bits BITS] [--begin TIME] [--notes FILE] [--json]"

NOT_OURS = "dictionary: version is not 1 or 2"

EMPTY = b"""\
0.000 s of one line at 153600 bits a second: 0 frames, 0 damaged pieces.

The listing is empty: nothing is known of the bus. Where a fault was told, mend that first.
"""

RUNS = [
    Run("an empty listing", ["bus-summary"], b"", EMPTY),
    Run("no line", ["bus-summary"], b"8 9 open\n8 9\n", b"", bad_line("bus-summary", "8 9"), 2),
    Run("no dictionary", ["bus-summary", "--dictionary", "/dev/null"], b"", b"", f"bus-summary: {NOT_OURS}\n", 2),
    Run("no rate", ["bus-summary", "--rate=-1"], b"", b"", RATE_USAGE.format("bus-summary", "-1", MORE_USAGE), 2),
]


def summary_of(listing: bytes, *words: str) -> str:
    got = ran(["bus-summary", *words], listing)
    return got.stdout.decode() if got.returncode == 0 else f"status {got.returncode}: {got.stderr.decode()}"


def sentences_of(summary: str) -> List[str]:
    """The numbered sentences of a summary, each on one line."""
    head = summary.partition("first:\n")[2].split("\n\n")[0]
    texts: List[str] = []
    for line in head.splitlines():
        if re.match(r"\d+\. ", line):
            texts.append(line.partition(". ")[2])
        elif line.startswith("   ") and texts:
            texts[-1] += " " + line.strip()
    return texts


def table_of(summary: str) -> Dict[Tuple[int, int], List[str]]:
    """The cells of the table after the name, by station and type."""
    body = summary.partition("from s\n")[2].split("\n\n")[0]
    rows = [line.split() for line in body.splitlines()]
    return {(int(row[0]), int(row[1])): row[3:] for row in rows}


def polled(rounds: int, destroyed: Sequence[int], extra: Sequence[int] = ()) -> Listing:
    """Two stations that are asked each 100 ms; some commands to station 16 are damaged, and other places of line 2."""
    listing = Listing()
    for number in range(rounds):
        if number in destroyed:
            listing.damage(1, 8 + number * 15360)
        else:
            listing.exchange(16, 0, 8 + number * 15360, 153)
        if number in extra:
            listing.damage(2, 3000 + number * 15360, "abort")
        listing.exchange(17, 0, 8000 + number * 15360, 1536)
    return listing


def gap_with_damage(_: Path) -> List[str]:
    """A gap of 600 ms at 3.2 s in which six pieces are damaged is the first thing told."""
    summary = summary_of(polled(50, range(33, 38), [10, 35, 45]).octets())
    wanted = (
        "Station 16 got no type 0 (call) for 600 ms from 3.200 s on (place 491528). Usually it gets one each 100 ms,"
        " so 5 are lacking. 6 damaged pieces lay within (line 1: 5 fcs; line 2: 1 abort): commands may have been"
        " destroyed."
    )
    problems = unlike("sentences", [wanted, "8 pieces are damaged; see below."], sentences_of(summary))
    cells = ["45", "45", "0", "0", "0", "0.0", "1.00", "1.00", "1.00", "1.00", "100.00", "600.00", "3.200"]
    problems += unlike("table", cells, table_of(summary).get((16, 0)))
    cells = ["50", "50", "0", "0", "0", "0.0", "10.00", "10.00", "10.00", "10.00", "100.00", "100.00", "0.052"]
    problems += unlike("table", cells, table_of(summary).get((17, 0)))
    wanted = (
        "Damage by cause: line 1: 5 fcs; line 2: 3 abort.\nMost of it lies here:\n"
        "  3.200 to 3.800 s: 6 pieces, 75 % of all\n"
    )
    return problems + unlike("damage", wanted, summary[summary.index("Damage by cause:") :])


NONE_SENT = "Nothing damaged lay within, but other frames: it seems that none were sent."


def gaps_in_order(_: Path) -> List[str]:
    """The longest gap against the usual one comes first, and gaps of a kind are counted, also those at both ends."""
    listing = Listing()
    listing.answer(16, 0, 200)
    for number in range(100):
        if number not in (20, 21, 22, 40):
            listing.command(16, 0, number * 15360)
        if 10 <= number < 50:
            listing.command(17, 3, number * 15360 + 500)
        if number % 10 == 0:
            listing.command(18, 7, number * 15360 + 900)
    wanted = [
        "Station 17 got no type 3 (call) for 4997 ms from 4.903 s on (place 753140), until the end of the listing."
        f" Usually it gets one each 100 ms, so 49 are lacking. {NONE_SENT}",
        "Station 17 got no type 3 (call) for 1003 ms from 0.000 s on (place 0), from the beginning of the listing on."
        f" Usually it gets one each 100 ms, so 9 are lacking. {NONE_SENT}",
        "Station 16 got no type 0 (call) for 400 ms from 1.900 s on (place 291840). Usually it gets one each 100 ms,"
        f" so 3 are lacking. {NONE_SENT} 1 other gap of this kind stands out too.",
    ]
    return unlike("sentences", wanted, sentences_of(summary_of(listing.octets())))


def gap_of_a_line_at_rest(_: Path) -> List[str]:
    """Where nothing at all is on the line; here at 9600 bits a second."""
    listing = Listing()
    for number in [*range(10), *range(15, 20)]:
        listing.command(16, 0, number * 960)
    wanted = [
        "Station 16 got no type 0 (call) for 600 ms from 0.900 s on (place 8640). Usually it gets one each 100 ms, so 5"
        " are lacking. No frame and nothing damaged lay within: the line was at rest."
    ]
    summary = summary_of(listing.of_one_line(), "--rate", "9600")
    return unlike("sentences", wanted, sentences_of(summary))


def uneven_polls(_: Path) -> List[str]:
    """Commands two by two are how the bus is, and no fault; a gap among them is one all the same."""
    even, holed = Listing(), Listing()
    for listing in (even, holed):
        listing.answer(16, 0, 200)
    for number in range(60):
        for first in (number * 15360, number * 15360 + 1536):
            even.command(16, 0, first)
            if number != 30:
                holed.command(16, 0, first)
    problems = unlike("two by two", [], sentences_of(summary_of(even.octets())))
    told = sentences_of(summary_of(holed.octets()))
    is_told = len(told) == 1 and told[0].startswith("Station 16 got no type 0 (call) for 190 ms from 2.910 s on")
    return problems if is_told else [*problems, f"with a gap: {told}"]


def gap_among_few(_: Path) -> List[str]:
    """One gap of three is told; where there are two, none is usual."""
    problems = []
    for count, told in [(4, True), (3, False)]:
        listing = Listing()
        listing.answer(16, 0, 200)
        for first in [0, 15360, 107520, 122880][:count]:
            listing.command(16, 0, first)
        got = [text.partition(" from")[0] for text in sentences_of(summary_of(listing.octets()))]
        wanted = ["Station 16 got no type 0 (call) for 600 ms"] if told else []
        problems += unlike(f"{count} commands", wanted, got)
    return problems


def silent_and_missing(_: Path) -> List[str]:
    """A station that never answers, one that answers one type only, and one that fails now and then."""
    listing = Listing()
    for number in range(12):
        first = number * 15360
        for station, frame_type, place in [(1, 1, first), (1, 2, first + 1000), (2, 1, first + 2000)]:
            listing.command(station, frame_type, place)
            listing.verdict("missing", station, frame_type, place)
        listing.exchange(2, 2, first + 3000, 100)
        listing.command(3, 1, first + 4000)
        if number in (2, 7, 8, 9):
            listing.verdict("missing", 3, 1, first + 4000)
        else:
            listing.answer(3, 1, first + 4141)
            listing.verdict("answered", 3, 1, first + 4000)
        listing.command(4, 1, first + 5000)
        listing.answer(4, 1, first + 5100, "length")
        listing.texts.append(f"2 {first + 5100} {first + 5141} stray station 4 type 129")
        listing.verdict("missing", 4, 1, first + 5000)
    wanted = [
        "Station 1 is silent: it answered none of 24 commands, of type 1 (call), type 2 (call).",
        "Station 2 answered none of 12 commands of type 1 (call), but others.",
        "Station 4 is silent: it answered none of 12 commands, of type 1 (call). In place of the answer came 12 times"
        " another one, last of station 4, type 129, length.",
        "Station 3 gave no answer to 4 of 12 commands of type 1 (call), at 0.226, 0.726, 0.826 and 0.926 s, 3 in a row"
        " from 0.726 s on.",
        "12 frames of another length than in the dictionary, most of station 4 type 129: 12.",
        "12 strays, frames of answers to no command, most of station 4 type 129: 12.",
    ]
    return unlike("sentences", wanted, sentences_of(summary_of(listing.octets())))


def late_and_spoilt(_: Path) -> List[str]:
    """Late answers with their times, against those in time; spoilt ones with the line of the damage."""
    listing = Listing()
    for number in range(10):
        first = number * 15360
        word = "late" if number in (3, 4) else "answered"
        listing.exchange(2, 1, first, 1536 * (number + 1), word)
        listing.command(3, 1, first + 8000 - 16)
        if number in (5, 6, 7):
            listing.damage(1 if number == 7 else 2, first + 8100)
            listing.verdict("spoilt", 3, 1, first + 8000 - 16)
        else:
            listing.answer(3, 1, first + 8100)
            listing.verdict("answered", 3, 1, first + 8000 - 16)
    listing.command(2, 1, 10 * 15360)
    listing.verdict("pending", 2, 1, 10 * 15360)
    wanted = [
        "Station 2 answered 2 of 10 commands of type 1 (call) late, at 0.300 and 0.400 s: after 40 to 50 ms; in time"
        " after 10 to 100 ms.",
        "Of station 3's answers to 10 commands of type 1 (call) 3 may have been spoilt: damage came first (1 on line 1"
        " and 2 on line 2).",
        "3 pieces are damaged; see below.",
    ]
    summary = summary_of(listing.octets())
    problems = unlike("sentences", wanted, sentences_of(summary))
    problems += unlike("late", ["11", "8", "2", "0", "0", "20.0"], table_of(summary)[2, 1][:6])
    return problems + unlike("spoilt", ["10", "7", "0", "0", "3", "30.0"], table_of(summary)[3, 1][:6])


def rounds_of(count: int, quiet: Sequence[int] = (), unanswered: Sequence[int] = ()) -> Listing:
    """Rounds of 100 ms in which two stations are asked; in some none is, and in some none answers."""
    listing = Listing()
    for number in range(count):
        for station in (1, 2) if number not in quiet else ():
            first = number * 15360 + station * 1536
            if number in unanswered:
                listing.command(station, 1, first)
                listing.verdict("missing", station, 1, first)
            else:
                listing.exchange(station, 1, first, 100)
    return listing


def one_cause_one_sentence(_: Path) -> List[str]:
    """A silence of the controller, of all stations, and of the whole bus until the recording ends: a sentence each."""
    quiet = rounds_of(50, quiet=range(20, 23)).octets()
    mute = rounds_of(50, unanswered=range(25, 50)).octets()
    apart = [
        "No command was sent to any station for 390 ms from 1.920 s on, of 2 types that otherwise come regularly.",
        "No station answered from 2.510 s on: 50 commands in a row, to 2 stations.",
    ]
    problems = unlike("no command", apart[:1], sentences_of(summary_of(quiet)))
    problems += unlike("no answer", apart[1:], sentences_of(summary_of(mute)))
    dead = sentences_of(summary_of(rounds_of(50).octets(), "--bits", str(10 * RATE)))
    wanted = "Nothing came on either line from 4.921 s until the recording ends at 10.000 s, for 5.1 s."
    return problems if [text.partition(" Before")[0] for text in dead] == [wanted] else [*problems, f"dead: {dead}"]


def windows_of_a_dictionary(folder: Path) -> List[str]:
    """Without a window nothing can be late: all is well only where each type that is answered has one. Version 1 of
    dictionaries has none."""
    listing, dictionary = rounds_of(20).octets(), folder / "windows.toml"
    head = '[[frame]]\ntype = 1\nname = "call"\nlength = 0\nanswered = true\n'
    answer = '[[frame]]\ntype = 129\nname = "reply"\nlength = 0\n'
    problems = []
    for version, window, wanted in [
        (2, "window = 460\n", "Nothing is wrong: nothing is damaged, missing, spoilt or late,"),
        (2, "", "No reply was judged late: the dictionary has no window."),
        (1, "window = 460\n", "No reply was judged late: the dictionary has no window."),
    ]:
        dictionary.write_text(f"version = {version}\n{head}{window}{answer}", encoding="ascii")
        told = summary_of(listing, "--dictionary", str(dictionary))
        problems += [] if wanted in told else [f"{version}, {window!r}: {told}"]
    return problems


def exchanged_lines(_: Path) -> List[str]:
    """Commands that come on the second line."""
    listing = good_listing()
    listing.texts = [("2" if text[0] == "1" else "1") + text[1:] for text in listing.texts if "answered" not in text]
    told = sentences_of(summary_of(listing.octets()))
    return unlike("sentences", ["4 commands came on line 2: are the two lines exchanged?"], told)


def many_of_one_sort(_: Path) -> List[str]:
    """Six sentences of a sort, and how many more there are; what waits at the end is told too."""
    listing = Listing()
    for station in range(20):
        listing.command(station, 1, station * 1000)
        listing.verdict("missing", station, 1, station * 1000)
        listing.answer(29, 0, station * 1000 + 500)
    listing.command(30, 1, 30_000)
    listing.verdict("pending", 30, 1, 30_000)
    summary = summary_of(listing.octets())
    told = sentences_of(summary)
    problems = unlike("sentences", 7, len(told))
    problems += unlike("the last", "And 14 more of this sort; the table has them.", told[-1] if told else "")
    is_told = "\n1 command at the end still waits for an answer.\n" in summary
    return problems if is_told else [*problems, "the pending command is not told"]


def answer_without_its_command(_: Path) -> List[str]:
    """A recording that begins between a command and its answer has no stray; one later has, and one after damage."""
    problems = []
    for before, strays in ((0, 0), (1, 1), (2, 1)):
        listing = Listing()
        if before == 1:
            listing.exchange(16, 0, 20, 100)
        elif before == 2:
            listing.damage(1, 20)
        listing.answer(16, 0, 1000)
        listing.texts.append("2 1000 1041 stray station 16 type 128")
        listing.exchange(16, 0, 2000, 100)
        told = [text for text in sentences_of(summary_of(listing.octets())) if "stray" in text]
        problems += unlike(f"strays, {before}", strays, len(told))
    return problems


def times_of_day(_: Path) -> List[str]:
    """With the time of place 0, sentences, table and damage have times of day, and what is on another day its date."""
    listing = good_listing()
    for number in range(3):
        listing.command(9, 1, (600 + number) * RATE)
        listing.verdict("missing", 9, 1, (600 + number) * RATE)
    text = listing.octets()
    problems = []
    for begin, wanted in (
        ("2026-11-27T03:00:00Z", ("It begins on 2026-11-27 03:00:00.000 UTC.", "from 03:00:00.030 on", " 03:10:00.000")),
        ("2026-11-27T23:55:00.5+01:00", ("It begins on 2026-11-27 23:55:00.500.", "from 23:55:00.530 on", " 2026-11-28 00:05:00.500")),
        ("2026-11-27T03:00", ("It begins on 2026-11-27 03:00:00.000.", "from 03:00:00.030 on", " 03:10:00.000")),
    ):
        got = ran(["bus-summary", "--begin", begin], text, env={**os.environ, "TZ": "America/New_York"}).stdout.decode()
        plain = " ".join(got.split())
        problems += [f"{begin}: no {part!r} in {plain[:600]}" for part in wanted if part not in plain]
    got_wrong = ran(["bus-summary", "--begin", "yesterday"], text)
    is_told = b'--begin: "yesterday" is no time as' in got_wrong.stderr and got_wrong.returncode == 2
    return problems if is_told else [*problems, f"yesterday: {got_wrong.stderr!r}"]


def quantile(times: Sequence[int], percent: int) -> int:
    """By the definition: the least time that so many hundredths do not exceed."""
    return next(time for time in sorted(times) if 100 * sum(other <= time for other in times) >= percent * len(times))


def shown(value: float, decimals: int) -> str:
    """A number with so many decimals; from halfway it is rounded up."""
    return str(Decimal(value).quantize(Decimal(1).scaleb(-decimals), ROUND_HALF_UP))


def reply_times(_: Path) -> List[str]:
    """Known times, of which short ones are told exactly, and long ones as near as two digits show."""
    generator = random.Random(11)
    problems = []
    for most, count in [(2048, 1), (2048, 2), (2048, 99), (2048, 100), (16384, 501), (150_000, 400)]:
        times = [generator.randrange(8, most) for _ in range(count)]
        listing = Listing()
        for number, reply_bits in enumerate(times):
            listing.exchange(16, 0, number * 200_000, reply_bits, generator.choice(["answered", "late"]))
        got = table_of(summary_of(listing.octets()))[16, 0][6:10]
        wanted = [min(times), quantile(times, 50), quantile(times, 99), max(times)]
        exact = [shown(1000 * bits / RATE, 2) for bits in wanted]
        far = [abs(float(text) * RATE / 1000 - bits) > 0.00013 * bits + 1 for text, bits in zip(got, wanted)]
        if any(far) or (most <= 16384 and got != exact):
            problems.append(f"{count} times up to {most} bits: wanted {exact}, got {got}")
    return problems


def damage_in_time(_: Path) -> List[str]:
    """Damage in two stretches of an hour, and as much again spread over it; then spread alone."""
    generator = random.Random(13)
    spread = [generator.randrange(3600 * RATE) for _ in range(40)]
    first = [generator.randrange(810 * RATE, 830 * RATE) for _ in range(100)]
    second = [generator.randrange(2410 * RATE, 2590 * RATE) for _ in range(60)]
    problems = []
    for places, wanted in [(spread + first + second, [(800, 1000, first), (2400, 2600, second)]), (spread, [])]:
        listing = Listing()
        listing.command(16, 0, 0)
        for place in sorted(places):
            listing.damage(1, place)
        listing.command(16, 0, 3600 * RATE - 41)
        lines = summary_of(listing.octets()).partition("Most of it lies here:\n")[2].splitlines()
        counts = [(begin, end, sum(begin * RATE <= place < end * RATE for place in places)) for begin, end, _ in wanted]
        texts = [
            f"  {begin}.000 to {end}.000 s: {count} pieces, {shown(100 * count / len(places), 0)} % of all"
            for begin, end, count in counts
        ]
        problems += unlike("stretches", texts, lines)
    return problems

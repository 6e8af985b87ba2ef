"""Reports: a listing in a page. What the page makes of it is tested with the page."""

import base64
import gzip
import html
import json
import os
import random
import re
from datetime import datetime
from pathlib import Path
from typing import List, NamedTuple, Sequence

from tests.case import DICTIONARY, SCRIPTS, Run, Word, ran

PAGE = SCRIPTS / "tests" / "page.html"

SCRIPT = "list-to-page"

LISTING = b"8 49 frame 108300fde5 station 16 type 0 </script>\n57 72 idle\n" * 20_000

RUNS = [
    Run(
        "a page that is none", [SCRIPT, "--page=/dev/null", "title"], b"8 49 idle\n", b"",
        f"{SCRIPT}: this is no page that `make page` built\n", 2,
    ),
    Run(
        "no page", [SCRIPT, "--page=/no/page", "title"], b"", b"",
        f"{SCRIPT}: there is no page /no/page: `make page` builds it; --page says where it is\n", 2,
    ),
    Run(
        "no recording", [SCRIPT, f"--page={PAGE}", "--recording=/no/tap.sr", "title"], b"", b"",
        f"{SCRIPT}: ENOENT: no such file or directory, open '/no/tap.sr'\n", 2,
    ),
]


class Report(NamedTuple):
    """The parts of a report."""

    before: str
    listing: bytes
    about: str
    after: str


FORM = re.compile(
    r"(.*)<script type=\"application/gzip\+base64\" id=\"listing-data\">([A-Za-z0-9+/=]*)</script>\n"
    r"<script type=\"application/json\" id=\"about\">(.*?)</script>(.*)",
    re.DOTALL,
)


def report_of(words: List[str], listing: bytes) -> Report:
    got = ran([SCRIPT, f"--page={PAGE}", *words], listing)
    assert got.returncode == 0, got.stderr
    found = FORM.fullmatch(got.stdout.decode())
    assert found is not None, got.stdout[:2000]
    return Report(found[1], gzip.decompress(base64.b64decode(found[2])), found[3], found[4])


def mixed_listing() -> bytes:
    """A listing that is large when it is packed, too: its octets are random."""
    generator = random.Random(7)
    frames = (f"{at * 100} {at * 100 + 81} frame 1083{generator.getrandbits(64):016x}fde5\n" for at in range(20_000))
    return "".join(frames).encode()


def holds_the_listing(_: Path) -> List[str]:
    """The listing is in the report octet for octet, in place of the decoder, and all else is as it was."""
    found = []
    for listing in [b"", b"0 15 idle\n", b"0 15 idle", LISTING, mixed_listing()]:
        report = report_of(["A title"], listing)
        if report.listing != listing:
            found.append(f"{len(listing)} octets became {len(report.listing)}")
    page = PAGE.read_text()
    wanted = page[: page.index("<script")].replace("Port 1 analyser", "A title")
    return found + [f"it begins {report.before!r}"] * (report.before != wanted) + [
        f"it ends {report.after!r}"
    ] * (report.after != page[page.index("\n<script>main") :])


def tells_what_it_is_given(folder: Path) -> List[str]:
    """Title, rate, dictionary and command stand in it as data, whatever is in them, and the title as text."""
    text = DICTIONARY + "# </script><script>alert(1)</script>\n"
    dictionary = folder / "dictionary.toml"
    dictionary.write_text(text)
    title = "</title><script>alert(2)</script> & more"
    words = [title, f"--dictionary={dictionary}", "--rate=9600", "--command=port1 list < <tap>", "--begin=2026-11-27T03:00Z"]
    report = report_of(words, b"0 15 idle\n")
    wanted = {
        **{"version": "1.2.3", "schema": {}, "title": title, "rate": 9600},
        **{"dictionary": text, "command": "port1 list < <tap>", "begin": "2026-11-27T03:00Z"},
    }
    found = [] if json.loads(report.about) == wanted else [f"it tells {report.about}"]
    found += ["a < stands in its data"] * ("<" in report.about)
    return found + ["the title is no text"] * (f"<title>{html.escape(title)}</title>" not in report.before)


def tells_of_the_recording(folder: Path) -> List[str]:
    """Name, date, size and SHA-256 of the recording's file, and the notes of recording-to-bits."""
    recording, notes = folder / "tap <1>.sr", folder / "notes.txt"
    recording.write_bytes(b"abc")
    os.utime(recording, (1_700_000_000, 1_700_000_000))
    lines = ["TXC has 9 edges", "warning: TXC has an edge too early (at 1.500000 s)"]
    notes.write_text("".join(f"recording-to-bits: {line}\n" for line in lines))
    words = ["A title", "--bits=99", f"--recording={recording}", f"--notes={notes}"]
    about = json.loads(report_of(words, b"0 15 idle\n").about)
    wanted = {
        "name": recording.name,
        "date": datetime.fromtimestamp(1_700_000_000).strftime("%Y-%m-%d %H:%M"),
        "size": "3",
        # FIPS 180-2, the example of "abc".
        "sha256": "ba7816bf8f01cfea414140de5dae2223b00361a396177a9cb410ff61f20015ad",
    }
    found = [] if about["recording"] == wanted else [f"of the recording it tells {about['recording']}"]
    found += [] if about["bits"] == 99 else [f"the bits are {about['bits']}"]
    return found + ([] if about["notes"] == lines else [f"the notes are {about['notes']}"])


def refuses_another_time(_: Path) -> List[str]:
    """A time that is none is refused before anything is written."""
    got = ran([SCRIPT, f"--page={PAGE}", "--begin=yesterday", "A title"], b"0 15 idle\n")
    told = 'error: --begin: "yesterday" is no time as 2026-11-27T03:00:00Z\n'
    is_refused = got.returncode == 2 and got.stdout == b"" and got.stderr.decode().endswith(told)
    return [] if is_refused else [f"{got.returncode}: {got.stderr!r}"]


def refuses_other_lines(_: Path) -> List[str]:
    """A line that is none of a listing is told, with its number."""
    got = ran([SCRIPT, f"--page={PAGE}", "A title"], b"0 15 idle\nport1: write failed\n")
    told = f"{SCRIPT}: line 2 is no line of `port1 list`: \"port1: write failed\"\n"
    return [] if (got.returncode, got.stderr.decode()) == (2, told) else [f"{got.returncode}: {got.stderr!r}"]


# What `port1 list --arrivals` says of the example of four wires, by how it was made (cabinets.py).
FOUR_WIRES = """1 0 15 idle
1 48 89 frame 108300fde5 station 16 type 0 call
1 97 112 idle
2 124 165 frame 108380f561 station 16 type 128 reply
1 48 89 answered station 16 type 0
"""

EXAMPLES = SCRIPTS.parent / "examples"


def made_by(folder: Path, words: Sequence[Word], status: int, told: str) -> List[str]:
    """What is wrong with a report of a recording, which is to end so."""
    got = ran(["bus-report", *words])
    problems = [] if got.returncode == status else [f"{words}: status {got.returncode}"]
    problems += [] if told in got.stderr.decode() else [f"{words}: {told!r} is not in {got.stderr.decode()!r}"]
    if got.stdout:
        is_shown = (folder / "summary.txt").read_bytes() == got.stdout
        problems += [] if is_shown else [f"{words}: the summary is not what is shown"]
    return problems


ONE_CALL = "8 49 frame 108300fde5 station 16 type 0 type0\n"


def report_of_a_recording(folder: Path) -> List[str]:
    """All of a report in one folder, with a dictionary and with a draft; channels by name, or named."""
    wires, dictionary = EXAMPLES / "four-wires.csv", EXAMPLES / "call-and-reply.toml"
    given, drafted, one, cut, soon, two = (folder / name for name in ("given", "drafted", "one", "cut", "soon", "two"))
    problems = made_by(given, [f"--dictionary={dictionary}", wires, given], 0, "TXC has 197 edges, RXC has 57 edges")
    problems += made_by(given, [wires, given], 2, f"bus-report: {given} is there, and not empty\n")
    problems += made_by(drafted, ["--title=A cabinet", wires, drafted], 0, "channels TXC, TXD, RXC, RXD\n")
    problems += made_by(one, [EXAMPLES / "one-call.vcd", one], 2, "which channels are TXC, TXD, RXC and RXD? There are: clk, dat")
    problems += ["a folder was made in vain"] if one.exists() else []
    problems += made_by(one, [EXAMPLES / "one-call.vcd", one, "clk", "dat"], 0, "clk has 57 edges")
    problems += made_by(soon, ["--rest=10", f"--dictionary={dictionary}", wires, soon], 0, "RXC has 57 edges")
    problems += made_by(two, ["--rest=10", EXAMPLES / "one-call.vcd", two, "clk", "dat"], 0, "clk has 57 edges")
    table = folder / "cut.csv"
    table.write_bytes(wires.read_bytes()[:-4])
    problems += made_by(cut, [f"--dictionary={dictionary}", table, cut], 2, "the recording ends within row ")
    wanted = {given: FOUR_WIRES, drafted: FOUR_WIRES.replace("call", "type0").replace("reply", "type128")}
    wanted.update({soon: FOUR_WIRES + "2 182 183 idle\n", cut: FOUR_WIRES, one: ONE_CALL, two: ONE_CALL})
    for made, listing in wanted.items():
        found = (made / "listing.txt").read_text(encoding="ascii")
        problems += [] if found == listing else [f"{made.name}: the listing is {found!r}"]
    copied = (given / "cabinet.toml").read_bytes() == dictionary.read_bytes()
    return problems + ([] if copied else ["the dictionary is another"])


NOTHING = "The listing is empty: nothing is known of the bus. Where a fault was told, mend that first.\n"


def report_without_frames(folder: Path) -> List[str]:
    """Where the wires are wrong there is a report all the same, which says first what is wrong with them."""
    wires, exchanged, dead = EXAMPLES / "four-wires.csv", folder / "exchanged", folder / "dead"
    problems = made_by(exchanged, [wires, exchanged, "TXD", "TXC", "RXD", "RXC"], 0, "channels TXD, TXC, RXD, RXC\n")
    told = (exchanged / "summary.txt").read_text(encoding="ascii")
    wanted = "look at its wires first:\n- TXC has the edges of a clock, and TXD has not: are the two exchanged?\n"
    problems += [] if wanted in told else [f"of clock and data exchanged it says {told!r}"]
    table = folder / "dead.csv"
    rows = wires.read_text(encoding="ascii").splitlines()
    table.write_text("".join(f"{row.rpartition(',')[0]},1\n" if at else f"{row}\n" for at, row in enumerate(rows)))
    dictionary = EXAMPLES / "call-and-reply.toml"
    problems += made_by(dead, [f"--dictionary={dictionary}", table, dead], 0, "warning: RXD never changes")
    told = (dead / "summary.txt").read_text(encoding="ascii")
    problems += [] if "- RXD never changes\n" in told else [f"of a dead wire it says {told!r}"]
    return problems + [f"{made.name} is unfinished" for made in (exchanged, dead) if (made / "unfinished").exists()]


def report_that_fails(folder: Path) -> List[str]:
    """A report is there also where a step failed, and the next call takes its folder; other folders are left alone."""
    wires, failed, other = EXAMPLES / "four-wires.csv", folder / "failed", folder / "other"
    misspelt = [wires, failed, "TXC", "TXD", "RXX", "RXD"]
    problems = made_by(failed, misspelt, 2, "no channel has the name RXX; there are: TXC, TXD, RXC, RXD\n")
    told = (failed / "summary.txt").read_text(encoding="ascii")
    problems += [] if told.endswith(NOTHING) else [f"of a misspelt channel it says {told!r}"]
    problems += made_by(failed, [wires, failed], 0, "TXC has 197 edges")
    problems += made_by(failed, [wires, failed], 2, f"bus-report: {failed} is there, and not empty\n")
    made_by(other, misspelt[:1] + [other, *misspelt[2:]], 2, "RXX")
    (other / "diary.txt").write_text("mine")
    problems += made_by(other, [wires, other], 2, f"bus-report: {other} is there, and not empty\n")
    return problems if (other / "diary.txt").read_text() == "mine" else [*problems, "a file of another is gone"]


def refusals_of_reports(folder: Path) -> List[str]:
    """Options and dictionary are looked at before the recording is read: no folder is made."""
    wires, made = EXAMPLES / "four-wires.csv", folder / "made"
    none, faulty = folder / "none.toml", folder / "faulty.toml"
    faulty.write_text("version = 3\n")
    problems = []
    for word, told in [
        (f"--dictionary={none}", f"bus-report: ENOENT: no such file or directory, open '{none}'\n"),
        (f"--dictionary={faulty}", "bus-report: dictionary: version is not 1 or 2\n"),
        ("--samplerate=fast", 'bus-report: error: --samplerate: "fast" is no rate\n'),
        ("--invert=TXX", "bus-report: error: --invert: TXX is none of the channels\n"),
    ]:
        problems += made_by(made, [word, wires, made], 2, told)
        problems += [f"{word}: a folder was made"] if made.exists() else []
    return problems

"""Limits: what is planted in simulated units is found, and nothing else."""

import hashlib
import json
import random
import xml.etree.ElementTree as Xml
from pathlib import Path
from typing import Dict, List, NamedTuple

from tests.case import listed, ran
from table.captures import sent
from tests.simulated.failing_bus import CONTROL, RATE, ROUND, ROUNDS, Line

DICTIONARY = """version = 2
[[frame]]
type = 1
name = "poll"
length = 0
answered = true
window = 600
[[frame]]
type = 129
name = "state"
length = 0
"""

LIMITS = """[bus]
frames = 90
damaged = 0
damaged_percent = 1.0
pending = 0
""" + "".join(
    f"""[[limit]]
station = {station}
type = 1
sent = {ROUNDS}
missing = 0
late = 0
spoilt = 0
bad_percent = 1.0
reply_99_ms = 3.0
reply_longest_ms = 3.0
gap_ms = 25.0
"""
    for station in (1, 2)
)

# Replies in time, slow ones within the window, and late ones, in bits: 3 ms are 460.8.
IN_TIME = (60, 440)
SLOW = (470, 590)
LATE = (620, 800)

# What may be planted, and the limits that it breaks. A command that is not sent or is destroyed leaves a gap of two
# rounds, also at an end; a destroyed one is damage, too.
PLANTED: Dict[str, List[str]] = {
    "nothing": [],
    "missing": ["missing", "bad_percent"],
    "slow": ["reply_99_ms", "reply_longest_ms"],
    "late": ["late", "bad_percent", "reply_99_ms", "reply_longest_ms"],
    "unsent": ["sent", "gap_ms"],
    "destroyed": ["sent", "gap_ms", "damaged", "damaged_percent"],
}


class Unit(NamedTuple):
    """A unit: its capture of two lines, and the limits that it breaks, as `where key`."""

    capture: bytes
    broken: List[str]


def unit(seed: int, planted: str) -> Unit:
    """25 rounds with a poll of station 1 and one of station 2; something is planted in one round at one of these."""
    generator = random.Random(seed)
    commands, answers = Line(), Line()
    victim, at = generator.choice((1, 2)), generator.randrange(ROUNDS)
    for number in range(ROUNDS):
        for station in (1, 2):
            first = number * ROUND + 40 + 1400 * (station - 1) + generator.randrange(6)
            fate = planted if (station, number) == (victim, at) else "nothing"
            if fate == "unsent":
                continue
            past = commands.send(first, sent(bytes([station, CONTROL, 1])))
            if fate == "destroyed":
                commands.invert(first + generator.randrange(8))
            elif fate != "missing":
                times = {"slow": SLOW, "late": LATE}.get(fate, IN_TIME)
                answers.send(past + generator.randrange(*times), sent(bytes([station, CONTROL, 129])))
    marks = "".join(str(int(one) + 2 * int(other)) for one, other in zip(commands.bits, answers.bits))
    return Unit(marks.encode(), broken_by(planted, victim, at))


def broken_by(planted: str, victim: int, at: int) -> List[str]:
    """The limits that are broken. The very last command can only be pending; and before the first and after the last
    thing on the bus a listing has no time, so that no gap is seen there."""
    keys = PLANTED[planted]
    if planted == "missing" and (victim, at) == (2, ROUNDS - 1):
        return ["bus pending"]
    if (victim, at) in ((1, 0), (2, ROUNDS - 1)):
        keys = [key for key in keys if key != "gap_ms"]
    return sorted(f"{'bus' if key.startswith('damaged') else f'station {victim} type 1 poll'} {key}" for key in keys)


def listing(capture: bytes) -> bytes:
    return listed(capture, ["--bits", "--two", "--dict", DICTIONARY]).stdout


def wrote(folder: Path, name: str, content: bytes) -> Path:
    path = folder / name
    path.write_bytes(content)
    return path


def limits(folder: Path, text: str = LIMITS) -> str:
    return str(wrote(folder, "limits.toml", text.encode()))


def finds_what_is_planted(folder: Path) -> List[str]:
    """Fifty units: each limit that is broken is named, and no other; all forms agree on the verdicts."""
    kinds = list(PLANTED)
    units = {f"unit{seed:02}": unit(seed, kinds[seed % len(kinds)]) for seed in range(50)}
    words = [f"{name}={wrote(folder, name, listing(made.capture))}" for name, made in units.items()]
    files = {form: folder / f"out.{form}" for form in ("junit", "csv", "json", "page")}
    options = [f"--{form}={path}" for form, path in files.items()]
    got = ran(["bus-limits", *options, limits(folder), *words])
    found = [] if (got.returncode, got.stderr) == (1, b"") else [f"status {got.returncode}: {got.stderr!r}"]
    verdicts = [line.split(":")[0] for line in got.stdout.decode().splitlines() if not line.startswith(" ")]
    wanted = [f"{'FAIL' if made.broken else 'PASS'} {name}" for name, made in units.items()]
    found += [] if verdicts == wanted else [f"the verdicts are {verdicts}"]
    cases = Xml.parse(files["junit"]).getroot().findall("testcase")
    page, table = files["page"].read_text(), files["csv"].read_text()
    for name, made in units.items():
        failed = [case for case in cases if case.get("classname") == name and case.find("failure") is not None]
        broken = sorted(str(case.get("name")) for case in failed)
        found += [] if broken == made.broken else [f"{name}: {broken}, not {made.broken}"]
        rows = [row for row in table.splitlines() if row.startswith(f"{name},") and row.endswith(",not kept")]
        found += [] if len(rows) == len(made.broken) else [f"{name}: the table has {rows}"]
        row = page.partition(f">{name}</td>")[2].partition("</tr>")[0]
        verdict = "FAIL" if made.broken else "PASS"
        sha256 = hashlib.sha256((folder / name).read_bytes()).hexdigest()
        found += [] if f">{verdict}</span>" in row and sha256 in row else [f"{name}: the page has {row}"]
    told = [one["verdict"] for one in json.loads(files["json"].read_text())["units"]]
    return found + ([] if told == [verdict[:4] for verdict in wanted] else [f"JSON has {told}"])


def compares_with_an_earlier_run(folder: Path) -> List[str]:
    """What got worse is named, against a listing and against JSON; the same run got no worse."""
    good = wrote(folder, "good.list", listing(unit(1, "nothing").capture))
    bad = wrote(folder, "bad.list", listing(unit(1, "missing").capture))
    loose, earlier = limits(folder, "[bus]\nframes = 1\n"), folder / "earlier.json"
    ran(["bus-limits", f"--json={earlier}", loose, f"a={good}"])
    found = []
    for baseline in (good, earlier):
        same = ran(["bus-limits", f"--baseline={baseline}", loose, f"a={good}"])
        found += [] if same.returncode == 0 else [f"the same is worse: {same.stdout!r}"]
        worse = ran(["bus-limits", f"--baseline={baseline}", loose, f"a={bad}"])
        told = "type 1 poll: share of missing, late and spoilt answers 4 %, before 0 %\n" in worse.stdout.decode()
        found += [] if told and worse.returncode == 1 else [f"{worse.returncode}: {worse.stdout!r}"]
    text = b"8 49 frame 108300fde5 station 16 type 0 a\n149 190 frame 108380f561 station 16 type 128 b\n"
    slow = wrote(folder, "slow.list", text + b"8 49 answered station 16 type 0\n")
    slower = wrote(folder, "slower.list", slow.read_bytes().replace(b"149 190", b"169 210"))
    for within, status in (("19", 1), ("20", 0)):
        got = ran(["bus-limits", f"--baseline={slow}", f"--within={within}", loose, f"a={slower}"])
        found += [] if got.returncode == status else [f"within {within}: {got.returncode}, {got.stdout!r}"]
    for kinds in (b"1", b'[{"station": 1, "type": 1}]'):
        strange = wrote(folder, "strange.json", b'{"units": [{"name": "a", "statistics": {"kinds": ' + kinds + b"}}]}")
        got = ran(["bus-limits", f"--baseline={strange}", loose, f"a={good}"])
        told = f"bus-limits: a: {strange} has no statistics of a\n".encode()
        found += [] if (got.returncode, got.stderr) == (2, told) else [f"strange: {got.stderr!r}"]
    return found


def names_faults(folder: Path) -> List[str]:
    """A wrong file of limits is named with line and key, and what cannot be judged is a fault and no pass."""
    kind = "[[limit]]\nstation = 1\ntype = 1\n"
    wrong = {
        "[bus]\nframe = 1\n": "2: frame: is no limit; limits are frames, damaged, strays, pending, damaged_percent",
        "[bus]\nframes = -1\n": "2: frames: is no number from 0",
        "[bus]\nframes = \n": "2: ",
        "[bus]\ndamaged_percent = 101\n": "2: damaged_percent: is above 100 %",
        "[busses]\n": "1: busses: is neither `bus` nor `limit`",
        "": "1: limits: there is no limit",
        kind: "1: limit: station 1 type 1 has no limit",
        "[[limit]]\ntype = 1\n": "1: limit: type 1 of each station has no limit",
        kind.replace("type = 1", "type = 128"): "3: type: is no whole number below 128",
        f"{kind}sent = 1\n{kind}sent = 1\n": "5: limit: station 1 type 1 stands there twice",
        "[[limit]]\nsent = 1\n[[limit]]\nlate = 1\n": "3: limit: each station and type stands there twice",
        "limit = 1\n": "1: limit: is no array of tables: write [[limit]]",
    }
    good = wrote(folder, "good.list", b"8 49 frame 108300fde5\n")
    found = []
    for text, told in wrong.items():
        path = limits(folder, text)
        got = ran(["bus-limits", path, f"a={good}"])
        is_told = got.stderr.decode().startswith(f"bus-limits: {path}:{told}")
        is_right = is_told and got.returncode == 2 and not got.stdout
        found += [] if is_right else [f"{text!r}: {got.returncode}, {got.stderr!r}"]
    empty, bad = wrote(folder, "empty", b""), wrote(folder, "bad", b"8 9\n")
    cut = wrote(folder, "cut", b"8 49 frame 108300fde5\n57 72 idle")
    faults = {
        f"a={empty}": ("[bus]\ndamaged = 0\n", "there is no frame: nothing to judge"),
        f"a={cut}": ("[bus]\ndamaged = 0\n", "the listing was cut off within its last line"),
        f"a={bad}": ("[bus]\ndamaged = 0\n", 'line 1 is no line of `port1 list`: "8 9"'),
        f"a={good}": (f"{kind}missing = 0\n", "the listing was made without a dictionary: no answer can be judged"),
        "a=/no/list": ("[bus]\ndamaged = 0\n", "ENOENT: no such file or directory, open '/no/list'"),
    }
    for word, (text, told) in faults.items():
        got = ran(["bus-limits", limits(folder, text), word])
        is_right = (got.returncode, got.stdout, got.stderr.decode()) == (2, b"", f"bus-limits: a: {told}\n")
        found += [] if is_right else [f"{word}: {got.returncode}, {got.stdout!r}, {got.stderr!r}"]
    return found


def summary_as_json(_: Path) -> List[str]:
    """The summary as an object has what was planted: the unit, its only missing answer, and times in milliseconds."""
    got = json.loads(ran(["bus-summary", "--json"], listing(unit(3, "missing").capture)).stdout)
    kinds = [(kind["station"], kind["type"], kind["name"], kind["sent"]) for kind in got["kinds"]]
    found = [] if kinds == [(1, 1, "poll", ROUNDS), (2, 1, "poll", ROUNDS)] else [f"the kinds are {kinds}"]
    found += [] if sum(kind["missing"] for kind in got["kinds"]) == 1 else ["another number of answers is missing"]
    longest = [kind["replyMs"]["longest"] * RATE / 1000 for kind in got["kinds"]]
    found += [] if all(IN_TIME[0] <= bits < IN_TIME[1] for bits in longest) else [f"longest replies of {longest} bits"]
    found += [] if [one["sort"] for one in got["wrong"]] == ["missing"] else [f"wrong is {got['wrong']}"]
    empty = json.loads(ran(["bus-summary", "--json"]).stdout)
    return found + ([] if empty["unknown"][0]["sort"] == "lines" else [f"of nothing it says {empty}"])


# Frames and verdicts of two kinds of commands that are answered, of which one misses an answer, and of one that is not;
# damage and a stray.
MIXED = b"""8 49 frame 018301fde5 station 1 type 1 poll
58 99 frame 018381f561 station 1 type 129 state
8 49 answered station 1 type 1
108 149 frame 028301fde5 station 2 type 1 poll
158 199 damaged fcs
208 249 frame 018307fde5 station 1 type 7 tell
108 149 missing station 2 type 1
258 299 frame 038381f561 station 3 type 129 state
258 299 stray station 3 type 129
"""


class Judged(NamedTuple):
    """Limits, and the lines that are written of MIXED."""

    limits: str
    lines: List[str]


DAMAGED, STRAYS = "not judged: bus: damaged pieces 1, no limit", "not judged: bus: strays 1, no limit"
MISSING = "station 2 type 1 poll: missing answers 1"

JUDGED = [
    Judged("[bus]\nframes = 1\n", ["PASS a: 1 of 1 limits kept", DAMAGED, STRAYS, f"not judged: {MISSING}, no limit"]),
    Judged("[bus]\ndamaged_percent = 50\nstrays = 0\n[[limit]]\nmissing = 0\n", [
        "FAIL a: 2 of 4 limits kept", "bus: strays 1, limit 0", f"{MISSING}, limit 0",
    ]),
    # What says more of its commands stands in place of what says less.
    Judged("[bus]\ndamaged = 1\nstrays = 1\n[[limit]]\nmissing = 0\n[[limit]]\nstation = 2\nmissing = 1\n", [
        "PASS a: 4 of 4 limits kept",
    ]),
    Judged("[bus]\ndamaged = 1\nstrays = 1\n[[limit]]\ntype = 1\nsent = 2\nbad_percent = 100\n", [
        "FAIL a: 4 of 6 limits kept", "station 1 type 1 poll: commands 1, limit 2", "station 2 type 1 poll: commands 1, limit 2",
    ]),
    # Where no command is as a table says, nothing can be judged.
    Judged("[bus]\ndamaged = 1\nstrays = 1\n[[limit]]\nstation = 9\nmissing = 0\n", [
        "FAIL a: 2 of 3 limits kept", "each type of station 9: missing answers nothing to judge, limit 0",
        f"not judged: {MISSING}, no limit",
    ]),
]


def holds_each_to_limits(folder: Path) -> List[str]:
    """Limits of each station and type, of strays and damage; what is wrong and has no limit is named in all forms."""
    found = []
    mixed = wrote(folder, "mixed.list", MIXED)
    for text, lines in JUDGED:
        files = {form: folder / f"mixed.{form}" for form in ("csv", "json", "page")}
        got = ran(["bus-limits", *(f"--{form}={path}" for form, path in files.items()), limits(folder, text), f"a={mixed}"])
        told = [line.strip() for line in got.stdout.decode().splitlines()]
        found += [] if told == lines else [f"{text!r}: {told}"]
        found += [] if got.returncode == (0 if lines[0].startswith("PASS") else 1) else [f"{text!r}: {got.returncode}"]
        count = sum(line.startswith("not judged") for line in lines)
        counts = [
            files["csv"].read_text().count(",not judged\n"),
            len(json.loads(files["json"].read_text())["units"][0]["open"]),
            files["page"].read_text().count("<li>Not judged: "),
        ]
        found += [] if counts == [count] * 3 else [f"{text!r}: {counts} are not judged, not {count}"]
    return found

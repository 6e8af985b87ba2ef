"""The page in browsers."""

import hashlib
import json
import random
import re
import subprocess
import tempfile
import time
from contextlib import contextmanager
from functools import partial
from pathlib import Path
from typing import Iterator, List, NamedTuple, Sequence, Tuple

import browser
from engine import Test, engine_of, narrow_page
from jobs import NAMES, TOP, bench, broken_jobs, program_lists, text_job
from needs import needs, needs_module
from table.vectors import VECTORS
from workbench import talk


@contextmanager
def opened(
    name: str, address: str, size: Tuple[int, int] = (1366, 768), is_dark: bool = False
) -> Iterator[browser.Session]:
    begin, programs = {**browser.BROWSERS, **browser.WEBKIT}[name]
    needs(*programs)
    needs_module("websocket")
    with tempfile.TemporaryDirectory(prefix="port1-") as folder:
        with begin(Path(folder), is_dark) as session:
            session.size(*size)
            session.visit(address)
            yield session


def address_of(page: Path) -> str:
    engine_of(page)
    return page.as_uri()


def shown_text(session: browser.Session) -> str:
    """The whole listing, as the page saves it."""
    text: str = session.value("page1.desk.texts().then((texts) => texts.join(''))")
    return text


def read_file(session: browser.Session, files: Sequence[Path]) -> None:
    """Chooses files, and waits until they are read."""
    session.value("void (document.getElementById('status').textContent = '')")
    session.set_files("#files", files)
    session.wait_until("!/^$|^Reading /.test(document.getElementById('status').textContent)")


def text_of(session: browser.Session, selector: str) -> str:
    found: str = session.value(f"document.querySelector({json.dumps(selector)}).textContent")
    return found


def summary_of(listing: str, *words: str) -> str:
    """What the script writes."""
    words = (str(TOP / "scripts" / "bus-summary"), *words)
    return subprocess.run(words, input=listing.encode(), capture_output=True, check=True).stdout.decode()


# Whether the choice of commands lies over the picture of their reply times.
COVERS = """((choice, picture) => choice.bottom > picture.top + 1)(
  ...['select', 'svg'].map((name) => document.querySelector(`#replies ${name}`).getBoundingClientRect()))"""


def problems_of_page(page: Path, name: str) -> List[str]:
    """Reads files as a user does, and looks at all that is shown."""
    bench()
    problems = []
    examples = TOP / "examples"
    with opened(name, address_of(page)) as session:
        read_file(session, [examples / "port1-failure.toml", examples / "port1-failure.bits"])
        dictionary = (examples / "port1-failure.toml").read_text()
        content = (examples / "port1-failure.bits").read_bytes()
        two = any(mark in content for mark in b"23")
        wanted, _ = program_lists(text_job("", content.decode(), 1 + two, dictionary))
        problems += [] if shown_text(session) == wanted else ["the listing is not the program's"]
        summary = summary_of(wanted)
        problems += [] if session.value("page1.desk.summaryText()") == summary else ["the summary is not the script's"]
        problems += problems_of_table(session, summary)
        problems += problems_of_search(session, wanted)
        problems += problems_of_marks(session)
        problems += ["the choice of commands covers reply times"] if session.value(COVERS) else []
        problems += [f"the console says {text}" for text in session.complaints()]
    return problems


def problems_of_table(session: browser.Session, summary: str) -> List[str]:
    """Whether each number of the table is that of the script's."""
    shown = session.value("[...document.querySelectorAll('#table tbody tr')].map((row) => [...row.cells].map((cell) => cell.textContent))")
    table = [line.split() for line in summary.splitlines() if re.match(r" *\d+ +\d+ +\S+ +\d+ ", line)]
    return [] if shown == table and table else [f"the table is {shown}, not {table}"]


def problems_of_search(session: browser.Session, listing: str) -> List[str]:
    """Whether a search finds the lines that it should."""
    wanted = sum(" missing " in line for line in listing.splitlines())
    session.value("void (document.getElementById('query-kind').value = 'missing')")
    session.value("document.getElementById('query').dispatchEvent(new Event('input')) && page1.desk.lines(0, 1)")
    session.wait_until(f"document.getElementById('query-count').textContent === '{wanted} lines'")
    session.wait_until("[...document.querySelectorAll('#lines .line')].every((line) => / missing /.test(line.textContent))")
    session.value("document.getElementById('query').reset() ?? page1.navigation.search()")
    return [] if wanted > 0 else ["nothing is missing"]


def problems_of_marks(session: browser.Session) -> List[str]:
    """Whether a mark of the timeline leads to its line, and that the bits show when one is near enough."""
    session.wait_until("document.querySelector('#timeline .mark.missing')")
    session.value("document.querySelector('#timeline .mark.missing').dispatchEvent(new MouseEvent('click', {bubbles: true}))")
    session.wait_until("/ missing /.test(document.querySelector('#lines .chosen')?.textContent)")
    session.value("document.querySelector('#lines .chosen').click()")
    session.wait_until("document.querySelectorAll('#timeline .bits').length > 20")
    return []


def problems_of_dictionary(page: Path, name: str) -> List[str]:
    """Whether a draft is the script's, and a wrong dictionary is told by the program's own text, and by its lines."""
    bench()
    capture = TOP / "examples" / "missing-and-spoilt.bits"
    draft = drafted(program_lists(text_job("", capture.read_text(), 1, ""))[0])
    with opened(name, address_of(page)) as session:
        read_file(session, [capture])
        session.value("document.getElementById('draft').click()")
        session.wait_until("document.getElementById('dictionary').value !== ''")
        shown = session.value("document.getElementById('dictionary').value")
        problems = [] if shown == draft else [f"the draft is {shown!r}, not {draft!r}"]
        wrong = draft.replace("length = 0", "length = 254")
        session.value(f"void (document.getElementById('dictionary').value = {json.dumps(wrong)})")
        session.value("document.getElementById('dictionary').dispatchEvent(new Event('input'))")
        session.wait_until("document.querySelector('#findings .fault')")
        line = wrong[: wrong.index("length = 254")].count("\n") + 1
        told = session.value("[...document.querySelectorAll('#findings .fault')].map((item) => item.textContent)")
        wanted = f"line {line}: frame 1: length: 254 is not 0 to 253"
        problems += [] if wanted in told else [f"the findings are {told}, without {wanted!r}"]
        session.value("document.getElementById('settings').requestSubmit()")
        session.wait_until("document.getElementById('status').textContent === 'dictionary: frame 1: bad length'")
    return problems


def drafted(listing: str) -> str:
    """What draft-dictionary makes of a listing."""
    words = [str(TOP / "scripts" / "draft-dictionary")]
    return subprocess.run(words, input=listing.encode(), capture_output=True, check=True).stdout.decode()


def problems_of_draft(page: Path, name: str) -> List[str]:
    """Whether bits without a dictionary are judged by a draft, as bus-report does it."""
    bench()
    recording = TOP / "examples" / "four-wires.csv"
    words = [str(TOP / "scripts" / "recording-to-bits"), *WIRES]
    taken = subprocess.run(words, stdin=recording.open(), capture_output=True, check=True).stdout.decode()
    failure = TOP / "examples" / "port1-failure.bits"
    problems = []
    with opened(name, address_of(page)) as session:
        for file, bits, kind in [(failure, failure.read_text(), 2), (recording, taken, "arrivals")]:
            draft = drafted(program_lists(text_job("", bits, kind, ""))[0])
            wanted, _ = program_lists(text_job("", bits, kind, draft))
            read_file(session, [file])
            shown = [shown_text(session), session.value("document.getElementById('dictionary').value")]
            problems += [] if shown == [wanted, draft] else [f"{file.name}: listing or draft are not the script's"]
            with tempfile.NamedTemporaryFile("w", suffix=".toml") as dictionary:
                dictionary.write(draft)
                dictionary.flush()
                summary = summary_of(wanted, f"--dictionary={dictionary.name}", f"--bits={len(re.findall('[0-3]', bits))}")
            same = session.value("page1.desk.summaryText()") == summary
            problems += [] if same else [f"{file.name}: the summary is not the script's"]
        return problems + [f"the console says {text}" for text in session.complaints()]


def problems_of_names(page: Path, name: str) -> List[str]:
    """Whether what a dictionary calls a frame stays text."""
    here = bench()
    bits = talk(here, random.Random(2))
    with tempfile.TemporaryDirectory(prefix="port1-") as folder, opened(name, address_of(page)) as session:
        capture, dictionary = Path(folder, "<b>capture.bits"), Path(folder, "names.toml")
        capture.write_text(bits)
        dictionary.write_text(NAMES)
        read_file(session, [dictionary, capture])
        problems = [] if "<img/src=x/onerror=alert(1)>" in text_of(session, "#table") else ["the table has not the name"]
        for selector in ["#result img", "#result script", "#result b", "#status b"]:
            if session.value(f"document.querySelector('{selector}')") is not None:
                problems.append(f"there is a {selector}")
        return problems + [f"the console says {text}" for text in session.complaints()]


def problems_of_fault(page: Path, name: str) -> List[str]:
    """Whether a broken capture shows the program's own text, and what stands before the fault, judged by a draft."""
    bench()
    job = next(job for job in broken_jobs() if job.name == "spare bits")
    wanted, fault = program_lists(job._replace(dictionary=drafted(program_lists(job)[0])))
    with tempfile.TemporaryDirectory(prefix="port1-") as folder, opened(name, address_of(page)) as session:
        file = Path(folder, "broken.ts2")
        file.write_bytes(job.content)
        read_file(session, [file])
        text = text_of(session, "#fault")
        problems = [] if text.endswith(f"port1: {fault}") else [f"the page says {text!r}, the program {fault!r}"]
        return problems + ([] if shown_text(session) == wanted else ["the listing is not the program's"])


def problems_of_growth(page: Path, name: str) -> List[str]:
    """Whether the page says that a file is still being written, which grows so fast that no read of it succeeds;
    Firefox reads what the file was when it was chosen."""
    with tempfile.TemporaryDirectory(prefix="port1-") as folder, opened(name, address_of(page)) as session:
        file = Path(folder, "growing.csv")
        said = "document.getElementById('status').textContent + document.getElementById('fault').textContent"
        for count in (100, 1 << 20):
            rows = [f"{at}e-6,0,1,0,1\n" for at in range(count)]
            file.write_text("".join(["Time [s],TXC,TXD,RXC,RXD\n", *rows]))
            with subprocess.Popen(["sh", "-c", f"while :; do echo 9,0,1,0,1 >> {file}; done"]) as grow:
                try:
                    time.sleep(0.2)
                    session.set_files("#files", [file])
                    session.wait_until(f"/still being written{'|0 lines in' if name == 'firefox' else ''}/.test({said})")
                finally:
                    grow.kill()
            session.visit(address_of(page))
        return []


WIRES = ["TXC", "TXD", "RXC", "RXD"]

# What was sent when examples/four-wires.csv was made: a call on TXD, and its reply on RXD.
CALL, REPLY = "108300fde5", "108380f561"


class Wiring(NamedTuple):
    """The columns of a recording, the channels that are chosen, and the frames by their lines, or what the page says."""

    name: str
    columns: Sequence[str]
    channels: Sequence[str] = WIRES
    frames: Sequence[str] = (f"1 {CALL}", f"2 {REPLY}")
    says: str = ""


ASKED = "Say which channels are TXC and TXD."

WIRINGS = [
    Wiring("the usual order", WIRES),
    Wiring("the other order", WIRES[::-1]),
    Wiring("the lines exchanged", ["RXC", "RXD", "TXC", "TXD"]),
    Wiring("five channels", ["D0", *WIRES]),
    Wiring("eight channels", ["D0", "RXD", "D1", "TXD", "D2", "RXC", "D3", "TXC"]),
    Wiring("lines exchanged by hand", WIRES, ["RXC", "RXD", "TXC", "TXD"], [f"2 {CALL}", f"1 {REPLY}"]),
    Wiring("the answers alone", WIRES, ["RXC", "RXD", "none", "none"], [REPLY]),
    Wiring("no TXC", WIRES, ["none", "TXD", "RXC", "RXD"], says=ASKED),
    Wiring("no TXD", WIRES, ["TXC", "none", "RXC", "RXD"], says=ASKED),
    Wiring("no RXC", WIRES, ["TXC", "TXD", "none", "RXD"]),
    Wiring("no RXD", WIRES, ["TXC", "TXD", "RXC", "none"], [CALL]),
]


def with_columns(columns: Sequence[str]) -> str:
    """The example of four wires with these columns; those that it has not are 0."""
    rows = [line.split(",") for line in (TOP / "examples" / "four-wires.csv").read_text().splitlines()]
    head, *samples = rows
    places = [head.index(name) if name in head else None for name in columns]
    made = [[row[0], *("0" if place is None else row[place] for place in places)] for row in samples]
    return "".join(",".join(row) + "\n" for row in [[head[0], *columns], *made])


def choose(session: browser.Session, channels: Sequence[str]) -> None:
    """Chooses channels by hand, and has the file read."""
    session.value("void (document.getElementById('status').textContent = '')")
    for at, channel in enumerate(channels):
        session.value(f"void (document.getElementById('channel-{at}').value = '{channel}')")
    session.value("document.getElementById('settings').requestSubmit()")
    session.wait_until("/ lines in |^Say which channels are/.test(document.getElementById('status').textContent)")


def problems_of_wiring(session: browser.Session, wiring: Wiring, file: Path) -> List[str]:
    file.write_text(with_columns(wiring.columns))
    read_file(session, [file])
    found = session.value("[0, 1, 2, 3].map((at) => document.getElementById(`channel-${at}`).value)")
    problems = [] if found == WIRES else [f"{wiring.name}: the channels are {found}"]
    choose(session, wiring.channels)
    if wiring.says:
        said = text_of(session, "#status")
        return problems + ([] if said == wiring.says else [f"{wiring.name}: the page says {said!r}"])
    frames = re.findall(r"^((?:[12] )?)\d+ \d+ frame (\w+)", shown_text(session), re.MULTILINE)
    is_right = ["".join(frame) for frame in frames] == list(wiring.frames)
    return problems + ([] if is_right else [f"{wiring.name}: the frames are {frames}"])


def problems_of_wires(page: Path, name: str) -> List[str]:
    """Whether the channels of a recording are found by their names, and the bits taken of those that are chosen."""
    problems = []
    with tempfile.TemporaryDirectory(prefix="port1-") as folder, opened(name, address_of(page)) as session:
        for number, wiring in enumerate(WIRINGS):
            problems += problems_of_wiring(session, wiring, Path(folder, f"{number}.csv"))
        return problems + [f"the console says {text}" for text in session.complaints()]


# Notes of recording-to-bits, and what the report shows where.
NOTES = "recording-to-bits: TXC has 9 edges\nrecording-to-bits: warning: the edges of TXC jump: its wire has glitches, or samples were lost (at 0.250000 s)\n"

REPORTED = [
    ("#title", "^Cabinet <7> & more$"),
    ("#verdict-word", "^Fault$"),
    ("#sentences", "until the recording ends at 03:01:05.104"),
    ("#head", "It begins on 2026-11-27 03:00:00.000"),
    ("#facts", "2026-11-27 03:00:00"),
    ("#timeline .axis", "03:00:50.*time"),
    ("#lines .second", "^03:00:00.0"),
    ("#facts", "^port1-failure.bits"),
    ("#recording", "SHA-256[0-9a-f]{64}$"),
    ("#notes", "TXC has 9 edges"),
    ("#warnings", "The edges of TXC jump.*At 03:00:00.250"),
    ("#dictionary-text", "name = .outputs."),
]


def report_of(page: Path, folder: str, words: Sequence[str], title: str, listing: str) -> Path:
    """A report that list-to-page makes of a listing."""
    report = Path(folder, "report.html")
    command = [str(TOP / "scripts" / "list-to-page"), f"--page={page}", *words, title]
    report.write_bytes(subprocess.run(command, input=listing.encode(), stdout=subprocess.PIPE, check=True).stdout)
    return report


def problems_of_bare_report(page: Path, name: str) -> List[str]:
    """Whether a report of a listing alone has its title once: its bar names no file."""
    engine_of(page)
    bench()
    with tempfile.TemporaryDirectory(prefix="port1-") as folder:
        report = report_of(page, folder, [], "Cabinet 7", "1 8 49 frame 108300fde5 station 16 type 0 call\n")
        with opened(name, report.as_uri()) as session:
            session.wait_until("/ lines in /.test(document.getElementById('status').textContent)")
            shown = [text_of(session, "#title"), text_of(session, "#facts li")]
            return [] if shown == ["Cabinet 7", "0.000 s"] else [f"the bar begins with {shown}"]


def problems_of_report(page: Path, name: str) -> List[str]:
    """Whether a report shows what the page does, and what it is of, and prints."""
    engine_of(page)
    bench()
    capture, dictionary = (TOP / "examples" / f"port1-failure.{form}" for form in ("bits", "toml"))
    wanted, _ = program_lists(text_job("", capture.read_text(), 2, dictionary.read_text()))
    with tempfile.TemporaryDirectory(prefix="port1-") as folder:
        notes = Path(folder, "notes")
        notes.write_text(NOTES)
        begin = "--begin=2026-11-27T03:00:00-05:00"
        words = [f"--dictionary={dictionary}", f"--recording={capture}", f"--notes={notes}", "--bits=9999999", begin]
        report = report_of(page, folder, words, "Cabinet <7> & more", wanted)
        with opened(name, report.as_uri()) as session:
            session.wait_until("/ lines in /.test(document.getElementById('status').textContent)")
            problems = [] if shown_text(session) == wanted else ["the listing is not the one that was given"]
            problems += [] if session.value("document.title") == "Cabinet <7> & more" else ["the title is another"]
            shown = ((selector, pattern, text_of(session, selector)) for selector, pattern in REPORTED)
            problems += [f"{selector} is {text!r}" for selector, pattern, text in shown if not re.search(pattern, text)]
            problems += problems_of_table(session, summary_of(wanted, begin))
            problems += [] if len(session.printed()) > 10000 else ["nothing is printed"]
            return problems + [f"the console says {text}" for text in session.complaints()]


def problems_of_size(page: Path) -> List[str]:
    """Whether the page is one file of less than 6 MB, which fetches nothing."""
    engine_of(page)
    text = page.read_text(encoding="utf-8")
    problems = [] if len(text.encode()) < 6_000_000 else [f"it has {len(text.encode())} octets"]
    for word in ['src="', "@import", "<link", "<iframe", "unsafe-inline", "unsafe-eval'"]:
        if word in text.replace("wasm-unsafe-eval'", "").partition("<body>")[0]:
            problems.append(f"its head has {word}")
    return problems + ([] if "default-src 'none'" in text else ["its policy lets something in"])


# ---- the picture in the documents

# Its size, and its octets, at most.
SIZE_OF_PICTURE = (1160, 660)
MOST_OF_PICTURE = 200_000


def take_picture(page: Path, file: Path) -> List[str]:
    """Writes a picture of the verdict on the example of faults, as Chromium shows it on a laptop."""
    examples = TOP / "examples"
    with opened("chromium", address_of(page)) as session:
        session.size(*SIZE_OF_PICTURE)
        read_file(session, [examples / "port1-failure.toml", examples / "port1-failure.bits"])
        session.wait_until("document.querySelector('#timeline .mark')")
        session.value("void document.getElementById('result').scrollIntoView()")
        session.picture(file, whole=False)
    octets = file.stat().st_size
    return [] if octets <= MOST_OF_PICTURE else [f"{file} has {octets} octets, over {MOST_OF_PICTURE}"]


# By which marks the page knows the kind of a text, where it is not of one line.
MARKED = {"one line": "01", "two lines": "23", "arrivals": "oi"}


def problems_of_captures(page: Path, name: str) -> List[str]:
    """Whether the page without the decoder for 64-bit memory lists the captures that the tests of all languages read, and
    says which decoder it has."""
    vectors = [one for one in VECTORS if one.dictionary and set(one.marks) & set(MARKED[one.kind])]
    problems = [] if len(vectors) > 8 else [f"there are {len(vectors)} captures"]
    with tempfile.TemporaryDirectory(prefix="port1-") as folder:
        with opened(name, narrow_page(page, Path(folder)).as_uri()) as session:
            for at, vector in enumerate(vectors):
                files = [Path(folder, f"{at}.bits"), Path(folder, f"{at}.toml")]
                for file, text in zip(files, [vector.marks, vector.dictionary]):
                    file.write_text(text)
                read_file(session, files)
                shown = shown_text(session)
                problems += [] if shown == vector.listing else [f"{vector.kind}, {vector.name}: {shown[:200]!r}"]
            said = session.value("document.getElementById('narrow').offsetParent !== null")
            problems += [] if said else ["it does not say which decoder it has"]
            digest = hashlib.sha256(engine_of(page, "32")).hexdigest()[:16]
            problems += [] if digest in text_of(session, "#version") else [f"it does not name the decoder {digest}"]
            return problems + [f"the console says {text}" for text in session.complaints()]


def tests_of(page: Path) -> Iterator[Test]:
    yield Test("one file that fetches nothing", partial(problems_of_size, page))
    for name in browser.BROWSERS:
        for what, problems in [
            ("what is shown", problems_of_page),
            ("a dictionary", problems_of_dictionary),
            ("a draft", problems_of_draft),
            ("32-bit memory", problems_of_captures),
            ("names of a dictionary", problems_of_names),
            ("a fault", problems_of_fault),
            ("a file that grows", problems_of_growth),
            ("four wires", problems_of_wires),
            ("a report", problems_of_report),
            ("a report of a listing alone", problems_of_bare_report),
        ]:
            yield Test(f"{name}: {what}", partial(problems, page, name))

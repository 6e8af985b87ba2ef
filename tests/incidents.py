"""Incidents of bus-watch in the page: a list of them, and one with times of day.

The talk is made here, and so it is known when its faults are.
"""

import base64
import json
import tempfile
from functools import partial
from pathlib import Path
from typing import Dict, Iterator, List, Sequence, Tuple

import browser
from engine import Test
from inputs import NO_ANSWER, RATE, dictionary, talk, text_at
from paged import address_of, opened, read_file
from table.captures import packed_marks
from viewed import EXAMPLE

# The rounds in which station 2 does not answer: its first command then begins after 20 * 20 + 11 ms.
SILENT = range(20, 30)

FIRST = round(411 * RATE / 1000)

# The place of the first bit in its run, and when place 0 of the run was: ten seconds before.
ORIGIN, BEGIN = 10 * RATE, "2026-11-27T02:59:49.900Z"

Files = Dict[str, bytes]


def packed() -> bytes:
    """The capture of both lines."""
    commands, answers = talk(40, lambda station, number: NO_ANSWER if station == 2 and number in SILENT else 1.0)
    pairs = [int(one) + 2 * int(other) for one, other in zip(commands.bits, answers.bits)]
    return packed_marks(b"TS2BITS2", pairs)


def folder_of(name: str, wall: str, causes: Sequence[str]) -> Files:
    told = {"wall": wall, "place": ORIGIN + FIRST, "seconds": 0.2, "causes": {cause: 1 for cause in causes}}
    record = json.dumps({**told, "begin": BEGIN, "origin": ORIGIN}).encode()
    files = {"incident.json": record, "bits.ts2": packed(), "cabinet.toml": dictionary(), "summary.txt": b"of no use\n"}
    return {f"incidents/{name}/{file}": content for file, content in files.items()}


def incidents() -> Files:
    old = folder_of("old", "2026-11-26T01:02:03.450Z", ["gap 2/0", "rest", "gap 1/0"])
    return {**old, **folder_of("new", "2026-11-27T03:00:00.311Z", ["missing 2/0"]), "incidents.jsonl": b"{}\n"}


# A drop of folders, as a browser tells it.
DROP = """void (() => {
  const entryOf = (name, path, node) => typeof node === 'string'
    ? { isFile: true, fullPath: path, file: (done) =>
        done(new File([Uint8Array.from(atob(node), (c) => c.charCodeAt(0))], name)) }
    : { isDirectory: true, fullPath: path, createReader: () => {
        const some = Object.entries(node).map(([own, below]) => entryOf(own, `${path}/${own}`, below));
        return { readEntries: (done) => done(some.splice(0, 2)) };
      } };
  const items = Object.entries(%s).map(([name, node]) => ({ webkitGetAsEntry: () => entryOf(name, `/${name}`, node) }));
  const event = Object.assign(new Event('drop', { cancelable: true }), { dataTransfer: { files: [], items } });
  document.dispatchEvent(event);
})()"""


def tree_of(files: Files) -> Dict[str, object]:
    tree: Dict[str, object] = {}
    for path, content in files.items():
        *folders, name = path.split("/")
        at = tree
        for folder in folders:
            at = at.setdefault(folder, {})  # type: ignore[assignment]
        at[name] = base64.b64encode(content).decode()
    return tree


def choose(session: browser.Session, name: str, files: Files, top: Path) -> None:
    """Gives the page a folder: Chromium by its field, Firefox, whose driver cannot, by a drop."""
    if name != "chromium":
        session.value(DROP % json.dumps(tree_of(files)))
        return
    for path, content in files.items():
        file = top / path
        file.parent.mkdir(parents=True, exist_ok=True)
        file.write_bytes(content)
    session.set_files("#folder", [top])


ROWS = "[...document.querySelectorAll('#incident-list button')].map((b) => [...b.children].map((s) => s.textContent))"

LIST = [
    ["2026-11-27 03:00:00.311", "answers to type 0 missing", "station 2", "0.20 s"],
    ["2026-11-26 01:02:03.450", "nothing on either line, and 2 other causes", "stations 1, 2", "0.20 s"],
]

# What is shown of the last one: where, and how that begins or what it has.
SHOWN: List[Tuple[str, str]] = [
    ("#verdict-word", "Fault"),
    ("#facts .name", "2026-11-27 03:00:00 UTC: station 2, answers to type 0 missing"),
    ("#sentences .jump", "10 in a row from 03:00:00.311 on"),
    ("#sentences .times button", "03:00:00.311"),
    ("#head", "It begins on 2026-11-27 02:59:59.900 UTC."),
    ("#timeline .where", "02:59:59.9000 to 03:00:00."),
    ("#timeline .axis", "03:00:00.3"),
    ("#timeline .axis .about", "UTC"),
    ("#chosen", "03:00:00.311"),
    ("#lines .line.chosen .second", "03:00:00.311"),
    ("#table th:last-child", "from"),
    ("#incidents-head", "Incident 1 of 2"),
]

CUT_TIMES = "[...document.querySelectorAll('#lines .second')].some((time) => time.scrollWidth > time.clientWidth)"

RESULT = "document.body.dataset.state === 'result' && !document.body.classList.contains('reading')"


def problems_of_list(page: Path, name: str) -> List[str]:
    """Whether a folder is a list, its last incident is shown with times of day, and a file after it with seconds."""
    with opened(name, address_of(page)) as session, tempfile.TemporaryDirectory(prefix="port1-") as top:
        choose(session, name, incidents(), Path(top))
        session.wait_until("document.body.dataset.state === 'list'")
        found = session.value(ROWS)
        problems = [] if found == LIST else [f"the list is {found}"]
        session.value("document.activeElement.click()")
        session.wait_until(f"{RESULT} && /^03/.test(document.getElementById('chosen').textContent)")
        session.wait_until("document.querySelector('#lines .line.chosen .second')")
        session.wait_until("document.querySelectorAll('#timeline .axis .tick').length > 2")
        for selector, words in SHOWN:
            told = text_at(session, selector)
            problems += [] if words in told else [f"{selector} is {told!r}, without {words!r}"]
        problems += [] if session.value("page1.navigation.timeline.summary.hasBits") else ["there are no bits"]
        go = "(field) => { field.value = '03:00:00.5'; field.dispatchEvent(new Event('change')); }"
        session.value(f"void ({go})(document.getElementById('query-second'))")
        session.wait_until("/^03:00:00.501/.test(document.getElementById('chosen').textContent)")
        read_file(session, EXAMPLE)
        is_hidden = session.value("document.getElementById('incidents').hidden")
        where = text_at(session, "#timeline .where")
        return problems + ([] if is_hidden and where.startswith("0.0000 to 0.5") else [f"after a file: {where}"])


def problems_of_one(page: Path, name: str) -> List[str]:
    """Whether the folder of one incident is shown at once, one whose record is cut off is named, and others are read."""
    files = {path: content for path, content in incidents().items() if "/new/" in path}
    cut = {path: content[:40] if path.endswith("json") else content for path, content in files.items()}
    plain = {path: content for path, content in files.items() if not path.endswith("json")}
    with opened(name, address_of(page)) as session:
        session.value(DROP % json.dumps(tree_of(cut)))
        session.wait_until("/incident.json tells nothing/.test(document.getElementById('status').textContent)")
        session.value(DROP % json.dumps(tree_of(files)))
        session.wait_until(f"{RESULT} && /^03/.test(document.getElementById('chosen').textContent)")
        problems = [] if session.value("document.getElementById('incidents').hidden") else ["one incident is a list"]
        problems += ["times of the listing are cut off"] if session.value(CUT_TIMES) else []
        session.value(DROP % json.dumps(tree_of(plain)))
        session.wait_until(f"{RESULT} && /^bits/.test(document.querySelector('#facts .name').textContent)")
        where, told = text_at(session, "#timeline .where"), text_at(session, "#status.fault")
        return problems + ([] if where.startswith("0.0000 to 0.8") and told == "" else [f"a folder of files: {where}, {told}"])


def tests_of(page: Path) -> Iterator[Test]:
    for name in browser.BROWSERS:
        yield Test(f"{name}: a list of incidents", partial(problems_of_list, page, name))
        yield Test(f"{name}: one incident", partial(problems_of_one, page, name))

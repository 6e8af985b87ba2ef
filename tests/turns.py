"""One file after another: the page says of a file what it says of it alone, whatever was shown before.

A file that cannot be read takes away what was shown, and is named. Where reading is stopped, all is as it was before.
"""

import json
import os
import tempfile
from functools import partial
from pathlib import Path
from typing import Any, Callable, Dict, Iterator, List, Tuple

import browser
from engine import Test
from incidents import DROP, RESULT, incidents, tree_of
from inputs import DICT, LATE, SHORT, SILENT, WELL, dictionary, rows_of, session_of, text_at
from paged import address_of, opened, read_file

Files = Dict[str, bytes]

# When each file was written, in seconds since 1970, which the page shows.
WRITTEN = 1_700_000_000

# All that is said of a file, without the time that it took.
SAID = """[...['#verdict-word', '#verdict-short', '#counts', '#sentences', '#lacks', '#facts', '#dictionary-state', '#command',
  '#timeline .where', '#chosen', '#query-count', '#guess:not([hidden])', '#warnings:not([hidden])', '#fault:not([hidden])']
  .map((selector) => document.querySelector(selector)?.textContent.trim() ?? null),
  ...['dictionary', 'channel-0', 'channel-1', 'channel-2', 'channel-3', 'query-station', 'form', 'rest']
  .map((id) => document.getElementById(id).value),
  ...['falling', 'inverted-1', 'inverted-2'].map((id) => document.getElementById(id).checked)]"""

IS_READ = "!document.body.classList.contains('reading') && document.querySelector('#timeline .where').textContent"


def give(session: browser.Session, folder: Path, files: Files) -> None:
    for name, octets in files.items():
        Path(folder, name).write_bytes(octets)
        os.utime(Path(folder, name), (WRITTEN, WRITTEN))
    read_file(session, [Path(folder, name) for name in files])
    session.wait_until(f"document.getElementById('result').hidden || ({IS_READ})")


def show_example(session: browser.Session, _: Path) -> None:
    session.value("document.getElementById('example').click()")
    session.wait_until(f"document.querySelector('#facts .name') && {IS_READ}")


def choose_by_hand(session: browser.Session, folder: Path) -> None:
    """A recording whose wires were guessed, then chosen and inverted, one station of it, and a small part in view."""
    give(session, folder, {"hand.csv": rows_of(SHORT, ["D0", "D1", "D2", "D3"], flipped=0b0010)})
    ticks = "for (const id of ['falling', 'inverted-1']) document.getElementById(id).checked = true"
    session.value(f"void (() => {{ {ticks} }})()")
    session.value("document.getElementById('settings').requestSubmit()")
    session.wait_until(IS_READ)
    session.value("page1.navigation.narrow(2)")
    session.value("page1.navigation.timeline.zoomBy(64)")
    session.wait_until("!/^0\\.0+ to /.test(document.querySelector('#timeline .where').textContent)")


def show_incident(session: browser.Session, _: Path) -> None:
    """An incident with a dictionary of its own."""
    files = {path: octets for path, octets in incidents().items() if "/new/" in path}
    session.value(DROP % json.dumps(tree_of(files)))
    session.wait_until(f"{RESULT} && /^03/.test(document.getElementById('chosen').textContent)")


def edit_draft(session: browser.Session, folder: Path) -> None:
    """A dictionary that the user wrote, and took away again by a draft."""
    give(session, folder, {**DICT, "late.bits": LATE})
    session.value("document.getElementById('draft').click()")
    session.wait_until(f"/drafted/.test(document.getElementById('dictionary-state').textContent) && {IS_READ}")


BEFORE: List[Tuple[str, Callable[[browser.Session, Path], None]]] = [
    ("the example", show_example),
    ("wires chosen by hand", choose_by_hand),
    ("an incident", show_incident),
    ("a dictionary that was taken away", edit_draft),
]

AFTER: List[Tuple[str, Files]] = [
    ("a capture", {"silent.bits": SILENT}),
    ("channels by their numbers", {"d.sr": session_of(SHORT, ["D0", "D1", "D2", "D3"])}),
    ("a capture with a dictionary", {**DICT, "well.bits": WELL}),
]

# A table of volts, files that cannot be read, a dictionary with a fault, and what is said of each.
BROKEN: List[Tuple[Files, str]] = [
    ({"volts.csv": b"Time [s],TXC,TXD,RXC,RXD\n0.001,3.3,0.1,3.3,0.2\n0.002,0.1,3.3,3.3,0.2\n"}, "volts.csv: "),
    ({"tap.sr": session_of(SHORT)[:-400]}, "tap.sr: The session is cut off"),
    ({"tap.png": b"\x89PNG\r\n\x1a\n\0\0"}, "tap.png is a picture"),
    ({"bad.toml": dictionary().replace(b"length = 0", b"length = 254"), "well.bits": WELL}, "dictionary: frame 1: bad"),
]


# What is left of the example: its name, a sentence, a mark or a line.
LEFT = """[document.getElementById('facts').textContent.match(/port1-failure/)?.[0],
  ...['#sentences .jump', '#timeline .mark', '#lines .line'].map((each) => document.querySelector(each))
  .map((node) => node?.offsetParent || node?.checkVisibility?.() ? node.className : null)].find((each) => each) ?? ''"""


def problems_of_turns(page: Path, name: str) -> List[str]:
    """Whether a file is told as it is told alone, whatever was shown before."""
    problems = []
    with tempfile.TemporaryDirectory(prefix="port1-") as top, opened(name, address_of(page)) as session:
        for what, files in AFTER:
            told: List[Tuple[str, Any]] = []
            for before, show in [("nothing", lambda *_: None), *BEFORE]:
                session.visit(address_of(page))
                show(session, Path(top))
                give(session, Path(top), files)
                told.append((before, session.value(SAID)))
            alone = told[0][1]
            for before, said in told[1:]:
                other = [f"{one!r}, alone {own!r}" for one, own in zip(said, alone) if one != own]
                problems += [f"{what} after {before}: {each}" for each in other]
        return problems + [f"the console says {text}" for text in session.complaints()]


def problems_of_faults(page: Path, name: str) -> List[str]:
    """Whether a file that cannot be read takes away what was shown, and is named."""
    problems = []
    with tempfile.TemporaryDirectory(prefix="port1-") as top, opened(name, address_of(page)) as session:
        for files, words in BROKEN:
            session.visit(address_of(page))
            show_example(session, Path(top))
            give(session, Path(top), files)
            said = text_at(session, "#status")
            problems += [] if said.startswith(words) else [f"of {[*files]} it says {said!r}, not {words!r}"]
            left = session.value(LEFT)
            problems += [f"after {[*files]} there is still {left}"] if left else []
        return problems


# A capture of three reads. While reads are held, those after so many bring nothing, but for the head of a file.
LONG = b"1" * (2 * (1 << 22) + 1000)
HOLD = """void (() => {
  self.held ??= Blob.prototype.arrayBuffer;
  let reads = 0;
  Blob.prototype.arrayBuffer = function () {
    reads += this.size > 65536 ? 1 : 0;
    return reads > %d ? new Promise(() => undefined) : self.held.call(this);
  };
})()"""
RELEASE = "void (Blob.prototype.arrayBuffer = self.held)"

# What the page has while it reads a file: how far it is, and a button that can be seen.
PROGRESS = "document.getElementById('progress')"
IS_HELD = f"!{PROGRESS}.hidden && {PROGRESS}.value > 0.3 && {PROGRESS}.value < 0.6"
IS_OFFERED = "getComputedStyle(document.getElementById('stop')).visibility === 'visible'"


def by_button(session: browser.Session) -> None:
    session.wait_until(IS_OFFERED)
    session.value("document.getElementById('stop').click()")


def by_key(session: browser.Session) -> None:
    session.press("Escape")


def invert(session: browser.Session) -> None:
    """Reads the file that is shown with a line inverted."""
    session.value("document.getElementById('inverted-2').checked = true")
    session.value("document.getElementById('settings').requestSubmit()")


def problems_of_stop(
    session: browser.Session, act: Callable[[], None], stop: Callable[[browser.Session], None], reads: int = 1
) -> List[str]:
    """Whether all is as it was before a file was read, which is held after so many reads, and what is said of it."""
    before = session.value(f"[document.body.dataset.state, ...{SAID}]")
    session.value(HOLD % reads)
    act()
    session.wait_until("document.body.classList.contains('reading')")
    stop(session)
    session.wait_until("/^Stopped: /.test(document.getElementById('status').textContent)")
    session.wait_until("!document.body.classList.contains('reading')")
    session.value(RELEASE)
    after = session.value(f"[document.body.dataset.state, ...{SAID}]")
    # A field without a channel offers none, once a file was looked at.
    problems = [f"{one!r}, before {own!r}" for one, own in zip(after, before) if one != own and (one, own) != ("none", "")]
    shown = session.value("['reading', 'progress'].filter((id) => !document.getElementById(id).hidden)")
    is_seen = session.value("document.getElementById('status').offsetHeight > 9")
    return problems + [f"{each} is still shown" for each in shown] + ([] if is_seen else ["the sentence is not seen"])


def problems_of_stops(page: Path, name: str) -> List[str]:
    """Whether reading can be stopped, and what was shown before stays; and that files are read afterwards."""
    problems = []
    with tempfile.TemporaryDirectory(prefix="port1-") as top, opened(name, address_of(page)) as session:
        long = Path(top, "long.bits")
        long.write_bytes(LONG)

        def give_long() -> None:
            session.set_files("#files", [long])
            session.wait_until(IS_HELD)

        stops = [by_button] if name in browser.WEBKIT else [by_button, by_key]
        for stop in stops:
            for what, show in [("nothing", lambda *_: None), *BEFORE]:
                session.visit(address_of(page))
                show(session, Path(top))
                told = problems_of_stop(session, give_long, stop)
                problems += [f"{what}, {stop.__name__}: {each}" for each in told]
        choose_by_hand(session, Path(top))
        session.value(RELEASE)
        problems += [f"the same file: {each}" for each in problems_of_stop(session, lambda: invert(session), stops[-1], 0)]
        alone = ("a capture", {"silent.bits": SILENT})
        give(session, Path(top), alone[1])
        said = text_at(session, "#verdict-short")
        problems += [] if "Station 2" in said else [f"afterwards it says {said!r} of {alone[0]}"]
        return problems + [f"the console says {text}" for text in session.complaints()]


def tests_of(page: Path) -> Iterator[Test]:
    for name in [*browser.BROWSERS, *browser.WEBKIT]:
        yield Test(f"{name}: reading that is stopped", partial(problems_of_stops, page, name))
    for name in browser.BROWSERS:
        yield Test(f"{name}: one file after another", partial(problems_of_turns, page, name))
        yield Test(f"{name}: a file that cannot be read", partial(problems_of_faults, page, name))

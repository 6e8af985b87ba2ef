"""What the page shows: what is in view at each size, and where each button leads."""

import json
import re
import tempfile
import zlib
from functools import partial
from pathlib import Path
from typing import Iterator, List, Sequence, Tuple

import browser
from engine import Test
from inputs import FIRST, LATE, MANY_GAPS, SHORT, STATUS, dictionary, problems_of_inputs, rows_of, text_at
from paged import TOP, address_of, opened, read_file

EXAMPLE = [TOP / "examples" / "port1-failure.toml", TOP / "examples" / "port1-failure.bits"]

LAPTOP = (1366, 768)
SIZES = [(390, 844), (820, 1180), LAPTOP, (1920, 1080)]

# On these a sentence, the timeline and the listing are in view together.
WIDE = [LAPTOP, (1920, 1080)]

# How many lines the listing has that is scrolled, and how long a step of it may take, in milliseconds: a frame of 60.
MANY_LINES = 1_000_000
FRAME = 1000 / 60

# What is in view.

# Whether all of an element lies in the window.
IN_VIEW = """((box) => box && box.width > 0 && box.top >= -1 && box.left >= -1
  && box.bottom <= innerHeight + 1 && box.right <= innerWidth + 1)(document.querySelector(%s)?.getBoundingClientRect())"""

# The widest element that reaches out of the window, where none of those that scroll has it.
TOO_WIDE = """(() => {
  const wide = document.documentElement.scrollWidth - document.documentElement.clientWidth;
  const scrolls = (node) => node.closest?.('.wide, #tabs, .lines, textarea, pre, svg, select');
  const out = [...document.body.querySelectorAll('*')].find((node) =>
    !scrolls(node) && node.getBoundingClientRect().right > innerWidth + 1 && node.getBoundingClientRect().width > 0);
  return wide > 0 ? `${wide} pixels` : out ? out.id || out.className || out.tagName : null;
})()"""

# What is cut off of the words beside the wires.
CUT_OFF = """[...document.querySelectorAll('#wires text')].find((text) =>
  text.getBoundingClientRect().right > text.ownerSVGElement.getBoundingClientRect().right)?.textContent ?? null"""

TABS = ["listing", "table", "damage", "dictionary", "notes"]


def are_in_view(session: browser.Session, selectors: Sequence[str]) -> List[str]:
    return [f"{each} is not in view" for each in selectors if not session.value(IN_VIEW % json.dumps(each))]


def too_wide(session: browser.Session, when: str) -> List[str]:
    found = session.value(TOO_WIDE)
    return [f"{when}: {found} is wider than the window"] if found else []


def problems_of_empty(session: browser.Session) -> List[str]:
    """What stands there before a file: what to drop, the wires, and an example."""
    problems = are_in_view(session, ["#drop h2", "#choose-files", "#example", "#wires"])
    cut = session.value(CUT_OFF)
    return problems + too_wide(session, "empty") + ([f"{cut!r} is cut off"] if cut else [])


def problems_of_first_screen(session: browser.Session, is_wide: bool) -> List[str]:
    """After reading, what is wrong is in view, at every size; on a wide screen also where it is."""
    wanted = ["#verdict-word", "#verdict-short", "#counts", "#sentences .jump"]
    together = ["#replies svg", "#timeline .hatch path", "#timeline .axis", "#lines .line", "#tab-notes"]
    problems = are_in_view(session, [*wanted, *(together if is_wide else [])])
    for at, tab in enumerate(TABS):
        session.value(f"page1.navigation.tabs.openAt({at})")
        problems += too_wide(session, f"tab {tab}")
        if tab == "table" and is_wide:
            cut = session.value("((box) => box.scrollWidth > box.clientWidth)(document.querySelector('.wide'))")
            problems += ["the table is cut off"] if cut else []
    session.value("page1.navigation.tabs.open('listing') ?? page1.toggleSettings(true)")
    problems += too_wide(session, "wires and form")
    session.value("page1.toggleSettings(false) ?? page1.help.open()")
    problems += too_wide(session, "the keys")
    session.value("page1.help.dialog.close()")
    return problems


# Whether a line is chosen in the listing and in view there, and what is chosen is in view in the timeline.
CHOSEN = """(() => {
  const box = (node) => node?.getBoundingClientRect() ?? { top: -1, bottom: -1, width: 0 };
  const [line, list] = [box(document.querySelector('#lines .chosen')), box(document.querySelector('#lines'))];
  const mark = box(document.querySelector('#timeline .chosen-ground'));
  const isIn = ({ top, bottom, width }) => width > 0 && top >= -1 && bottom <= innerHeight + 1;
  return line.width > 0 && line.top >= list.top - 1 && line.bottom <= list.bottom + 1 && isIn(mark) && (%s || isIn(line));
})()"""


def second_of(session: browser.Session) -> float:
    """The time of the line that is chosen."""
    return float(session.value("document.querySelector('#lines .chosen .second').textContent"))


def problems_of_places(session: browser.Session, is_wide: bool) -> List[str]:
    """Whether each sentence, and each of its times, leads to a mark and a line, both in view."""
    problems = []
    chosen = CHOSEN % ("false" if is_wide else "true")
    count = session.value("document.querySelectorAll('#sentences button').length")
    for at in range(count):
        button = f"document.querySelectorAll('#sentences button')[{at}]"
        session.value(f"document.querySelector('#lines .chosen')?.classList.remove('chosen') ?? {button}.click()")
        session.wait_until(chosen)
        told = re.fullmatch(r"(\d+\.\d+) s", session.value(f"{button}.textContent"))
        if told and abs(second_of(session) - float(told[1])) > 0.001:
            problems.append(f"{told[0]} leads to {second_of(session)} s")
    return problems + ([] if count > 8 else [f"there are {count} buttons"])


def problems_of_size(page: Path, size: Tuple[int, int], name: str) -> List[str]:
    """Whether all of importance is in view at a size, and nothing reaches out of the window."""
    is_wide = size in WIDE
    with opened(name, address_of(page), size) as session:
        problems = problems_of_empty(session)
        read_file(session, EXAMPLE)
        session.wait_until("document.querySelector('#timeline .hatch path') && document.querySelector('#lines .line')")
        problems += problems_of_first_screen(session, is_wide)
        problems += problems_of_places(session, is_wide)
        return problems + [f"the console says {text}" for text in session.complaints()]


# Keyboard, pointer and wheel.

# What has the focus, by what it is.
FOCUSED = """((it) => it.id || (it.closest('.times') ? 'time' : it.classList.contains('jump') ? 'sentence'
  : it.closest('#counts') ? 'count' : it.closest('#timeline svg') ? 'timeline' : it.closest('.tools') ? 'tool'
  : it.tagName === 'SELECT' ? 'select' : it.tagName))(document.activeElement)"""

# The order in which Tab goes through the page, where what comes more than once is named once.
ORDER = [
    *["dictionary-chip", "show-settings", "open-another", "show-help", "count"],
    *["sentence", "time", "sentence", "time", "sentence", "time", "sentence", "time"],
    *["select", "tool", "timeline", "tab-listing"],
    *["query-text", "query-kind", "query-station", "query-type", "query-second", "query-idle", "save", "lines"],
]


def problems_of_focus(session: browser.Session) -> List[str]:
    """Whether Tab goes through the page from the bar to the listing, and once to the times of each sentence."""
    session.value("document.activeElement.blur()")
    found: List[str] = []
    while len(found) < 60 and (not found or found[-1] != "lines"):
        session.press("Tab")
        found.append(session.value(FOCUSED))
    order = [each for at, each in enumerate(found) if at == 0 or each != found[at - 1] or each == "time"]
    return [] if order == ORDER else [f"Tab goes {order}"]


KEYS: List[Tuple[Sequence[str], str]] = [
    (["n"], "document.querySelector('#sentences li.chosen')"),
    (["n", "n"], "document.querySelector('.times .chosen')"),
    (["p"], "document.querySelector('#sentences li.chosen')"),
    (["t", "Home", "+"], "page1.navigation.timeline.svg.node().__zoom.k === 2"),
    (["-"], "page1.navigation.timeline.svg.node().__zoom.k === 1"),
    (["+", "+", "ArrowRight"], "page1.navigation.timeline.scale.domain()[0] > 1"),
    (["ArrowLeft"] * 6, "page1.navigation.timeline.scale.domain()[0] < 1"),
    (["Home"], "page1.navigation.timeline.svg.node().__zoom.k === 1"),
    (["."], "page1.navigation.lines.chosen > self.before"),
    ([","], "page1.navigation.lines.chosen < self.before"),
    (["Enter"], "document.querySelectorAll('#timeline .bits, #timeline .bits-line').length > 0"),
    (["l", "Home"], "page1.navigation.lines.top === 0"),
    (["ArrowDown"], "document.activeElement.id === 'lines' && document.querySelector('#lines .chosen')"),
    (["End"], "page1.navigation.lines.top > 0"),
    (["/"], "document.activeElement.id === 'query-text'"),
    (["5"], "document.getElementById('query-text').value === '5'"),
    (["Tab", "Tab", "Tab", "Tab", "Tab", "Tab", "2"], "!document.getElementById('pane-table').hidden"),
    (["1"], "!document.getElementById('pane-listing').hidden"),
    (["g", "0", ".", "2", "Enter"], "/^0\\.2/.test(document.querySelector('#lines .chosen .second')?.textContent)"),
    (["Tab", "?"], "document.getElementById('help').open"),
    (["Escape"], "!document.getElementById('help').open"),
    (["w"], "document.body.classList.contains('settings-open')"),
]


def problems_of_keys(page: Path, name: str) -> List[str]:
    """Whether the keys do what the mouse does, and the help lists them all."""
    with opened(name, address_of(page)) as session:
        read_file(session, EXAMPLE)
        problems = problems_of_focus(session)
        session.value("document.activeElement.blur()")
        for keys, expression in KEYS:
            session.value("void (self.before = page1.navigation.lines.chosen)")
            session.press(*keys)
            try:
                session.wait_until(expression)
            except browser.Fault:
                problems.append(f"{' '.join(keys)}: {expression} is not so")
        shown = set(session.value("[...document.querySelectorAll('#help kbd')].map((key) => key.textContent)"))
        named = {"ArrowLeft": "←", "ArrowRight": "→", "ArrowDown": "↓", "ArrowUp": "↑", "Escape": "Esc"}
        tried = {named.get(key, key) for keys, _ in KEYS for key in keys} - {"Tab", "0"}
        problems += [f"the help has no {key}" for key in tried - shown]
        return problems + [f"the console says {text}" for text in session.complaints()]


BOX = "((box) => [box.left, box.top, box.right, box.bottom])(document.querySelector(%s).getBoundingClientRect())"


def problems_of_pointers(page: Path, name: str) -> List[str]:
    """Whether the overview is dragged, the wheel and two fingers zoom, and one finger moves the timeline."""
    problems = []
    domain = "page1.navigation.timeline.scale.domain()"
    with opened(name, address_of(page)) as session:
        read_file(session, EXAMPLE)
        session.wait_until("document.querySelector('#timeline .overview-view')")
        session.value("page1.navigation.timeline.zoomBy(8)")
        session.wait_until("document.querySelector('#timeline .overview-view').getBoundingClientRect().width < 200")
        left, top, right, bottom = session.value(BOX % json.dumps("#timeline .overview-view"))
        before = session.value(domain)
        middle = ((left + right) / 2, (top + bottom) / 2)
        session.drag(middle, (middle[0] + 100, middle[1] + 60))
        after = session.value(domain)
        width = "((range) => range[1] - range[0])(page1.navigation.timeline.whole.range())"
        share = 100 / session.value(width)
        moved = (after[0] - before[0]) / session.value("page1.navigation.timeline.summary.past")
        problems += [] if abs(moved - share) < 0.01 else [f"dragged by {share:.3f}, the overview goes {moved:.3f}"]
        left, top, right, bottom = session.value(BOX % json.dumps("#timeline .scroll svg"))
        session.drag((right - 100, top + 20), (right - 300, top + 20), "touch")
        wide = after[1] - after[0]
        session.wait_until(f"{domain}[0] > {after[0] + wide * 0.15}")
        scrolls = session.value("getComputedStyle(page1.navigation.timeline.svg.node()).touchAction")
        problems += [] if scrolls == "pan-y" else [f"a finger on the timeline does not scroll the page: {scrolls}"]
        session.value("page1.navigation.timeline.showAll()")
        session.spread((left + right) / 2 + 60, top + 20, 40, 160)
        session.wait_until("Math.abs(page1.navigation.timeline.svg.node().__zoom.k - 4) < 0.1")
        session.turn((left + right) / 2 + 60, top + 20, -300)
        session.wait_until("page1.navigation.timeline.svg.node().__zoom.k > 4.4")
        return problems + [f"the console says {text}" for text in session.complaints()]


# A dictionary that is edited, dark, print, and many lines.


def problems_of_editing(page: Path, name: str) -> List[str]:
    """Whether a draft and an edit are read by themselves, and a dictionary with a fault is not."""
    with tempfile.TemporaryDirectory(prefix="port1-") as folder, opened(name, address_of(page)) as session:
        capture = Path(folder, "a.bits")
        capture.write_bytes(LATE)
        read_file(session, [capture])
        word = "document.getElementById('verdict-word').textContent"
        field = "document.getElementById('dictionary')"
        edited = f"{field}.dispatchEvent(new Event('input'))"
        session.value("document.querySelector('#lacks button').click()")
        session.wait_until(f"{word} === 'Look closer' && {field}.value !== ''")
        problems = [] if "took" in text_at(session, FIRST) else [f"drafted: {text_at(session, FIRST)!r}"]
        session.value(f"void ({field}.value = {json.dumps(dictionary().decode())}) ?? {edited}")
        late = "Station 2 answered 2 of 60"
        session.wait_until(f"document.querySelector('#sentences .jump').textContent.startsWith('{late}')")
        session.value(f"void ({field}.value = {field}.value.replace('window = 768', 'window = 7')) ?? {edited}")
        session.wait_until("document.querySelector('#findings .fault')")
        session.value("new Promise((resolve) => setTimeout(resolve, 1500))")
        status = text_at(session, STATUS)
        problems += [] if " lines in " in status else [f"a dictionary with a fault was read: {status}"]
        chip = text_at(session, "#dictionary-chip")
        problems += [] if re.search(r"[1-9] faults?$", chip) else [f"the bar says {chip!r}"]
        return problems + [f"the console says {text}" for text in session.complaints()]


def problems_of_mending(page: Path, name: str) -> List[str]:
    """Whether a warning leads to its cure, other wires are chosen, and a file that grows is named so."""
    word = "document.getElementById('verdict-word').textContent"
    with tempfile.TemporaryDirectory(prefix="port1-") as folder, opened(name, address_of(page)) as session:
        files = {"d.toml": dictionary(), "tap.csv": rows_of(SHORT, flipped=0b0101)}
        for file, octets in files.items():
            Path(folder, file).write_bytes(octets)
        read_file(session, [Path(folder, file) for file in files])
        session.value("document.querySelector('#warning-list button').click()")
        session.wait_until(f"{word} === 'No fault found' && document.getElementById('warnings').hidden")
        problems = [] if "--falling TXC" in text_at(session, "#command") else ["the command has no --falling"]
        Path(folder, "tap.csv").write_bytes(rows_of(SHORT, flipped=0b1111))
        read_file(session, [Path(folder, "tap.csv")])
        while session.value("document.querySelector('#warnings:not([hidden]) button') !== null"):
            session.value("[...document.querySelectorAll('#warning-list button')].at(-1).click()")
            session.wait_until("!document.body.classList.contains('reading')")
        session.wait_until(f"{word} === 'No fault found'")
        problems += [] if "--falling --invert TXD,RXD TXC" in text_at(session, "#command") else ["the command does not invert"]
        problems += [] if text_at(session, "#warnings:not([hidden])") == "" else ["warnings are left"]
        session.value("page1.mend('wires')")
        problems += [] if session.value("document.activeElement.id") == "channel-0" else ["no wire is asked for"]
        session.value("void (document.getElementById('channel-3').value = 'none')")
        session.value("document.getElementById('settings').requestSubmit()")
        is_read = "!document.body.classList.contains('reading')"
        session.wait_until(f"{is_read} && /one line/.test(document.getElementById('facts').textContent)")
        # Firefox reads what the file was when it was chosen; Chromium refuses to.
        with Path(folder, "tap.csv").open("ab") as file:
            file.write(b"0,0,0,0\n" * 1000)
        session.value("void (document.getElementById('channel-3').value = 'RXD')")
        session.value("document.getElementById('settings').requestSubmit()")
        session.wait_until(is_read)
        told = text_at(session, "#fault:not([hidden])") or text_at(session, "#head")
        is_told = told.startswith(("The file is still being written", "40 frames"))
        return problems + ([] if is_told else [f"a file that grows is told as {told!r}"])


# Wires by the names of their channels, as they are connected: exchanged clock and data, the two pairs, and the data.
WRONG_ORDERS = [(1, 0, 2, 3), (0, 1, 3, 2), (2, 3, 0, 1), (0, 3, 2, 1), (3, 0, 2, 1), (1, 2, 3, 0)]

FIRST_BUTTON = """document.querySelector('#guess:not([hidden]) button, #warnings:not([hidden]) button')?.textContent ?? ''"""


def problems_of_orders(page: Path, name: str) -> List[str]:
    """Whether wires in a wrong order are told as such before anything else, and are read right once they are chosen."""
    problems = []
    with tempfile.TemporaryDirectory(prefix="port1-") as folder, opened(name, address_of(page)) as session:
        for order in WRONG_ORDERS:
            file = Path(folder, f"{''.join(map(str, order))}.csv")
            file.write_bytes(rows_of(SHORT, [f"D{at}" for at in order]))
            read_file(session, [file])
            button = session.value(FIRST_BUTTON)
            problems += [] if button == "Choose other wires" else [f"{order}: the first button is {button!r}"]
            for wire, at in enumerate(order):
                session.value(f"void (document.getElementById('channel-{wire}').value = 'D{at}')")
            session.value("document.getElementById('settings').requestSubmit()")
            session.wait_until("!document.body.classList.contains('reading') && /^0\\.0+ to 0\\.2/.test("
                               "document.querySelector('#timeline .where').textContent)")
            told = [text_at(session, selector) for selector in ("#guess:not([hidden])", "#warnings:not([hidden])", "#head")]
            is_right = told[:2] == ["", ""] and told[2].startswith("40 frames and 0 damaged pieces")
            problems += [] if is_right else [f"{order}, chosen right: {told}"]
        return problems + [f"the console says {text}" for text in session.complaints()]


# Labels of gaps that do not stand on a gap, and labels that stand on each other.
LABELS = """(() => {
  const boxes = (selector) => [...document.querySelectorAll(selector)].map((node) => node.getBoundingClientRect());
  const [labels, gaps] = [boxes('#timeline .scroll .gap-word'), boxes('#timeline .scroll .gap-ground')];
  const isIn = (one, all) => all.left - 1 <= one.left && one.right <= all.right + 1 && all.top - 1 <= one.top && one.bottom <= all.bottom + 1;
  const meet = (one, other) => one.left < other.right && other.left < one.right && one.top < other.bottom && other.top < one.bottom;
  return [labels.length, gaps.length, labels.filter((one) => !gaps.some((all) => isIn(one, all))).length,
    labels.filter((one, at) => labels.some((other, other_at) => other_at < at && meet(one, other))).length];
})()"""

# A laptop, the same at 200 %, and a phone.
ZOOMS = [LAPTOP, (683, 384), (390, 844)]


def problems_of_labels(page: Path, name: str) -> List[str]:
    """Whether each label of a gap stands on it, none on another, and of a gap that is in view large there is one."""
    problems = []
    with tempfile.TemporaryDirectory(prefix="port1-") as folder:
        many = Path(folder, "many.bits")
        many.write_bytes(MANY_GAPS)
        for size in ZOOMS:
            with opened(name, address_of(page), size) as session:
                for files in [EXAMPLE, [many]]:
                    read_file(session, files)
                    session.wait_until("document.querySelector('#timeline .scroll .gap-ground')")
                    count, gaps, outside, over = session.value(LABELS)
                    problems += [f"{size}, {files[-1].name}: {outside} outside, {over} over another"] if outside + over else []
                    session.value("page1.navigation.sentences.visitStretch()")
                    session.wait_until("document.querySelector('#timeline .scroll .gap-word')")
                    count, gaps, outside, over = session.value(LABELS)
                    problems += [f"{size}, {files[-1].name}, large: {outside} outside, {over} over"] if outside + over else []
        return problems


def problems_of_dark(page: Path, name: str) -> List[str]:
    """Whether the page is dark where the system is."""
    grounds = []
    for is_dark in (False, True):
        with opened(name, address_of(page), is_dark=is_dark) as session:
            read_file(session, EXAMPLE)
            colour = session.value("getComputedStyle(document.getElementById('timeline-pane')).backgroundColor")
            grounds.append(sum(map(int, re.findall(r"\d+", colour)[:3])))
    return [] if grounds[0] > 700 and grounds[1] < 120 else [f"the grounds are {grounds}"]


def sheets_of(document: bytes) -> int:
    """How many pages a PDF has, whose objects may be packed."""
    parts = [document]
    for begin in re.finditer(rb"stream\r?\n", document):
        try:
            parts.append(zlib.decompressobj().decompress(document[begin.end() :]))
        except zlib.error:
            pass
    return sum(len(re.findall(rb"/Type */Page\b", part)) for part in parts)


def problems_of_print(page: Path, name: str) -> List[str]:
    """Whether the page is printed on few sheets, whatever is in view, and with the whole timeline."""
    with opened(name, address_of(page)) as session:
        read_file(session, EXAMPLE)
        session.wait_until("document.querySelector('#timeline-print svg')")
        session.value("page1.navigation.timeline.zoomBy(64)")
        session.wait_until("page1.navigation.timeline.svg.node().__zoom.k === 64")
        sheets = sheets_of(session.printed())
        problems = [] if 1 <= sheets <= 2 else [f"it is printed on {sheets} sheets"]
        ticks = session.value("[...document.querySelectorAll('#timeline-print .tick text')].map((text) => text.textContent)")
        return problems + ([] if ticks and float(ticks[-1]) >= 0.45 else [f"the timeline in print has {ticks}"])


def problems_of_many(page: Path, name: str, is_timed: bool) -> List[str]:
    """Whether a listing of a million lines is scrolled, on a machine that is free each step within a frame of sixty a
    second. Of 120 steps the quickest tenth counts: the others may have waited for a processor.
    """
    step = """new Promise((resolve) => {
      const [lines, times] = [page1.navigation.lines, []];
      const draw = lines.draw;
      let begin = 0;
      lines.draw = function (some) {
        draw.call(this, some);
        this.box.getBoundingClientRect();
        times.push(performance.now() - begin);
        if (times.length === 120) return resolve(times.sort((one, other) => one - other)[12]);
        requestAnimationFrame(() => {
          begin = performance.now();
          this.box.dispatchEvent(new WheelEvent('wheel', { deltaY: 4321, cancelable: true }));
        });
      };
      lines.show(1);
    })"""
    with tempfile.TemporaryDirectory(prefix="port1-") as folder, opened(name, address_of(page)) as session:
        listing = Path(folder, "many.list")
        lines = (f"{100 * at} {100 * at + 41} frame 108300fde5\n" for at in range(MANY_LINES))
        listing.write_text("".join(lines), encoding="ascii")
        read_file(session, [listing])
        problems = [] if text_at(session, "#query-count") == "1 000 000 lines" else ["not all lines are there"]
        taken = session.value(step)
        problems += [f"a step takes {taken:.1f} ms"] if is_timed and taken >= FRAME else []
        top = session.value("page1.navigation.lines.top")
        session.press("l", "End")
        session.wait_until(f"document.querySelector('#lines .line:last-child').textContent.startsWith('{651.041:.3f}')")
        return problems + ([] if top > 20000 else [f"it was scrolled to {top}"])


def tests_of(page: Path, is_long: bool) -> Iterator[Test]:
    for name in browser.BROWSERS:
        yield Test(f"{name}: a million lines", partial(problems_of_many, page, name, is_long), is_alone=True)
        for size in SIZES:
            yield Test(f"{name}: {size[0]} by {size[1]}", partial(problems_of_size, page, size, name))
        for what, problems in [
            ("inputs", problems_of_inputs),
            ("the keyboard", problems_of_keys),
            ("pointers", problems_of_pointers),
            ("editing a dictionary", problems_of_editing),
            ("mending a recording", problems_of_mending),
            ("wires in a wrong order", problems_of_orders),
            ("labels of gaps", problems_of_labels),
            ("dark", problems_of_dark),
            ("print", problems_of_print),
        ]:
            yield Test(f"{name}: {what}", partial(problems, page, name))

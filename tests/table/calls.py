"""Rows of reads and writes: cut in any way, counted, and failing in turn."""

from dataclasses import replace
from typing import Iterator, List, Optional, Tuple

from .captures import CALL, CALLS, FLAG, IDLE, PACKED, REPLY, STATES, marks, packed_pairs, text
from .case import Case, Counted, fault, faulty
from .checks import MISSING_AND_SPOILT_REPORT, report
from .lists import MISSING_AND_SPOILT, MISSING_AND_SPOILT_LINES, ONE_CALL_LINES
from .pairs import AT_ONE_PLACE, AT_ONE_PLACE_LINES, CALL_AND_REPLY, CALL_AND_REPLY_LINES, CALL_AND_REPLY_REPORT, CALLED
from .shows import STATE, STATE_TEXT
from .words import HELP

BY_CALLS = ["list", "--bits", "--dict", CALLS]

# A call and its reply, without spaces.
ANSWERED = text(FLAG, CALL, FLAG, REPLY, FLAG).replace(b" ", b"")

CALL_LINE = "8 49 frame 108300fde5 station 16 type 0 call\n"

ANSWERED_LINES = f"""\
{CALL_LINE}57 98 frame 108380f561 station 16 type 128 reply
8 49 answered station 16 type 0
"""

LIST = Case("a call and its reply", BY_CALLS, ANSWERED, ANSWERED_LINES)

LIST_PACKED = Case("a packed call", ["list", "--dict", CALLS], PACKED, ONE_CALL_LINES)

LIST_TWO = Case(
    "a call and its reply on two lines", ["list", "--bits", "--two", "--dict", CALLS], marks(*CALL_AND_REPLY),
    CALL_AND_REPLY_LINES,
)

# How many marks decide each of its lines: the last two are decided by one mark.
DECIDED_TWO = [15, 57, 72, 114, 114]

PACKED_TWO = Case(
    "packed frames that end at one place", ["list", "--two", "--dict", CALLS], packed_pairs(*AT_ONE_PLACE),
    AT_ONE_PLACE_LINES,
)

CHECK_TWO = Case(
    "a check of two lines", ["check", "--bits", "--two", "--dict", CALLS], marks(*CALL_AND_REPLY), CALL_AND_REPLY_REPORT
)

CHECK = Case(
    "a check", ["check", "--bits", "--dict", CALLS], MISSING_AND_SPOILT.replace(b" ", b""), MISSING_AND_SPOILT_REPORT,
    status=1,
)

THREE = b"frame 108300\nidle\r\nframe 1083fe"

ENCODE = Case(
    "three lines", ["encode"], THREE,
    "011111100000100011000001000000001011111011010011101111110\n"
    "111111111111111\n"
    "0111111000001000110000010111110110011000011011111001111110\n",
)

WHOLE = [LIST, LIST_PACKED, CHECK, ENCODE, LIST_TWO, PACKED_TWO, CHECK_TWO]

SHOW = Case("a frame that is shown", ["show", "--dict", STATES, STATE], stdout=STATE_TEXT)

# A page of output has 16384 octets, and is written before fewer than 2048 of them are free.
FULL_PAGE = 16384 - 2048


def named(case: Case, name: str) -> Case:
    return replace(case, name=f"{case.name}, {name}")


def any_cut() -> Iterator[Counted]:
    """By reads of any size: each octet is read once, and one read finds the end."""
    for case in WHOLE:
        for piece in range(1, len(case.stdin) + 1):
            yield Counted(named(case, f"by reads of {piece}"), piece=piece, reads=-(-len(case.stdin) // piece) + 1)


def lines_decided(count: int) -> List[str]:
    """The lines that so many marks of two lines decide."""
    lines = CALL_AND_REPLY_LINES.splitlines(keepends=True)
    return [line for line, decided in zip(lines, DECIDED_TWO) if decided <= count]


def failing_reads() -> Iterator[Counted]:
    """Each read of one octet fails in turn: the lines that the octets before it decide are there."""
    failed = fault("read failed")
    for number in range(1, len(ANSWERED) + 2):
        stdout = "" if number <= 57 else CALL_LINE if number <= 106 else ANSWERED_LINES
        case = named(LIST, f"where read {number} fails")
        case = replace(case, stdout=stdout, stderr=failed, status=2)
        yield Counted(case, piece=1, failing_read=number, reads=number)
    for whole in [CHECK, LIST_PACKED, ENCODE, LIST_TWO, PACKED_TWO, CHECK_TWO]:
        for number in range(1, len(whole.stdin) + 2):
            stdout = ""
            if whole is LIST_PACKED and number > len(PACKED):
                stdout = CALL_LINE
            if whole is LIST_TWO:
                stdout = "".join(lines_decided(number - 1))
            if whole is PACKED_TWO and number > len(PACKED_TWO.stdin):
                stdout = AT_ONE_PLACE_LINES
            if whole is ENCODE:
                lines = ENCODE.stdout.splitlines(keepends=True)
                stdout = "".join(lines[: THREE[: number - 1].count(b"\n")])
            case = named(whole, f"where read {number} fails")
            case = replace(case, stdout=stdout, stderr=failed, status=2)
            yield Counted(case, piece=1, failing_read=number, reads=number)


def with_room(whole: Case, room: int, piece: Optional[int] = None) -> Counted:
    """A run whose output has room for so many octets, and fewer than it wants."""
    case = named(whole, f"with room for {room} octets")
    case = replace(case, stdout=whole.stdout[:room], stderr=fault("write failed"), status=2)
    return Counted(case, piece=piece, room=room)


def failing_writes() -> Iterator[Counted]:
    """Standard output takes fewer octets than there are: what fits went out. It makes no difference
    whether the next write fails or takes nothing."""
    for whole in [*WHOLE, SHOW]:
        for room in range(len(whole.stdout)):
            for takes_none in [False, True]:
                yield replace(with_room(whole, room), takes_none=takes_none)


def lines_in_time() -> Iterator[Counted]:
    """A line goes out before the next read: where it can't, no further read comes. The call is decided
    by the 57th octet, and its reply by the 106th, of two lines by the 114th."""
    for piece in [1, 60]:
        for room in range(len(ANSWERED_LINES)):
            decided = 57 if room < len(CALL_LINE) else 106
            row = with_room(LIST, room, piece)
            yield replace(row, case=named(row.case, f"by reads of {piece}"), reads=-(-decided // piece))
        for room in range(len(CALL_AND_REPLY_LINES)):
            decided = next(count for count in DECIDED_TWO if room < len("".join(lines_decided(count))))
            row = with_room(LIST_TWO, room, piece)
            yield replace(row, case=named(row.case, f"by reads of {piece}"), reads=-(-decided // piece))


def bad_octet(name: str, command: str, place: int, stdout: str = "") -> Case:
    """As many ones as `place` says, and an octet that is no bit."""
    return faulty(name, [command, "--bits"], f"capture: octet {place} is no bit", b"1" * place + b"2", stdout)


IDLE_LINE = "0 15 idle\n"

# All calls of some runs.
IN_ORDER = [
    Counted(Case("nothing to list", BY_CALLS), calls=["read 0"]),
    Counted(
        Case("a line and its end", ["list", "--bits"], text(IDLE), "0 15 idle\n"),
        calls=["read 15", "write 10", "read 0"],
    ),
    Counted(Case("a flag to list", BY_CALLS, text(FLAG)), calls=["read 8", "read 0"]),
    Counted(Case("an open piece", BY_CALLS, text(FLAG) + b"0", "8 9 open\n"), calls=["read 9", "read 0", "write 9"]),
    Counted(
        Case(
            "two lines of the end", BY_CALLS, ANSWERED[:57] + b"0",
            f"{CALL_LINE}57 58 open\n8 49 pending station 16 type 0\n",
        ),
        calls=["read 58", f"write {len(CALL_LINE)}", "read 0", "write 42"],
    ),
    Counted(LIST, calls=["read 106", f"write {len(ANSWERED_LINES)}", "read 0"]),
    Counted(
        named(LIST, "by two reads"), piece=57,
        calls=[
            "read 57", f"write {len(CALL_LINE)}", "read 49", f"write {len(ANSWERED_LINES) - len(CALL_LINE)}", "read 0"
        ],
    ),
    Counted(bad_octet("a fault after a line", "list", 15, IDLE_LINE), calls=["read 16", "write 10"]),
    Counted(
        bad_octet("a fault after a line, by the next read", "list", 15, IDLE_LINE), piece=15,
        calls=["read 15", "write 10", "read 1"],
    ),
    Counted(bad_octet("a fault alone to list", "list", 0), calls=["read 1"]),
    Counted(bad_octet("a fault alone", "check", 0), calls=["read 1"]),
    Counted(bad_octet("a check that ends by a fault", "check", 15), piece=15, calls=["read 15", "read 1"]),
    Counted(Case("nothing to check", ["check", "--bits"], stdout=report()), calls=["read 0", f"write {len(report())}"]),
    Counted(LIST_TWO, calls=["read 114", f"write {len(CALL_AND_REPLY_LINES)}", "read 0"]),
    Counted(
        named(LIST_TWO, "by two reads"), piece=60,
        calls=["read 60", "write 59", "read 54", f"write {len(CALL_AND_REPLY_LINES) - 59}", "read 0"],
    ),
    Counted(
        Case(
            "three lines of the end of two", ["list", "--bits", "--two", "--dict", CALLS],
            marks(CALLED + "0", FLAG + "0" * 50),
            "1 8 49 frame 108300fde5 station 16 type 0 call\n"
            "1 57 58 open\n2 8 58 open\n1 8 49 pending station 16 type 0\n",
        ),
        calls=["read 58", "write 47", "read 0", "write 58"],
    ),
    Counted(CHECK, calls=["read 138", "read 0", f"write {len(MISSING_AND_SPOILT_REPORT)}"]),
    Counted(
        named(CHECK, "by two reads"), piece=100,
        calls=["read 100", "read 38", "read 0", f"write {len(MISSING_AND_SPOILT_REPORT)}"],
    ),
    Counted(Case("nothing to encode", ["encode"]), calls=["read 0"]),
    Counted(Case("an empty line to encode", ["encode"], b"\n"), calls=["read 1", "read 0"]),
    Counted(faulty("a bad line", ["encode"], "line 1: bad line", b"x\n"), calls=["read 2"]),
    Counted(
        Case("two lines to encode", ["encode"], b"flag\nidle\n", "01111110\n111111111111111\n"),
        calls=["read 10", "write 9", "write 16", "read 0"],
    ),
    Counted(
        Case("two lines to encode, by two reads", ["encode"], b"flag\nidle\n", "01111110\n111111111111111\n"), piece=7,
        calls=["read 7", "write 9", "read 3", "write 16", "read 0"],
    ),
    Counted(
        Case("a line that the end of input ends", ["encode"], b"flag", "01111110\n"),
        calls=["read 4", "read 0", "write 9"],
    ),
    Counted(
        faulty("a bad line after a good one", ["encode"], "line 2: bad line", b"flag\nx\n", "01111110\n"), piece=5,
        calls=["read 5", "write 9", "read 2"],
    ),
]


def call_places(count: int) -> List[Tuple[int, int]]:
    """Where so many calls begin and end, one after the other: each has 41 bits, and a flag eight."""
    return [(8 + 49 * number, 8 + 49 * number + 41) for number in range(count)]


def capture_of_calls(count: int) -> bytes:
    return text(FLAG, *[CALL + FLAG] * count).replace(b" ", b"")


def listing_of_calls(count: int) -> str:
    """Each call is missed by the next, and the last waits for its answer."""
    lines = []
    waiting = ""
    for first, past in call_places(count):
        lines.append(f"{first} {past} frame 108300fde5 station 16 type 0 call\n{waiting}")
        waiting = f"{first} {past} missing station 16 type 0\n"
    return "".join(lines) + waiting.replace("missing", "pending")


LONG_LISTING = Case("a thousand calls", BY_CALLS, capture_of_calls(1000), listing_of_calls(1000))

LONG_REPORT = Case(
    "a check of 1100 calls", ["check", "--bits", "--dict", CALLS, "--depth", "1024"], capture_of_calls(1100),
    report(
        "station 16 answered 0 missing 1099 spoilt 0 late 0",
        *[f"last {first} {past} 108300fde5" for first, past in call_places(1100)[-1024:]], frames=1100, missing=1099,
    ),
    status=1,
)


def few_writes() -> Iterator[Counted]:
    """Each write of a listing has a full page or what one read decided, and that of a report but the
    last has a full page."""
    pages = len(LONG_LISTING.stdout) // FULL_PAGE
    for piece in [100, 4096, 16384]:
        reads = -(-len(LONG_LISTING.stdin) // piece) + 1
        case = named(LONG_LISTING, f"by reads of {piece}")
        yield Counted(case, piece=piece, reads=reads, most_writes=reads + pages)
    yield Counted(LONG_REPORT, most_writes=len(LONG_REPORT.stdout) // FULL_PAGE + 1)
    thousand = Case("a thousand flags", ["encode"], b"flag\n\n" * 1000, "01111110\n" * 1000)
    yield Counted(thousand, piece=6, reads=1001, most_writes=1000)
    yield Counted(SHOW, reads=0, most_writes=STATE_TEXT.count("\n"))
    help_text = (HELP / "port1.txt").read_text(encoding="ascii")
    yield Counted(Case("help", ["--help"], stdout=help_text), calls=[f"write {len(help_text)}"])


def failing_pages() -> Iterator[Counted]:
    """Writes fail round the end of a page."""
    edges = [FULL_PAGE, 16384, 2 * FULL_PAGE]
    rooms = [0, 15000, 20000, *[edge + more for edge in edges for more in (-1, 0, 1)]]
    for whole in [LONG_LISTING, LONG_REPORT]:
        most = len(whole.stdout) - 1
        for room in [*[room for room in rooms if room < most], most]:
            for piece in [100, None]:
                yield with_room(whole, room, piece)


def cut_short() -> Iterator[Counted]:
    """Each shorter front of a packed capture: its head has 16 octets, and its last octet ends the flag
    without which no line is decided."""
    for form, options, capture in [
        ("a packed capture", [], PACKED), ("a packed capture of two lines", ["--two"], PACKED_TWO.stdin)
    ]:
        for command in ["list", "check"]:
            for count in range(len(capture)):
                why = "short head" if count < 16 else "short body"
                case = faulty(
                    f"{command} of {count} octets of {form}", [command, *options, "--dict", CALLS], f"capture: {why}",
                    capture[:count]
                )
                yield Counted(case)


def many_spaces() -> Iterator[Counted]:
    """After each bit stand 5000 spaces, which change no place."""
    wide = b"".join(bytes([bit]) + b" " * 5000 for bit in ANSWERED)
    for piece in [4097, None]:
        case = replace(LIST, name=f"many spaces, by reads of {piece or 'any size'}", stdin=wide)
        yield Counted(case, piece=piece)
    wide = b"".join(bytes([mark]) + b" " * 5000 for mark in LIST_TWO.stdin)
    for piece in [4097, None]:
        case = replace(LIST_TWO, name=f"many spaces, two lines, by reads of {piece or 'any size'}", stdin=wide)
        yield Counted(case, piece=piece)


def bad_marks() -> Iterator[Counted]:
    """The place of a bad octet counts the octets of all reads."""
    for options, stdin in [(["--bits"], b"01111110 2"), (["--bits", "--two"], b"01232310 4")]:
        for command in ["list", "check"]:
            case = faulty(f"a bad octet to {command}", [command, *options], "capture: octet 9 is no bit", stdin)
            for piece in [1, 4, 9, 10]:
                yield Counted(named(case, f"by reads of {piece} {options[-1]}"), piece=piece)


def long_lines() -> Iterator[Counted]:
    """Lines of no good form after a good one: such a line is refused at the latest by its end."""
    for count in [600, 601, 602]:
        for end in [b"", b"\n", b"\r", b"\r\n"]:
            case = faulty(
                f"a line of {count} octets that is none, ended by {end!r}", ["encode"], "line 2: bad line",
                b"flag\n" + b"x" * count + end, "01111110\n"
            )
            for piece in [1, None]:
                yield Counted(case, piece=piece)


def judged_early() -> Iterator[Counted]:
    """With 600 octets, or a CR after them, a good end may still come; with one octet more, or with one
    after that CR, none can, and no further read comes."""
    for count, end, is_judged in [
        (600, b"", False),
        (600, b"\r", False),
        (601, b"", True),
        (600, b"\r\r", True),
        (600, b"\rx", True),
        (601, b"\r", True),
    ]:
        stdin = b"x" * count + end
        case = faulty(
            f"a line of {count} octets and {end!r}, and a read that fails", ["encode"],
            "line 1: bad line" if is_judged else "read failed", stdin
        )
        yield Counted(case, piece=1, failing_read=len(stdin) + 1)


COUNTED = [
    *any_cut(),
    *failing_reads(),
    *failing_writes(),
    *lines_in_time(),
    *IN_ORDER,
    *few_writes(),
    *failing_pages(),
    *cut_short(),
    *many_spaces(),
    *bad_marks(),
    *long_lines(),
    *judged_early(),
    Counted(Case("missing and spoilt", BY_CALLS, MISSING_AND_SPOILT, MISSING_AND_SPOILT_LINES), piece=7),
]

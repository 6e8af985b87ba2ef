"""The dissector that dictionary-to-lua makes of a dictionary, in tshark."""

import json
import struct
from pathlib import Path
from typing import Any, Dict, List, Sequence, Tuple

from needs import Skipped, needs
from tests.case import TOP, WINDOWS, Run, Word, listed, ran, unlike
from tests.wireshark import RATE, SDLC, columns, tshark

RUNS = [Run("no dictionary", ["dictionary-to-lua"], b"version = 1\n", b"", "dictionary-to-lua: dictionary: no frames\n", 2)]

ODD = """version = 1
[[frame]]
type = 0
name = 'q"1\\2]]%5s%n'
length = 0
[[frame]]
type = 9
name = "Gr[n]-4"
length = 2
bits = [ { at = 0, name = '"' }, { at = 9, name = '\\' }, { at = 2, name = "#" }, { at = 15, name = "1" } ]
[[frame]]
type = 10
name = "Walk"
length = 1
bits = [ { at = 0, name = "A-b" }, { at = 1, name = "a_b" }, { at = 2, name = "A_b" }, { at = 3, name = "a_b_2" } ]
[[frame]]
type = 138
name = "answer"
length = 1
bits = [ { at = 7, name = "A-b" } ]
"""

# The frames of the tests, without a check: direction (of pcapng: 0 none, 1 in, 2 out) and octets.
FRAMES = [
    (0, "10"),
    (0, "1083"),
    (0, "1084ff"),
    (0, "108300"),
    (0, "1083090502"),
    (0, "1083090080"),
    (0, "11830a03"),
    (0, "11838a80"),
    (0, "ff830a0c"),
    (1, "108300"),
    (2, "11838a00"),
    (2, "1084"),
    (0, "10830901"),
    (0, "108305"),
    (0, ""),
    (0, "118380"),
    (0, "11837f"),
]


def block(kind: int, body: bytes) -> bytes:
    """A block of pcapng."""
    body += bytes(-len(body) % 4)
    size = struct.pack("<I", len(body) + 12)
    return struct.pack("<I", kind) + size + body + size


def pcapng(frames: Sequence[Tuple[int, str]]) -> bytes:
    """A capture with link type SDLC: section header, interface, and packets with their flags."""
    blocks = [block(0x0A0D0D0A, struct.pack("<IHHq", 0x1A2B3C4D, 1, 0, -1)), block(1, struct.pack("<HHI", SDLC, 0, 0))]
    for number, (direction, digits) in enumerate(frames):
        octets = bytes.fromhex(digits)
        padded = octets + bytes(-len(octets) % 4)
        flags = struct.pack("<HHI", 2, 4, direction) + bytes(4) if direction else b""
        blocks.append(block(6, struct.pack("<IIIII", 0, 0, number, len(octets), len(octets)) + padded + flags))
    return b"".join(blocks)


def dissected(folder: Path, dictionary: str = ODD, *options: str) -> List[Word]:
    """The words with which tshark reads the frames with the dissector of a dictionary."""
    needs("tshark")
    capture, script, probe = folder / "frames.pcapng", folder / "port1.lua", folder / "probe.lua"
    capture.write_bytes(pcapng(FRAMES))
    probe.write_text('print("the probe was run")\n')
    if "the probe was run" not in tshark(folder, ["-X", f"lua_script:{probe}", "-r", capture]):
        raise Skipped("this tshark runs no Lua scripts, at least not for this user")
    got = ran(["dictionary-to-lua", *options], dictionary.encode())
    if got.returncode != 0:
        raise OSError(got.stderr.decode())
    script.write_bytes(got.stdout)
    return ["-X", f"lua_script:{script}", "-r", capture]


def layers(folder: Path, words: Sequence[Word], name: str = "port1") -> List[Dict[str, Any]]:
    """What tshark says of the dissector's layer of each packet, in JSON."""
    packets = json.loads(tshark(folder, [*words, "-T", "json"]))
    return [packet["_source"]["layers"].get(name, {}) for packet in packets]


def dissector_fields(folder: Path) -> List[str]:
    """Each field of each frame; the place of a named bit is that of docs/DICTIONARY.md."""
    head = {"port1.station": "16", "port1.control": "0x83"}
    other = {"port1.station": "17", "port1.control": "0x83"}
    got = layers(folder, dissected(folder))
    zero, nine = 'q"1\\2]]%5s%n', "Gr[n]-4"
    bits = [f"port1.bit.{name}" for name in ("_", "__2", "__3", "1")]
    typed = {**head, "port1.type": "9", "port1.name": nine}
    wanted = {
        0: {"port1.station": "16"},
        1: {**head, "port1.standing": "untyped"},
        2: {"port1.station": "16", "port1.control": "0x84", "port1.standing": "control"},
        3: {**head, "port1.type": "0", "port1.name": zero, "port1.standing": zero},
        4: {**typed, "port1.data": "05:02", "port1.standing": nine, **dict(zip(bits, "1110"))},
        5: {**typed, "port1.data": "00:80", "port1.standing": nine, **dict(zip(bits, "0001"))},
        7: {**other, "port1.type": "138", "port1.name": "answer", "port1.data": "80", "port1.standing": "answer"},
        12: {**typed, "port1.data": "01", "port1.standing": "length"},
        13: {**head, "port1.type": "5", "port1.standing": "unknown"},
        14: {},
    }
    wanted[7]["port1.bit.a_b"] = "1"
    return [problem for number, layer in wanted.items() for problem in unlike("dissector fields", layer, got[number])]


def dissector_names(folder: Path) -> List[str]:
    """Names with quotes, backslashes, percent signs and other scripts stand as they are."""
    text = tshark(folder, [*dissected(folder), "-O", "port1"])
    wanted = [
        'NEMA TS 2 Port 1, station 16 type 0 q"1\\2]]%5s%n',
        'Type: q"1\\2]]%5s%n (0)',
        "Name: Gr[n]-4",
        '.... ...1 = ": True',
        ".... ..1. = \\: True",
        ".... .1.. = #: True",
        "1... .... = A-b: True",
    ]
    return [f"no {line!r} in {text!r}" for line in wanted if line not in text]


# Filters, and the packets that pass them, counted from 1.
FILTERS = {
    "port1.type == 0 && port1.station == 16": [4, 10],
    "port1.station == 17": [7, 8, 11, 16, 17],
    'port1.name == "Walk"': [7, 9],
    'port1.standing == "length"': [13],
    'port1.standing == "unknown"': [14, 16, 17],
    'port1.standing == "control"': [3, 12],
    "port1.type >= 128": [8, 11, 16],
    "port1 && !port1.type": [1, 2, 3, 12],
    "port1.data[0] == 0x05": [5],
    "port1.bit.a_b == 1": [7, 8],
    "port1.bit.a_b == 0": [9, 11],
    "port1.bit.a_b_2 == 1": [7],
    "port1.bit.a_b_3 == 1": [9],
    "port1.bit.a_b_2_2 == 1": [9],
    "port1.bit.1 == 1": [6],
    "frame.packet_flags_direction == 1": [10],
}


def dissector_filters(folder: Path) -> List[str]:
    words = dissected(folder)
    problems = []
    for text, wanted in FILTERS.items():
        got = tshark(folder, [*words, "-Y", text, "-T", "fields", "-e", "frame.number"]).split()
        problems += unlike(text, [str(number) for number in wanted], got)
    return problems


# The columns Source, Protocol and Destination alone.
WAYS = ["-o", 'gui.column.format:"S","%s","P","%p","D","%d"', "-T", "tabs"]


def ways(folder: Path, words: Sequence[Word]) -> List[List[str]]:
    return [[cell.strip() for cell in line.split("\t")] for line in tshark(folder, [*words, *WAYS]).splitlines()]


def dissector_ways(folder: Path) -> List[str]:
    """Who sends and who is meant: by the direction of the capture, else by the type."""
    rows = ways(folder, dissected(folder))
    wanted = {
        0: ["", "Port 1", ""],
        3: ["controller", "Port 1", "station 16"],
        6: ["controller", "Port 1", "station 17"],
        7: ["station 17", "Port 1", "controller"],
        8: ["controller", "Port 1", "all stations"],
        9: ["station 16", "Port 1", "controller"],
        10: ["controller", "Port 1", "station 17"],
        11: ["controller", "Port 1", "station 16"],
        15: ["station 17", "Port 1", "controller"],
        16: ["controller", "Port 1", "station 17"],
    }
    return [problem for number, row in wanted.items() for problem in unlike("dissector ways", row, rows[number])]


def dissector_of_malformed(folder: Path) -> List[str]:
    """Frames of no octet up to four, and those cut short, give no error of Lua or of Wireshark."""
    words = dissected(folder)
    short = [(way, digits[: 2 * count]) for way in (0, 1, 2) for count in range(5) for _, digits in FRAMES]
    (folder / "frames.pcapng").write_bytes(pcapng(short))
    text = tshark(folder, [*words, "-V"])
    found = [word for word in ("Lua Error", "Malformed", "(Error/") if word in text]
    count = sum(1 for line in text.splitlines() if line.startswith("Frame "))
    return unlike("dissector of malformed", ([], len(short)), (found, count))


def dissector_of_other_name(folder: Path) -> List[str]:
    """With --name the protocol and its filters have another name."""
    words = dissected(folder, ODD, "--name", "bus_a")
    got = layers(folder, words, "bus_a")
    wanted = {"bus_a.station": "16", "bus_a.control": "0x83", "bus_a.type": "5", "bus_a.standing": "unknown"}
    return unlike("dissector of other name", wanted, got[13])


def dissector_of_a_listing(folder: Path) -> List[str]:
    """From the bits of two lines to named packets, with what became of the commands."""
    needs("tshark")
    words = dissected(folder, WINDOWS)[:2]
    capture = (TOP / "examples" / "two-lines.bits").read_bytes()
    path = folder / "two-lines.pcapng"
    ran(["list-to-pcap", RATE, path], listed(capture, ["--bits", "--two", "--dict", WINDOWS]).stdout)
    wanted = [
        ["call", "", "controller"],
        ["reply", "", "station 16"],
        ["call", "late, answer after 40 bits", "controller"],
        ["reply", "", "station 16"],
        ["call", "missing", "controller"],
        ["call", "", "controller"],
        ["reply", "", "station 16"],
    ]
    rows = columns(folder, path, ["port1.name", "frame.comment"], *words)
    senders = [row[0] for row in ways(folder, [*words, "-r", path])]
    late = columns(folder, path, ["frame.number"], *words, "-Y", 'port1.type == 0 && frame.comment contains "late"')
    named = unlike("packets", wanted, [[*row, sender] for row, sender in zip(rows, senders)])
    return named + unlike("those with late answers", [["3"]], late)

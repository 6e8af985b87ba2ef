"""Frames for Wireshark: capture files with directions and comments."""

import os
import struct
import subprocess
from pathlib import Path
from typing import List, Sequence, Tuple

from needs import needs
from tests.case import SECONDS, Run, Word, ran, unlike

SDLC = 268

RATE = "153600"

RUNS = [
    Run(
        "frames alone", ["list-to-pcap", RATE, "--text"],
        b"0 7 damaged short\n8 49 frame 108300fde5 station 16 type 0 call\n57 72 idle\n80 90 abort\n"
        b"99 140 damaged fcs\n150 700 overlong\n153608 153649 frame 108380f561\n8 49 missing station 16 type 0\n",
        b"0.000052\n000000 10 83 00\n1.000052\n000000 10 83 80\n",
    ),
    Run(
        "frames of two lines", ["list-to-pcap", RATE, "--text"],
        b"1 8 49 frame 108300fde5 station 16 type 0 call\n1 57 72 idle\n"
        b"2 153608 153649 frame 108380f561\n1 8 49 missing station 16 type 0\n2 153657 153658 open\n",
        b"0.000052\n000000 10 83 00\n1.000052\n000000 10 83 80\n",
    ),
    Run(
        "no listing", ["list-to-pcap", "1", "--text"], b"frames 2\n", b"",
        "list-to-pcap: line 1 is no line of `port1 list`: \"frames 2\"\n", 2,
    ),
]


def tshark(folder: Path, words: Sequence[Word]) -> str:
    """What tshark writes, without the user's settings; it may tell nothing else."""
    environment = {**os.environ, "HOME": str(folder), "XDG_CONFIG_HOME": str(folder), "TZ": "UTC", "LC_ALL": "C.UTF-8"}
    got = subprocess.run(["tshark", *words], capture_output=True, env=environment, timeout=SECONDS)
    told = [line for line in got.stderr.decode().splitlines() if line and not line.startswith("Running as user")]
    if told:
        raise OSError(f"tshark: {told}")
    return got.stdout.decode()


def columns(folder: Path, path: Path, fields: Sequence[str], *words: Word) -> List[List[str]]:
    """These fields of each packet."""
    asked = [word for name in fields for word in ("-e", name)]
    text = tshark(folder, ["-r", path, *words, "-T", "fields", "-E", "separator=|", *asked])
    return [line.split("|") for line in text.splitlines()]


# Capture files of list-to-pcap.

# How Wireshark shows the directions of a packet.
INBOUND, OUTBOUND = "0x00000001", "0x00000002"

TWO_LINES = b"""1 0 7 damaged short
1 8 49 frame 108300fde5 station 16 type 0 call
2 65 106 frame 108380f561 station 16 type 128 reply
1 8 49 answered station 16 type 0
1 122 163 frame 108300fde5 station 16 type 0 call
2 203 244 frame 108380f561 station 16 type 128 reply
1 122 163 late station 16 type 0
2 250 291 frame 118380ff6a station 17 type 128 reply
2 250 291 stray station 17 type 128
1 300 341 frame 108300fde5 station 16 type 0 call
2 350 360 damaged fcs
1 300 341 spoilt station 16 type 0
1 360 401 frame 108300fde5 station 16 type 0 call
1 420 461 frame 108300fde5 station 16 type 0 call
1 360 401 missing station 16 type 0
2 470 485 idle
1 480 600 overlong
2 600 620 abort
1 153600 153641 frame 108300fde5 station 16 type 0 call
1 153641 153650 open
1 153600 153641 pending station 16 type 0
"""

# Direction, time and comment of each packet. A bit is 6.510417 microseconds.
TWO_LINES_PACKETS = [
    [OUTBOUND, "0.000052000", "after 1 0 7 damaged short"],
    [INBOUND, "0.000423000", ""],
    [OUTBOUND, "0.000794000", "late, answer after 40 bits"],
    [INBOUND, "0.001321000", ""],
    [INBOUND, "0.001627000", "stray"],
    [OUTBOUND, "0.001953000", "then 2 350 360 damaged fcs; spoilt"],
    [OUTBOUND, "0.002343000", "missing"],
    [OUTBOUND, "0.002734000", "then 1 480 600 overlong; then 2 600 620 abort"],
    [OUTBOUND, "1.000000000", "pending"],
]

SAID = ["frame.packet_flags_direction", "frame.time_epoch", "frame.comment"]


# The longest frame that a dictionary can have, without its check.
LONGEST = "1083" + "5a" * 254

# Packets as they are in a capture file: when, in microseconds, their octets, and of how many these are a part.
Packets = List[Tuple[int, str, int]]


def packets_of_pcap(octets: bytes) -> Tuple[int, Packets]:
    """The link type of a pcap file, and its packets."""
    packets, at = [], 24
    while at < len(octets):
        seconds, micros, kept, whole = struct.unpack("<IIII", octets[at : at + 16])
        packets.append((seconds * 10**6 + micros, octets[at + 16 : at + 16 + kept].hex(), whole))
        at += 16 + kept
    return struct.unpack("<IHHiIII", octets[:24])[6], packets


def packets_of_pcapng(octets: bytes) -> Tuple[int, Packets]:
    """The same of a pcapng file of one interface (draft-ietf-opsawg-pcapng)."""
    link, packets, at = 0, [], 0
    while at < len(octets):
        kind, length = struct.unpack("<II", octets[at : at + 8])
        body = octets[at + 8 : at + length - 4]
        if kind == 1:
            (link,) = struct.unpack("<H", body[:2])
        elif kind == 6:
            _, high, low, kept, whole = struct.unpack("<IIIII", body[:20])
            packets.append((high << 32 | low, body[20 : 20 + kept].hex(), whole))
        at += length
    return link, packets


def files_octet_by_octet(folder: Path) -> List[str]:
    """Files of both forms with the link type and the packets that were asked for, also long ones."""
    listing = f"8 49 frame 108300fde5\n153608 153649 frame 108380f561\n307200 309300 frame {LONGEST}fde5\n"
    wanted = (SDLC, [(52, "108300", 3), (1000052, "108380", 3), (2000000, LONGEST, 256)])
    problems = []
    for name, read in [("x.pcap", packets_of_pcap), ("x.pcapng", packets_of_pcapng)]:
        got = ran(["list-to-pcap", RATE, folder / name], listing.encode())
        is_made = got.returncode == 0 and not got.stderr
        problems += unlike(name, wanted, read((folder / name).read_bytes())) if is_made else [got.stderr.decode()]
    return problems


# Seconds since 1970 at 08:00 UTC on 27 November 2026: 20784 days, 8 hours.
MORNING = 20784 * 86400 + 8 * 3600


def times_of_day(_: Path) -> List[str]:
    """With --begin times are seconds since 1970; without a zone they are of this computer's."""
    rows = [
        ("2026-11-27T08:00:00Z", 8, f"{MORNING}.000052"),
        ("2026-11-27T09:30+01:30", 8, f"{MORNING}.000052"),
        ("2026-11-27T03:00:00", 8, f"{MORNING}.000052"),
        ("2026-11-27T08:00:00.123459Z", 8, f"{MORNING}.123511"),
        ("2026-11-27T08:00:00.999Z", 2 * 153600 + 154, f"{MORNING + 3}.000002"),
    ]
    environment = {**os.environ, "TZ": "America/New_York"}
    problems = []
    for begin, first, time in rows:
        listing = f"{first} {first + 41} frame 108300fde5\n"
        got = ran(["list-to-pcap", RATE, "--text", "--begin", begin], listing.encode(), env=environment)
        problems += unlike("times of day", f"{time}\n000000 10 83 00\n", got.stdout.decode())
    return problems


def pcap_in_tshark(folder: Path) -> List[str]:
    """The real tshark reads the addresses and control octets that went in."""
    needs("tshark")
    path = folder / "y.pcap"
    ran(["list-to-pcap", RATE, str(path)], b"8 49 frame 108300fde5\n57 98 frame ff83095a3b\n")
    rows = columns(folder, path, ["sdlc.address", "sdlc.control"])
    return unlike("pcap in tshark", [[0x10, 0x83], [0xFF, 0x83]], [[int(cell, 0) for cell in row] for row in rows])


def pcapng_of_two_lines(folder: Path) -> List[str]:
    """Directions, times and comments of a listing of two lines, all that a comment may say."""
    needs("tshark")
    path = folder / "z.pcapng"
    got = ran(["list-to-pcap", RATE, path], TWO_LINES)
    told = unlike("pcapng of two lines", (0, b"", b""), (got.returncode, got.stdout, got.stderr))
    filters = {'frame.comment contains "then"': ["6", "8"], "frame.packet_flags_direction == 1": ["2", "4", "5"]}
    for text, wanted in filters.items():
        told += unlike(text, wanted, [row[0] for row in columns(folder, path, ["frame.number"], "-Y", text)])
    return told + unlike("pcapng of two lines", TWO_LINES_PACKETS, columns(folder, path, SAID))


def pcapng_of_the_same_places(folder: Path) -> List[str]:
    """What is said of a frame is not said of the frame on the other line that has the same places."""
    needs("tshark")
    path = folder / "z.pcapng"
    listing = b"1 8 49 frame 108300fde5\n2 8 49 frame 118380f561\n2 8 49 stray station 17 type 128\n"
    got = ran(["list-to-pcap", RATE, path], listing)
    wanted = [[OUTBOUND, "0.000052000", ""], [INBOUND, "0.000052000", "stray"]]
    return unlike("the same places", b"", got.stderr) + unlike("the same places", wanted, columns(folder, path, SAID))


def pcapng_of_one_line(folder: Path) -> List[str]:
    """A listing of one line says nothing of directions; of much damage a comment tells the first eight."""
    needs("tshark")
    path = folder / "z.pcapng"
    damage = [f"{place} {place + 9} damaged short" for place in range(60, 160, 10)]
    listing = "\n".join(["8 49 frame 108300fde5", *damage, "200 241 frame 108380f561", ""])
    got = ran(["list-to-pcap", RATE, path], listing.encode())
    comment = "; ".join([f"then {line}" for line in damage[:8]] + ["and 2 more"])
    wanted = [["", "0.000052000", comment], ["", "0.001302000", ""]]
    return unlike("it says", b"", got.stderr) + unlike("packets", wanted, columns(folder, path, SAID))


def pcapng_of_many_packets(folder: Path) -> List[str]:
    """Many packets stay in order, each with its own comment."""
    needs("tshark")
    path = folder / "z.pcapng"
    texts, wanted = [], []
    for number in range(25_000):
        first = 200 * number
        texts.append(f"{1 + number % 2} {first} {first + 41} frame 108300fde5\n")
        micros = first * 10**6 // 153600
        row = [OUTBOUND if number % 2 == 0 else INBOUND, f"{micros // 10**6}.{micros % 10**6:06d}000", ""]
        if number % 3 == 0:
            texts.append(f"1 {first + 50} {first + 90} damaged fcs\n")
            row[2] = f"then 1 {first + 50} {first + 90} damaged fcs"
        wanted.append(row)
    got = ran(["list-to-pcap", RATE, path], "".join(texts).encode())
    rows = columns(folder, path, SAID)
    wrong = [(was, right) for was, right in zip(rows, wanted) if was != right]
    return unlike("packets", (b"", len(wanted), []), (got.stderr, len(rows), wrong[:3]))


def pcapng_of_nothing(folder: Path) -> List[str]:
    """A listing without frames is a capture without packets; a fault leaves no capture."""
    needs("tshark")
    empty, bad = folder / "empty.pcapng", folder / "bad.pcapng"
    got = ran(["list-to-pcap", RATE, empty], b"8 30 damaged short\n")
    fault = ran(["list-to-pcap", RATE, bad], b"8 49 frame 108300fde5\nframe\n")
    told = b'list-to-pcap: line 2 is no line of `port1 list`: "frame"\n'
    return unlike(
        "pcapng of nothing",
        (0, [], 2, told, []),
        (got.returncode, columns(folder, empty, SAID), fault.returncode, fault.stderr, list(folder.glob("bad*"))),
    )


def wrong_calls(folder: Path) -> List[str]:
    """Usage and reason on standard error, with status 2."""
    calls = {
        "no whole number above 0": ["list-to-pcap", "0", "x.pcap"],
        "there is no FILE": ["list-to-pcap", RATE],
        "takes no FILE": ["list-to-pcap", RATE, "x.pcap", "--text"],
        "no name of lower-case letters": ["dictionary-to-lua", "--name", "Port 1"],
    }
    problems = []
    for reason, words in calls.items():
        got = ran(words, cwd=folder)
        if got.returncode != 2 or got.stdout or b"usage: " not in got.stderr or reason.encode() not in got.stderr:
            problems.append(f"{words}: {got}")
    return problems + unlike("wrong calls", [], list(folder.iterdir()))

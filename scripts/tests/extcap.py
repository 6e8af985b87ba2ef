"""The bus as a live interface of Wireshark: port1-extcap, in the real tshark, on a simulated cabinet."""

import os
import subprocess
import time
from pathlib import Path
from typing import List, Sequence

from needs import Skipped, needs
from tests.case import SCRIPTS, SECONDS, TOP, Word, ran
from tests.watched import DICTIONARY, RATE, SIMULATOR

FIELDS = ["frame.packet_flags_direction", "port1.type", "port1.name", "frame.comment", "frame.time_epoch"]

# Shows a program to Wireshark as its only live interface, in a view of the system of its own.
IN_EXTCAP = r"""
folder=$(tshark -G folders 2> /dev/null | sed -n 's/^Extcap path:[ \t]*//p')
mount --bind "$1" "$folder" && shift && exec "$@"
"""


def tshark_with_extcap(folder: Path, words: Sequence[Word], **settings: str) -> "subprocess.CompletedProcess[str]":
    """tshark with port1-extcap in its folder of extcap."""
    needs("tshark", "node")
    own = folder / "extcap"
    own.mkdir(exist_ok=True)
    link = own / "port1-extcap"
    link.unlink(missing_ok=True)
    link.symlink_to(SCRIPTS / "port1-extcap")
    command: List[Word] = ["unshare", "--mount", "sh", "-c", IN_EXTCAP, "sh", own, "tshark", *words]
    got = subprocess.run(command, capture_output=True, text=True, timeout=SECONDS, env={**os.environ, **settings})
    if "unshare failed" in got.stderr or "mount:" in got.stderr:
        raise Skipped("no view of the system of its own: it takes root")
    return got


def live_interface(folder: Path) -> List[str]:
    """tshark lists the interface, and captures frames live: with directions, names, verdicts and times of day."""
    listed = tshark_with_extcap(folder, ["-D"]).stdout
    problems = [] if "port1 (NEMA TS 2 Port 1)" in listed else [f"-D: {listed}"]
    plan, lua = folder / "schedule", folder / "port1.lua"
    plan.write_text(f"{RATE // 2} {20 * RATE} silent 2\n")
    lua.write_bytes(ran(["dictionary-to-lua"], DICTIONARY.read_bytes()).stdout)
    settings = {"PORT1_SOURCE": f"node {SIMULATOR} 7 0 {60 * RATE} {plan} 1 arrivals", "PORT1_DICTIONARY": str(DICTIONARY)}
    fields = [word for name in FIELDS for word in ("-e", name)]
    words: List[Word] = ["-i", "port1", "-X", f"lua_script:{lua}", "-c", "150", "-T", "fields", "-E", "separator=|"]
    begun = time.time()
    got = tshark_with_extcap(folder, [*words, *fields], **settings)
    rows = [line.split("|") for line in got.stdout.splitlines()]
    problems += [] if len(rows) == 150 else [f"{len(rows)} packets: {got.stderr[-300:]}"]
    wanted = {("2", "1", "poll"), ("1", "129", "inputs"), ("2", "0", "outputs"), ("1", "128", "voltages")}
    found = {(str(int(row[0], 16)), row[1], row[2]) for row in rows}
    problems += [] if found == wanted else [f"{found}"]
    problems += [] if any(row[3].startswith("missing") for row in rows) else ["no verdict"]
    late = [float(row[4]) for row in rows if not begun - 1 < float(row[4]) < time.time() + 1]
    return problems + ([f"{len(late)} packets of another time"] if late else [])


def ring_of_files(folder: Path) -> List[str]:
    """With -b the packets of a live capture are in files that follow each other; of these the newest stay."""
    plan, ring = folder / "schedule", folder / "ring"
    plan.write_text(f"{RATE // 2} {20 * RATE} silent 2\n")
    ring.mkdir(exist_ok=True)
    settings = {"PORT1_SOURCE": f"node {SIMULATOR} 7 0 {60 * RATE} {plan} 1 arrivals", "PORT1_DICTIONARY": str(DICTIONARY)}
    words: List[Word] = ["-i", "port1", "-b", "packets:30", "-b", "files:3", "-c", "150", "-w", ring / "bus.pcapng"]
    said = tshark_with_extcap(folder, words, **settings).stderr
    files = sorted(ring.iterdir())
    numbers = [int(file.name.split("_")[1]) for file in files]
    problems = [] if numbers == [3, 4, 5] else [f"{numbers}: {said}"]
    counts = [subprocess.run(["tshark", "-r", file], capture_output=True).stdout.count(b"\n") for file in files]
    return problems + ([] if counts == [30, 30, 30] else [f"{counts} packets"])


def recorder_that_fails(folder: Path) -> List[str]:
    """What the recorder said last is told by Wireshark, and nothing else."""
    got = tshark_with_extcap(folder, ["-i", "port1"], PORT1_SOURCE="echo no such analyser >&2; exit 3")
    return [] if "the recorder ended with 3: no such analyser" in got.stderr else [got.stderr]


def called_by_hand(folder: Path) -> List[str]:
    """What Wireshark asks for; a call without any of it says so, and one whose decoder does not run."""
    problems = []
    for words, wanted in (
        (["--extcap-interfaces"], "interface {value=port1}"),
        (["--extcap-interface", "port1", "--extcap-dlts"], "dlt {number=268}"),
        (["--extcap-interface", "port1", "--extcap-config"], "{call=--dictionary}"),
        (["--extcap-interface", "port1", "--extcap-config"], "{call=--rest}"),
    ):
        got = ran(["port1-extcap", *words])
        problems += [] if wanted in got.stdout.decode() and got.returncode == 0 else [f"{words}: {got}"]
    words = ["--extcap-interface", "port1", "--capture", "--fifo", folder / "fifo", "--source", "sleep 20"]
    got = ran(["port1-extcap", *words], env={**os.environ, "PORT1": "/no/port1"})
    lines = got.stderr.decode().splitlines()
    problems += [] if (got.returncode, len(lines)) == (2, 1) and "/no/port1" in lines[0] else [f"{got}"]
    got = ran(["port1-extcap"])
    return problems + ([] if got.returncode == 2 and b"Wireshark calls this" in got.stderr else [f"{got}"])


def linked_when_installed(folder: Path) -> List[str]:
    """With EXTCAPDIR the interface is in Wireshark's folder, and runs from there; `uninstall` takes it away."""
    needs("make", "node")
    place = "/usr/lib/wireshark/extcap"
    make: List[Word] = ["make", "-s", "-C", TOP, f"DESTDIR={folder}", "PREFIX=/usr", f"EXTCAPDIR={place}"]
    subprocess.run([*make, "install-scripts"], check=True, capture_output=True, timeout=SECONDS)
    link = Path(f"{folder}{place}/port1-extcap")
    got = subprocess.run([link, "--extcap-interfaces"], capture_output=True, text=True, timeout=SECONDS)
    subprocess.run([*make, "uninstall"], check=True, capture_output=True, timeout=SECONDS)
    left = [] if not link.is_symlink() else ["the link is left"]
    return left + ([] if "{value=port1}" in got.stdout else [f"{got}"])

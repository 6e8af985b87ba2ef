"""Files that a command writes by the names it is given: what stands there keeps its kind, its mode and its links."""

import json
import os
import signal
import stat
import subprocess
import time
from pathlib import Path
from typing import Dict, List, Tuple

from needs import needs
from tests.case import SCRIPTS, SECONDS, ran, unlike

RATE = "153600"

LISTING = b"8 49 frame 108300fde5\n57 98 frame 118300fde5\n"

LIMITS = "[bus]\nframes = 2\n"


def writes(name: Path) -> subprocess.CompletedProcess:
    return ran(["list-to-pcap", RATE, name], LISTING)


def modes_stay(folder: Path) -> List[str]:
    """A file that is there keeps its mode, a new one has that of a new file, and nothing else is left in the folder."""
    old, new, other = folder / "old.pcap", folder / "new.pcap", folder / "other"
    old.write_bytes(b"before")
    old.chmod(0o640)
    other.touch()
    told = [writes(path).stderr for path in (old, new)]
    modes = [stat.S_IMODE(path.stat().st_mode) for path in (old, new, other)]
    names = sorted(path.name for path in folder.iterdir())
    is_written = old.read_bytes() == new.read_bytes() != b""
    wanted = ([b"", b""], [0o640, modes[2], modes[2]], ["new.pcap", "old.pcap", "other"], True)
    return unlike("modes stay", wanted, (told, modes, names, is_written))


def links_stay(folder: Path) -> List[str]:
    """A link stays one, also where it led to nothing; the file behind it is written."""
    inside = folder / "inside"
    inside.mkdir()
    (inside / "there").write_bytes(b"before")
    problems = []
    for name in ("there", "missing"):
        link = folder / name
        link.symlink_to(Path("inside", name))
        got = writes(link)
        size = (inside / name).stat().st_size if (inside / name).is_file() else 0
        problems += unlike("links stay", (b"", True, True), (got.stderr, link.is_symlink(), size > len(b"before")))
    return problems + unlike("links stay", ["missing", "there"], sorted(path.name for path in inside.iterdir()))


def pipe_in_tshark(folder: Path) -> List[str]:
    """tshark reads a named pipe while it is written, as Wireshark does; the pipe stays one."""
    needs("tshark")
    pipe = folder / "bus.pcapng"
    os.mkfifo(pipe)
    environment = {**os.environ, "HOME": str(folder), "XDG_CONFIG_HOME": str(folder)}
    words = ["tshark", "-r", str(pipe), "-T", "fields", "-e", "sdlc.address"]
    reader = subprocess.Popen(words, stdout=subprocess.PIPE, stderr=subprocess.DEVNULL, env=environment)
    got = writes(pipe)
    out, _ = reader.communicate(timeout=SECONDS)
    wanted = (0, b"", ["0x10", "0x11"], True)
    return unlike("pipe in tshark", wanted, (got.returncode, got.stderr, out.decode().split(), pipe.is_fifo()))


def reports_into_pipes(folder: Path) -> List[str]:
    """Each file that bus-limits writes may be a pipe."""
    limits, listing = folder / "limits.toml", folder / "listing"
    limits.write_text(LIMITS)
    listing.write_bytes(LISTING)
    problems = []
    for option in ("--junit", "--csv", "--json", "--page"):
        pipe = folder / option[2:]
        os.mkfifo(pipe)
        reader = subprocess.Popen(["cat", str(pipe)], stdout=subprocess.PIPE)
        got = ran(["bus-limits", option, pipe, limits, f"unit={listing}"])
        out, _ = reader.communicate(timeout=SECONDS)
        is_whole = bool(json.loads(out)) if option == "--json" else b"unit" in out
        problems += unlike(option, (0, b"", True, True), (got.returncode, got.stderr, is_whole, pipe.is_fifo()))
    return problems


def full_device(folder: Path) -> Tuple[Path, List[str]]:
    """A full device, and the words in front of a command that may not replace it: a device of one's own needs none."""
    device = folder / "full"
    try:
        os.mknod(device, stat.S_IFCHR | 0o666, os.makedev(1, 7))
        device.open("wb").close()
        return device, []
    except PermissionError:
        nobody = ["setpriv", "--reuid=65534", "--regid=65534", "--clear-groups"]
        return Path("/dev/full"), nobody if os.geteuid() == 0 else []


def devices_stay(folder: Path) -> List[str]:
    """A full device refuses what is written, and is a device afterwards."""
    needs("node")
    device, words = full_device(folder)
    command = [*words, SCRIPTS / "list-to-pcap", RATE, device]
    got = subprocess.run(command, input=LISTING, capture_output=True, timeout=SECONDS)
    is_told = b"list-to-pcap: " in got.stderr and b"ENOSPC" in got.stderr and got.stderr.count(b"\n") == 1
    return unlike("devices stay", (2, True, True), (got.returncode, is_told, stat.S_ISCHR(device.stat().st_mode)))


def standard_output_by_name(folder: Path) -> List[str]:
    """/dev/stdout is the file that the command was given open, and no new one of that name."""
    with (folder / "out.pcap").open("wb") as sink:
        words = [SCRIPTS / "list-to-pcap", RATE, "/dev/stdout"]
        done = subprocess.run(words, input=LISTING, stdout=sink, stderr=subprocess.PIPE, timeout=SECONDS)
        size = os.fstat(sink.fileno()).st_size
    return unlike("standard output by name", (0, b"", True), (done.returncode, done.stderr, size > 24))


def a_pipe_without_reader(folder: Path) -> List[str]:
    """A command that waits for the reader of a pipe ends by a signal."""
    pipe = folder / "bus.pcap"
    os.mkfifo(pipe)
    words = [SCRIPTS / "list-to-pcap", RATE, pipe]
    child = subprocess.Popen(words, stdin=subprocess.DEVNULL, stdout=subprocess.DEVNULL, stderr=subprocess.PIPE)
    status, until = f"/proc/{child.pid}/status", time.monotonic() + SECONDS
    # Until it catches signals, it has not begun.
    while not catches(status, signal.SIGTERM) and time.monotonic() < until:
        time.sleep(0.01)
    child.send_signal(signal.SIGTERM)
    _, told = child.communicate(timeout=SECONDS)
    return unlike("a pipe without reader", (-signal.SIGTERM, b""), (child.returncode, told))


def catches(status: str, number: int) -> bool:
    """Whether a process has a handler of a signal, by its file in /proc."""
    fields: Dict[str, str] = {}
    for line in Path(status).read_text().splitlines():
        key, _, value = line.partition(":")
        fields[key] = value.strip()
    return bool(int(fields.get("SigCgt", "0"), 16) >> (number - 1) & 1)

"""What the decoder for PulseView and sigrok-cli shows of a recording, and what it is to show."""

import json
import os
import subprocess
from pathlib import Path
from typing import List, NamedTuple, Sequence

from needs import needs
from tests.case import SECONDS, TOP, Word, listed, needs_archive
from tests.simulated.waves import RATE, Wave

PIECES = ("frame", "damaged", "overlong", "abort", "idle")


def built(folder: Path) -> Path:
    """The folder of decoders with this one in it, made by the Makefile."""
    needs("sigrok-cli", "cc", "make")
    needs_archive()
    made = folder / "decoders"
    words: List[Word] = ["make", "-s", "-C", TOP / "bindings/sigrok", f"OUT={made / 'nema_port1'}"]
    subprocess.run(words, check=True, capture_output=True, timeout=SECONDS)
    return made


def sigrok(decoders: Path, words: Sequence[Word], **settings: str) -> subprocess.CompletedProcess:
    environment = {**os.environ, "SIGROKDECODE_DIR": str(decoders), **settings}
    environment["PYTHONDONTWRITEBYTECODE"] = "1"
    return subprocess.run(["sigrok-cli", *words], capture_output=True, text=True, env=environment, timeout=SECONDS)


class Shown(NamedTuple):
    """An annotation: its samples, its row and its longest text."""

    begin: int
    end: int
    row: str
    text: str


# The rows of a line, and that of reply times.
CONTROLLER, ANSWERS, REPLY_TIMES = "Controller", "Answers", "Reply times"
BESIDE_FRAMES = ": damage and idle"


def input_words(folder: Path, samples: bytes) -> List[Word]:
    path = folder / "tap.bin"
    path.write_bytes(samples)
    return ["-i", path, "-I", f"binary:numchannels=4:samplerate={RATE}"]


def annotations(folder: Path, samples: bytes, options: str) -> List[Shown]:
    """What the decoder shows of a recording."""
    words = [*input_words(folder, samples), "-P", f"nema_port1:{options}", "-A", "nema_port1"]
    got = sigrok(built(folder), [*words, "--protocol-decoder-jsontrace"])
    if got.stderr:
        raise OSError(got.stderr)
    # Each annotation is an event of its begin and one of its end. Times are microseconds, which samples are here.
    events = json.loads(got.stdout)["traceEvents"]
    pairs = zip(events[::2], events[1::2])
    return [Shown(int(begin["ts"]), int(end["ts"]), begin["tid"], begin["name"]) for begin, end in pairs]


def expected(line: Wave, dictionary: str, side: str) -> List[Shown]:
    """What is to be shown of a line, by the listing of its bits and the samples of its edges."""
    options = ["--dict", dictionary] if dictionary else []
    return shown_of(listed(line.bits.encode(), ["--bits", *options]).stdout.decode(), line, side)


def shown_of(listing: str, line: Wave, side: str) -> List[Shown]:
    """What is to be shown of a line with this listing."""
    shown = []
    for report in listing.splitlines():
        first, past, text = report.split(" ", 2)
        kind = text.split()[0]
        if kind in PIECES:
            # The fifteenth one tells that the line is idle, so no bit past it is there yet.
            end = line.rises[int(past) - 1 if kind == "idle" else int(past)]
            row = side if kind == "frame" else side + BESIDE_FRAMES
            shown.append(Shown(line.rises[int(first)], end, row, text))
    return shown


def differences(got: Sequence[Shown], wanted: Sequence[Shown]) -> List[str]:
    """The first place where they differ."""
    if list(got) == list(wanted):
        return []
    at = next((at for at, pair in enumerate(zip(got, wanted)) if pair[0] != pair[1]), min(len(got), len(wanted)))
    return [f"{len(got)} shown, {len(wanted)} wanted; number {at}: {got[at : at + 2]}, wanted {wanted[at : at + 2]}"]


def side_of(shown: Sequence[Shown], side: str) -> List[Shown]:
    return [one for one in shown if one.row.startswith(side)]

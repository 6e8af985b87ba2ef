"""Programs that are to succeed."""

import os
import subprocess
from pathlib import Path
from typing import Optional, Sequence

TOP = Path(__file__).resolve().parent.parent.parent

PORT1 = TOP / "crates" / "port1" / "out" / "port1"

# How long one program may run, in seconds.
SECONDS = 120


class Differs(Exception):
    """What is not as it is to be."""




def ran(words: Sequence[str], stdin: bytes = b"", folder: Optional[Path] = None, seconds: int = SECONDS) -> bytes:
    """What a program writes that is to succeed."""
    try:
        done = subprocess.run(words, input=stdin, capture_output=True, cwd=folder, timeout=seconds)
    except subprocess.TimeoutExpired:
        names = dict.fromkeys(os.path.basename(word) for word in (words[0], words[-1]))
        raise Differs(f"{' '.join(names)} was stopped after {seconds} s") from None
    if done.returncode != 0:
        told = done.stderr.decode(errors="replace").strip().splitlines()
        wrong = [line for line in told if "error" in line] or told or ["nothing was told"]
        raise Differs(f"{os.path.basename(words[0])}: status {done.returncode}: {wrong[0]}")
    return done.stdout

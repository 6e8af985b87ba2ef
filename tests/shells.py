"""Runs a command of a document, in a shell of its own."""

import os
import signal
import subprocess
from pathlib import Path
from typing import Mapping, Tuple


def run_in_shell(command: str, folder: Path, environment: Mapping[str, str], seconds: float) -> Tuple[bytes, int]:
    """All that it writes, and its status; where it does not end in time, the shell and all that it began are killed."""
    with subprocess.Popen(
        ["sh", "-c", command],
        cwd=folder,
        env=environment,
        stdin=subprocess.DEVNULL,
        stdout=subprocess.PIPE,
        stderr=subprocess.STDOUT,
        start_new_session=True,
    ) as shell:
        try:
            return shell.communicate(timeout=seconds)[0], shell.returncode
        except subprocess.TimeoutExpired:
            os.killpg(shell.pid, signal.SIGKILL)
            raise

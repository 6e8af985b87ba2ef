"""How c/targets/build is called, and that archives of two targets lie apart.

What it builds, c/targets/run tests.
"""

import os
import shutil
import subprocess
from pathlib import Path
from typing import List

from needs import needs
from tests.case import SECONDS, TOP, Run

BUILD = TOP / "c" / "targets" / "build"

USAGE = "usage: build FOLDER TARGET.. [-- OPTION..]\n"

RUNS: List[Run] = [
    *[
        Run(name, [str(BUILD), *words], b"", stderr=f"{USAGE}build: a folder and a target are needed\n", status=2)
        for name, words in [("no word", []), ("no target", ["out"]), ("options alone", ["out", "--", "-O2"])]
    ],
    Run(
        "a target that is none", [str(BUILD), "out", "thumbv7m-none-eabi", "sparc"], b"",
        stderr=f"{USAGE}build: no such target: sparc\n", status=2,
    ),
]


def help_is_told(folder: Path) -> List[str]:
    """Help goes to standard output, and names each target that a wrong call does not refuse."""
    told = subprocess.run([BUILD, "--help"], capture_output=True, text=True, timeout=SECONDS)
    wanted = ["c/targets/build FOLDER TARGET..", "thumbv6m-none-eabi", "riscv32imac-unknown-none-elf", "only tested"]
    problems = [f"help lacks {text}" for text in wanted if text not in told.stdout]
    return problems + ([f"status {told.returncode}: {told.stderr}"] if told.returncode or told.stderr else [])


def problems_of_fault(script: Path, folder: Path, path: str, wanted: str) -> List[str]:
    """Whether a run stops with one line on standard error and leaves no folder."""
    words = [script, folder / "out", "thumbv6m-none-eabi"]
    got = subprocess.run(words, env={"PATH": path}, capture_output=True, text=True, timeout=SECONDS)
    problems = [] if (got.returncode, got.stdout, got.stderr) == (2, "", wanted) else [f"{got}"]
    return problems + (["it made the folder"] if (folder / "out").exists() else [])


def installed_alone(folder: Path) -> List[str]:
    """Away from the crates, as `make install-scripts` puts it in place."""
    script = folder / "contrib" / "mcu" / "build"
    script.parent.mkdir(parents=True)
    shutil.copy(BUILD, script)
    wanted = "build: there is no crates/port1_c: this runs in the repository alone\n"
    return problems_of_fault(script, folder, os.environ.get("PATH", os.defpath), wanted)


def without_a_toolchain(folder: Path) -> List[str]:
    """Where there is no rt, and where what is called rt belongs to no toolchain."""
    tools = folder / "tools"
    tools.mkdir()
    for tool in ["bash", "dirname", "readlink", "env"]:
        (tools / tool).symlink_to(str(shutil.which(tool)))
    problems = problems_of_fault(BUILD, folder, str(tools), "build: there is no rt on the PATH\n")
    (tools / "rt").write_text("#!/bin/sh\n", encoding="ascii")
    (tools / "rt").chmod(0o755)
    wanted = f"build: rt is not that of a toolchain: there is no {folder}/bin/rattle\n"
    return problems + problems_of_fault(BUILD, folder, str(tools), wanted)


def apart_from_this_machine(folder: Path) -> List[str]:
    """What make does for the library of this machine, and for that of another target."""
    needs("make")
    words = ["make", "-n", "-s", "-B", "-C", str(TOP), "install-library", f"PREFIX={folder}"]
    problems = []
    for target, archive, command in [
        ("", "crates/port1_c/out/libport1_c.a", "packages/build port1_c lib"),
        (
            "aarch64-unknown-linux-gnu",
            "crates/port1_c/out/aarch64-unknown-linux-gnu/libport1_c.a",
            "c/targets/build crates/port1_c/out 'aarch64-unknown-linux-gnu'",
        ),
    ]:
        ran = subprocess.run([*words, f"TARGET={target}"], capture_output=True, text=True, timeout=SECONDS)
        rows = ran.stdout.splitlines()
        copied = [row for row in rows if row.startswith("install -m 644 crates/port1_c/") and ".so" not in row]
        shared = [row for row in rows if row.startswith("install ") and "libport1.so" in row]
        problems += [f"{target}: it installs a shared library of this machine"] if target and shared else []
        problems += [] if rows[:1] == [command] else [f"{target}: it builds by {rows[:1]}"]
        wanted = [f'install -m 644 {archive} "{folder}/lib/libport1_c.a"']
        problems += [] if copied == wanted else [f"{target}: it installs {copied}"]
    return problems

"""What the tests take of other projects, by Debian's packages: the one list. `tests/setup` installs those of the gate.

A test for which one is missing is skipped, and says so with the name of the package.
"""

import os
import re
import shutil
import subprocess
import sys
from functools import lru_cache
from pathlib import Path
from typing import Iterable, Iterator, List, NamedTuple, Sequence, Tuple, Union


class Package(NamedTuple):
    """A package of Debian, and what the tests take of it: programs, modules of Python, and files."""

    name: str
    programs: Sequence[str] = ()
    modules: Sequence[str] = ()
    files: Sequence[str] = ()


BASH_COMPLETION = "/usr/share/bash-completion/bash_completion"

# Where Debian has modules for Node.
NODE_MODULES = "/usr/share/nodejs"

SPECS_OF_NEWLIB = "/usr/lib/arm-none-eabi/newlib/nosys.specs"

LOADER_OF_ARM = "/usr/aarch64-linux-gnu/lib/ld-linux-aarch64.so.1"

HEADER_OF_ARM = "/usr/aarch64-linux-gnu/include/stdint.h"

GATE = [
    Package("bash-completion", files=[BASH_COMPLETION]),
    Package("binutils", ["ar", "nm", "readelf", "size"]),
    Package("chromium", ["chromium"]),
    Package("chromium-driver", ["chromedriver"]),
    Package("cmake", ["cmake"]),
    Package("dpkg-dev", ["dpkg-gencontrol", "dpkg-shlibdeps"]),
    Package("esbuild", ["esbuild"]),
    Package("firefox-esr", ["firefox-esr"]),
    Package("fish", ["fish"]),
    Package("g++", ["c++"]),
    Package("gcc", ["cc", "gcc"]),
    Package("gcc-arm-none-eabi", ["arm-none-eabi-gcc"]),
    Package("git", ["git"]),
    Package("make", ["make"]),
    Package("node-d3", files=[f"{NODE_MODULES}/d3"]),
    Package("node-typescript", ["tsc"]),
    Package("nodejs", ["node"]),
    Package("parallel", ["parallel"]),
    Package("pkg-config", ["pkg-config"]),
    Package("python3-numpy", modules=["numpy"]),
    Package("python3-pytest", modules=["pytest"]),
    Package("python3-websocket", modules=["websocket"]),
    Package("qemu-system-arm", ["qemu-system-arm"]),
    Package("sigrok-cli", ["sigrok-cli"]),
    Package("systemd", ["systemd-analyze"]),
    Package("tshark", ["tshark"]),
    Package("valgrind", ["valgrind"]),
    Package("webkit2gtk-driver", ["WebKitWebDriver"]),
    Package("xvfb", ["Xvfb"]),
    Package("zsh", ["zsh"]),
]

# Those of tests beside the gate, some of which run servers.
BESIDE = [
    Package("gcc-aarch64-linux-gnu", ["aarch64-linux-gnu-gcc"]),
    Package("libc6-dev-arm64-cross", files=[HEADER_OF_ARM, LOADER_OF_ARM]),
    Package("libnewlib-arm-none-eabi", files=[SPECS_OF_NEWLIB]),
    Package("lintian", ["lintian"]),
    Package("munge", ["munged"]),
    Package("openssh-server", ["sshd"]),
    Package("qemu-user", ["qemu-aarch64"]),
    Package("rsync", ["rsync"]),
    Package("slurm-client", ["sbatch", "scancel", "sinfo", "squeue"]),
    Package("slurm-wlm", ["slurmctld", "slurmd"]),
]

LEAST_NODE = 20

# Its modules are those of the packages. The scripts are run by the `python3` that is first on the path.
DEBIANS_PYTHON = "/usr/bin/python3"

# The file to which each of the gate's programs adds what it skipped.
SKIPPED = "PORT1_SKIPPED"


class Skipped(Exception):
    """Why a test is not run."""


# What is wrong with a test, or why it was skipped.
Result = Union[List[str], Skipped]


@lru_cache(maxsize=None)
def has_modules(python: str, modules: Tuple[str, ...]) -> bool:
    words = [python, "-c", f"import {', '.join(modules)}"]
    return shutil.which(python) is not None and subprocess.run(words, stderr=subprocess.DEVNULL).returncode == 0


def has_module(name: str) -> bool:
    """Whether the Python that runs scripts has a module."""
    return has_modules("python3", (name,))


@lru_cache(maxsize=None)
def version_of_node() -> int:
    """The first number of its version; 0 where there is no Node."""
    if shutil.which("node") is None:
        return 0
    told = subprocess.run(["node", "--version"], capture_output=True, text=True).stdout
    return int("".join(re.findall(r"^v(\d+)", told)) or 0)


def has_program(name: str) -> bool:
    return shutil.which(name) is not None and (name != "node" or version_of_node() >= LEAST_NODE)


def told_of(thing: str) -> str:
    """What is said of a program, a module or a file that is missing."""
    packages = [each.name for each in GATE + BESIDE if thing in [*each.programs, *each.modules, *each.files]]
    least = f" {LEAST_NODE} or later" if thing == "node" else ""
    return f"no {thing}{least}" + "".join(f" (Debian: {name})" for name in packages)


def needs(*programs: str) -> None:
    missing = [told_of(program) for program in programs if not has_program(program)]
    if missing:
        raise Skipped(" and ".join(missing))


def needs_module(name: str) -> None:
    if not has_module(name):
        raise Skipped(told_of(name))


def needs_file(name: str) -> None:
    if not Path(name).exists():
        raise Skipped(told_of(name))


def lacks(package: Package) -> bool:
    """Whether something of it is missing; one Python is to have the modules of all packages."""
    is_there = has_modules("python3", tuple(modules_of_gate())) or has_modules(DEBIANS_PYTHON, tuple(package.modules))
    has_all = all(map(has_program, package.programs)) and (not package.modules or is_there)
    return not (has_all and all(Path(file).exists() for file in package.files))


def missing_packages() -> List[str]:
    """The packages of the gate of which something is missing."""
    for told in (has_modules, version_of_node):
        told.cache_clear()
    return [package.name for package in GATE if lacks(package)]


def modules_of_gate() -> Iterator[str]:
    for package in GATE:
        yield from package.modules


def run_by_debians_python() -> None:
    """Runs this program anew by Debian's Python, and the scripts that it calls, where that alone has all modules."""
    modules = tuple(modules_of_gate())
    if sys.executable != DEBIANS_PYTHON and not has_modules("python3", modules) and has_modules(DEBIANS_PYTHON, modules):
        os.environ["PATH"] = f"{Path(DEBIANS_PYTHON).parent}:{os.environ['PATH']}"
        os.execv(DEBIANS_PYTHON, [DEBIANS_PYTHON, *sys.argv])


def tell_skipped(skipped: Sequence[str]) -> None:
    """Names the tests that were skipped, here and in the file of the gate."""
    text = "".join(f"skipped: {each}\n" for each in skipped)
    print(text, end="")
    if os.environ.get(SKIPPED):
        with open(os.environ[SKIPPED], "a", encoding="utf-8") as file:
            file.write(text)


def report(results: Iterable[Tuple[str, Result]], is_all: bool) -> int:
    """Prints what came of tests, by their names; the status, 0 where none failed, nor was skipped where all are due."""
    passed = failed = 0
    skipped: List[str] = []
    for name, result in results:
        passed += result == []
        if isinstance(result, Skipped):
            skipped.append(f"{name}: {result}")
        elif result:
            failed += 1
            print(f"FAILED {name}", *result, sep="\n  ", flush=True)
    tell_skipped(skipped)
    print(f"{passed} passed, {failed} failed, {len(skipped)} skipped")
    return 1 if failed or (is_all and skipped) else 0

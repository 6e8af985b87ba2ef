"""What has to be there for a release, and what all packages say of themselves."""

import hashlib
import os
import re
import shutil
import subprocess
from pathlib import Path
from typing import List, NamedTuple, Sequence, Union

from definitions.manners import Fault

TOP = Path(__file__).resolve().parent.parent

Word = Union[str, Path]

PROGRAM = "crates/port1/out/port1"

SAMPLER = "crates/port1_sample/out/port1_sample"

PAGE = "page/out/port1.html"

# What each tool is in, on Debian.
TOOLS = {
    "cc": "gcc",
    "dpkg-deb": "dpkg",
    "dpkg-gencontrol": "dpkg-dev",
    "dpkg-shlibdeps": "dpkg-dev",
    "git": "git",
    "gzip": "gzip",
    "make": "make",
    "tar": "tar",
}

# The last two lines of a gate that passed.
GATE_PASSED = re.compile(r"^rt: ok; handles allowed: .*\n[1-9][0-9]* passed, 0 failed$", re.MULTILINE)


class Machine(NamedTuple):
    """A kind of processor: Debian's name of it, the folder of its libraries, and the Makefile's TARGET."""

    architecture: str
    libraries: str
    target: str

    def archive(self) -> Path:
        return Path("crates/port1_c/out") / self.target / "libport1_c.a"

    def is_built(self) -> bool:
        return (TOP / self.archive()).is_file()


HERE = Machine("amd64", "x86_64-linux-gnu", "")

ARM = Machine("arm64", "aarch64-linux-gnu", "aarch64-unknown-linux-gnu")

# Targets of c/targets/build that become one tarball.
BOARDS = ["thumbv6m-none-eabi", "thumbv7m-none-eabi", "thumbv7em-none-eabi", "thumbv7em-none-eabihf"]
BOARDS += ["armv7-unknown-linux-gnueabihf", "riscv32imac-unknown-none-elf"]

# What the gate does not tell of the libraries for boards.
OF_BOARDS = """The gate proves the library for x86-64. These archives are made by
c/targets/build of the module that the toolchain makes of the proved crate; they
are tested under emulators by c/targets/run, not proved.

"""

# What the gate does not tell of the library for 64-bit ARM.
OF_ARM = """The gate proves the library for x86-64. That for 64-bit ARM is made by
c/targets/build, where the toolchain proves the same sources for that
processor before it builds anything.

"""


class Release(NamedTuple):
    """What all packages say of themselves."""

    version: str
    commit: str
    seconds: int  # of the commit
    maintainer: str
    proved_by: str


def told(words: Sequence[Word], folder: Path = TOP, **settings: str) -> str:
    """What a command writes; a fault where it fails."""
    using = {**os.environ, "LC_ALL": "C", **settings}
    ran = subprocess.run(words, cwd=folder, env=using, stdin=subprocess.DEVNULL, capture_output=True, text=True)
    if ran.returncode != 0:
        raise Fault(f"{words[0]} failed: {ran.stderr.strip()[-2000:]}")
    return ran.stdout


def setting(name: str, what: str) -> str:
    """A variable that has to be given."""
    value = os.environ.get(name, "").strip()
    if not value:
        raise Fault(f"{name} is not given: {what}")
    return value


def check_tools() -> None:
    for tool, package in TOOLS.items():
        if shutil.which(tool) is None:
            raise Fault(f"there is no {tool}, which Debian has in the package {package}")


def check_built(version: str) -> None:
    """Program, library and page are there, and the program is of this version."""
    for file, target in [(PROGRAM, "make"), (SAMPLER, "make"), (str(HERE.archive()), "make"), (PAGE, "make page")]:
        if not (TOP / file).is_file():
            raise Fault(f"there is no {file}: `{target}` builds it")
    shown = told([TOP / PROGRAM, "--version"]).strip()
    if shown != f"port1 {version}":
        raise Fault(f"{PROGRAM} is {shown}, and the sources are port1 {version}: `make` builds it")


def commit() -> str:
    """The last commit, with which all files have to agree."""
    if not (TOP / ".git").exists():
        raise Fault("this folder is no git repository, so there is no commit to name")
    changed = told(["git", "status", "--porcelain"]).splitlines()
    if changed:
        raise Fault(f"there are changes that are in no commit, the first of them: {changed[0].strip()}")
    return told(["git", "rev-parse", "HEAD"]).strip()


def seconds() -> int:
    """SOURCE_DATE_EPOCH, else the time of the last commit."""
    text = os.environ.get("SOURCE_DATE_EPOCH") or told(["git", "log", "-1", "--format=%ct"]).strip()
    if not (text.isascii() and text.isdigit()):
        raise Fault(f"SOURCE_DATE_EPOCH is no whole number: {text}")
    return int(text)


def maintainer() -> str:
    given = setting("MAINTAINER", "make dist MAINTAINER='NAME <ADDRESS>'")
    if not re.fullmatch(r"[^<>@\n]+ <[^<>@\s]+@[^<>@\s]+>", given):
        raise Fault(f"MAINTAINER is not of the form 'NAME <ADDRESS>': {given}")
    return given


def closing_lines() -> str:
    """What the gate said in the end."""
    file = setting("GATE", "make dist GATE=FILE, where FILE is the log of `rt ci`")
    text = Path(file).read_text(encoding="utf-8", errors="replace")
    passed = list(GATE_PASSED.finditer(text))
    if not passed or re.search(r"^rt: FAILED: ", text[passed[-1].end() :], re.MULTILINE):
        wanted = "'rt: ok; ..' and 'N passed, 0 failed'"
        raise Fault(f"{file} is not the log of a gate that passed, which ends with {wanted}")
    return passed[-1][0]


def toolchain() -> str:
    """What `rt version` wrote."""
    file = setting("TOOLCHAIN", "make dist TOOLCHAIN=FILE, where FILE has what `rt version` wrote")
    text = Path(file).read_text(encoding="utf-8", errors="replace").strip()
    if not re.fullmatch(r"rattle-kit-\S+ logic [0-9a-f]+", text):
        raise Fault(f"{file} is not what `rt version` wrote: {text[:100]!r}")
    return text


def sha256(file: Path) -> str:
    return hashlib.sha256(file.read_bytes()).hexdigest()


def built() -> List[str]:
    """The program, and the archives that are there."""
    return [PROGRAM, SAMPLER, *(str(machine.archive()) for machine in (HERE, ARM) if machine.is_built()), *boards()]


def boards() -> List[str]:
    """The archives for boards that are there."""
    archives = [f"crates/port1_c/out/{target}/libport1_c.a" for target in BOARDS]
    return [archive for archive in archives if (TOP / archive).is_file()]


def proved_by(version: str, at: str) -> str:
    sums = "".join(f"    {sha256(TOP / file)}  {file}\n" for file in built())
    gate = "".join(f"    {line}\n" for line in closing_lines().splitlines())
    return (
        f"port1 {version}, commit {at}\n\nThe toolchain, by `rt version`:\n\n    {toolchain()}\n\n"
        f"The gate, `rt ci`, ended with:\n\n{gate}\n{OF_ARM if ARM.is_built() else ''}{OF_BOARDS if boards() else ''}"
        f"The SHA-256 of what was built:\n\n{sums}\n"
        "docs/PROVED.md of port1 says what is proved, what is only tested, and what is neither.\n"
    )


def release() -> Release:
    version = setting("VERSION", "this is called by `make dist`")
    check_tools()
    check_built(version)
    at = commit()
    return Release(version, at, seconds(), maintainer(), proved_by(version, at))

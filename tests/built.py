"""What `rt` builds of a crate into its folder `out`, and whether that is as new as the sources."""

import contextlib
import fcntl
import os
import subprocess
import sys
from functools import lru_cache
from pathlib import Path
from typing import Dict, Iterator, List, Sequence

SECONDS_OF_BUILD = 3600

TOP = Path(__file__).resolve().parent.parent

ARCHIVE = TOP / "crates" / "port1_c" / "out" / "libport1_c.a"


def libraries_of(top: Path) -> Dict[str, List[str]]:
    """Of each crate in crates.txt the libraries that it uses."""
    found: Dict[str, List[str]] = {}
    for line in (top / "crates.txt").read_text(encoding="utf-8").splitlines():
        crate, colon, libraries = line.partition("#")[0].partition(":")
        if colon:
            found[crate.split()[0]] = libraries.split()
    return found


def crates_of(top: Path, crate: str) -> List[str]:
    """The crate, and those of this repository below it."""
    libraries = libraries_of(top)
    found = [crate]
    for name in found:
        found += [each for each in libraries[name] if each in libraries and each not in found]
    return found


def sources_of(top: Path, crate: str) -> Iterator[Path]:
    """The files that what is built of a crate is made of."""
    for name in crates_of(top, crate):
        yield from (top / "crates" / name / "src").rglob("*.rt")


def newest_of(paths: Iterator[Path]) -> float:
    """When the newest of these files was written."""
    return max((path.stat().st_mtime for path in paths), default=0.0)


def is_built(made: Path, top: Path, crate: str) -> bool:
    return made.is_file() and made.stat().st_mtime >= newest_of(sources_of(top, crate))


def library_of(top: Path, crate: str) -> Path:
    """Where `rt` builds a library of the repository."""
    return top / "crates" / crate / "out" / "rlib" / f"{crate}.rlib"


def are_left_by_gate(top: Path, crates: Sequence[str]) -> bool:
    """Whether these libraries are such as `rt ci` leaves: as new as their sources, and at least one without a stamp."""
    libraries = [library_of(top, crate) for crate in crates]
    has_stamps = all((library.parent / "stamp").is_file() for library in libraries)
    return not has_stamps and all(is_built(library / "format", top, library.stem) for library in libraries)


@lru_cache(maxsize=None)
def kit() -> Path:
    """The folder of the toolchain."""
    page = subprocess.run(["rt", "doc"], stdout=subprocess.PIPE, check=True, text=True).stdout.strip()
    return Path(page).parent


def words_of_rattle(crate: str, top: Path) -> List[str]:
    """The words after `rattle check` or `rattle build` in the folder of a library, over those below it."""
    used, below = {"std": kit() / "rlibs" / "std.rlib"}, crates_of(top, crate)[1:]
    for name in libraries_of(top)[crate]:
        used[name] = library_of(top, name) if name in below else kit() / "rlibs" / f"{name}.rlib"
    folders = [kit() / "rlibs", *(library_of(top, name).parent for name in below)]
    return [
        "--crate-name", crate, "src/lib.rt",
        *(word for name, library in used.items() for word in ("--extern", f"{name}={library}")),
        *(word for folder in folders for word in ("-L", f"dependency={folder}")),
        "--antt-project", str(kit() / "rattle" / "logic" / "antt-project.json"),
        "--logic-built", str(kit() / "logic_built"),
    ]


def words_of_archive(archive: Path, top: Path) -> List[str]:
    """The command that builds an archive, crates/NAME/out/FILE, in the crate's folder.

    `rt lib` does, and proves the libraries below anew that have no stamp, which takes some ten minutes of a processor.
    Those that `rt ci` leaves are proved and have none. So `rattle` is given these by the words that `rt` has for them;
    it proves the crate itself, over the folder in which `rt` keeps such work. As `rt` does, it locks the crate.
    """
    crate = archive.parent.parent.name
    if not are_left_by_gate(top, crates_of(top, crate)[1:]):
        return ["rt", "lib"]
    return [
        "flock", ".", str(kit() / "bin" / "rattle"), "build", *words_of_rattle(crate, top), "--crate-type", "staticlib",
        "--incremental", "out/incremental", "--jobs", os.environ.get("RT_JOBS", str(os.cpu_count() or 1)),
        "--toolchain", str(kit() / "toolchain"), "-o", f"out/{archive.name}",
    ]


@contextlib.contextmanager
def in_turn(folder: Path) -> Iterator[None]:
    """Waits until no other test builds something of the crate in this folder."""
    (folder / "out").mkdir(exist_ok=True)
    with (folder / "out" / "build.lock").open("w") as lock:
        fcntl.flock(lock, fcntl.LOCK_EX)
        yield


def problems_of_build(made: Path, top: Path, words: Sequence[str]) -> List[str]:
    """Builds a file, crates/NAME/out/FILE, by a command in the crate's folder, where it is missing or old."""
    folder = made.parent.parent
    with in_turn(folder):
        return [] if is_built(made, top, folder.name) else problems_of_command(made, words)


def problems_of_command(made: Path, words: Sequence[str]) -> List[str]:
    """Builds a file by a command in the crate's folder."""
    folder = made.parent.parent
    shown = words[2:] if words[0] == "flock" else words
    command = " ".join([Path(shown[0]).name, *shown[1:2]])
    print(f"{made} is missing or old: `{command}` builds it", flush=True)
    ran = subprocess.run(
        words,
        cwd=folder,
        stdin=subprocess.DEVNULL,
        stdout=subprocess.PIPE,
        stderr=subprocess.STDOUT,
        text=True,
        timeout=SECONDS_OF_BUILD,
    )
    return [] if ran.returncode == 0 and made.is_file() else [f"`{command}` in {folder}: {ran.stdout[-2000:]}"]


def main() -> int:
    """Builds the archive of the C library, and proves it and the crates below, where they changed."""
    words = words_of_archive(ARCHIVE, TOP)
    if words == ["rt", "lib"]:
        with in_turn(ARCHIVE.parent.parent):
            return subprocess.run(words, cwd=ARCHIVE.parent.parent).returncode
    problems = problems_of_build(ARCHIVE, TOP, words)
    for problem in problems:
        print(problem)
    return 1 if problems else 0


if __name__ == "__main__":
    sys.exit(main())

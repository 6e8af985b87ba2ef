"""What `make install` puts in place, that it works there, and that `make uninstall` leaves nothing of it."""

import os
import re
import subprocess
from pathlib import Path
from typing import Dict, Iterator, List, Sequence, Set, Tuple

from needs import needs
from tests.case import CALL, ONE_CALL, SCRIPTS, SECONDS, TOP, lines, plain, written_by
from tests.manners import scripts

ONE_FRAME = b"8 49 frame 108300fde5\n"

# What is installed under a name that says what it is for, and the file that it is.
SAME_FILES = {
    **{
        place.format(name): file.format(name)
        for name in ("port1", "port1-sample")
        for place, file in [
            ("share/man/man1/{}.1", "cli/{}.1"),
            ("share/bash-completion/completions/{}", "cli/completions/{}.bash"),
            ("share/zsh/site-functions/_{}", "cli/completions/_{}"),
            ("share/fish/vendor_completions.d/{}.fish", "cli/completions/{}.fish"),
        ]
    },
    "include/port1.h": "c/include/port1.h",
    "share/port1/contrib/mcu/build": "c/targets/build",
}

# The folders that are installed whole, each by its place.
SAME_FOLDERS = {
    "share/port1/contrib": "scripts",
    "share/port1/contrib/python": "bindings/python",
    "share/port1/contrib/sigrok": "bindings/sigrok",
    "lib/python": "bindings/python",
}

# What belongs to the work on the scripts and not to their use.
TESTS_OF_SCRIPTS = {"tests", "self-test", "__pycache__", "out"}


def made(target: str, words: Sequence[str], folder: Path) -> None:
    """Runs make with the built program, and with files for library and page, which need not be built for this."""
    library, page = folder / "library.a", folder / "page.html"
    for path in (library, folder / "libport1.so.3", page):
        path.write_bytes(b"no library\n")
    given = [f"PROGRAM={os.environ['PORT1']}", f"LIBRARY={library}", f"PAGE={page}", *words]
    subprocess.run(["make", "-s", "-C", TOP, target, *given], check=True, capture_output=True, timeout=SECONDS)


def left_in(place: Path) -> List[str]:
    return sorted(str(path.relative_to(place)) for path in place.rglob("*"))


PROGRAMS = {"port1", "port1-sample"}


def environment(binaries: Path) -> Dict[str, str]:
    return {"PATH": f"{binaries}:{os.environ.get('PATH', os.defpath)}", "LC_ALL": "C"}


def wrote(command: str, binaries: Path, folder: Path) -> bytes:
    """What a command of the shell writes in a folder, with the installed programs on the path."""
    using = environment(binaries)
    ran = subprocess.run(["sh", "-c", command], cwd=folder, env=using, capture_output=True, timeout=SECONDS)
    return ran.stdout + ran.stderr


def problems_of_scripts(binaries: Path, folder: Path) -> List[str]:
    """Whether each script is a link in bin that leads to a script beside, and tells its help from another folder."""
    found = sorted(path.name for path in binaries.iterdir() if path.name not in PROGRAMS)
    problems = [] if found == scripts() else [f"in bin there are {found}"]
    for name in found:
        problems += [f"{name}: not a relative link"] if os.readlink(binaries / name).startswith("/") else []
        ran = subprocess.run([name, "--help"], cwd=folder, env=environment(binaries), capture_output=True, text=True)
        if ran.stderr.startswith(f"{name}: needs the Python module"):
            continue  # it was found and ran, as far as it can here
        if ran.returncode != 0 or ran.stderr or name not in ran.stdout:
            problems.append(f"{name} --help: status {ran.returncode}: {ran.stdout}{ran.stderr}")
    return problems


def problems_of_use(prefix: Path, folder: Path) -> List[str]:
    """The scripts at work, by their names elsewhere and in share/port1, as the documents call them, and by a path."""
    binaries, share = prefix / "bin", prefix / "share" / "port1"
    (folder / "one.ts2").write_bytes(ONE_CALL)
    rows = [
        ("port1 list < one.ts2", folder, ONE_FRAME),
        ("list-in-parts one.ts2", folder, ONE_FRAME),
        ("unpack-bits < one.ts2", folder, lines(plain(CALL))),
        ("unpack-bits < one.ts2 | pack-bits | cmp - one.ts2", folder, b""),
        ("port1 list --bits < examples/one-call.bits", share, ONE_FRAME),
        ("pack-bits < examples/one-call.bits | cmp - examples/one-call.ts2", share, b""),
        ("contrib/list-in-parts examples/one-call.ts2", share, ONE_FRAME),
        ("by-definition list < one.ts2", folder, ONE_FRAME),
        ("ls docs/COOKBOOK.md README.md examples/c/list.c examples/ci/test_captures.py", share, None),
    ]
    problems = []
    for command, place, wanted in rows:
        written = wrote(command, binaries, place)
        if wanted is None:
            wanted = b"".join(sorted(word.encode() + b"\n" for word in command.split()[1:]))
            written = b"".join(sorted(written.splitlines(keepends=True)))
        problems += [] if written == wanted else [f"{command}: wanted {wanted!r}, got {written!r}"]
    return problems


# What is written when it is installed, and what is built.
MADE = {
    *["lib/pkgconfig/port1.pc", "lib/cmake/port1/port1Config.cmake", "lib/cmake/port1/port1ConfigVersion.cmake"],
    *["bin/port1", "bin/port1-sample", "lib/libport1_c.a", "lib/libport1.so", "lib/libport1.so.3", "share/port1/page/port1.html"],
    "share/port1/examples",
}


def c_examples() -> Iterator[Path]:
    """The examples in C, and the firmware."""
    for path in (TOP / "c" / "examples").rglob("*"):
        if path.name == "Makefile" or path.suffix in (".c", ".h", ".ld"):
            yield path


def place_of_example(path: Path) -> str:
    """Where the documents of a package have it."""
    return f"examples/c/{path.relative_to(TOP / 'c' / 'examples')}"


def sources_by_place() -> Iterator[Tuple[str, Path]]:
    """Where each file is installed that is one of this repository."""
    yield from ((place, TOP / source) for place, source in SAME_FILES.items())
    for form in ["*.md", "docs/*.md", "docs/*.toml", "docs/*.png", "crates/*/specs/**/*.antt"]:
        yield from ((f"share/port1/{path.relative_to(TOP)}", path) for path in TOP.glob(form))
    for place, folder in SAME_FOLDERS.items():
        yield from ((f"{place}/{name}", TOP / folder / name) for name in files_of(TOP / folder))
    for path in (TOP / "examples").rglob("*.*"):
        if path.is_file() and not path.name.startswith(".") and not {"__pycache__", ".pytest_cache"} & set(path.parts):
            yield f"share/doc/port1/{path.relative_to(TOP)}", path
    for path in c_examples():
        yield f"share/doc/port1/{place_of_example(path)}", path


def problems_of_all(prefix: Path) -> List[str]:
    """Whether everything is in place, octet for octet, and nothing else."""
    wanted = dict(sources_by_place())
    names = {*wanted, *MADE, *(f"bin/{name}" for name in scripts())}
    found = {str(path.relative_to(prefix)) for path in prefix.rglob("*") if path.is_symlink() or not path.is_dir()}
    problems = [f"not installed: {name}" for name in sorted(names - found)]
    problems += [f"installed as well: {name}" for name in sorted(found - names)]
    others = [name for name in wanted.keys() & found if (prefix / name).read_bytes() != wanted[name].read_bytes()]
    return problems + [f"{name}: not {wanted[name]}" for name in sorted(others)]


def problems_of_modes(prefix: Path) -> List[str]:
    """Whether program and scripts may be run, and everything may be read and nothing else be run, by everyone."""
    problems = []
    for path in prefix.rglob("*"):
        if path.is_symlink():
            continue
        is_run = path.is_dir() or path.parent == prefix / "bin" or path.read_bytes().startswith(b"#!")
        mode = oct(path.stat().st_mode & 0o7777)
        problems += [] if mode == ("0o755" if is_run else "0o644") else [f"{path.relative_to(prefix)}: mode {mode}"]
    return problems


def problems_of_library(prefix: Path) -> List[str]:
    """Whether the library is in place in both forms, and port1.pc tells where, wherever that is."""
    libraries = prefix / "lib"
    rows = {"libport1_c.a": b"no library\n", "libport1.so.3": b"no library\n", "libport1.so": b"no library\n"}
    problems = [f"lib/{name}: another" for name, octets in rows.items() if (libraries / name).read_bytes() != octets]
    text = (libraries / "pkgconfig" / "port1.pc").read_text(encoding="ascii")
    told = dict(re.findall(r"^(\w+)=\$\{pcfiledir\}/(.*)$", text, re.MULTILINE))
    wanted = {"prefix": prefix, "libdir": libraries, "includedir": prefix / "include"}
    for name, place in wanted.items():
        found = (libraries / "pkgconfig" / told.get(name, "nowhere")).resolve()
        problems += [] if found == place.resolve() else [f"port1.pc: {name} is {found}"]
    return problems


def files_of(place: Path) -> List[str]:
    """The files of a folder, but for what tests them, and for a place that has a place of its own."""
    found = [path.relative_to(place) for path in place.rglob("*") if not path.is_dir()]
    others = TESTS_OF_SCRIPTS
    return sorted(str(path) for path in found if not others & set(path.parts))


def problems_of_links(prefix: Path) -> List[str]:
    """Whether each document that an installed document points to is there, or is a source, which is not installed."""
    problems = []
    share = prefix / "share" / "port1"
    for document in [*share.glob("*.md"), *share.glob("docs/*.md")]:
        for link in re.findall(r"\]\(([^)#:]+\.md)", document.read_text(encoding="utf-8")):
            problems += [] if (document.parent / link).is_file() else [f"{document.name}: there is no {link}"]
    return problems


def in_a_home(folder: Path) -> List[str]:
    """All of it in a folder, twice; each script runs; then nothing is left."""
    needs("make")
    prefix, elsewhere, work = folder / "of port1", folder / "elsewhere", folder / "work"
    for place in (prefix, elsewhere, work):
        place.mkdir()
    words = [f"PREFIX={prefix}", f"PYTHONDIR={prefix / 'lib' / 'python'}"]
    for _ in range(2):
        made("install", words, work)
    problems = problems_of_scripts(prefix / "bin", elsewhere) + problems_of_use(prefix, elsewhere)
    problems += problems_of_links(prefix) + problems_of_all(prefix)
    problems += problems_of_modes(prefix) + problems_of_library(prefix)
    made("uninstall", words, work)
    return problems + [f"left: {path}" for path in left_in(prefix)]


def contents(folder: Path) -> Dict[str, bytes]:
    """The octets of each file of a folder, and where each link leads."""
    paths = [path for path in folder.rglob("*") if path.is_symlink() or path.is_file()]
    links = {path: os.fsencode(os.readlink(path)) for path in paths if path.is_symlink()}
    return {str(path.relative_to(folder)): links.get(path) or path.read_bytes() for path in paths}


def unlike_files(wanted: Dict[str, bytes], got: Dict[str, bytes]) -> List[str]:
    names = sorted({*wanted, *got})
    return [f"{name}: not as without DESTDIR" for name in names if wanted.get(name) != got.get(name)]


def for_a_package(folder: Path) -> List[str]:
    """With DESTDIR the same files as without, and moved to another place, where all links still lead on; then nothing
    is left, however deep."""
    needs("make")
    stage, moved, work, plain = folder / "stage", folder / "moved", folder / "work", folder / "plain"
    work.mkdir()
    words = [f"DESTDIR={stage}", "PREFIX=/usr/local"]
    made("install", words, work)
    made("install", [f"PREFIX={plain}"], work)
    stage.rename(moved)
    prefix = moved / "usr" / "local"
    problems = problems_of_scripts(prefix / "bin", work) + problems_of_use(prefix, work)
    problems += unlike_files(contents(plain), contents(prefix))
    moved.rename(stage)
    made("uninstall", words, work)
    return problems + [f"left: {path}" for path in left_in(stage)]


def one_target_at_a_time(folder: Path) -> List[str]:
    """Each installing target alone is taken away again; uninstalling where nothing is does nothing."""
    needs("make")
    problems = []
    for target in ["install-program", "install-scripts", "install-library", "uninstall"]:
        prefix = folder / target
        prefix.mkdir()
        made(target, [f"PREFIX={prefix}"], folder)
        problems += [f"{target}: it put nothing in place"] if target != "uninstall" and not left_in(prefix) else []
        made("uninstall", [f"PREFIX={prefix}"], folder)
        problems += [f"{target}: left: {path}" for path in left_in(prefix)]
    return problems


def what_is_of_others(folder: Path) -> List[str]:
    """Uninstalling keeps what others put beside, and a link of one's own to a script elsewhere."""
    needs("make")
    prefix = folder / "prefix"
    made("install", [f"PREFIX={prefix}"], folder)
    kept = [prefix / "bin" / "other", prefix / "share" / "man" / "man1" / "other.1", prefix / "share" / "zsh" / "rest"]
    for path in kept:
        path.write_text("of others\n", encoding="ascii")
    mine = prefix / "bin" / "pack-bits"
    mine.unlink()
    mine.symlink_to(SCRIPTS / "pack-bits")
    made("uninstall", [f"PREFIX={prefix}"], folder)
    left = sorted(path for path in prefix.rglob("*") if not path.is_dir())
    return [] if left == sorted([*kept, mine]) else [f"left: {left}"]


def make_check(folder: Path) -> List[str]:
    """What `make check` runs, and `make page`, which is to report the proofs before it builds."""
    needs("make")
    problems = []
    for target, wanted in {"check": ["tests/setup", "tests/run --all"], "page": ["packages/build port1_c lib", "page/build"]}.items():
        words = ["make", "-n", "-C", TOP, target, f"PROGRAM={os.environ['PORT1']}"]
        ran = subprocess.run(words, capture_output=True, text=True, timeout=SECONDS)
        found = [line for line in ran.stdout.splitlines() if not line.startswith("make")]
        problems += [] if found == wanted else [f"make {target} runs {found}: {ran.stderr}"]
    return problems


def made_by_documents() -> Set[str]:
    """What the commands of the documents write to in the folder where they run, or to a folder there."""
    found: Set[str] = set()
    for document in [TOP / "README.md", *(TOP / "docs").glob("*.md")]:
        text = document.read_text(encoding="utf-8")
        commands = "\n".join(re.findall(r"^ {4}(?:\$ )?(.*)", text, flags=re.MULTILINE))
        targets = re.findall(r"(?: >>? ?| -o |--joblog |--junitxml=|--cut |mkdir )([\w./-]+)", commands)
        targets += re.findall(r"list-to-pcap \d+ ([\w.]+)", commands)
        found |= {target for target in targets if not re.match(r"/|-|examples|\d", target)}
    return found


def what_git_passes_over(folder: Path) -> List[str]:
    """What the documents' commands make is ignored; no source is, and no further example would be."""
    needs("git")
    git = ["git", "-C", str(TOP)]
    if not (TOP / ".git").exists():
        git += [f"--git-dir={folder / '.git'}", f"--work-tree={TOP}"]
        written_by([*git, "init", "-q"])
    made = sorted(made_by_documents())
    passed = written_by([*git, "check-ignore", "--no-index", *made]).decode().split()
    problems = [f"not ignored: {name}" for name in made if name not in passed]
    problems += [] if {"tap.bits", "before.txt", "captures"} <= set(made) else [f"the documents make {made}"]
    sources = written_by([*git, "ls-files", "--cached", "--ignored", "--exclude-standard"]).decode().split()
    others = ["examples/new.bits", "examples/new.ts2", "examples/ci/new.py", "scripts/new", "c/new.c", "docs/new.md"]
    hidden = subprocess.run([*git, "check-ignore", "--no-index", *others], capture_output=True, text=True)
    return problems + [f"ignored: {name}" for name in sources + hidden.stdout.split()]

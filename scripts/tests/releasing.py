"""What `make dist` packs, that the same commit gives the same octets, and what is refused; and that what is installed
tells the version of the sources."""

import hashlib
import io
import os
import re
import shutil
import subprocess
import tarfile
import tempfile
from functools import lru_cache
from multiprocessing.util import Finalize
from pathlib import Path
from typing import Callable, Dict, List, NamedTuple, Set, Tuple

from needs import needs
from tests import installing
from tests.case import SECONDS, TOP, Word, needs_archive, unlike
from tests.packages import Installed, problems_of_installed, told

MAINTAINER = "Tess Ter <tess@example.org>"

TOOLCHAIN = "rattle-kit-0z logic 0123456789abcdef\n"

CLOSING = """rt: ok; handles allowed: none; must-fail edits: 3 refused; every proof was done in this run
17 passed, 0 failed
"""

GATE = f"== bus_fcs\nrt: bus_fcs proved\n{CLOSING}"

# When the commit of the scratch repository was made, in seconds, and a time that is still to come.
COMMITTED, TO_COME = 1700000000, 4102444800

# The programs, the archives, and the page, where they are built.
PROGRAM = "crates/port1/out/port1"
SAMPLER = "crates/port1_sample/out/port1_sample"
LIBRARY = "crates/port1_c/out/libport1_c.a"
LIBRARY_FOR_ARM = "crates/port1_c/out/aarch64-unknown-linux-gnu/libport1_c.a"
PAGE = "page/out/port1.html"

# What lies in a folder where somebody works, is passed over by git, and is to be in no package: a file of definitions
# that `rt` makes, and what other tools keep.
OF_NO_SOURCE = {
    "crates/bus_bits/out/rlib/bus_bits.rlib/lang/antt/specs/Bits.antt": "a copy\n",
    "scripts/definitions/.cache/.gitignore": "*\n",
    "scripts/definitions/__pycache__/port1.pyc": "translated\n",
}

# What Debian's programs that `make dist` needs are in.
TOOLS = ["ar", "cc", "dpkg-deb", "dpkg-gencontrol", "dpkg-shlibdeps", "git", "make"]

LIBRARY_FILES = {
    "usr/include/port1.h",
    "usr/lib/{}/cmake/port1/port1Config.cmake",
    "usr/lib/{}/cmake/port1/port1ConfigVersion.cmake",
    "usr/lib/{}/libport1_c.a",
    "usr/lib/{}/pkgconfig/port1.pc",
    *(f"usr/share/doc/libport1-dev/{place}" for place in map(installing.place_of_example, installing.c_examples())),
    "usr/share/doc/libport1-dev/PROVED-BY",
    "usr/share/doc/libport1-dev/changelog.gz",
}

SHARED_FILES = {"usr/lib/{}/libport1.so", "usr/lib/{}/libport1.so.3", "usr/share/lintian/overrides/libport1-dev"}

# What has another name in the package of the program than in the tarball.
RENAMED = {
    "share/man/man1/port1.1": "share/man/man1/port1.1.gz",
    "share/man/man1/port1-sample.1": "share/man/man1/port1-sample.1.gz",
    "share/zsh/site-functions/_port1": "share/zsh/vendor-completions/_port1",
    "share/zsh/site-functions/_port1-sample": "share/zsh/vendor-completions/_port1-sample",
}


class Entry(NamedTuple):
    """A file, folder or link of a package."""

    kind: str  # "file", "folder" or "link"
    mode: int
    owner: str  # numbers of user and group
    seconds: int
    octets: bytes  # of a file; of a link, where it leads


# ---- a repository to pack


def version() -> str:
    """That of the sources, which the program has, too."""
    return told(["sed", "-n", r's/.*\.version("\(.*\)").*/\1/p', TOP / "crates/bus_arguments/src/arguments.rt"]).strip()


def git(folder: Path, *words: str) -> str:
    when = f"{COMMITTED} +0000"
    settings = {"GIT_COMMITTER_DATE": when, "GIT_AUTHOR_DATE": when}
    return told(["git", "-C", folder, "-c", "user.name=T", "-c", "user.email=t@example.org", *words], b"", **settings)


def stand_in(archive: Path, compiler: str) -> None:
    """An archive with the functions of the header, each of which answers 5."""
    names = re.findall(r"^uint32_t (port1_\w+)\(", (TOP / "c" / "include" / "port1.h").read_text(), re.MULTILINE)
    text = "".join(f"unsigned {name}(void) {{ return 5; }}\n" for name in names)
    archive.parent.mkdir(parents=True, exist_ok=True)
    source, made = archive.with_name("port1_c.c"), archive.with_name("port1_c.o")
    source.write_text(text)
    said = told([compiler, "-fPIC", "-O1", "-c", "-o", made, source]) + told(["ar", "rcsD", archive, made])
    if said:
        raise OSError(said)


def repository(folder: Path) -> Path:
    """A repository of one commit with the files of this one as they stand, proofs aside, and with the program. It has
    the libraries, or a stand-in for each that is not built, and a stand-in for the page."""
    needs(*TOOLS)
    folder.mkdir(parents=True)
    git(folder, "init", "-q")
    listing = ["git", "-C", TOP, f"--git-dir={folder / '.git'}", f"--work-tree={TOP}", "ls-files", "-z", "--others"]
    for name in told([*listing, "--exclude-standard"]).split("\0"):
        if (TOP / name).is_file() and not re.match(r"crates/\w+/(proofs|must-fail|wrong-bodies)/", name):
            (folder / name).parent.mkdir(parents=True, exist_ok=True)
            shutil.copy2(TOP / name, folder / name)
    for words in (["add", "-A"], ["commit", "-q", "-m", "All"]):
        git(folder, *words)
    for program, built in [(PROGRAM, os.environ["PORT1"]), (SAMPLER, TOP / SAMPLER)]:
        (folder / program).parent.mkdir(parents=True, exist_ok=True)
        shutil.copy2(built, folder / program)
    for name, compiler in [(LIBRARY, "cc"), (LIBRARY_FOR_ARM, shutil.which("aarch64-linux-gnu-gcc") or "cc")]:
        if (TOP / name).is_file():
            (folder / name).parent.mkdir(parents=True, exist_ok=True)
            shutil.copy2(TOP / name, folder / name)
        else:
            stand_in(folder / name, compiler)
    for target in ("thumbv7m-none-eabi", "riscv32imac-unknown-none-elf"):
        stand_in(folder / f"crates/port1_c/out/{target}/libport1_c.a", "cc")
    for name, text in {PAGE: "<!DOCTYPE html>\n<title>a page</title>\n", **OF_NO_SOURCE}.items():
        (folder / name).parent.mkdir(parents=True, exist_ok=True)
        (folder / name).write_text(text)
    return folder


def given(folder: Path) -> Dict[str, str]:
    """The variables that `make dist` is to be given, with files beside the repository."""
    gate, toolchain = folder.with_name(f"{folder.name}-gate.log"), folder.with_name(f"{folder.name}-toolchain.txt")
    gate.write_text(GATE)
    toolchain.write_text(TOOLCHAIN)
    return {"GATE": str(gate), "TOOLCHAIN": str(toolchain), "MAINTAINER": MAINTAINER}


def make_dist(folder: Path, **settings: str) -> Path:
    words = [f"{name}={value}" for name, value in given(folder).items()]
    ran = subprocess.run(
        ["make", "-s", "-C", folder, "dist", *words],
        stdout=subprocess.PIPE,
        stderr=subprocess.STDOUT,
        env={**os.environ, **settings},
        timeout=SECONDS,
    )
    if ran.returncode:
        raise OSError(f"make dist: {ran.stdout.decode(errors='replace')}")
    return folder / "dist"


@lru_cache()
def scratch() -> Path:
    """A repository that was packed once, for all tests that only look."""
    folder = Path(tempfile.mkdtemp(prefix="port1-dist-"))
    Finalize(None, shutil.rmtree, [folder], {"ignore_errors": True}, exitpriority=0)
    made = repository(folder / "repository")
    make_dist(made)
    return made


def packages() -> Dict[str, Path]:
    """The packages by names without the version."""
    return {path.name.replace(f"_{version()}_", "_"): path for path in (scratch() / "dist").glob("*.deb")}


def tarball() -> Path:
    return scratch() / "dist" / f"port1-{version()}.tar.gz"


def entry(member: tarfile.TarInfo, packed: tarfile.TarFile) -> Entry:
    kind = "file" if member.isreg() else "folder" if member.isdir() else "link" if member.issym() else "other"
    file = packed.extractfile(member) if kind == "file" else None
    octets = file.read() if file else os.fsencode(member.linkname)
    return Entry(kind, member.mode, f"{member.uid} {member.gid}", int(member.mtime), octets)


def entries(package: Path) -> Dict[str, Entry]:
    """What is in a package, by name."""
    octets = package.read_bytes()
    if package.suffix == ".deb":
        octets = subprocess.run(["dpkg-deb", "--fsys-tarfile", package], capture_output=True, check=True).stdout
    with tarfile.open(fileobj=io.BytesIO(octets)) as packed:
        found = {member.name: entry(member, packed) for member in packed.getmembers()}
    return {name[2:] if name.startswith("./") else name: value for name, value in found.items() if name != "."}


def files_of(package: Path) -> Dict[str, Entry]:
    return {name: it for name, it in entries(package).items() if it.kind != "folder"}


# ---- the version


def one_version(folder: Path) -> List[str]:
    """What is installed has the version of crates/bus_arguments/src/arguments.rt, and so has the program, and each file
    that packages/version knows."""
    needs("make")
    wanted = version()
    installing.made("install", [f"PREFIX={folder}"], folder)
    installed = {
        "lib/pkgconfig/port1.pc": r"^Version: (.*)",
        "lib/cmake/port1/port1Config.cmake": r"^# The C library of port1, (\S+): ",
        "lib/cmake/port1/port1ConfigVersion.cmake": r'^set\(PACKAGE_VERSION "(.*)"',
    }
    texts = {name: (folder / name).read_text(encoding="utf-8") for name in installed}
    found = {name: re.findall(form, texts[name], re.MULTILINE) for name, form in installed.items()}
    problems = [part for name, got in found.items() for part in unlike(name, [wanted], got)]
    problems += unlike("the program", f"port1 {wanted}\n", told([os.environ["PORT1"], "--version"]))
    return problems + unlike("packages/version --check", "", told([TOP / "packages" / "version", "--check"]))


# ---- what is in the packages


def packages_by_name(_: Path) -> List[str]:
    """The files in dist, and that SHA256SUMS is of all others."""
    wanted = ["SHA256SUMS", f"libport1-dev_{version()}_amd64.deb", f"libport1-dev_{version()}_arm64.deb"]
    wanted += [f"port1-{version()}.html", tarball().name, f"port1-boards-{version()}.tar.gz", f"port1_{version()}_amd64.deb"]
    files = sorted((scratch() / "dist").iterdir())
    sums = [f"{hashlib.sha256(file.read_bytes()).hexdigest()}  {file.name}" for file in files[1:]]
    problems = unlike("dist", wanted, [file.name for file in files])
    return problems + unlike("SHA256SUMS", sums, files[0].read_text().splitlines())


def without_arm(folder: Path) -> List[str]:
    """Without an archive for 64-bit ARM there is no package of it, no word of it, and an older one does not stay."""
    made = repository(folder / "repository")
    make_dist(made)
    shutil.rmtree((made / LIBRARY_FOR_ARM).parent)
    left = {path.name: path for path in sorted(make_dist(made).glob("*.deb"))}
    names = [f"libport1-dev_{version()}_amd64.deb", f"port1_{version()}_amd64.deb"]
    problems = unlike("packages", names, [*left])
    told_of = entries(left[names[0]])["usr/share/doc/libport1-dev/PROVED-BY"].octets
    return problems + unlike("what PROVED-BY tells of 64-bit ARM", False, b"ARM" in told_of)


def contents_for_boards(_: Path) -> List[str]:
    """The archives for boards that are there, header and examples, and the page by itself."""
    top, name = scratch(), f"port1-boards-{version()}"
    got = {path[len(name) + 1 :]: it.octets for path, it in files_of(top / "dist" / f"{name}.tar.gz").items()}
    archives = {f"{target}/libport1_c.a" for target in ("thumbv7m-none-eabi", "riscv32imac-unknown-none-elf")}
    examples = {f"examples/{name}" for name in told(["git", "-C", top / "c/examples", "ls-files"]).split()}
    problems = unlike("boards", sorted({"include/port1.h", "PROVED-BY", *archives, *examples}), sorted(got))
    problems += [] if b"not proved" in got["PROVED-BY"] else ["PROVED-BY does not say that they are not proved"]
    for name in archives:
        problems += [] if got[name] == (top / "crates/port1_c/out" / name).read_bytes() else [f"{name} is another"]
    page = (top / "dist" / f"port1-{version()}.html").read_bytes() == (top / PAGE).read_bytes()
    return problems + ([] if page else ["the page is another"])


def used_without_a_toolchain(folder: Path) -> List[str]:
    """With the packages for Debian unpacked in a folder."""
    needs_archive()
    made = packages()
    for name in ("port1_amd64.deb", "libport1-dev_amd64.deb"):
        told(["dpkg-deb", "-x", made[name], folder / "root"])
    system = folder / "root" / "usr"
    libraries = system / "lib" / "x86_64-linux-gnu"
    examples = system / "share/doc/libport1-dev/examples/c"
    return problems_of_installed(Installed(examples, system / "share/port1", libraries), folder)


def contents_of_tarball(folder: Path) -> List[str]:
    """It has what `make install` puts in place, and PROVED-BY, sorted by name, and nothing that is in no commit."""
    top = scratch()
    words: List[Word] = ["make", "-s", "-C", top, "install"]
    problems = unlike("make", "", told([*words, f"PREFIX={folder}", f"PYTHONDIR={folder / 'lib' / 'python'}"]))
    wanted = {f"port1-{version()}/{name}": octets for name, octets in installing.contents(folder).items()}
    got = {name: it.octets for name, it in files_of(tarball()).items()}
    proved_by = got.pop(f"port1-{version()}/share/doc/port1/PROVED-BY", None)
    problems += [] if proved_by else ["there is no PROVED-BY"]
    order = [Path(name).parts for name in entries(tarball())]
    problems += unlike("order", sorted(order), order)
    problems += [] if f"port1-{version()}/share/port1/page/port1.html" in got else ["there is no page"]
    wanted.pop(f"port1-{version()}/share/port1/contrib/definitions/.cache/.gitignore")
    return problems + [f"{name}: {text}" for name, text in unlike_octets(wanted, got).items()]


def unlike_octets(wanted: Dict[str, bytes], got: Dict[str, bytes]) -> Dict[str, str]:
    names = sorted(name for name in {*wanted, *got} if wanted.get(name) != got.get(name))
    return {name: "other octets" if name in wanted and name in got else "in one alone" for name in names}


def contents_of_program(_: Path) -> List[str]:
    """The package of the program has what the tarball has but for the library, under Debian's names."""
    top = f"port1-{version()}/"
    library = ("include/", "lib/", "share/doc/port1/examples/c/")
    names = {name[len(top) :] for name in files_of(tarball())}
    wanted = {f"usr/{RENAMED.get(name, name)}" for name in names if not name.startswith(library)}
    wanted |= {"usr/share/doc/port1/changelog.gz", "usr/share/lintian/overrides/port1"}
    wanted |= {"usr/lib/x86_64-linux-gnu/wireshark/extcap/port1-extcap"}
    files = files_of(packages()["port1_amd64.deb"])
    problems = unlike("files", sorted(wanted), sorted(files))
    program = files["usr/bin/port1"].octets == (scratch() / PROGRAM).read_bytes()
    return problems + unlike("the program is the one that was built", True, program)


def contents_of_libraries(_: Path) -> List[str]:
    """The packages of the library; that for 64-bit ARM has its archive, and no shared library. What has one name in
    both is the same in both, so that both can be installed at once."""
    rows: List[Tuple[str, str, str, Set[str]]] = [
        ("amd64", "x86_64-linux-gnu", LIBRARY, SHARED_FILES), ("arm64", "aarch64-linux-gnu", LIBRARY_FOR_ARM, set())
    ]
    problems = []
    for architecture, libraries, archive, shared in rows:
        files = files_of(packages()[f"libport1-dev_{architecture}.deb"])
        wanted = {name.format(libraries) for name in LIBRARY_FILES | shared}
        problems += unlike(architecture, sorted(wanted), sorted(files))
        built = (scratch() / archive).read_bytes() == files[f"usr/lib/{libraries}/libport1_c.a"].octets
        problems += unlike(f"{architecture}: the archive is the one that was built", True, built)
    first, second = (entries(packages()[f"libport1-dev_{architecture}.deb"]) for architecture, *_ in rows)
    others = sorted(name for name in {*first} & {*second} if first[name] != second[name])
    return problems + [f"{name}: not the same in both" for name in others]


def everything(package: Path, seconds: int) -> List[str]:
    """Whether modes, owners and times are as they have to be."""
    problems = []
    for name, it in entries(package).items():
        runs = name.endswith(("bin/port1", "bin/port1-sample")) or "/share/port1/contrib/" in f"/{name}" and it.octets.startswith(b"#!")
        modes = {"folder": 0o755, "link": 0o777, "file": 0o755 if runs else 0o644}
        problems += unlike(f"{name}: mode", oct(modes.get(it.kind, 0)), oct(it.mode))
        problems += unlike(f"{name}: owner and time", ("0 0", seconds), (it.owner, it.seconds))
    return problems


def modes_and_owners(_: Path) -> List[str]:
    """All is of root; folders and programs have 755, other files 644; all times are that of the commit."""
    boards = scratch() / "dist" / f"port1-boards-{version()}.tar.gz"
    found = {path.name: everything(path, COMMITTED) for path in [tarball(), boards, *packages().values()]}
    return [f"{name}: {problem}" for name, problems in found.items() for problem in problems]


def another_time(folder: Path) -> List[str]:
    """SOURCE_DATE_EPOCH stands in place of the time of the commit, and may be later than today."""
    made = make_dist(repository(folder / "repository"), SOURCE_DATE_EPOCH=str(TO_COME))
    found = {path.name: everything(path, TO_COME) for path in made.iterdir() if path.suffix in (".gz", ".deb")}
    return [f"{name}: {problem}" for name, problems in found.items() for problem in problems]


def field(package: Path, name: str) -> str:
    return told(["dpkg-deb", "-f", package, name]).strip()


def fields(_: Path) -> List[str]:
    """Who maintains the packages, for which machines they are, and on which they depend."""
    rows = {
        "port1_amd64.deb": ("amd64", r"nodejs \(>= 18\.15\), libc6 \(>= 2\.\d+\)", "electronics"),
        "libport1-dev_amd64.deb": ("amd64", r"libc6-dev \| libc-dev(, libc6 \(>= 2\.\d+(\.\d+)?\))?", "libdevel"),
        "libport1-dev_arm64.deb": ("arm64", r"libc6-dev \| libc-dev", "libdevel"),
    }
    problems = unlike("packages", sorted(rows), sorted(packages()))
    problems += unlike("recommends", "python3 (>= 3.8)", field(packages()["port1_amd64.deb"], "Recommends"))
    for name, (architecture, depends, section) in rows.items():
        package = packages()[name]
        wanted = (MAINTAINER, architecture, version(), section)
        got = tuple(field(package, key) for key in ("Maintainer", "Architecture", "Version", "Section"))
        problems += unlike(name, wanted, got)
        told_depends = field(package, "Depends")
        problems += [] if re.fullmatch(depends, told_depends) else [f"{name} depends on {told_depends}"]
        sizes = sum((len(it.octets) + 1023) // 1024 for it in files_of(package).values() if it.kind == "file")
        problems += [] if int(field(package, "Installed-Size")) >= sizes else [f"{name}: its size is less than {sizes}"]
    return problems


def control_files(folder: Path) -> List[str]:
    """The MD5 sums of all files, and what makes the shared library known to dpkg-shlibdeps and to the loader."""
    rows = {"port1_amd64.deb": False, "libport1-dev_amd64.deb": True, "libport1-dev_arm64.deb": False}
    problems = []
    for name, shared in rows.items():
        place = folder / name
        problems += unlike(name, "", told(["dpkg-deb", "-e", packages()[name], place]))
        files = {path: it for path, it in files_of(packages()[name]).items() if it.kind == "file"}
        sums = [f"{hashlib.md5(it.octets).hexdigest()}  {path}" for path, it in files.items()]
        problems += unlike(f"{name}: md5sums", sorted(sums), sorted((place / "md5sums").read_text().splitlines()))
        wanted = ["control", "md5sums", *(["shlibs", "triggers"] if shared else [])]
        problems += unlike(f"{name}: control files", wanted, sorted(path.name for path in place.iterdir()))
    known = (folder / "libport1-dev_amd64.deb" / "shlibs").read_text()
    return problems + unlike("shlibs", f"libport1 3 libport1-dev (>= {version()})\n", known)


def proved_by(_: Path) -> List[str]:
    """Each package tells the commit, the toolchain, the end of the gate, and the sums of what was built."""
    top = scratch()
    rows = [
        (tarball(), f"port1-{version()}/share/doc/port1/PROVED-BY"),
        *[(path, f"usr/share/doc/{name.partition('_')[0]}/PROVED-BY") for name, path in packages().items()],
    ]
    built = ["crates/port1/out/port1", LIBRARY, LIBRARY_FOR_ARM]
    sums = [f"    {hashlib.sha256((top / name).read_bytes()).hexdigest()}  {name}\n" for name in built]
    gate = "".join(f"    {line}\n" for line in CLOSING.splitlines())
    commit, of_arm = git(top, "rev-parse", "HEAD").strip(), "That for 64-bit ARM is made by\nc/targets/build, "
    wanted = [f"port1 {version()}, commit {commit}\n", f"    {TOOLCHAIN}", gate, of_arm, *sums]
    texts = {path.name: entries(path)[name].octets.decode() for path, name in rows}
    return [f"{name} does not have {part!r}" for name, text in texts.items() for part in wanted if part not in text]


def same_octets(folder: Path) -> List[str]:
    """The same commit elsewhere, at another time, with other rights and another language, gives the same packages."""
    made, mask = repository(folder / "another place" / "of it"), os.umask(0o077)
    try:
        for path in made.rglob("*.py"):
            path.chmod(0o600)
            os.utime(path, (COMMITTED - 1000, COMMITTED - 1000))
        git(made, "config", "core.fileMode", "false")
        again = make_dist(made, TZ="Asia/Tokyo", LC_ALL="C.UTF-8", GZIP="", TAR_OPTIONS="")
    finally:
        os.umask(mask)
    first = {path.name: path.read_bytes() for path in (scratch() / "dist").iterdir()}
    second = {path.name: path.read_bytes() for path in again.iterdir()}
    return [f"{name}: {text}" for name, text in unlike_octets(first, second).items()]


# ---- what is refused


class Spoilt(NamedTuple):
    """What is done to a repository, which variables are given otherwise, and what is said then."""

    says: str
    spoil: Callable[[Path], object] = lambda _: None
    variables: Dict[str, str] = {}


def moved_away(name: str) -> Callable[[Path], object]:
    return lambda folder: (folder / name).rename((folder / name).with_name("away"))


def written(name: str, text: str) -> Callable[[Path], object]:
    return lambda folder: (folder / name).write_text(text)


def program_of(shown: str) -> Callable[[Path], object]:
    def spoil(folder: Path) -> None:
        program = folder / "crates/port1/out/port1"
        program.unlink()
        program.write_text(f"#!/bin/sh\necho {shown}\n")
        program.chmod(0o755)

    return spoil


def refused(folder: Path) -> List[Spoilt]:
    failed = "rt: FAILED: bus_fcs\n16 passed, 1 failed\n"
    some = CLOSING.replace("0 failed", "0 failed (bus_fcs and the crates below alone: not the gate)")
    one = CLOSING.replace(" 0 failed", " 1 failed")
    logs = {"failed": failed, "one": one, "short": "rt: bus_fcs proved\n", "two": CLOSING + failed, "some": some}
    files = {name: folder / f"{name}.log" for name in logs}
    for name, file in files.items():
        file.write_text(logs[name])
    (folder / "tool.txt").write_text("rt: no such word: version\n")
    no_gate = "is not the log of a gate that passed, which ends with 'rt: ok; ..' and 'N passed, 0 failed'"
    built, away = "`make` builds it", str(folder / "away.log")
    changed = "there are changes that are in no commit, the first of them:"
    return [
        Spoilt(f"there is no crates/port1/out/port1: {built}", moved_away("crates/port1/out/port1")),
        Spoilt(f"there is no {LIBRARY}: {built}", moved_away(LIBRARY)),
        Spoilt(f"there is no {PAGE}: `make page` builds it", moved_away(PAGE)),
        Spoilt(
            f"crates/port1/out/port1 is port1 0.9.9, and the sources are port1 {version()}: {built}",
            program_of("port1 0.9.9"),
        ),
        Spoilt("this folder is no git repository, so there is no commit to name", moved_away(".git")),
        Spoilt(f"{changed} M README.md", written("README.md", "new\n")),
        Spoilt(f"{changed} ?? scripts/new", written("scripts/new", "")),
        *[Spoilt(f"{file} {no_gate}", variables={"GATE": str(file)}) for file in files.values()],
        Spoilt(f"[Errno 2] No such file or directory: '{away}'", variables={"GATE": away}),
        Spoilt("GATE is not given: make dist GATE=FILE, where FILE is the log of `rt ci`", variables={"GATE": ""}),
        Spoilt(
            "TOOLCHAIN is not given: make dist TOOLCHAIN=FILE, where FILE has what `rt version` wrote",
            variables={"TOOLCHAIN": ""},
        ),
        Spoilt(
            f"{folder / 'tool.txt'} is not what `rt version` wrote: 'rt: no such word: version'",
            variables={"TOOLCHAIN": str(folder / "tool.txt")},
        ),
        Spoilt("MAINTAINER is not given: make dist MAINTAINER='NAME <ADDRESS>'", variables={"MAINTAINER": ""}),
        Spoilt("MAINTAINER is not of the form 'NAME <ADDRESS>': Tess", variables={"MAINTAINER": "Tess"}),
        Spoilt("SOURCE_DATE_EPOCH is no whole number: today", variables={"SOURCE_DATE_EPOCH": "today"}),
        Spoilt("VERSION is not given: this is called by `make dist`", variables={"VERSION": ""}),
    ]


def refusals(folder: Path) -> List[str]:
    """Each is one line with status 2, and leaves the packages of before."""
    whole, problems = scratch(), []
    for number, row in enumerate(refused(folder)):
        made = folder / str(number)
        shutil.copytree(whole, made, symlinks=True)
        row.spoil(made)
        using = {**os.environ, "VERSION": version(), **given(made), **row.variables}
        ran = subprocess.run([made / "packages/dist"], env=using, capture_output=True, text=True, timeout=SECONDS)
        problems += unlike(row.says, (2, "", f"dist: {row.says}\n"), (ran.returncode, ran.stdout, ran.stderr))
        stays = {path.name: path.read_bytes() for path in (made / "dist").iterdir()}
        before = {path.name: path.read_bytes() for path in (whole / "dist").iterdir()}
        problems += [f"{row.says}: dist/{name} is another" for name in unlike_octets(before, stays)]
        shutil.rmtree(made)
    return problems


def tools_that_are_missing(folder: Path) -> List[str]:
    """What is not installed is told with the package that Debian has it in."""
    top, problems = scratch(), []
    for name, package in {"dpkg-deb": "dpkg", "dpkg-shlibdeps": "dpkg-dev", "git": "git"}.items():
        binaries = folder / name
        binaries.mkdir()
        for tool in [*TOOLS, "gzip", "tar", "python3", "env", "sh"]:
            found = shutil.which(tool)
            if found and tool != name:
                (binaries / tool).symlink_to(found)
        using = {**os.environ, **given(top), "VERSION": version(), "PATH": str(binaries)}
        ran = subprocess.run([top / "packages/dist"], env=using, capture_output=True, text=True, timeout=SECONDS)
        says = f"dist: there is no {name}, which Debian has in the package {package}\n"
        problems += unlike(name, (2, says), (ran.returncode, ran.stderr))
    return problems

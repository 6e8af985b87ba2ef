"""The packages of `make dist` at work: what lintian says of them; the tarball, unpacked; the Debian packages,
installed, used and taken away again in a copy of this system; and the library for 64-bit ARM under an emulator."""

import os
import random
import re
import subprocess
from pathlib import Path
from typing import Dict, Iterator, List, NamedTuple, Sequence, Tuple

from needs import HEADER_OF_ARM, LOADER_OF_ARM, Skipped, needs, needs_file
from tests import installing
from tests.case import ARCHIVE, ONE_CALL, SECONDS, TOP, Word, needs_archive, packed, unlike
from tests.packages import ONE_FRAME, told
from tests.python_module import captures, orders
from tests.releasing import LIBRARY_FOR_ARM, packages, tarball, version

# The errors of lintian that stand: nobody has chosen a licence yet, so no package has a file of one.
ERRORS_THAT_STAND = ["no-copyright-file"]

ARCHIVE_FOR_ARM = TOP / LIBRARY_FOR_ARM

# What Debian's cross compiler for 64-bit ARM is called, and where Debian has the C library that its programs need.
COMPILER_FOR_ARM, SYSTEM_OF_ARM = "aarch64-linux-gnu-gcc", Path("/usr/aarch64-linux-gnu")

# Runs such a program here.
EMULATED = ["qemu-aarch64", "-L", str(SYSTEM_OF_ARM)]

# What dpkg and its triggers write, and nothing of a package.
OF_DPKG = re.compile(r"\./(etc/ld\.so\.cache~?|(var/(cache|lib/apt|lib/dpkg|log)|run|tmp)(/.*)?)")

# What man keeps of pages that were read.
READ_BY_MAN = "./var/cache/man/"

# A copy of this system, laid over it in memory: it has no network, and is gone with the name space of its mounts.
COPY = """set -eu
mount -t tmpfs none "$1"
mkdir "$1/upper" "$1/work" "$1/root"
mount -t overlay overlay -o "lowerdir=/,upperdir=$1/upper,workdir=$1/work" "$1/root"
mount --bind /dev "$1/root/dev"
mount -t proc proc "$1/root/proc"
"""

# Runs what is in the folder $2 there; then tells what is in the copy and not in this system, or is another there.
RUN = """cp -r "$2" "$1/root/packages"
chroot "$1/root" env -i HOME=/packages PATH=/usr/sbin:/usr/bin:/sbin:/bin LC_ALL=C sh -eu /packages/use
cd "$1/upper"
echo "== left"
find . ! -type d -print -o ! -exec test -d '/{}' ';' -print
"""

USE = """cd /packages
quietly() {
    "$@" > log 2>&1 < /dev/null || { cat log; exit 1; }
}
apt='apt-get -y --no-install-recommends -o APT::Sandbox::User=root -o Dpkg::Use-Pty=0'
"""

# The settings of a system may leave documents out, which are wanted here.
INSTALL = "quietly $apt -o DPkg::Options::=--path-include='/usr/share/*' install ./*_amd64.deb"

PURGE = "quietly $apt purge port1 libport1-dev"

# Here is no C library for 64-bit ARM that is a package of that architecture, and nothing is fetched.
INSTALL_BOTH = """dpkg --add-architecture arm64
quietly dpkg --force-depends --path-include='/usr/share/*' -i ./*.deb"""

PURGE_BOTH = "quietly dpkg --purge libport1-dev:amd64 libport1-dev:arm64\ndpkg --remove-architecture arm64"


class Use(NamedTuple):
    """A command for the shell, what it writes, and the programs and files that it needs."""

    command: str
    writes: str
    needs: str = ""


EXAMPLE = "/usr/share/doc/libport1-dev/examples/c/list.c"


def listed_by(archive: Path) -> str:
    """What examples/c/list.c writes of one call: a stand-in for the library refuses all."""
    return ONE_FRAME if archive.is_file() else "status 2\n"


def uses() -> List[Use]:
    """What is done with the installed packages."""
    frame = listed_by(ARCHIVE)
    module = "from port1 import LineDecoder; print(*LineDecoder().feed(open('one.ts2', 'rb').read()[16:], 57))"
    rows = [
        Use("port1 --version", f"port1 {version()}\n"),
        Use("port1 list < one.ts2", ONE_FRAME),
        Use("dpkg --verify port1 libport1-dev", ""),
        Use("man -w port1", "/usr/share/man/man1/port1.1.gz\n", "man"),
        Use("man port1 | grep -o 'analyse the Port 1 bus'", "analyse the Port 1 bus\n", "man"),
        Use(
            "bash -c '. /usr/share/bash-completion/bash_completion; _completion_loader port1; complete -p port1'",
            "complete -o bashdefault -o default -F _port1 port1\n", "/usr/share/bash-completion/bash_completion",
        ),
        Use("zsh -fc 'autoload -U compinit; compinit -u -D; echo $_comps[port1]'", "_port1\n", "zsh"),
        Use("fish -c 'complete -C \"port1 enc\"' | cut -f 1", "encode\n", "fish"),
        Use("ldconfig -p | grep -c 'libport1.so.3 '", "1\n"),
        Use("bus-summary --help | sed -n 's/ .*//p;q'", "usage:\n"),
        Use("cd /usr/share/port1; contrib/list-in-parts examples/one-call.ts2", ONE_FRAME),
        Use("pkg-config --modversion port1", f"{version()}\n", "pkg-config"),
        Use(f"cc -o list {EXAMPLE} $(pkg-config --cflags --libs port1); ./list < one.ts2", frame, "pkg-config"),
        Use(f"cc -o list {EXAMPLE} -lport1; ldd list | grep -c /libport1.so.3; ./list < one.ts2", f"1\n{frame}"),
    ]
    loaded = Use(f'PYTHONPATH=/usr/share/port1/contrib/python python3 -B -c "{module}"', ONE_FRAME)
    return [*rows, loaded] if ARCHIVE.is_file() else rows


def uses_of_both() -> List[Use]:
    """What is done with the library installed for both processors."""
    given = f"-o list {EXAMPLE} -lport1_c"
    tools = f"{COMPILER_FOR_ARM} {EMULATED[0]} {HEADER_OF_ARM} {LOADER_OF_ARM}"
    return [
        Use("dpkg --verify libport1-dev:amd64 libport1-dev:arm64", ""),
        Use(f"cc {given}; ./list < one.ts2", listed_by(ARCHIVE)),
        Use(f"{COMPILER_FOR_ARM} {given}; {' '.join(EMULATED)} ./list < one.ts2", listed_by(ARCHIVE_FOR_ARM), tools),
    ]


def is_there(tools: str) -> bool:
    """Whether programs and files are where Debian puts them."""
    return all(os.path.exists(tool if tool.startswith("/") else f"/usr/bin/{tool}") for tool in tools.split())


def lintian(_: Path) -> List[str]:
    """Debian's own test of packages finds no error but that of the licence."""
    needs("lintian")
    said = told(["lintian", "--allow-root", *packages().values()])
    errors = sorted(set(re.findall(r"^E: .*?: (\S+)", said, re.MULTILINE)))
    return unlike("errors", ERRORS_THAT_STAND, errors)


def tarball_at_work(folder: Path) -> List[str]:
    """Unpacked anywhere, program and scripts run."""
    elsewhere = folder / "elsewhere"
    elsewhere.mkdir()
    problems = unlike("tar", "", told(["tar", "-xzf", tarball(), "-C", folder]))
    prefix = folder / f"port1-{version()}"
    problems += installing.problems_of_scripts(prefix / "bin", elsewhere)
    return problems + installing.problems_of_use(prefix, elsewhere)


def in_a_copy(script: str, folder: Path, given: Path) -> "subprocess.CompletedProcess[str]":
    words: List[Word] = ["unshare", "-m", "-n", "sh", "-c", COPY + script, "sh", folder, given]
    return subprocess.run(words, stdin=subprocess.DEVNULL, capture_output=True, text=True, timeout=SECONDS)


def needs_a_copy(folder: Path) -> None:
    """Root, the mounts of a copy, and what the packages depend on; nothing is fetched."""
    needs("unshare")
    needs("apt-get")
    if os.geteuid() != 0:
        raise Skipped("not root")
    if in_a_copy("", folder, folder).returncode != 0:
        raise Skipped("no file system can be laid over this one")
    for package in ("python3", "libc6-dev"):
        if "ok installed" not in told(["dpkg-query", "-W", "-f", "${Status}", package]):
            raise Skipped(f"no package {package}")


def problems_of_uses(folder: Path, names: Sequence[str], install: str, rows: Sequence[Use], purge: str) -> List[str]:
    """What goes wrong where packages are installed, used and purged in a copy of this system, and what is left then."""
    place, given = folder / "copy", folder / "given"
    place.mkdir()
    given.mkdir()
    made, rows = packages(), [row for row in rows if is_there(row.needs)]
    needs_a_copy(place)
    for name in names:
        (given / name).write_bytes(made[name].read_bytes())
    (given / "one.ts2").write_bytes(ONE_CALL)
    parts = "".join(f"echo '== use'\n({row.command}) 2>&1 || echo status $?\n" for row in rows)
    (given / "use").write_text("\n".join([USE, install, parts, purge, "cd /", "rm -r /packages\n"]))
    ran = in_a_copy(RUN, place, given)
    if ran.returncode:
        return [f"status {ran.returncode}: {ran.stdout[-2000:]}{ran.stderr[-2000:]}"]
    before, *wrote = re.split(r"^== \w+\n", ran.stdout, flags=re.MULTILINE)
    problems = unlike("before", "", before) + unlike("parts", len(rows) + 1, len(wrote))
    problems += [part for row, got in zip(rows, wrote) for part in unlike(row.command, row.writes, got)]
    left = [line for line in wrote[-1].splitlines() if "port1" in line or not OF_DPKG.fullmatch(line)]
    left = [line for line in left if not line.startswith(READ_BY_MAN)]
    return problems + [f"left: {line}" for line in left]


def installed_and_taken_away(folder: Path) -> List[str]:
    """apt-get installs the packages, all that they have is found and runs, and nothing is left when they are purged."""
    names = ["port1_amd64.deb", "libport1-dev_amd64.deb"]
    return problems_of_uses(folder, names, INSTALL, uses(), PURGE)


def installed_for_both(folder: Path) -> List[str]:
    """The packages of the library for x86-64 and for 64-bit ARM stand beside one another in one system, each compiler
    finds its own, and nothing is left of either."""
    names = ["libport1-dev_amd64.deb", "libport1-dev_arm64.deb"]
    return problems_of_uses(folder, names, INSTALL_BOTH, uses_of_both(), PURGE_BOTH)


# ---- the library for 64-bit ARM


def given_to_examples() -> Iterator[Tuple[str, Sequence[str], bytes]]:
    """An example, its words, and what it reads."""
    for bits in captures().values():
        yield "list", ["7"], packed(bits)
        yield "list", ["4096"], packed(bits)
        yield "live", [], packed(bits)[16:]
        yield "watch", ["0,0,16", "128,0", "9,0"], bits.encode()
    yield "watch", ["0,0,16", "128,0", "9,0"], (TOP / "examples" / "in-time-late-missing.bits").read_bytes()
    for seed in range(4):
        yield "send", [], orders(random.Random(seed), 500).encode()


def built_with(package: Path, compiler: str, folder: Path) -> Dict[str, Path]:
    """The examples of a package of the library, unpacked and linked by what its port1.pc says."""
    root = folder / "root"
    folder.mkdir()
    said = told(["dpkg-deb", "-x", package, root])
    (found,) = root.glob("usr/lib/*/pkgconfig")
    given = told(["pkg-config", "--cflags", "--libs", "port1"], PKG_CONFIG_LIBDIR=str(found)).split()
    programs = {}
    for source in sorted((root / "usr/share/doc/libport1-dev/examples/c").glob("*.c")):
        programs[source.stem] = folder / source.stem
        said += told([compiler, "-std=c99", "-O2", "-o", folder / source.stem, source, *given])
    if said:
        raise OSError(said)
    return programs


def library_for_arm(folder: Path) -> List[str]:
    """The examples of the package for 64-bit ARM, linked with it, write under the emulator what those of the package
    for x86-64 write here."""
    needs("cc", "pkg-config", COMPILER_FOR_ARM, EMULATED[0])
    needs_file(HEADER_OF_ARM)
    needs_file(LOADER_OF_ARM)
    if ARCHIVE.is_file() and not ARCHIVE_FOR_ARM.is_file():
        raise Skipped(f"no {LIBRARY_FOR_ARM}; c/targets/build builds it")
    if ARCHIVE_FOR_ARM.is_file():
        needs_archive()
    here = built_with(packages()["libport1-dev_amd64.deb"], "cc", folder / "amd64")
    there = built_with(packages()["libport1-dev_arm64.deb"], COMPILER_FOR_ARM, folder / "arm64")
    problems = unlike("examples", sorted(here), sorted(there))
    for name, words, stdin in given_to_examples():
        wanted = subprocess.run([here[name], *words], input=stdin, capture_output=True, timeout=SECONDS)
        got = subprocess.run([*EMULATED, there[name], *words], input=stdin, capture_output=True, timeout=SECONDS)
        if (wanted.returncode, wanted.stdout) != (got.returncode, got.stdout):
            problems.append(f"{name} {words}: wanted {wanted}, got {got}"[:2000])
    shown = told([*EMULATED, there["list"]], ONE_CALL)
    return problems + unlike("list", ONE_FRAME if ARCHIVE_FOR_ARM.is_file() else "", shown)

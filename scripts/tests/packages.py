"""The C library as `make install-library` packs it, in a folder that is then moved: pkg-config and CMake."""

import os
import re
import shutil
import subprocess
from pathlib import Path
from typing import Dict, Iterator, List, NamedTuple, Sequence, Tuple

from needs import needs
from tests.case import ONE_CALL, SECONDS, TOP, Word, needs_archive, unlike

ONE_FRAME = "8 49 frame 108300fde5\n"

# A project that links each example with each library, one of them as C++.
CMAKE = """cmake_minimum_required(VERSION 3.10)
project(user C CXX)
find_package(port1 {version} REQUIRED)
configure_file("{examples}/live.c" live.cpp COPYONLY)
foreach(target port1 shared)
  add_executable(list-${{target}} "{examples}/list.c")
  add_executable(live-${{target}} ${{CMAKE_CURRENT_BINARY_DIR}}/live.cpp)
  target_link_libraries(list-${{target}} PRIVATE port1::${{target}})
  target_link_libraries(live-${{target}} PRIVATE port1::${{target}})
endforeach()
"""


def make(target: str, words: Sequence[Word]) -> None:
    subprocess.run(["make", "-s", "-C", TOP, target, *words], check=True, capture_output=True, timeout=SECONDS)


def moved(folder: Path) -> Path:
    """Where the library is after it was installed elsewhere and moved."""
    needs("make", "cc")
    needs_archive()
    prefix, elsewhere = folder / "first", folder / "then moved"
    make("install-library", [f"PREFIX={prefix}", f"PYTHONDIR={prefix / 'lib' / 'python'}"])
    prefix.rename(elsewhere)
    return elsewhere


def told(words: Sequence[Word], stdin: bytes = b"", **settings: str) -> str:
    """What a program writes, on standard error too."""
    ran = subprocess.run(
        words,
        input=stdin,
        stdout=subprocess.PIPE,
        stderr=subprocess.STDOUT,
        env={**os.environ, **settings},
        timeout=SECONDS,
    )
    return ran.stdout.decode(errors="replace")


class Installed(NamedTuple):
    """Where the examples in C are, the folder share/port1, and the libraries."""

    examples: Path
    share: Path
    libraries: Path


def used_examples() -> Iterator[Tuple[str, str, bytes, bytes]]:
    """The name of each example, its words, and what it reads and writes."""
    watched = (TOP / "examples" / "in-time-late-missing.bits").read_bytes()
    verdicts = "8 49 answered, 106 147 late, 220 261 missing".split(", ")
    yield "list", "", ONE_CALL, ONE_FRAME.encode()
    yield "live", "", ONE_CALL[16:], b"49: 10 83 00 fd e5\n"
    yield "send", "", b"frame 108300\n", ONE_CALL[16:]
    yield "watch", "0,0,16 128,0 9,0", watched, "".join(f"{each} station 16 type 0\n" for each in verdicts).encode()


# What sigrok-cli shows of examples/call-and-reply.vcd.
DECODED = """4-116 nema_port1-1: idle
68-396 nema_port1-1: frame 108300fde5 station 16 type 0 call
460-572 nema_port1-1: idle
524-852 nema_port1-1: frame 108380f561 station 16 type 128 reply
396-524 nema_port1-1: 0.128 ms, 16 bits
"""


def problems_of_decoder(made: Path, examples: Path) -> List[str]:
    """What is wrong with the decoder of a folder in sigrok-cli, where that is there."""
    options = f"nema_port1:txc=clk:txd=tx:rxd=rx:dictionary={examples / 'call-and-reply.toml'}"
    words: List[Word] = ["sigrok-cli", "-i", examples / "call-and-reply.vcd", "-I", "vcd", "-A", "nema_port1"]
    words += ["--protocol-decoder-samplenum", "-P", options]
    return unlike("sigrok-cli", DECODED, told(words, b"", SIGROKDECODE_DIR=str(made), PYTHONDONTWRITEBYTECODE="1"))


def problems_of_installed(it: Installed, folder: Path) -> List[str]:
    """Copies of the examples in C and of the decoder for sigrok are made without `rt`; they and the module work."""
    needs("make", "cc", "c++", "pkg-config", "sigrok-cli", "arm-none-eabi-gcc")
    shutil.copytree(it.examples, folder / "c")
    shutil.copytree(it.share / "contrib", folder / "contrib", symlinks=True)
    settings = {"PKG_CONFIG_PATH": str(it.libraries / "pkgconfig"), "PATH": "/usr/bin:/bin"}
    problems = []
    for place, target in [("c", "all"), ("c/mcu", "arrivals.elf"), ("contrib/sigrok", "all")]:
        problems += unlike(f"make -C {place}", "", told(["make", "-s", "-C", folder / place, target], b"", **settings))
    for name, given, stdin, wanted in used_examples():
        for program in (name, f"{name}-cxx"):
            ran = subprocess.run([folder / "c" / program, *given.split()], input=stdin, capture_output=True)
            problems += unlike(program, (wanted, b"", 0), (ran.stdout, ran.stderr, ran.returncode))
    problems += problems_of_decoder(folder / "contrib" / "sigrok" / "out", it.share / "examples")
    module = "import sys; from port1 import LineDecoder; print(*LineDecoder().feed(sys.stdin.buffer.read()[16:], 57))"
    paths = {"PYTHONPATH": str(it.share / "contrib" / "python"), "LD_LIBRARY_PATH": str(it.libraries)}
    got = told(["python3", "-B", "-c", module], ONE_CALL, **paths, PATH="/usr/bin:/bin")
    return problems + unlike("the Python module", ONE_FRAME, got)


def made_without_a_toolchain(folder: Path) -> List[str]:
    """With all installed in a folder."""
    needs("make")
    needs_archive()
    prefix = folder / "prefix"
    make("install", [f"PREFIX={prefix}", f"PROGRAM={os.environ['PORT1']}"])
    there = Installed(prefix / "share/doc/port1/examples/c", prefix / "share/port1", prefix / "lib")
    return problems_of_installed(there, folder)


def shared_library(folder: Path) -> List[str]:
    """Its name, that it exports the functions of the header alone, and that its text is shared."""
    needs("nm", "readelf")
    library = moved(folder) / "lib" / "libport1.so.3"
    header = (TOP / "c" / "include" / "port1.h").read_text(encoding="ascii")
    wanted = sorted(re.findall(r"^uint32_t (port1_\w+)\(", header, re.MULTILINE))
    exported = re.findall(r" (\w) (\S+)$", told(["nm", "-D", "--defined-only", library]), re.MULTILINE)
    entries = told(["readelf", "-d", library])
    link = library.with_name("libport1.so")
    return [
        *unlike("exported", [("T", name) for name in wanted], sorted(exported, key=lambda pair: pair[1])),
        *unlike("name", ["libport1.so.3"], re.findall(r"\(SONAME\).*\[(.*)\]", entries)),
        *unlike("libraries that it needs", ["libc.so.6"], re.findall(r"\(NEEDED\).*\[(.*)\]", entries)),
        *unlike("text that is changed where it is loaded", False, "TEXTREL" in entries),
        *unlike("link", "libport1.so.3", os.readlink(link)),
    ]


def by_pkg_config(folder: Path) -> List[str]:
    """The examples, linked with what pkg-config says, and with the shared library in place of the archive."""
    needs("pkg-config", "readelf")
    prefix = moved(folder)
    examples = prefix / "share" / "doc" / "port1" / "examples" / "c"
    rows = {"static": "", "shared": " | sed s/-lport1_c/-lport1/"}
    problems = []
    for name, turned in rows.items():
        command = f'eval "cc -std=c99 -o \\"\\$1\\" \\"\\$2\\" $(pkg-config --cflags --libs port1{turned})"'
        words: List[Word] = ["sh", "-c", command, "sh", folder / name, examples / "list.c"]
        settings = {"PKG_CONFIG_PATH": str(prefix / "lib" / "pkgconfig"), "LD_LIBRARY_PATH": str(prefix / "lib")}
        problems += unlike(f"{name}: cc", "", told(words, b"", **settings))
        problems += unlike(name, ONE_FRAME, told([folder / name], ONE_CALL, **settings))
        needed = told(["readelf", "-d", folder / name])
        problems += unlike(f"{name} needs it", name == "shared", "[libport1.so.3]" in needed)
    shown = told(["pkg-config", "--modversion", "port1"], PKG_CONFIG_PATH=str(prefix / "lib" / "pkgconfig"))
    version = told([os.environ["PORT1"], "--version"]).split()[1]
    return problems + unlike("version", f"{version}\n", shown)


def configured(folder: Path, prefix: Path, version: str) -> str:
    """What cmake says of a project that wants a version."""
    examples = prefix / "share" / "doc" / "port1" / "examples" / "c"
    folder.mkdir()
    (folder / "CMakeLists.txt").write_text(CMAKE.format(version=version, examples=examples))
    return told(["cmake", "-S", folder, "-B", folder / "out", f"-DCMAKE_PREFIX_PATH={prefix}"])


def by_cmake(folder: Path) -> List[str]:
    """A project that finds the library, links both forms of it in C and C++, and runs."""
    needs("cmake", "c++")
    prefix, work = moved(folder), folder / "work"
    (asked,) = re.findall(r"^find_package\(port1 (.*) REQUIRED\)$", (TOP / "docs" / "C.md").read_text("utf-8"), re.M)
    said = configured(work, prefix, asked)
    built = subprocess.run(["cmake", "--build", work / "out"], capture_output=True, text=True, timeout=SECONDS)
    if built.returncode:
        return [said, built.stdout + built.stderr]
    problems = []
    for target in ("port1", "shared"):
        problems += unlike(f"list-{target}", ONE_FRAME, told([work / "out" / f"list-{target}"], ONE_CALL))
        live = told([work / "out" / f"live-{target}"], ONE_CALL[16:])
        problems += unlike(f"live-{target}", "49: 10 83 00 fd e5\n", live)
        needed = told(["readelf", "-d", work / "out" / f"list-{target}"])
        problems += unlike(f"list-{target} needs it", target == "shared", "[libport1.so.3]" in needed)
    return problems


def versions_to_ask_for() -> Dict[str, bool]:
    """The versions that a project may ask for, and whether that of the program suits it."""
    shown = told([os.environ["PORT1"], "--version"]).split()[1]
    first, second, _ = map(int, shown.split("."))
    suiting = ["", f"{first}", f"{first}.{second}", f"{shown} EXACT", *(f"{first}.{older}" for older in range(second))]
    others = [f"{first}.{second + 1}", f"{first + 1}", f"{first - 1}.9", f"{first}.{second}.99 EXACT"]
    return {**{version: True for version in suiting}, **{version: False for version in others}}


def versions_by_cmake(folder: Path) -> List[str]:
    """Which versions a project may ask for."""
    needs("cmake", "c++")
    prefix = moved(folder)
    problems = []
    for number, (version, suits) in enumerate(versions_to_ask_for().items()):
        said = configured(folder / f"work-{number}", prefix, version)
        problems += unlike(f"version {version!r}", suits, "Generating done" in said)
    return problems


def without_shared_library(folder: Path) -> List[str]:
    """With no shared library, cmake has the target of the archive alone."""
    needs("cmake", "make")
    needs_archive()
    prefix, work = folder / "prefix", folder / "work"
    make("install-library", [f"PREFIX={prefix}", "SHARED="])
    work.mkdir()
    (work / "CMakeLists.txt").write_text(
        "cmake_minimum_required(VERSION 3.10)\nproject(user C)\nfind_package(port1 REQUIRED)\n"
        'foreach(name port1 shared)\nif(TARGET port1::${name})\nmessage("there is ${name}")\nendif()\nendforeach()\n'
    )
    said = told(["cmake", "-S", work, "-B", work / "out", f"-DCMAKE_PREFIX_PATH={prefix}"])
    return unlike("targets", ["port1"], re.findall(r"there is (\w+)", said))


def taken_away(folder: Path) -> List[str]:
    """Uninstalling leaves nothing, not of the Python module either."""
    prefix = moved(folder)
    make("uninstall", [f"PREFIX={prefix}", f"PYTHONDIR={prefix / 'lib' / 'python'}"])
    return [f"left: {path.relative_to(prefix)}" for path in prefix.rglob("*")]

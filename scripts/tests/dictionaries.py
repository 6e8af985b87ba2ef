"""The check of a dictionary: examples/vectors/dictionaries.json has what it finds."""

import json
import os
import shutil
import subprocess
from pathlib import Path
from typing import Any, Dict, List, Tuple

from needs import needs
from tests.case import SCRIPTS, SECONDS, TOP, WINDOWS, Run, ran, unlike

USAGE = "usage: check-dictionary [-h] FILE\ncheck-dictionary: error: there is no FILE\n"

RUNS = [Run("no file", ["check-dictionary"], b"", b"", USAGE, 2)]


def checked(folder: Path, text: str, **options: Any) -> Tuple[int, List[str]]:
    """The status of a check of a dictionary, and what it said of each line, without the name of the file."""
    file = folder / "x.toml"
    file.write_bytes(text.encode("latin-1"))
    got = ran(["check-dictionary", str(file)], **options)
    lines = [line.replace(f"{file}:", "", 1) for line in got.stdout.decode().splitlines()]
    return got.returncode, lines + got.stderr.decode().splitlines()


VECTORS = json.loads((TOP / "examples" / "vectors" / "dictionaries.json").read_text(encoding="ascii"))


def expected(said: List[str]) -> Tuple[int, List[str]]:
    """The status and the lines of a check: in the order of the text, and how many faults at the end."""
    faults = sum(": remark: " not in text for text in said)
    ordered = sorted(said, key=lambda text: int(text.partition(":")[0]))
    return (1 if faults else 0), [*ordered, f" {faults or 'no'} fault{'' if faults == 1 else 's'}"]


def text_of(row: Dict[str, Any]) -> str:
    """The text itself, or an example in which something is replaced."""
    if "text" in row:
        return row["text"]
    text = (TOP / "examples" / row["file"]).read_text(encoding="ascii")
    return text.replace(row["replace"], row["by"]) if row["replace"] else text


def vectors(folder: Path) -> List[str]:
    """Dictionaries with one fault each, and keys in all forms of TOML: what is said, with the line, and the status."""
    problems = []
    for row in VECTORS:
        wanted, got = expected(row["findings"]), checked(folder, text_of(row))
        problems += unlike(row.get("replace", row.get("text")), wanted, got)
    return problems


def spoilt_files(folder: Path) -> List[str]:
    """Files that are no UTF-8, no TOML, too long, too deep, or have line ends of Windows."""
    windows = "; the lines end with CR LF: `tr -d '\\r'` takes the CR away"
    deep = "version = 1\nx = " + "[" * 90 + "]" * 90 + WINDOWS.partition("version = 2")[2].replace("window", "# window")
    long = WINDOWS + "#" * 131_072
    problems = []
    for what, text, said in [
        ("not UTF-8", WINDOWS.replace("reply", "r\xe9ply"), ["8: not UTF-8"]),
        ("line ends", WINDOWS.replace("\n", "\r\n"), [f"1: port1 says: not TOML{windows}"]),
        ("deep", deep, ["2: not TOML: brackets too deep in one another (at line 2, column 85)"]),
        ("very deep", "x = " + "[" * 5000, ["1: not TOML: brackets too deep in one another (at line 1, column 85)"]),
        ("as port1 reads it", "\xef\xbb\xbf" + WINDOWS + "[[frame]]\ntype = 10\nname = \"a\"\nlength = 1\nbits = [{at = 1,\n"
                              "name = \"b\",},]\n", []),
        ("long", long, ["1: port1 says: longer than the 131071 octets that Linux takes in one argument of a command"]),
        ("empty", "", ["1: there is no `version` and no `frame`", "1: port1 says: version is not 1 or 2"]),
        ("an option", "--help = 1", ["1: there is no `version` and no `frame`", "1: unknown key `--help`",
                                     "1: port1 says: version is not 1 or 2"]),
    ]:
        problems += unlike(what, expected(said), checked(folder, text))
    return problems


def things_missing(folder: Path) -> List[str]:
    """Without the program, and without Node, one line says so, with status 2."""
    without_program = {**os.environ, "PORT1": str(folder / "port1")}
    said = f"spawnSync {folder}/port1 ENOENT"
    problems = unlike(said, (2, [f"check-dictionary: {said}"]), checked(folder, WINDOWS, env=without_program))
    tools = folder / "tools"
    tools.mkdir()
    for tool in ("sh", "readlink", "dirname"):
        (tools / tool).symlink_to(str(shutil.which(tool)))
    said = "needs Node 18.15 or later (Debian: nodejs)"
    without_node = {**os.environ, "PATH": str(tools)}
    problems += unlike(said, (2, [f"check-dictionary: {said}"]), checked(folder, WINDOWS, env=without_node))
    dead = folder / "dead"
    dead.write_text("#!/bin/sh\nkill -9 $$\n", encoding="ascii")
    dead.chmod(0o755)
    said = f"check-dictionary: {dead} ended with SIGKILL: "
    return problems + unlike("killed", (2, [said]), checked(folder, WINDOWS, env={**os.environ, "PORT1": str(dead)}))


def repository(folder: Path) -> Path:
    """A repository of its own with the script, and with a program; another one is on the path, and one elsewhere."""
    top = folder / "built"
    for place in ("variable", "built/crates/port1/out", "path"):
        program = folder / place / "port1"
        program.parent.mkdir(parents=True)
        who = place.partition("/")[0]
        program.write_text(f"#!/bin/sh\necho 'port1: dictionary: by {who}' >&2\nexit 2\n", encoding="ascii")
        program.chmod(0o755)
    shutil.copytree(TOP / "examples", top / "examples", ignore=shutil.ignore_patterns("*.bits"))
    shutil.copytree(SCRIPTS, top / "scripts", symlinks=True, ignore=shutil.ignore_patterns("tests"))
    return top


def where_the_program_is(folder: Path) -> List[str]:
    """PORT1 comes first, then what the repository has built, then the path."""
    top = repository(folder)
    words = [top / "scripts" / "check-dictionary", top / "examples" / "call-and-reply.toml"]
    plain = {key: value for key, value in os.environ.items() if key != "PORT1"}
    plain["PATH"] = f"{folder / 'path'}:{plain['PATH']}"

    def said_by(env: Dict[str, str]) -> str:
        got = subprocess.run(words, env=env, stdout=subprocess.PIPE, timeout=SECONDS)
        return got.stdout.decode().partition("port1 says: by ")[2].partition("\n")[0]

    problems = unlike("PORT1", "variable", said_by({**plain, "PORT1": str(folder / "variable" / "port1")}))
    problems += unlike("built", "built", said_by(plain))
    (top / "crates" / "port1" / "out" / "port1").unlink()
    return problems + unlike("path", "path", said_by(plain))


def nobody_reads_findings(folder: Path) -> List[str]:
    """The check of a dictionary, where whoever read its output has gone."""
    reader, writer = os.pipe()
    os.close(reader)
    words = [SCRIPTS / "check-dictionary", TOP / "examples" / "call-and-reply.toml"]
    got = subprocess.run(words, stdout=writer, stderr=subprocess.PIPE, timeout=SECONDS)
    os.close(writer)
    return unlike("broken pipe", (2, ""), (got.returncode, got.stderr.decode()))

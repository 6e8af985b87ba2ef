"""What a change takes of tests: its files since a commit, the crates among them, and the tests of their subjects."""

import re
import subprocess
from pathlib import Path
from typing import Dict, Iterator, List, Sequence

# The tests, and the paths of what they judge. Those that read every paper or source of a kind, in seconds, always run.
ALWAYS = ["promises", "papers", "types"]

SUBJECTS: Dict[str, str] = {
    "program": r"(bench|c|cli|crates|docs|examples|packages|tests)/|[^/]+\.md$|Makefile$",
    "count": r"crates/\w+/src/|bench/(count|generate)",
    "scripts": r"(bindings|c/targets|cli|examples|packages|scripts)/|Makefile$",
    "page": r"page/|scripts/modules/|tests/(browser|engine|incidents|inputs|jobs|page|paged|turns|viewed|webkit)",
}

# What the prover reads of a crate, and its wrong bodies.
SOURCES = re.compile(r"crates/(\w+)/(?:src|specs|proofs)/")
BODIES = re.compile(r"crates/(\w+)/(?:src|specs|proofs|wrong-bodies)/")


class Unknown(Exception):
    """There is no commit to compare with."""


def lines_of(top: Path, *words: str) -> List[str]:
    """What git prints; an Unknown where it fails."""
    ran = subprocess.run(["git", "-c", "core.quotePath=off", *words], cwd=top, capture_output=True, text=True)
    if ran.returncode != 0:
        raise Unknown(ran.stderr.strip())
    return ran.stdout.splitlines()


def base_of(top: Path) -> str:
    """The last commit that is also on the upstream branch, or on main, where there is none."""
    for branch in ("@{upstream}", "main"):
        try:
            return lines_of(top, "merge-base", "HEAD", branch)[0]
        except Unknown:
            pass
    raise Unknown("there is neither an upstream branch nor main: name a commit by --base")


def files_since(top: Path, base: str) -> List[str]:
    """The files that differ from a commit, committed or not, and new ones."""
    changed = lines_of(top, "diff", "--name-only", "--no-renames", base, "--")
    return sorted({*changed, *lines_of(top, "ls-files", "--others", "--exclude-standard")})


def crates_in(pattern: "re.Pattern[str]", files: Sequence[str]) -> List[str]:
    """The crates whose files match, in their order."""
    return list(dict.fromkeys(found[1] for found in map(pattern.match, files) if found))


def tests_of(files: Sequence[str]) -> Iterator[str]:
    """The names of the tests that these files take, but for the wrong bodies."""
    yield from ALWAYS
    yield from (name for name, subject in SUBJECTS.items() if any(re.match(subject, file) for file in files))


def crates_with_bodies(top: Path, files: Sequence[str]) -> List[str]:
    """The changed crates that have wrong bodies."""
    return [crate for crate in crates_in(BODIES, files) if (top / "crates" / crate / "wrong-bodies").is_dir()]

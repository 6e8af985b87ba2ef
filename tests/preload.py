"""Libraries that are loaded before the program."""

import subprocess
from pathlib import Path
from typing import List, Union

SOURCES = Path(__file__).resolve().parent


def build_library(folder: Path, name: str) -> Path:
    """Compiles a source of this folder into another; an OSError where there is no `cc`."""
    library = folder / f"{name}.so"
    source = SOURCES / f"{name}.c"
    words: List[Union[str, Path]] = ["cc", "-O2", "-Wall", "-Werror", "-shared", "-fPIC", "-o", library, source]
    subprocess.run(words, check=True)
    return library

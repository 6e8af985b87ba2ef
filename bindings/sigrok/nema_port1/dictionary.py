"""The frame types of a dictionary, as docs/DICTIONARY.md of port1 describes it, as far as the decoder needs them."""

import importlib
from pathlib import Path
from typing import Any, Dict, Mapping, NamedTuple

# The most octets that the longest frame may have, and those before the data of a frame: address, control and type.
LONGEST = 256
BEFORE_DATA = 3


class Fault(Exception):
    """Why the decoder stops."""


class Entry(NamedTuple):
    """A frame type: its name, and what the library pairs by."""

    name: str
    length: int
    answered: bool
    window: int  # bits; 0 for no limit


def longest_of(entries: Mapping[int, Entry]) -> int:
    """The longest frame in octets, without its check."""
    return max((BEFORE_DATA + entry.length for entry in entries.values()), default=LONGEST)


def toml_reader() -> Any:
    """Python's reader of TOML, or the module tomli for Python before 3.11."""
    for name in ("tomllib", "tomli"):
        try:
            return importlib.import_module(name)
        except ModuleNotFoundError:
            continue
    raise Fault("a dictionary needs Python 3.11 or the module tomli (Debian: python3-tomli)")


def entry_of(table: Dict[str, Any], version: int) -> Entry:
    window = table.get("window", 0) if version == 2 else 0
    return Entry(table["name"], table["length"], table.get("answered", False), window)


def entries_of(path: str) -> Dict[int, Entry]:
    """The entries by their types."""
    reader = toml_reader()
    try:
        tables = reader.loads(Path(path).expanduser().read_text(encoding="utf-8"))
        return {table["type"]: entry_of(table, tables["version"]) for table in tables["frame"]}
    except (OSError, UnicodeDecodeError, reader.TOMLDecodeError) as fault:
        raise Fault(f"dictionary {path}: {fault}") from None
    except (KeyError, TypeError, AttributeError) as fault:
        raise Fault(f"{path} is no dictionary of port1: {fault!r}") from None

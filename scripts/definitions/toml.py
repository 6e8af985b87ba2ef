"""Texts of TOML."""

import importlib
from typing import Any, Dict

from definitions.manners import Fault


class NotToml(Fault):
    """A text that is no TOML: what the reader says, with line and column."""


def toml_reader() -> Any:
    """A module that reads TOML. Python has one from 3.11 on, Debian one for older versions (python3-tomli)."""
    for name in ("tomllib", "tomli"):
        try:
            return importlib.import_module(name)
        except ModuleNotFoundError:
            continue
    raise Fault("Python before 3.11 needs the module tomli (Debian: python3-tomli)")


def toml_of(text: str) -> Dict[str, Any]:
    """A text of TOML, read."""
    reader = toml_reader()
    try:
        return reader.loads(text)
    except reader.TOMLDecodeError as fault:
        raise NotToml(f"not TOML: {fault}") from None
    except RecursionError:
        raise NotToml("not TOML: brackets too deep in one another") from None

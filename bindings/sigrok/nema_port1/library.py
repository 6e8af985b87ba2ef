"""The C library of port1 for the decoder: by the Python module port1, which the Makefile puts beside this file."""

from typing import Any, Callable, Mapping

from .dictionary import Entry, Fault

port1: Any = None
try:
    from . import port1  # type: ignore[no-redef]
except ImportError as fault:
    MISSING = str(fault)


def made(make: Callable[[], Any]) -> Any:
    """What a call of the module makes; a fault where that cannot be."""
    if port1 is None:
        raise Fault(f"no library of port1: {MISSING}; `make` beside nema_port1 makes it")
    try:
        return make()
    except port1.NoLibrary as fault:
        raise Fault(f"no library of port1: {fault}") from None
    except port1.Fault as fault:
        raise Fault(str(fault)) from None


def line_decoder(longest: int) -> Any:
    """A decoder of one line, whose first bit has the place 0."""
    return made(lambda: port1.LineDecoder(longest))


def pairing_by(entries: Mapping[int, Entry]) -> Any:
    """What pairs commands with their answers, by the entries of a dictionary."""
    return made(lambda: port1.Pairing({ftype: entry[1:] for ftype, entry in entries.items()}))

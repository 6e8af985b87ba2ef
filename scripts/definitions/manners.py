"""How the tools in Python read their words, and how they end.

Help goes to standard output, with status 0. A wrong call is told on standard error, usage and reason, with status 2.
Whatever else keeps a script from its work is one line on standard error, with status 2: a fault of the input, a folder
or an unreadable file, a full disk. Of a reader of its output that has gone it says nothing.
"""

import argparse
import os
import sys
from typing import Callable, NoReturn, Optional


class Fault(Exception):
    """Why a script stops: what it says on standard error."""


def name() -> str:
    """What the script is called."""
    return os.path.basename(sys.argv[0]).partition(".")[0].replace("_", "-")


def parser(document: Optional[str]) -> argparse.ArgumentParser:
    """A parser of a script's words, whose help begins with the first line of the script's document."""
    first, _, rest = (document or "").strip().partition("\n")
    return argparse.ArgumentParser(
        prog=name(), description=first, epilog=rest.strip("\n"), formatter_class=argparse.RawDescriptionHelpFormatter
    )


def warn(text: str) -> None:
    """Says something on standard error, and goes on."""
    print(f"{name()}: {text}", file=sys.stderr)


def fail(text: str) -> NoReturn:
    """Stops the script with a fault."""
    raise Fault(text)


def closed_output() -> None:
    """Lets what is still to be written go nowhere, so that no second fault is told when Python ends."""
    nowhere = os.open(os.devnull, os.O_WRONLY)
    os.dup2(nowhere, sys.stdout.fileno())


def status_of(main: Callable[[], Optional[int]]) -> int:
    """The status of a script, having told its fault, if there is one."""
    try:
        status = main()
        sys.stdout.flush()
        return status or 0
    except BrokenPipeError:
        closed_output()  # whoever read the output has gone, as `head` does, and wants no word of it
    except (Fault, OSError, UnicodeDecodeError) as fault:
        warn(str(fault))
        closed_output()  # what a full disk did not take, it would not take either when Python ends
    except KeyboardInterrupt:
        warn("interrupted")
        return 130
    return 2


def run(main: Callable[[], Optional[int]]) -> NoReturn:
    """Runs a script, and ends with its status."""
    sys.exit(status_of(main))


def positive(text: str) -> int:
    """A whole number above 0, for a parser."""
    if not (text.isascii() and text.isdigit() and int(text) > 0):
        raise argparse.ArgumentTypeError(f"{text!r} is no whole number above 0")
    return int(text)


def natural(text: str) -> int:
    """A whole number from 0 on, for a parser."""
    if not (text.isascii() and text.isdigit()):
        raise argparse.ArgumentTypeError(f"{text!r} is no whole number")
    return int(text)

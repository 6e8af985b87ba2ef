"""The words and signs of a file of definitions."""

import re
from typing import List, NamedTuple

from definitions.manners import Fault

TOKEN = re.compile(
    r'(?P<blank>\s+)|(?P<comment>--[^\n]*)|(?P<text>"(?:\\.|[^"\\\n])*")'
    r"|(?P<sign>[(){};,.λ])|(?P<word>[^\s(){};,.λ\"]+)"
)


class Token(NamedTuple):
    kind: str  # `text`, `sign` or `word`
    text: str
    line: int
    column: int
    opens: bool  # it is the first of its line
    is_behind: bool  # nothing stands between it and the token before it


def tokens_of(text: str, name: str) -> List[Token]:
    """The tokens of a file, without blanks and comments."""
    found: List[Token] = []
    at, line, start, end = 0, 1, 0, 0
    while at < len(text):
        match = TOKEN.match(text, at)
        if match is None:
            raise Fault(f"{name}:{line}: not read: {text[at : at + 20]!r}")
        kind = str(match.lastgroup)
        if kind not in ("blank", "comment"):
            opens = not found or found[-1].line < line
            found.append(Token(kind, match.group(), line, at - start, opens, at == end))
            end = match.end()
        line += match.group().count("\n")
        if "\n" in match.group():
            start = at + match.group().rindex("\n") + 1
        at = match.end()
    return found

"""Definitions and expressions, as trees."""

from typing import List, NamedTuple, Optional, Tuple, Union

from definitions.manners import Fault
from definitions.tokens import Token


class Name(NamedTuple):
    """A name, perhaps after others: a module's, a type's, or of a value with fields."""

    parts: Tuple[str, ...]
    line: int


class Number(NamedTuple):
    value: int


class Text(NamedTuple):
    value: str


class Apply(NamedTuple):
    function: "Tree"
    arguments: Tuple["Tree", ...]


class Operator(NamedTuple):
    sign: str
    left: "Tree"
    right: "Tree"
    line: int


class Choice(NamedTuple):
    test: "Tree"
    then: "Tree"
    other: "Tree"


class Let(NamedTuple):
    name: str
    value: "Tree"
    body: "Tree"


class Function(NamedTuple):
    names: Tuple[str, ...]
    body: "Tree"


class Fields(NamedTuple):
    fields: Tuple[Tuple[str, "Tree"], ...]


class Several(NamedTuple):
    items: Tuple["Tree", ...]


class Field(NamedTuple):
    of: "Tree"
    name: str


Tree = Union[Name, Number, Text, Apply, Operator, Choice, Let, Function, Fields, Several, Field]


class Clause(NamedTuple):
    """A line of a definition: for arguments of these forms, what it is."""

    patterns: Tuple[Tree, ...]
    body: Tree
    line: int


# How tight operators bind, and on which side first. What else is possible has no type, and the toolchain refuses it.
TIGHT = {
    ">>=": (10, "left"),
    "||": (30, "right"),
    "&&": (35, "right"),
    "==": (40, "none"),
    "∷": (60, "right"),
    "++": (60, "right"),
    "+": (65, "left"),
    "-": (65, "left"),
    "*": (70, "left"),
    "/": (70, "left"),
    "%": (70, "left"),
    "^": (75, "right"),
}

ESCAPES = {"n": "\n", "t": "\t", '"': '"', "\\": "\\"}

# Words that begin or part expressions, and those of a language that no expression here has.
PARTING = ("then", "else", "in", "=", "←")
UNKNOWN = ("elim", "unfolding", "Type", "→", "≡", "≢", "×", "⊎", "↔", "≤", "<", "?", "⊥", "|", "↦", "'", ":", "{", "@")


def text_value(token: Token, name: str) -> str:
    """What stands between the quotes."""
    letters: List[str] = []
    inner = iter(token.text[1:-1])
    for letter in inner:
        if letter == "\\":
            escape = next(inner)
            if escape not in ESCAPES:
                raise Fault(f"{name}:{token.line}: not known in a text: \\{escape}")
            letter = ESCAPES[escape]
        letters.append(letter)
    if not token.text.isascii():
        raise Fault(f"{name}:{token.line}: not known in a text: {token.text}")
    return "".join(letters)


class Reader:
    """Reads the tokens of an expression or a pattern, one after the other."""

    def __init__(self, tokens: List[Token], name: str) -> None:
        self.tokens = tokens
        self.name = name
        self.at = 0

    def peek(self) -> str:
        return self.tokens[self.at].text if self.at < len(self.tokens) else ""

    def fault(self, what: str = "not known here") -> Fault:
        token = self.tokens[min(self.at, len(self.tokens) - 1)]
        return Fault(f"{self.name}:{token.line}: {what}: {self.peek() or 'the end'}")

    def next(self) -> Token:
        if self.at >= len(self.tokens):
            raise self.fault()
        self.at += 1
        return self.tokens[self.at - 1]

    def expect(self, text: str) -> None:
        if self.peek() != text:
            raise self.fault(f"{text} is missing before")
        self.at += 1

    def whole(self) -> Tree:
        """All tokens, as one expression."""
        tree = self.expression()
        if self.at < len(self.tokens):
            raise self.fault()
        return tree

    def expression(self, least: int = 0) -> Tree:
        """An expression whose operators bind at least so tight."""
        left = self.operand()
        while self.peek() in TIGHT and TIGHT[self.peek()][0] >= least:
            token = self.next()
            tight, side = TIGHT[token.text]
            right = self.expression(tight if side == "right" else tight + 1)
            left = Operator(token.text, left, right, token.line)
        return left

    def operand(self) -> Tree:
        readers = {"λ": self.function, "let": self.let, "if": self.choice, "do": self.steps}
        reader = readers.get(self.peek())
        return reader() if reader else self.application()

    def application(self) -> Tree:
        first = self.atom()
        arguments: List[Tree] = []
        while self.begins_atom():
            arguments.append(self.atom())
        return Apply(first, tuple(arguments)) if arguments else first

    def begins_atom(self) -> bool:
        text = self.peek()
        if text == "" or text in TIGHT or text in PARTING:
            return False
        return text == "(" or self.tokens[self.at].kind != "sign"

    def atom(self) -> Tree:
        """What no blank parts, with the fields that are asked of it."""
        token = self.next()
        if token.text == "(":
            tree = self.bracket()
        elif token.text == "record":
            tree = self.record()
        elif token.kind == "text":
            tree = Text(text_value(token, self.name))
        elif token.text[0].isdigit():
            tree = Number(self.number(token))
        elif token.kind == "word" and token.text not in UNKNOWN and token.text not in TIGHT:
            tree = Name((token.text,), token.line)
        else:
            self.at -= 1
            raise self.fault()
        while self.field_follows():
            self.next()
            field = self.next().text
            tree = Name(tree.parts + (field,), tree.line) if isinstance(tree, Name) else Field(tree, field)
        return tree

    def field_follows(self) -> bool:
        rest = self.tokens[self.at : self.at + 2]
        return len(rest) == 2 and rest[0].text == "." and rest[0].is_behind and rest[1].is_behind

    def number(self, token: Token) -> int:
        try:
            return int(token.text, 0)
        except ValueError:
            self.at -= 1
            raise self.fault() from None

    def bracket(self) -> Tree:
        items = [self.expression()]
        while self.peek() == ",":
            self.next()
            items.append(self.expression())
        self.expect(")")
        return items[0] if len(items) == 1 else Several(tuple(items))

    def record(self) -> Tree:
        self.expect("{")
        fields: List[Tuple[str, Tree]] = []
        while self.peek() != "}":
            field = self.next().text
            self.expect("=")
            fields.append((field, self.expression()))
            if self.peek() != "}":
                self.expect(";")
        self.expect("}")
        return Fields(tuple(fields))

    def function(self) -> Tree:
        """λ, names of which one may stand in brackets with its type, a point, and the body."""
        self.expect("λ")
        names: List[str] = []
        while self.peek() != ".":
            if self.peek() == "(":
                self.next()
                names.append(self.next().text)
                self.expect(":")
                self.next()
                self.expect(")")
            else:
                names.append(self.next().text)
        self.expect(".")
        return Function(tuple(names), self.expression())

    def let(self) -> Tree:
        self.expect("let")
        name = self.next().text
        self.expect("=")
        value = self.expression()
        self.expect("in")
        return Let(name, value, self.expression())

    def choice(self) -> Tree:
        self.expect("if")
        test = self.expression()
        self.expect("then")
        then = self.expression()
        self.expect("else")
        return Choice(test, then, self.expression())

    def steps(self) -> Tree:
        """`do`, a step `name ← value` on each line, and what they come to: as `value >>= λ name. rest`."""
        self.expect("do")
        first = self.tokens[self.at]
        rest = self.tokens[self.at :]
        self.at = len(self.tokens)
        starts = [at for at, token in enumerate(rest) if token.opens and token.column <= first.column]
        if not first.opens or any(rest[at].column < first.column for at in starts):
            raise Fault(f"{self.name}:{first.line}: not known: steps that are no block of lines")
        parts = [rest[start:end] for start, end in zip(starts, starts[1:] + [len(rest)])]
        tree = Reader(parts[-1], self.name).whole()
        for part in reversed(parts[:-1]):
            if len(part) < 3 or part[1].text != "←":
                raise Fault(f"{self.name}:{part[0].line}: not known: a step without ←")
            value = Reader(part[2:], self.name).whole()
            tree = Operator(">>=", value, Function((part[0].text,), tree), part[0].line)
        return tree

    def patterns(self) -> Tuple[Tree, ...]:
        """The forms of arguments; those in braces are types, and left out."""
        found: List[Tree] = []
        while self.at < len(self.tokens):
            if self.peek() == "{":
                while self.next().text != "}":
                    pass
            else:
                found.append(self.atom())
        return tuple(found)


def clause_of(tokens: List[Token], name: str, operator: Optional[str]) -> Clause:
    """A clause: its name and forms, or forms on both sides of an operator, then what it is."""
    equals = next((at for at, token in enumerate(tokens) if token.text == "="), None)
    if equals is None:
        raise Fault(f"{name}:{tokens[0].line}: not known: no =")
    body = Reader(tokens[equals + 1 :], name).whole()
    if operator is None:
        return Clause(Reader(tokens[1:equals], name).patterns(), body, tokens[0].line)
    sides = Reader(tokens[:equals], name).whole()
    if not isinstance(sides, Operator) or sides.sign != operator:
        raise Fault(f"{name}:{tokens[0].line}: not known: no clause of {operator}")
    return Clause((sides.left, sides.right), body, tokens[0].line)

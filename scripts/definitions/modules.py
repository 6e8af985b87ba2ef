"""The files of definitions, and what a name means in each."""

from pathlib import Path
from typing import Dict, List, NamedTuple, Optional, Set, Tuple, Union

from definitions.manners import Fault
from definitions.syntax import Clause, Name, clause_of
from definitions.table import CASES, FUNCTIONS, VALUES
from definitions.tokens import Token, tokens_of


class Definition(NamedTuple):
    """A definition in a file: its name, the arguments of the block that it stands in, and its clauses' tokens."""

    module: str
    name: str
    given: Tuple[str, ...]
    block: int
    line: int
    clauses: Tuple[Tuple[Token, ...], ...]


class Case(NamedTuple):
    """A case of a type, by its full name."""

    name: str


class Foreign(NamedTuple):
    """A function or value of the toolchain, by its full name."""

    name: str


class Module:
    """A file of definitions: what it declares, and what it takes from others."""

    def __init__(self, name: str, path: Path) -> None:
        self.name = name
        self.path = path
        self.definitions: Dict[str, Definition] = {}
        self.cases: Set[str] = set()
        self.types: Dict[str, str] = {}
        self.used: Dict[str, str] = {}
        self.modules: Set[str] = set()  # of what is used, the names that stand for whole files
        self.blocks = 0
        self.read(tokens_of(path.read_text(encoding="utf-8"), str(path)), 0, ())

    def read(self, tokens: List[Token], column: int, given: Tuple[str, ...]) -> None:
        """The items that begin in this column, each with the lines below it that stand further right."""
        first = [token.opens and token.column == column and token.text not in (")", "}") for token in tokens]
        starts = [at for at, is_first in enumerate(first) if is_first]
        items = [tokens[start:end] for start, end in zip(starts, starts[1:] + [len(tokens)])]
        at = 0
        while at < len(items):
            words = [token.text for token in items[at][:2]]
            if words[0] == "use" or words == ["pub", "use"]:
                self.read_use(items[at][len(words) - 1 if words[0] == "use" else 2 :])
            elif words[0] == "module":
                self.read_block(items[at])
            elif words == ["pub", "data"]:
                self.read_cases(items[at])
            elif words == ["pub", "record"]:
                self.types[items[at][2].text] = self.name
            elif words[0] not in ("infixl", "infixr", "infix", "mutual") and words != ["pub", "mod"]:
                at = self.read_definition(items, at, given)
                continue
            at += 1

    def read_use(self, tokens: List[Token]) -> None:
        """A path, with names in braces, or with another name for it."""
        texts = [token.text for token in tokens]
        if "{" in texts:
            path = "".join(texts[: texts.index("{") - 1])
            names = [text for text in texts[texts.index("{") + 1 : -1] if text != ","]
            self.used.update({name: f"{path}.{name}" for name in names})
        else:
            self.used[texts[-1]] = "".join(texts[: texts.index("as")] if "as" in texts else texts)
            self.modules.add(texts[-1])

    def read_block(self, tokens: List[Token]) -> None:
        """`module _`, arguments, of which those in braces are types, `where`, and its items further right."""
        where = next(at for at, token in enumerate(tokens) if token.text == "where")
        head = tokens[:where]
        given = tuple(head[at + 1].text for at, token in enumerate(head) if token.text == "(")
        if where + 1 < len(tokens):
            self.blocks += 1
            self.read(tokens[where + 1 :], tokens[where + 1].column, given)

    def read_cases(self, tokens: List[Token]) -> None:
        """A type with cases: each on a line of its own."""
        self.types[tokens[2].text] = self.name
        column = min((token.column for token in tokens[1:] if token.opens), default=0)
        for at, token in enumerate(tokens):
            if at > 0 and token.opens and token.column == column:
                if tokens[at + 1 : at + 2] == [] or tokens[at + 1].text != ":":
                    raise Fault(f"{self.path}:{token.line}: not known: a case without a type: {token.text}")
                self.cases.add(token.text)

    def read_definition(self, items: List[List[Token]], at: int, given: Tuple[str, ...]) -> int:
        """A name with its type, and the clauses that follow; the place of the item after them."""
        head = items[at]
        words = [token.text for token in head]
        skip = sum(word in ("abbrev", "unfoldable", "pub") for word in words[:2])
        name = words[skip]
        operator = name.strip("◌") if name.startswith("◌") else None
        past = at + 1
        while past < len(items) and self.is_clause(items[past], name, operator):
            past += 1
        clauses = tuple(tuple(item) for item in items[at + 1 : past])
        block = self.blocks if given else 0
        self.definitions[name] = Definition(self.name, name, given, block, head[0].line, clauses)
        return past

    @staticmethod
    def is_clause(item: List[Token], name: str, operator: Optional[str]) -> bool:
        if operator is None:
            return item[0].text == name
        return item[0].text == "(" and any(token.text == operator for token in item)

    def clauses_of(self, definition: Definition) -> List[Clause]:
        operator = definition.name.strip("◌") if definition.name.startswith("◌") else None
        if not definition.clauses:
            raise Fault(f"{self.path}:{definition.line}: not known: {definition.name} has no clause")
        return [clause_of(list(tokens), str(self.path), operator) for tokens in definition.clauses]


Meaning = Union[Definition, Case, Foreign]


class Modules:
    """All files of definitions below a folder, each read when it is first asked for."""

    def __init__(self, crates: Path) -> None:
        self.crates = crates
        self.read: Dict[str, Module] = {}

    def path_of(self, name: str) -> Path:
        """The file of a name such as `bus_line.specs.Due`."""
        return self.crates / (name.replace(".", "/") + ".antt")

    def module(self, name: str) -> Optional[Module]:
        """What a file has, if there is one."""
        if name not in self.read:
            if not self.path_of(name).is_file():
                return None
            self.read[name] = Module(name, self.path_of(name))
        return self.read[name]

    def meaning(self, module: Module, name: Name, count: int) -> Optional[Meaning]:
        """What the first `count` parts of a name are together, read in a file; none where they are nothing."""
        first, rest = name.parts[0], ".".join(name.parts[1:count])
        if not rest:
            own = self.in_module(module, first)
            if own is not None:
                return own
        if first in module.types and rest:
            return self.in_module(module, rest)
        if first not in module.used:
            return None
        path = module.used[first]
        return self.of_path(path[len("Rattle.") :] if path.startswith("Rattle.") else path, rest)

    def of_path(self, path: str, rest: str) -> Optional[Meaning]:
        """What a full name is, with a name within it."""
        full = f"{path}.{rest}" if rest else path
        front, _, last = full.rpartition(".")
        if (self.crates / full.partition(".")[0]).is_dir():
            return self.of_crate(front, last, path)
        if full in CASES:
            return Case(CASES[full])
        return Foreign(full) if full in FUNCTIONS or full in VALUES else None

    def of_crate(self, front: str, last: str, path: str) -> Optional[Meaning]:
        if ".declared." in front:
            return Case(f"{front}.{last}") if front.endswith(".TheVariants") else None
        module = self.module(front)
        if module is None:  # perhaps a case after the name of its type
            module = self.module(front.rpartition(".")[0])
            if module is None or front.rpartition(".")[2] not in module.types or path != front:
                return None
        return self.in_module(module, last)

    @staticmethod
    def in_module(module: Module, name: str) -> Optional[Meaning]:
        if name in module.definitions:
            return module.definitions[name]
        return Case(f"{module.name}.{name}") if name in module.cases else None

"""Definitions as functions of Python: each clause a branch, in the order of the text.

A part of a function's body that does not name its arguments is worked out once, before the function is called. That
and lists of cells are all that is done for speed; every definition that is called by another is a function by itself.
"""

import inspect
import keyword
import sys
import threading
from pathlib import Path
from typing import Any, Callable, Dict, List, NamedTuple, Optional, Sequence, Set, Tuple

from definitions.manners import Fault
from definitions import table, values
from definitions.modules import Case, Definition, Foreign, Meaning, Module, Modules
from definitions.syntax import (
    Apply, Choice, Clause, Field, Fields, Function, Let, Name, Number, Operator, Several, Text, Tree
)

# Names that stand for values of Python.
PLAIN = {"true": "True", "false": "False", "zero": "0", "[]": "NOTHING"}

# Room for calls within calls: a definition by each bit of a list calls itself as often as there are bits. Up to version
# 3.10 of Python a call takes up to 500 octets of the stack.
STACK = 1 << 29
DEPTH = STACK // 1024

Scope = Dict[str, str]


class Frame(NamedTuple):
    """A function around a part of an expression: the names that it binds, and what is worked out before it."""

    names: Set[str]
    before: List[Tuple[str, str]]


def once(function: Callable[[], Any]) -> Callable[[], Any]:
    """What is worked out when it is first asked for, and then kept."""
    found: List[Any] = []

    def value() -> Any:
        if not found:
            found.append(function())
        return found[0]

    return value


def no_clause(name: str) -> None:
    raise Fault(f"{name}: no clause for these values")


def python_name(definition: Definition) -> str:
    letters = [letter if letter.isalnum() or letter == "_" else f"_{ord(letter):x}" for letter in definition.name]
    return definition.module.replace(".specs.", "__").replace(".", "_") + "__" + "".join(letters)


def names_in(tree: Tree) -> Set[str]:
    """The first parts of all names in an expression."""
    if isinstance(tree, Name):
        return {tree.parts[0]}
    parts: List[Tree] = []
    if isinstance(tree, Apply):
        parts = [tree.function, *tree.arguments]
    elif isinstance(tree, Operator):
        parts = [tree.left, tree.right]
    elif isinstance(tree, Choice):
        parts = [tree.test, tree.then, tree.other]
    elif isinstance(tree, Let):
        parts = [tree.value, tree.body]
    elif isinstance(tree, (Function, Field)):
        parts = [tree.body if isinstance(tree, Function) else tree.of]
    elif isinstance(tree, (Fields, Several)):
        parts = [each for _, each in tree.fields] if isinstance(tree, Fields) else [*tree.items]
    return set().union(*map(names_in, parts)) if parts else set()


def asked(of: str, fields: Tuple[str, ...]) -> str:
    """A value's field, and so on; a number is a place among several values."""
    for field in fields:
        of += f"[{field}]" if field.isdigit() else f".{field}"
    return of


class Translation:
    """Definitions and all that they call, as Python."""

    def __init__(self, crates: Path) -> None:
        self.modules = Modules(crates)
        self.waiting: List[Definition] = []
        self.sources: Dict[str, str] = {}
        self.read: Dict[str, List[Clause]] = {}

    def functions(self, names: Sequence[Tuple[str, str]]) -> List[Callable[..., Any]]:
        """Definitions, by file and name, each to be called with all its arguments."""
        needed = [self.need(self.definition(*name)) for name in names]
        scope: Dict[str, Any] = {each.__name__: each for each in [*table.HELPERS, *table.FUNCTIONS.values()]}
        scope.update({each.__name__: each for each in [values.Case, values.Record, values.curried, once, no_clause]})
        scope["NOTHING"] = values.items_of(())
        exec(compile(self.text(), "<definitions>", "exec"), scope)
        return [scope[name] for name in needed]

    def definition(self, module: str, name: str) -> Definition:
        file = self.modules.module(module)
        if file is None or name not in file.definitions:
            raise Fault(f"there is no definition {name} in {self.modules.path_of(module)}")
        return file.definitions[name]

    def text(self) -> str:
        """The Python of all that is needed."""
        while self.waiting:
            definition = self.waiting.pop()
            self.sources[python_name(definition)] = Writer(self, definition).text()
        return "\n\n".join(self.sources.values())

    def need(self, definition: Definition) -> str:
        name = python_name(definition)
        if name not in self.sources:
            self.sources[name] = ""
            self.waiting.append(definition)
        return name

    def arity(self, definition: Definition) -> int:
        """How many arguments it takes, those of its block among them."""
        counts = {len(clause.patterns) for clause in self.clauses(definition)}
        if len(counts) != 1:
            raise Fault(f"{self.file(definition).path}:{definition.line}: not known: clauses of different lengths")
        return len(definition.given) + counts.pop()

    def file(self, definition: Definition) -> Module:
        module = self.modules.module(definition.module)
        assert module is not None
        return module

    def clauses(self, definition: Definition) -> List[Clause]:
        name = python_name(definition)
        if name not in self.read:
            self.read[name] = self.file(definition).clauses_of(definition)
        return self.read[name]


class Writer:
    """Writes one definition."""

    def __init__(self, whole: Translation, definition: Definition) -> None:
        self.whole = whole
        self.definition = definition
        self.module = whole.file(definition)
        self.frames: List[Frame] = []
        self.count = 0

    def fault(self, line: int, what: str) -> Fault:
        return Fault(f"{self.module.path}:{line}: not known: {what}")

    def text(self) -> str:
        clauses = self.whole.clauses(self.definition)
        arity = self.whole.arity(self.definition)
        given = self.definition.given
        arguments = [f"{name}_" for name in given] + [f"a{at}" for at in range(arity - len(given))]
        lines = [f"# {self.definition.module}, line {self.definition.line}"]
        lines += ["@once"] if arity == 0 else []
        lines.append(f"def {python_name(self.definition)}({', '.join(arguments)}):")
        for clause in clauses:
            tests, branch = self.branch(clause, arguments)
            lines += [f"    if {' and '.join(tests)}:"] if tests else []
            lines += [f"    {'    ' if tests else ''}{line}" for line in branch]
            if not tests:
                break
        else:
            lines.append(f"    no_clause({self.definition.name!r})")
        return "\n".join(lines) + "\n"

    def branch(self, clause: Clause, arguments: List[str]) -> Tuple[List[str], List[str]]:
        """When a clause is the one, and the lines that then give its value."""
        given = self.definition.given
        scope: Scope = {name: f"{name}_" for name in given}
        tests: List[str] = []
        lines: List[str] = []
        for pattern, argument in zip(clause.patterns, arguments[len(given) :]):
            self.match(pattern, argument, clause.line, tests, lines, scope)
        return tests, [*lines, f"return {self.write(clause.body, scope)}"]

    def match(self, pattern: Tree, of: str, line: int, tests: List[str], lines: List[str], scope: Scope) -> None:
        """What a form asks of a value, and the names that it gives to its parts."""
        parts: List[Tuple[Tree, str]] = []
        if isinstance(pattern, Name) and (pattern.parts[0] == "_" or self.is_plain(pattern.parts[0])):
            test = {"true": of, "false": f"not {of}", "zero": f"{of} == 0", "[]": f"{of}.past == {of}.first"}
            tests += [test[pattern.parts[0]]] if pattern.parts[0] != "_" else []
        elif isinstance(pattern, Several):
            parts = [(each, f"{of}[{at}]") for at, each in enumerate(pattern.items)]
        elif isinstance(pattern, Operator) and pattern.sign == "∷":
            self.match_list(pattern, of, line, tests, lines, scope)
        elif isinstance(pattern, Apply) and len(pattern.arguments) == 1 and self.is_suc(pattern.function):
            tests.append(f"{of} > 0")
            parts = [(pattern.arguments[0], f"({of} - 1)")]
        else:
            parts = self.match_case(pattern, of, line, tests, lines, scope)
        for part, value in parts:
            self.match(part, value, line, tests, lines, scope)

    def is_suc(self, tree: Tree) -> bool:
        return isinstance(tree, Name) and tree.parts == ("suc",) and self.is_plain("suc")

    def match_case(
        self, pattern: Tree, of: str, line: int, tests: List[str], lines: List[str], scope: Scope
    ) -> List[Tuple[Tree, str]]:
        """A case with what it has, or a name for any value."""
        head = pattern.function if isinstance(pattern, Apply) else pattern
        if not isinstance(head, Name):
            raise self.fault(line, "a form of an argument")
        meaning = self.whole.modules.meaning(self.module, head, len(head.parts))
        if isinstance(meaning, Case):
            tests.append(f"{of}.name == {meaning.name!r}")
            arguments = pattern.arguments if isinstance(pattern, Apply) else ()
            return [(each, f"{of}.values[{at}]") for at, each in enumerate(arguments)]
        is_unknown = meaning is None and head.parts[0] in self.module.used.keys() - self.module.modules
        if isinstance(pattern, Apply) or len(head.parts) > 1 or is_unknown:
            raise self.fault(line, f"a form of an argument: {'.'.join(head.parts)}")
        scope[head.parts[0]] = f"{head.parts[0]}_"
        lines.append(f"{head.parts[0]}_ = {of}")
        return []

    def match_list(self, pattern: Tree, of: str, line: int, tests: List[str], lines: List[str], scope: Scope) -> None:
        """Items, and what stands after them."""
        items: List[Tree] = []
        rest: Tree = pattern
        while isinstance(rest, Operator) and rest.sign == "∷":
            items.append(rest.left)
            rest = rest.right
        is_end = isinstance(rest, Name) and rest.parts == ("[]",)
        tests.append(f"{of}.past - {of}.first {'==' if is_end else '>='} {len(items)}")
        for at, item in enumerate(items):
            self.match(item, f"{of}.cells[{of}.first + {at}]", line, tests, lines, scope)
        if not is_end:
            self.match(rest, f"{of}.from_place({len(items)})", line, tests, lines, scope)

    def write(self, tree: Tree, scope: Scope) -> str:
        """An expression."""
        if isinstance(tree, Number):
            return str(tree.value)
        if isinstance(tree, Text):
            return repr(tree.value)
        if isinstance(tree, Choice):
            test, then, other = (self.write(each, scope) for each in (tree.test, tree.then, tree.other))
            return f"({then} if {test} else {other})"
        if isinstance(tree, Several):
            return f"({', '.join(self.write(each, scope) for each in tree.items)})"
        if isinstance(tree, Field):
            return asked(self.write(tree.of, scope), (tree.name,))
        if isinstance(tree, Fields):
            return self.record(tree, scope)
        if isinstance(tree, Operator):
            return self.operator(tree, scope)
        if isinstance(tree, (Let, Function)):
            return self.binding(tree, scope)
        return self.call(tree, scope)

    def record(self, tree: Fields, scope: Scope) -> str:
        if any(keyword.iskeyword(name) for name, _ in tree.fields):
            raise self.fault(self.definition.line, "a field with a name that Python has")
        return f"Record({', '.join(f'{name}={self.write(each, scope)}' for name, each in tree.fields)})"

    def operator(self, tree: Operator, scope: Scope) -> str:
        """One of the table's, where the file takes it from the toolchain, or one that a file of definitions has."""
        if self.module.used.get(f"◌{tree.sign}◌") == f"Rattle.{table.PRELUDE}.◌{tree.sign}◌":
            return table.OPERATORS[tree.sign].format(self.write(tree.left, scope), self.write(tree.right, scope))
        return self.call(Apply(Name((f"◌{tree.sign}◌",), tree.line), (tree.left, tree.right)), scope)

    def binding(self, tree: Tree, scope: Scope) -> str:
        """A name for a value, worked out when it is first needed, or a function."""
        assert isinstance(tree, (Let, Function))
        if isinstance(tree, Let):
            value = self.write(tree.value, scope)
            if self.frames:
                self.frames[-1].names.add(tree.name)
            body = self.write(tree.body, {**scope, tree.name: f"{tree.name}_()"})
            return f"(lambda {tree.name}_: {body})(once(lambda: {value}))"
        inner = {**scope, **{name: f"{name}_" for name in tree.names}}
        self.frames.append(Frame(set(tree.names), []))
        body = "".join(f"lambda {name}_: " for name in tree.names) + self.write(tree.body, inner)
        early = self.frames.pop().before
        if not early:
            return f"({body})"
        return f"(lambda {', '.join(name for name, _ in early)}: {body})({', '.join(value for _, value in early)})"

    def call(self, tree: Tree, scope: Scope) -> str:
        """A name, or something with arguments; worked out before the function around it, where that is the same."""
        if isinstance(tree, Apply) and self.frames and not self.frames[-1].names & names_in(tree):
            frame = self.frames.pop()
            value = self.call(tree, scope)
            self.frames.append(frame)
            self.count += 1
            frame.before.append((f"early{self.count}", value))
            return f"early{self.count}"
        head = tree.function if isinstance(tree, Apply) else tree
        arguments = [self.write(each, scope) for each in tree.arguments] if isinstance(tree, Apply) else []
        if not isinstance(head, Name):
            return self.write(head, scope) + "".join(f"({each})" for each in arguments)
        return self.named(head, arguments, scope)

    def named(self, name: Name, arguments: List[str], scope: Scope) -> str:
        """What a name is, with arguments."""
        first = name.parts[0]
        if first in scope:
            return asked(scope[first], name.parts[1:]) + "".join(f"({each})" for each in arguments)
        if self.is_plain(first) and len(name.parts) == 1 and not arguments:
            return PLAIN[first]
        if first == "suc" and self.is_plain(first) and len(arguments) == 1:
            return f"({arguments[0]} + 1)"
        meaning, count = self.meaning(name)
        if count < len(name.parts):
            return asked(self.meant(meaning, []), name.parts[count:]) + "".join(f"({each})" for each in arguments)
        return self.meant(meaning, arguments)

    def is_plain(self, name: str) -> bool:
        """Whether a name stands for a value of Python, or for a successor: the file takes it from the toolchain."""
        return name in (*PLAIN, "suc") and self.module.used.get(name) == f"Rattle.{table.PRELUDE}.{name}"

    def meaning(self, name: Name) -> Tuple[Meaning, int]:
        """What the longest front of a name is that is something, and how many parts that has."""
        for count in range(len(name.parts), 0, -1):
            found: Optional[Meaning] = self.whole.modules.meaning(self.module, name, count)
            if found is not None:
                return found, count
        raise self.fault(name.line, ".".join(name.parts))

    def meant(self, meaning: Meaning, arguments: List[str]) -> str:
        if isinstance(meaning, Case):
            return f"Case({', '.join([repr(meaning.name), *arguments])})"
        if isinstance(meaning, Foreign):
            if meaning.name in table.VALUES:
                return repr(table.VALUES[meaning.name])
            function = table.FUNCTIONS[meaning.name]
            return self.applied(function.__name__, len(inspect.signature(function).parameters), arguments)
        if meaning.given and meaning.module == self.definition.module and meaning.block == self.definition.block:
            arguments = [f"{name}_" for name in meaning.given] + arguments
        return self.applied(self.whole.need(meaning), self.whole.arity(meaning), arguments)

    @staticmethod
    def applied(name: str, arity: int, arguments: List[str]) -> str:
        """A call; with fewer arguments than it takes, a function of the others."""
        if len(arguments) < arity and not all(each.isidentifier() for each in arguments):
            return f"curried({', '.join([name, str(arity), *arguments])})"
        if len(arguments) < arity:
            others = [f"b{at}" for at in range(arity - len(arguments))]
            return f"({''.join(f'lambda {each}: ' for each in others)}{name}({', '.join([*arguments, *others])}))"
        rest = "".join(f"({each})" for each in arguments[arity:])
        return f"{name}({', '.join(arguments[:arity])}){rest}"


def with_room(main: Callable[[], Optional[int]]) -> Optional[int]:
    """Runs what calls itself deeply; a definition that Python cannot run is a fault."""
    ended: List[Any] = []

    def run() -> None:
        try:
            ended.append(main())
        except (AttributeError, IndexError, KeyError, NameError, TypeError) as error:
            ended.append(Fault(f"the translation is wrong: {error}"))
        except (RecursionError, MemoryError):
            ended.append(Fault("the capture is too long for this way to list it"))
        except BaseException as error:  # told where the script ends
            ended.append(error)

    before_stack, before_depth = threading.stack_size(STACK), sys.getrecursionlimit()
    sys.setrecursionlimit(DEPTH)
    thread = threading.Thread(target=run)
    thread.start()
    thread.join()
    threading.stack_size(before_stack)
    sys.setrecursionlimit(before_depth)
    if isinstance(ended[0], BaseException):
        raise ended[0]
    return ended[0]

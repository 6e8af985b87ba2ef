"""The functions of the toolchain that the definitions use: each told in a line, and done by Python.

This table is not the reviewed text. What it has is small and common; whatever else a definition uses is refused.
Functions that are arguments take their own arguments one by one.
"""

from typing import Any, Callable, Dict, Iterator, List

from definitions.toml import NotToml, toml_of
from definitions.values import Case, Items, before, items_of, joined

Test = Callable[[Any], bool]

NONE = Case("None")


def some(value: Any) -> Case:
    return Case("Some", value)


def length(xs: Items) -> int:
    """How many items a list has."""
    return xs.past - xs.first


def take(count: int, xs: Items) -> Items:
    """The first `count` items, or all where there are fewer."""
    return xs.up_to(count)


def drop(count: int, xs: Items) -> Items:
    """The items without the first `count`."""
    return xs.from_place(count)


def slice_range(xs: Items, first: int, past: int) -> Items:
    """The items from one place up to but not including another."""
    return xs.from_place(first).up_to(max(0, past - first))


def slice_get(xs: Items, at: int) -> Case:
    """The item at a place, if there is one."""
    return some(xs.cells[xs.first + at]) if at < len(xs) else NONE


def slice_index(xs: Items, at: int) -> int:
    """The number at a place, and 0 where there is none."""
    return xs.cells[xs.first + at] if at < len(xs) else 0


def replicate(count: int, item: Any) -> Items:
    """A list of the same item, so often."""
    return items_of([item] * count)


def map_items(change: Callable[[Any], Any], xs: Items) -> Items:
    """What each item becomes by the function."""
    return items_of([change(x) for x in xs])


def filter_items(test: Test, xs: Items) -> Items:
    """The items that pass."""
    return items_of([x for x in xs if test(x)])


def filter_map(change: Callable[[Any], Case], xs: Items) -> Items:
    """What each item becomes, where it becomes something."""
    return items_of([found.values[0] for found in map(change, xs) if found.name == "Some"])


def flat_map(change: Callable[[Any], Items], xs: Items) -> Items:
    """The lists that the items become, one after the other."""
    return items_of([y for x in xs for y in change(x)])


def fold(step: Callable[[Any], Callable[[Any], Any]], start: Any, xs: Items) -> Any:
    """What a value becomes by the items, one after the other."""
    value = start
    for x in xs:
        value = step(value)(x)
    return value


def find(test: Test, xs: Items) -> Case:
    """The first item that passes, if there is one."""
    return next((some(x) for x in xs if test(x)), NONE)


def take_while(test: Test, xs: Items) -> Items:
    """The items before the first that fails."""
    return xs.up_to(next((at for at, x in enumerate(xs) if not test(x)), len(xs)))


def list_all(test: Test, xs: Items) -> bool:
    """Whether each item passes."""
    return all(test(x) for x in xs)


def list_any(test: Test, xs: Items) -> bool:
    """Whether an item passes."""
    return any(test(x) for x in xs)


def count_by(test: Test, xs: Items) -> int:
    """How many items pass."""
    return sum(1 for x in xs if test(x))


def sum_by(number: Callable[[Any], int], xs: Items) -> int:
    """The sum of the numbers that the items become."""
    return sum(number(x) for x in xs)


def zip_items(xs: Items, ys: Items) -> Items:
    """Pairs of items at one place, as far as both lists go."""
    return items_of(zip(xs, ys))


def pointwise(same: Callable[[Any], Test], xs: Items, ys: Items) -> bool:
    """Whether two lists are as long, and their items the same by the test."""
    if xs.past - xs.first != ys.past - ys.first:
        return False
    for x, y in zip(xs, ys):
        if not same(x)(y):
            return False
    return True


def starts_with(same: Callable[[Any], Test], xs: Items, front: Items) -> bool:
    """Whether a list begins with another, by a test of two items."""
    return pointwise(same, xs.up_to(front.past - front.first), front)


def last_or(other: Case, xs: Items) -> Case:
    """The last item, or else what is given."""
    return some(xs.cells[xs.past - 1]) if len(xs) else other


def keep_last(count: int, xs: Items) -> Items:
    """The last `count` items, or all where there are fewer."""
    return xs.from_place(max(0, len(xs) - count))


def option_map(change: Callable[[Any], Any], option: Case) -> Case:
    """What the value becomes, if there is one."""
    return some(change(option.values[0])) if option.name == "Some" else NONE


def option_and_then(change: Callable[[Any], Case], option: Case) -> Case:
    """What the value becomes, if there is one and it becomes something."""
    return change(option.values[0]) if option.name == "Some" else NONE


def option_to_list(option: Case) -> Items:
    """A list of the value, or of nothing."""
    return items_of(option.values)


def cond(test: bool, then: Any, other: Any) -> Any:
    """The one or the other."""
    return then if test else other


def negated(bit: bool) -> bool:
    """Whether it is false."""
    return not bit


def beq(bit: bool, other: bool) -> bool:
    """Whether two truth values are the same."""
    return bit is other


def nat_lt(number: int, other: int) -> bool:
    """Whether the first number is below the second."""
    return number < other


def nat_le(number: int, other: int) -> bool:
    """Whether the first number is not above the second."""
    return number <= other


def maximum(number: int, other: int) -> int:
    """The greater number."""
    return max(number, other)


def next_multiple_of(number: int, of: int) -> int:
    """The least multiple of `of`, above 0, that is not below the number."""
    return -(-number // of) * of


def from_le_bytes(width: int, octets: Items) -> int:
    """The number of so many octets, the lowest first."""
    return int.from_bytes(bytes(slice_index(octets, at) for at in range(width)), "little")


def codes(text: str) -> Items:
    """The octets of a text."""
    return items_of(text.encode("utf-8"))


def decimal(number: int) -> Items:
    """The octets of a number's digits."""
    return codes(str(number))


def minus(number: int, other: int) -> int:
    """The difference, and 0 where that is below 0."""
    return max(0, number - other)


def divided(number: int, by: int) -> int:
    """How often one number goes into the other; by 0 is never asked."""
    return number // by


def rest_of(number: int, by: int) -> int:
    """What is left then."""
    return number % by


# TOML. A whole number is `pos n`, or `negsuc n` for -1 - n. Tables are read by Python, and so is the text of them.


def fits(value: Any) -> bool:
    """Whether all whole numbers in a value have 64 bits, as TOML asks for; Python's reader takes others, too."""
    if isinstance(value, (dict, list)):
        return all(map(fits, value.values() if isinstance(value, dict) else value))
    return not isinstance(value, int) or -(2**63) <= value < 2**63


def parse_document(text: Items) -> Case:
    """The table that a text of TOML is, if it is one, as Python's reader has it."""
    try:
        members = toml_of(bytes(text).decode("utf-8"))
    except (NotToml, UnicodeDecodeError):
        return NONE
    return some(members) if fits(members) else NONE


def table(members: Dict[str, Any]) -> Dict[str, Any]:
    """A table, as a value."""
    return members


def get(key: Items, value: Any) -> Case:
    """The value at a key, where it is a table that has the key."""
    name = bytes(key).decode()
    return some(value[name]) if isinstance(value, dict) and name in value else NONE


def as_str(value: Any) -> Case:
    """The octets of a text, where it is one."""
    return some(codes(value)) if isinstance(value, str) else NONE


def as_bool(value: Any) -> Case:
    """A truth value, where it is one."""
    return some(value) if isinstance(value, bool) else NONE


def as_integer(value: Any) -> Case:
    """A whole number, where it is one."""
    if type(value) is not int:
        return NONE
    return some(Case("pos", value) if value >= 0 else Case("negsuc", -1 - value))


def as_array(value: Any) -> Case:
    """The values of an array, where it is one: `item` with the first and the others, or `no_items`."""
    if not isinstance(value, list):
        return NONE
    found = Case("no_items")
    for each in reversed(value):
        found = Case("item", each, found)
    return some(found)


PRELUDE = "std.specs.Prelude"
LIST = "std.specs.List"
OPTION = "std.specs.Option"
TOML = "toml.specs.Data"

# By its full name, what each function is.
FUNCTIONS: Dict[str, Callable[..., Any]] = {
    **{f"{PRELUDE}.{each.__name__}": each for each in [length, take, drop, slice_range, slice_get, slice_index]},
    **{f"{PRELUDE}.{each.__name__}": each for each in [replicate, filter_map, find, take_while, count_by, sum_by]},
    **{f"{PRELUDE}.{each.__name__}": each for each in [fold, option_map, option_and_then, cond, nat_lt, nat_le]},
    **{f"{PRELUDE}.{each.__name__}": each for each in [codes, decimal]},
    **{f"{LIST}.{each.__name__}": each for each in [flat_map, list_all, list_any, starts_with, last_or]},
    **{f"{OPTION}.{each.__name__}": each for each in [option_map, option_to_list]},
    **{f"{TOML}.{each.__name__}": each for each in [table, get, as_str, as_bool, as_integer, as_array]},
    f"{PRELUDE}.map": map_items,
    f"{PRELUDE}.filter": filter_items,
    f"{PRELUDE}.zip": zip_items,
    f"{PRELUDE}.not": negated,
    f"{PRELUDE}.max": maximum,
    "std.specs.Bool.beq": beq,
    "std.specs.Int.next_multiple_of": next_multiple_of,
    "std.specs.Int.from_le_bytes": from_le_bytes,
    "std.specs.Cmp.Lexicographic.pointwise": pointwise,
    "circular_buffer.specs.Buffer.keep_last": keep_last,
    "toml.specs.Parse.parse_document": parse_document,
}

# A width of eight octets.
VALUES: Dict[str, Any] = {"std.specs.Int.w64": 8}

# Cases of the toolchain's types that are values as they stand, or, with an argument, patterns.
CASES = {
    **{f"{PRELUDE}.{name}": name for name in ["Some", "None", "Ok", "Err", "pos", "negsuc"]},
    **{f"{TOML}.{name}": name for name in ["item", "no_items"]},
}

# The operators: `&&` and `||` are Python's own, which leave out what decides nothing any more.
OPERATORS: Dict[str, str] = {
    "+": "({} + {})",
    "*": "({} * {})",
    "^": "({} ** {})",
    "==": "({} == {})",
    "&&": "({} and {})",
    "||": "({} or {})",
    "-": "minus({}, {})",
    "/": "divided({}, {})",
    "%": "rest_of({}, {})",
    "∷": "before({}, {})",
    "++": "joined({}, {})",
}

# What their Python calls.
HELPERS: List[Callable[..., Any]] = [minus, divided, rest_of, before, joined]


def meanings() -> Iterator[str]:
    """The table, a line for each function."""
    for name, function in FUNCTIONS.items():
        yield f"{name}: {(function.__doc__ or '').splitlines()[0]}"

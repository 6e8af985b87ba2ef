"""What translated definitions work on.

A natural number is an `int` without bound, a truth value a `bool`, several values a `tuple`, and a function takes one
argument after the other. Below are lists, records and the cases of a type.
"""

from typing import Any, Callable, Dict, Iterable, Iterator


class Items:
    """A list: the items from `first` up to `past` of cells that other lists may share.

    A cell, once written, stays. So a list can be longer at either end than the one that it was made from, and share its
    cells. It does so where the cells beyond are still free, or have the same item; else it gets cells of its own.
    """

    __slots__ = ("cells", "first", "past")

    def __init__(self, cells: Dict[int, Any], first: int, past: int) -> None:
        self.cells = cells
        self.first = first
        self.past = past

    def __len__(self) -> int:
        return self.past - self.first

    def __iter__(self) -> Iterator[Any]:
        return map(self.cells.__getitem__, range(self.first, self.past))

    def from_place(self, place: int) -> "Items":
        """Without so many of its first items, or all."""
        return Items(self.cells, min(self.first + place, self.past), self.past)

    def up_to(self, place: int) -> "Items":
        """Its first items, at most so many."""
        return Items(self.cells, self.first, min(self.first + place, self.past))


FREE = object()


def items_of(values: Iterable[Any]) -> Items:
    """A list of these, with cells of its own."""
    cells = dict(enumerate(values))
    return Items(cells, 0, len(cells))


def before(item: Any, rest: Items) -> Items:
    """The item, and then the others."""
    place = rest.first - 1
    found = rest.cells.get(place, FREE) if len(rest) else None
    if found is FREE:
        rest.cells[place] = item
        found = item
    if found is item and len(rest):
        return Items(rest.cells, place, rest.past)
    return items_of((item, *rest))


def joined(left: Items, right: Items) -> Items:
    """The items of the one, and then those of the other: the shorter is written beside the longer, where there is
    room."""
    if not len(left) or not len(right):
        return right if not len(left) else left
    if len(right) <= len(left) and left.past not in left.cells:
        left.cells.update(zip(range(left.past, left.past + len(right)), right))
        return Items(left.cells, left.first, left.past + len(right))
    if right.first - 1 not in right.cells:
        right.cells.update(zip(range(right.first - 1, right.first - 1 - len(left), -1), reversed([*left])))
        return Items(right.cells, right.first - len(left), right.past)
    return items_of([*left, *right])


class Case:
    """A value of a type with cases: which one, and what it has."""

    __slots__ = ("name", "values")

    def __init__(self, name: str, *values: Any) -> None:
        self.name = name
        self.values = values


class Record:
    """A value with fields."""

    def __init__(self, **fields: Any) -> None:
        self.__dict__.update(fields)


def curried(function: Callable[..., Any], count: int, *given: Any) -> Any:
    """A function of so many arguments, some of which are given, as one that takes the others one by one."""
    if len(given) + 1 == count:
        return lambda value: function(*given, value)
    return lambda value: curried(function, count, *given, value)

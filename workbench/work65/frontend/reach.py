"""Computes the items that are reachable from given ones."""
from typing import Callable, Iterable, List, Set, TypeVar

Item = TypeVar("Item")


def reached(start: Iterable[Item], following: Callable[[Item], Iterable[Item]]) -> Set[Item]:
    """Returns the items and all that follow from them, directly or indirectly."""
    waiting: List[Item] = list(start)
    found = set(waiting)
    while waiting:
        more = set(following(waiting.pop())) - found
        found |= more
        waiting += more
    return found

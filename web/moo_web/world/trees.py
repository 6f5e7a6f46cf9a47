"""Trees of a world that fold: of a large one the branches near the root are shown, and of what is left out how much it is."""

from __future__ import annotations

import collections
import itertools
from typing import Sequence

from moo_web.world.linking import Links, is_among

# So many objects are shown in all, and of leaves under one object so many.
MOST_NODES = 240
MOST_BRANCHES, MOST_LEAVES = 24, 12


class Node:
    """An object in a tree, with those of its branches that are shown. `under` is how many are under it, and `more` how many of these aren't
    shown."""

    def __init__(self, number: int, under: int) -> None:
        self.number, self.under, self.more = number, under, under
        self.nodes: list[Node] = []


def tree(links: Links, roots: Sequence[int], most: int = MOST_NODES) -> list[Node]:
    """The trees under these objects, with at most so many nodes: those near the roots come first."""
    top = [Node(root, len(links.get(root, ()))) for root in roots]
    left, waiting = most - len(top), collections.deque(top)
    while waiting and left > 0:
        node = waiting.popleft()
        numbers = picked(links, node.number)[:left]
        node.nodes = [Node(number, len(links.get(number, ()))) for number in numbers]
        node.more -= len(numbers)
        left -= len(numbers)
        waiting.extend(node.nodes)
    return top


def picked(links: Links, number: int) -> list[int]:
    """Those under an object that are shown: first those with something under them, then some others. One or two aren't left out."""
    under = links.get(number, ())
    # Of many that are under it few have something under them, and then these are looked through.
    branches = (one for one in under if one in links) if len(under) < len(links) else (one for one in sorted(links) if is_among(under, one))
    shown = list(itertools.islice(branches, MOST_BRANCHES))
    most = MOST_LEAVES + 2 if len(under) - len(shown) <= MOST_LEAVES + 2 else MOST_LEAVES
    for one in under:
        if most == 0:
            break
        if one not in links:
            shown.append(one)
            most -= 1
    return shown

"""What is kept by the numbers of objects, given on with a few changes: the large part of it is shared, and nothing of it is copied."""

from __future__ import annotations

from collections.abc import Iterator, Mapping
from typing import Any, Generic, Optional, TypeVar

T = TypeVar("T")
# After so many changes the shared part is made anew.
MOST_CHANGES = 1000


class Layered(Mapping[int, T], Generic[T]):
    """Values by numbers, in an order. `base` is shared; `over` has what has changed since: a value, or None for what is gone.

    What isn't in `base` comes after it. It isn't changed any more, so that threads may read it.
    """

    def __init__(self, base: dict[int, T], over: Optional[dict[int, Optional[T]]] = None) -> None:
        self.base, self.over = base, over or {}

    def changed(self, changes: Mapping[int, Optional[T]]) -> Layered[T]:
        """The same after these changes; None: it is gone."""
        made = Layered(self.base, {**self.over, **changes})
        return made if len(made.over) <= MOST_CHANGES else Layered(dict(made.items()))

    def __getitem__(self, number: int) -> T:
        if number not in self.over:
            return self.base[number]
        value = self.over[number]
        if value is None:
            raise KeyError(number)
        return value

    def get(self, number: int, default: Any = None) -> Any:
        """The value of a number, or another one if it has none."""
        value = self.over[number] if number in self.over else self.base.get(number)
        return default if value is None else value

    def __contains__(self, number: object) -> bool:
        return self.over[number] is not None if number in self.over else number in self.base  # type: ignore[index]

    def __len__(self) -> int:
        return len(self.base) + sum((value is not None) - (number in self.base) for number, value in self.over.items())

    def __iter__(self) -> Iterator[int]:
        if not self.over:
            return iter(self.base)
        return self.ordered(iter(self.base), iter(self.over), is_back=False)

    def __reversed__(self) -> Iterator[int]:
        return self.ordered(reversed(self.base), reversed(self.over), is_back=True)

    def ordered(self, base: Iterator[int], over: Iterator[int], is_back: bool) -> Iterator[int]:
        """Both parts, the one after the other, without what is gone."""
        old = (number for number in base if number not in self.over or self.over[number] is not None)
        new = (number for number in over if number not in self.base and self.over[number] is not None)
        for part in (new, old) if is_back else (old, new):
            yield from part

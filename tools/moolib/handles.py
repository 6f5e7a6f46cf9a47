"""A batch that is put together call by call, with a handle for each answer.

    with world.batch(as_=3) as batch:
        room = batch.add("create", Obj(4))
        batch.add("set", room, "name", "Inn")
    room.value                                      Obj(7)
"""

from __future__ import annotations

from collections.abc import Iterable
from types import TracebackType
from typing import Any, Optional, Protocol, Union

from moolib.batches import Item
from moolib.calls import call_name, call_text
from moolib.names import item_of
from moolib.values import Name, Obj

# A call as programs give it: its text, or its name and what it is given.
GivenCall = Union[str, tuple[Any, ...], list[Any]]


def written_call(call: GivenCall) -> str:
    """The text of a call, which is a text already or a name with what it is given."""
    if isinstance(call, str):
        return call
    name, *given = call
    return call_text(name, given)


class Runner(Protocol):
    """What runs batches and asks them."""

    def run(self, calls: Iterable[GivenCall], as_: Union[int, Obj, None] = None, at: Optional[int] = None) -> list[Any]:
        """Runs a batch, once."""

    def ask(self, calls: Iterable[GivenCall], as_: Union[int, Obj, None] = None, at: Optional[int] = None) -> list[Any]:
        """What it would answer."""


class Handle(Name):
    """The answer of a call. In a later call of the same batch it stands for that; after the batch `value` is it."""

    def __init__(self, text: str) -> None:
        super().__init__(text)
        self.held: list[Any] = []

    @property
    def value(self) -> Any:
        """The answer. `ValueError`: the batch hasn't run."""
        if not self.held:
            raise ValueError(f"{self} has no value: its batch hasn't run")
        return self.held[0]


class Batch:
    """Calls that act together or not at all. As a context it runs at the end, unless an exception came."""

    def __init__(self, world: Runner, as_: Union[int, Obj, None], at: Optional[int]) -> None:
        self.world, self.as_, self.at = world, as_, at
        self.items: list[Item] = []
        self.handles: list[Handle] = []

    def __enter__(self) -> Batch:
        return self

    def __exit__(self, kind: Optional[type[BaseException]], error: Optional[BaseException], trace: Optional[TracebackType]) -> None:
        if kind is None:
            self.run()

    def add(self, name: str, *given: Any) -> Handle:
        """One more call, as a text, or by its name and what it is given. A text may name its answer itself."""
        item = item_of(name)
        if not call_name(item.text):
            item = item_of(written_call((name, *given)))
        handle = Handle(item.name[1:] if item.name else f"a{len(self.items) + 1}")
        self.items.append(item)
        self.handles.append(handle)
        return handle

    def texts(self) -> list[str]:
        """The calls, with the names of the answers that later calls use."""
        found = []
        for place, (item, handle) in enumerate(zip(self.items, self.handles)):
            is_used = any(str(handle) in later.names for later in self.items[place + 1 :])
            found.append(f"{handle} = {item.text}" if is_used else item.text)
        return found

    def run(self) -> list[Any]:
        """Runs the batch, once, and gives its answers, which the handles have from then on."""
        answers = self.world.run(self.texts(), self.as_, self.at)
        for handle, answer in zip(self.handles, answers):
            handle.held = [answer]
        return answers

    def ask(self) -> list[Any]:
        """What it would answer; nothing changes."""
        return self.world.ask(self.texts(), self.as_, self.at)

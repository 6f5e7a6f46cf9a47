"""The properties of an object as one person may see them: value, owner, rights, and where the value is from."""

from __future__ import annotations

from typing import Any, NamedTuple

from moolib.service import MOST_CALLS
from moolib.values import written

from moo_web.world.asking import Onlooker, Refusal

# So many properties are on one page.
MOST = 200


class SightNames(NamedTuple):
    """The names of the properties that say what somebody sees."""

    description: str = "description"
    exits: str = "exits"


class Property(NamedTuple):
    """A property on an object. `definer` is the object that defines it; -1, if the person may not list what that one defines.

    `value`, `owner` and `rights` are None if the person may not read it. `source` is the object from which the value is: this one, or one
    above it; None, if an object between may not be read.
    """

    name: str
    definer: int
    value: Any = None
    owner: int | None = None
    rights: str | None = None
    source: int | None = None

    @property
    def is_shown(self) -> bool:
        """Whether the person may read it."""
        return self.rights is not None


class Group(NamedTuple):
    """What one object of the chain defines; None: the person may not list it."""

    definer: int
    properties: list[Property] | None


class PropertyNames(NamedTuple):
    """The names that each object of a chain defines, in pairs, and the objects that may not be listed."""

    pairs: list[tuple[int, str]]
    hidden: list[int]


def names_calls(chain: list[int]) -> list[str]:
    """What is asked for the names of the properties on an object of this chain."""
    return [f"properties(#{one})" for one in chain]


def names_on(onlooker: Onlooker, number: int) -> PropertyNames:
    """The names of the properties on an object, by definers from it up its chain."""
    chain = [thing.number for thing in onlooker.world.chain(number)]
    listed = onlooker.answers(names_calls(chain))
    pairs = [(one, name) for one, names in zip(chain, listed) if isinstance(names, list) for name in names]
    return PropertyNames(pairs, [one for one, names in zip(chain, listed) if not isinstance(names, list)])


def properties_of(onlooker: Onlooker, number: int, pairs: list[tuple[int, str]]) -> list[Property]:
    """These properties on an object, each with its definer and name."""
    told = onlooker.answers([f"property_info(#{number}, {written(name)})" for _, name in pairs])
    shown = [(pair, info) for pair, info in zip(pairs, told) if not isinstance(info, Refusal)]
    got = onlooker.answers([f"{call}(#{number}, {written(name)})" for (_, name), _ in shown for call in ("get", "is_clear_property")])
    is_clear = {pair: got[2 * place + 1] for place, (pair, _) in enumerate(shown)}
    sources = sources_of(onlooker, number, [pair for pair, clear in is_clear.items() if clear == 1])
    found = {}
    for place, (pair, info) in enumerate(shown):
        if not isinstance(got[2 * place], Refusal):
            source = number if is_clear[pair] == 0 else sources.get(pair)
            found[pair] = Property(pair[1], pair[0], got[2 * place], info[0].number, info[1], source)
    return [found.get((definer, name), Property(name, definer)) for definer, name in pairs]


def property_calls(number: int, pairs: list[tuple[int, str]], chain: list[int]) -> list[str]:
    """All that may be asked for these properties on an object of this chain, in one request; without what would make it more than one."""
    names = [written(name) for _, name in pairs]
    first = [f"{call}(#{number}, {name})" for name in names for call in ("property_info", "get", "is_clear_property")]
    above = [
        f"is_clear_property(#{one}, {name})" for name, (definer, _) in zip(names, pairs) for one in above_in(chain, definer)
    ]
    return first + above if len(first) + len(above) <= MOST_CALLS else first


def above_in(chain: list[int], definer: int) -> list[int]:
    """The objects of a chain above its first, up to the one that defines a property."""
    return chain[1 : chain.index(definer) + 1] if definer in chain else chain[1:]


def sources_of(onlooker: Onlooker, number: int, clear: list[tuple[int, str]]) -> dict[tuple[int, str], int]:
    """The objects above an object from which the values of its clear properties are, as far as the person may know them."""
    chain = [thing.number for thing in onlooker.world.chain(number)]
    above = {definer: above_in(chain, definer) for definer, _ in clear}
    asked = [((definer, name), one) for definer, name in clear for one in above[definer]]
    told = onlooker.answers([f"is_clear_property(#{one}, {written(name)})" for (_, name), one in asked])
    sources: dict[tuple[int, str], int] = {}
    unknown: set[tuple[int, str]] = set()
    for (pair, one), is_clear in zip(asked, told):
        if pair in sources or pair in unknown:
            continue
        if isinstance(is_clear, Refusal):
            unknown.add(pair)
        elif is_clear == 0:
            sources[pair] = one
    return sources


def grouped(properties: list[Property], hidden: list[int], chain: list[int]) -> list[Group]:
    """The properties by the objects that define them, from the object up. Objects that define none aren't in it."""
    groups = []
    for one in chain:
        own = [some for some in properties if some.definer == one]
        if one in hidden:
            groups.append(Group(one, None))
        elif own:
            groups.append(Group(one, own))
    return groups

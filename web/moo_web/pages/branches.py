"""Trees of a world as lists that fold. Some pages have hundreds of nodes, for each of which a template would take several times as long."""

from __future__ import annotations

from collections.abc import Iterator, Sequence

from markupsafe import Markup

from moo_web.pages.links import link
from moo_web.paths import url_for
from moo_web.world.things import World
from moo_web.world.trees import Node

# So many levels are unfolded at first.
UNFOLDED = 2


def in_branches(world: World, nodes: Sequence[Node], what: str) -> Markup:
    """Trees, each node with its branches. `what` is the word for what is under an object: `children` or `contents`."""
    return Markup(f'<ul class="tree">\n{"".join(pieces(world, nodes, what, 0))}</ul>\n')


def pieces(world: World, nodes: Sequence[Node], what: str, depth: int) -> Iterator[str]:
    """The pieces of the nodes of one level. Links are escaped already, and numbers have nothing to escape."""
    for node in nodes:
        here, under = link(world, node.number), f"{node.under:,}"
        if node.nodes:
            yield f'<li><details{" open" if depth < UNFOLDED else ""}>\n<summary>{here} <span class="count">{under}</span></summary>\n<ul>\n'
            yield from pieces(world, node.nodes, what, depth + 1)
            if node.more:
                yield f'<li class="leaf"><a class="more" href="{list_of(node, what)}">{node.more:,} more</a></li>\n'
            yield "</ul>\n</details>\n</li>\n"
        else:
            told = f'<span class="hidden">All </span>{under}<span class="hidden"> of its {what}</span>'
            all_of_it = f' <a class="count" href="{list_of(node, what)}">{told}</a>' if node.under else ""
            yield f'<li><div class="leaf">{here}{all_of_it}</div>\n</li>\n'


def list_of(node: Node, what: str) -> str:
    """The address of the list of all that is under an object."""
    return url_for("list", number=node.number, links=what)

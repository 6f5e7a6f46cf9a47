"""What can be done with an object, on its page: five buttons, and the menu 'More' with the rest."""

from __future__ import annotations

from typing import NamedTuple

from moolib.values import written

from moo_web.pages.pages import Visit
from moo_web.world.asking import Refusal
from moo_web.paths import form_for, url_for


class Action(NamedTuple):
    """A link to a form: its word, its address, and whether it destroys something."""

    word: str
    address: str
    is_loss: bool = False


def buttons(visit: Visit, number: int) -> list[Action]:
    """What is done most. What has no property for a description gets one."""
    name = visit.sight_names.description
    (description,) = visit.answers([f"get(#{number}, {written(name)})"])
    key = "add-property" if isinstance(description, Refusal) and description.error == "E_PROPNF" else "set"
    return [
        Action("Edit", url_for("edit", number=number)),
        Action("Describe", url_for("form", key=key, object=f"#{number}", name=name)),
        Action("Rename", form_for("rename", number)), Action("Move", form_for("move", number)),
        Action("Make something in it", form_for("create", number, "place")),
    ]  # fmt: skip


def room_calls(visit: Visit, number: int) -> list[str]:
    """What is asked for whether an object is a room, of which another can be made: it has a list of exits, and so has its parent."""
    return [f"get(#{one}, {written(visit.sight_names.exits)})" for one in (number, visit.world.things[number].parent) if one >= 0]


def more(visit: Visit, number: int) -> list[Action]:
    """All else. A room may have no exits yet."""
    parent = visit.world.things[number].parent
    is_room = parent >= 0 and all(isinstance(exits, list) for exits in visit.answers(room_calls(visit, number)))
    leads_here = url_for("new", parent=parent, **{"from": number})
    rooms = [Action("Make a room that leads here", leads_here)] if is_room else []
    for_wizards = [Action("Player and wizard", form_for("powers", number)), Action("Quota", form_for("quota", number))]
    return [
        Action("Set a property", form_for("set", number)), Action("Add a property", form_for("add-property", number)),
        Action("Add a word to type (verb)", form_for("add-verb", number)), Action("Make one under it", url_for("new", parent=number)),
        Action("Make objects under it", form_for("create", number, "parent")), *rooms,
        Action("Its children as a table", url_for("class", number=number)),
        Action("What others may do", form_for("marks", number)), Action("What it accepts", form_for("accept", number)),
        Action("Give another parent", form_for("parent", number)), Action("Give to another owner", form_for("owner", number)),
        Action("All that is in it", url_for("form", key="many", **{"in": number})),
        Action("All its children", url_for("form", key="many", under=number)),
        Action("Export as a script", url_for("script", number=number)),
        *(for_wizards if visit.is_wizard else []), Action("Recycle", form_for("recycle", number), is_loss=True),
    ]  # fmt: skip


def way_to(visit: Visit, number: int, is_open: bool) -> str:
    """The preview of the form by which the person goes to an object that accepts something; empty if they are there, or can't be."""
    here = visit.world.things[visit.number].location
    if not is_open or number in (here, visit.number) or visit.world.things[number].has("player"):
        return ""
    return url_for("form", key="move", object=f"#{visit.number}", place=f"#{number}", go="preview")

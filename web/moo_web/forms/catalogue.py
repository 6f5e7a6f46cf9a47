"""The forms: one for each thing that people do to a world. Docs/CALLS.md has the calls, whose names and rules are the manual's."""

from __future__ import annotations

from moolib import slots

from moo_web.forms.forms import Field, Form, Step

PROPERTY_LETTERS = (
    ("r", "everybody may read it"),
    ("w", "everybody may write it"),
    ("c", "on what is under the object, the owner of that owns it"),
)
VERB_LETTERS = (
    ("r", "everybody may read it"), ("w", "everybody may change it"), ("x", "kept, and not looked at"), ("d", "kept, and not looked at")
)
OBJECT_WORDS = (("this", "this object"), ("any", "any object"), ("none", "nothing"))
PREPOSITIONS = tuple((phrase, phrase) for phrase in ("none", "any", *slots.PREPOSITIONS))
QUOTA = '"ownership_quota"'
FIRST_QUOTA = "100"

OBJECT = Field("object", "Object", "object", "Its number, such as #5, or its name.")
NAME = Field("name", "Property", "name", "The name of a property that the object has.")
VERB = Field("verb", "Verb", "verb", "Its place among the object’s own verbs, from 1, or one of its names.")


def owner(now: str = "", label: str = "Owner") -> Field:
    """The owner of a property or a verb."""
    hint = "Whose it is. Others than wizards can name themselves alone."
    return Field("owner", label, "object", hint, default="me", now=now, part=0 if now else None)


def letters(options: tuple[tuple[str, str], ...], now: str = "", default: str = "") -> Field:
    """The rights of a property or a verb."""
    return Field("perms", "Rights", "letters", now=now, part=1 if now else None, options=options, default=default, is_needed=False)


def argument(key: str, label: str, place: int, now: str, options: tuple[tuple[str, str], ...]) -> Field:
    """One of the three arguments of a verb."""
    return Field(key, label, "choice", options=options, default="none", now=now, part=place if now else None)


def arguments(now: str = "") -> tuple[Field, ...]:
    """The arguments of a verb."""
    return (
        argument("dobj", "Direct object", 0, now, OBJECT_WORDS),
        argument("prep", "Preposition", 1, now, PREPOSITIONS),
        argument("iobj", "Indirect object", 2, now, OBJECT_WORDS),
    )


def mark(letter: str, label: str, now: str = "") -> Field:
    """A mark of an object."""
    return Field(letter, label, "flag", now=now or f'get(<object>, "{letter}")', is_needed=False)


MAKING = (
    Form(
        "create", "Make objects", "A new object inherits from its parent what that has.",
        (
            Field("parent", "Parent", "place", "What it inherits from: an object of which everybody may make others (it is fertile), or yours, or: nothing."),
            Field("names", "Names", "lines", "One on each line: an object is made for each of them.", is_needed=False),
            Field("place", "Put into", "place", "The place has to accept it. Empty: nowhere.", is_needed=False),
            Field("fertile", "Everybody may make objects of it (it is a class)", "flag", is_needed=False, section="More"),
            Field("listed", "Everybody may list what it has", "flag", is_needed=False, section="More"),
            Field("accepts", "Accepts", "objects", "It is a place or a container for these and what is under them: objects, with commas "
                  "between them. Empty: it accepts what its parent does.", is_needed=False, section="More"),
            Field("owner", "Owner", "place", "Empty: you. Only a wizard may name somebody else, or: nothing, so that it owns itself.",
                  is_needed=False, section="More"),
        ),
        (
            Step("create(<parent>, <owner>)", given="owner", is_new=True),
            Step("create(<parent>)", unless="owner", is_new=True),
            Step('set(<new>, "name", <one>)', given="one"),
            Step('set(<new>, "f", 1)', given="fertile=1"),
            Step('set(<new>, "r", 1)', given="listed=1"),
            Step("set_accept(<new>, <accepts>)", given="accepts"),
            Step("move(<new>, <place>)", given="place"),
        ),
        each="names",
        blame={"create E_PERM": "parent", "create E_INVARG": "owner", "create E_QUOTA": "names", "move": "place", "set E_PERM": "owner",
               "set_accept": "accepts"},
    ),
    Form(
        "recycle", "Recycle", "The object is gone for good, and its number isn’t given again. Its children get its parent, and what is in "
        "it is nowhere then. The properties that it defined leave its descendants too.",
        (OBJECT,), (Step("recycle(<object>)"),), is_loss=True, blame={"recycle": "object"},
    ),
)  # fmt: skip
CHANGING = (
    Form(
        "rename", "Rename", "What the object is called.",
        (OBJECT, Field("name", "Name", "text", now='get(<object>, "name")', is_needed=True)),
        (Step('set(<object>, "name", <name>)'),), blame={"set E_PERM": "object", "set E_INVIND": "object"},
    ),
    Form(
        "move", "Move", "Where the object is.",
        (OBJECT, Field("place", "To", "place", "A place that accepts it, or: nowhere.", now='get(<object>, "location")')),
        (Step("move(<object>, <place>)"),), blame={"move E_PERM": "object", "move": "place"},
    ),
    Form(
        "parent", "Give another parent", "What it inherits from. Properties that it doesn’t inherit any more are lost, on all that is "
        "under it too.",
        (OBJECT, Field("parent", "Parent", "place", "An object of which everybody may make others (it is fertile), or yours, or: nothing.", now="parent(<object>)")),
        (Step("chparent(<object>, <parent>)"),), blame={"chparent": "parent"},
    ),
    Form(
        "owner", "Give to another owner",
        "Whose the object is. Only a wizard may do this. What it has keeps its owners.",
        (OBJECT, Field("owner", "Owner", "object", "Who gets it.", now='get(<object>, "owner")')),
        (Step('set(<object>, "owner", <owner>)'),), who="wizards", blame={"set E_INVARG": "owner", "set": "object"},
    ),
    Form(
        "marks", "What others may do", "Its marks: whether everybody may see what it has (r), change what it has (w), and make objects of it (f).",
        (
            OBJECT, mark("r", "r: everybody may list what it has"),
            mark("w", "w: everybody may add to what it has, and take away from it"),
            mark("f", "f: everybody may make objects under it (it is fertile)"),
        ),
        tuple(Step(f'set(<object>, "{letter}", <{letter}>)', given=letter) for letter in "rwf"), blame={"set": "object"},
    ),
    Form(
        "accept", "What it accepts", "What may be moved into it: the objects of its list and what is under them.",
        (
            OBJECT,
            Field("how", "By", "choice", options=(("own", "a list of its own"), ("inherited", "its parent’s list")),
                  now="accept_list(<object>)"),
            Field("accepts", "Accepts", "objects", "Objects, with commas between them. Empty: nothing at all.", is_needed=False,
                  now="accept_list(<object>)", section="how=own"),
        ),
        (Step("set_accept(<object>, <accepts>)", given="how=own"), Step("set_accept(<object>, 0)", given="how=inherited")),
        blame={"set_accept E_INVARG": "accepts", "set_accept": "object"},
    ),
    Form(
        "powers", "Player and wizard", "Only a wizard may change these. A wizard has every right there is.",
        (
            OBJECT, mark("player", "a player", "is_player(<object>)"), mark("wizard", "a wizard: every right"),
            mark("programmer", "a programmer: kept, and not looked at"),
        ),
        (
            Step("set_player_flag(<object>, <player>)", given="player"), Step('set(<object>, "wizard", <wizard>)', given="wizard"),
            Step('set(<object>, "programmer", <programmer>)', given="programmer"),
        ),
        who="wizards", blame={"set": "object", "set_player_flag": "object"},
    ),
    Form(
        "quota", "Quota", "How many more objects somebody may make. Each object that is made lowers it by 1.",
        (
            Field("object", "Whose", "object", "A person’s object: its number, or its name."),
            Field("quota", "May make", "number", "How many more objects.", now=f"get(<object>, {QUOTA})"),
            Field("how", "What they have now", "choice", "Without a quota one may make as many objects as one likes. In the manual it is the "
                  "property ownership_quota.", default="set", section="More",
                  options=(("set", "a quota, which becomes another"), ("add", "no quota: they get one"))),
        ),
        (
            Step(f"set(<object>, {QUOTA}, <quota>)", given="how=set"),
            Step(f'add_property(<object>, {QUOTA}, <quota>, {{<me>, "r"}})', given="how=add"),
        ),
        who="wizards", blame={"set E_PROPNF": "how", "add_property E_INVARG": "how", "set": "object", "add_property": "object"},
    ),
    Form(
        "player", "A player’s object", "With its quota, and without an account. You own both: people who own their object can rid it of its quota.",
        (
            Field("name", "Name", "text", "What the object is called."),
            Field("parent", "Parent", "place", "What it inherits from: an object of which everybody may make others (it is fertile), or yours.", default="#1"),
            Field("quota", "May make", "number", "How many objects.", default=FIRST_QUOTA),
            Field("how", "What the parent has", "choice", "", default="add",
                  options=(("add", "no quota"), ("set", "a quota (in the manual the property ownership_quota), of which it gets one of its own"))),
        ),
        (
            Step("create(<parent>)", is_new=True), Step('set(<new>, "name", <name>)'), Step("set_player_flag(<new>, 1)"),
            Step(f'add_property(<new>, {QUOTA}, <quota>, {{<me>, "r"}})', given="how=add"),
            Step(f"set(<new>, {QUOTA}, <quota>)", given="how=set"),
        ),
        who="wizards",
        blame={"create": "parent", "set E_PROPNF": "how", "add_property E_INVARG": "how"},
    ),
)  # fmt: skip
PROPERTIES = (
    Form(
        "set", "Set a property", "Its value on this object. What is under the object, and has no value of its own, gets it too.",
        (OBJECT, NAME, Field("value", "Value", "value", now="get(<object>, <name>)")),
        (Step("set(<object>, <name>, <value>)"),),
        blame={"set E_PROPNF": "name", "set E_PERM": "name", "set E_TYPE": "value", "set E_INVARG": "value", "set E_INVIND": "object"},
    ),
    Form(
        "clear", "Clear a property", "The object has no value of its own then, and reads its parent’s.",
        (OBJECT, NAME), (Step("clear_property(<object>, <name>)"),), is_loss=True, blame={"clear_property": "name"},
    ),
    Form(
        "add-property", "Add a property", "A new property of the object and of all that is under it.",
        (
            OBJECT, Field("name", "Name", "name", "A word that no property of it, or of what is above or under it, has yet."),
            Field("value", "Value", "value"), letters(PROPERTY_LETTERS, default="rc"), owner(),
        ),
        (Step("add_property(<object>, <name>, <value>, {<owner>, <perms>})"),),
        blame={"add_property E_INVARG": "name", "add_property E_PERM": "object"},
    ),
    Form(
        "property-rights", "Rights of a property", "Who may read and write it on this object, and whose it is there.",
        (
            OBJECT, NAME, letters(PROPERTY_LETTERS, "property_info(<object>, <name>)"), owner("property_info(<object>, <name>)"),
            Field(
                "renamed",
                "New name",
                "name",
                "Empty: it keeps its name. Only the object that defines it can give it another.",
                is_needed=False,
            ),
        ),
        (
            Step("set_property_info(<object>, <name>, {<owner>, <perms>})", unless="renamed"),
            Step("set_property_info(<object>, <name>, {<owner>, <perms>, <renamed>})", given="renamed"),
        ),
        blame={"set_property_info E_PROPNF": "name", "set_property_info E_INVARG": "renamed", "set_property_info E_PERM": "name"},
    ),
    Form(
        "delete-property", "Delete a property", "The object that defines it, and all that is under it, lose it with its values.",
        (OBJECT, NAME), (Step("delete_property(<object>, <name>)"),), is_loss=True,
        blame={"delete_property E_PROPNF": "name", "delete_property": "object"},
    ),
)  # fmt: skip
VERBS = (
    Form(
        "add-verb", "Add a verb", "A word that people could type at it, such as: light. It is kept for other programs: nothing here runs it.",
        (
            OBJECT, Field("names", "Names", "name", "Words with spaces between them, such as: get take. A star, as in foo*bar, stands "
                          "after the letters that have to be typed."),
            letters(VERB_LETTERS, default="rx"), owner(), *arguments(),
        ),
        (Step('add_verb(<object>, {<owner>, <perms>, <names>}, {"<dobj>", "<prep>", "<iobj>"})'),),
        blame={"add_verb E_INVARG": "names", "add_verb E_PERM": "object"},
    ),
    Form(
        "verb-rights", "Names and rights of a verb", "What this word is called that people could type at it, who may read and change it, and whose it is.",
        (
            OBJECT, VERB, Field("names", "Names", "name", "Words with spaces between them.", now="verb_info(<object>, <verb>)", part=2),
            letters(VERB_LETTERS, "verb_info(<object>, <verb>)"), owner("verb_info(<object>, <verb>)"),
        ),
        (Step("set_verb_info(<object>, <verb>, {<owner>, <perms>, <names>})"),),
        blame={"set_verb_info E_VERBNF": "verb", "set_verb_info E_INVARG": "names", "set_verb_info E_PERM": "verb"},
    ),
    Form(
        "verb-args", "Arguments of a verb", "What has to be typed with this word.",
        (OBJECT, VERB, *arguments("verb_args(<object>, <verb>)")),
        (Step('set_verb_args(<object>, <verb>, {"<dobj>", "<prep>", "<iobj>"})'),),
        blame={"set_verb_args E_INVARG": "prep", "set_verb_args": "verb"},
    ),
    Form(
        "delete-verb", "Delete a verb", "It is a word that people could type at the object. Those after it move down by one.",
        (OBJECT, VERB), (Step("delete_verb(<object>, <verb>)"),), is_loss=True, blame={"delete_verb": "verb"},
    ),
)  # fmt: skip
SEVERAL = (
    Form(
        "many", "Several objects at once", "All of them, or none.",
        (
            Field("objects", "Objects", "objects", "Numbers or names, with commas or line ends between them."),
            Field("what", "What to do with them", "choice", default="move",
                  options=(("move", "move them"), ("owner", "give them to another owner (wizards)"), ("recycle", "recycle them"))),
            Field("place", "Move to", "place", "If you move them: a place that accepts them, or: nowhere.", section="what=move"),
            Field("owner", "Give to", "object", "If you give them away: who gets them.", section="what=owner"),
        ),
        (
            Step("move(<one>, <place>)", given="what=move"), Step('set(<one>, "owner", <owner>)', given="what=owner"),
            Step("recycle(<one>)", given="what=recycle"),
        ),
        each="objects", blame={"move E_NACC": "place", "move E_RECMOVE": "place", "set E_INVARG": "owner", "": "objects"},
    ),
)  # fmt: skip
DECIDING = (
    Form(
        "grant", "Grant a petition", "Its calls are made with your rights, all of them or none. It is gone then.",
        (Field("number", "Petition", "number", "The number of the petition."),), (Step("grant(<number>)"),), who="wizards",
        blame={"grant": "number"},
    ),
    Form(
        "decline", "Decline a petition", "It is gone then, and nothing else changes.",
        (Field("number", "Petition", "number", "The number of the petition."),), (Step("decline(<number>)"),), blame={"decline": "number"},
    ),
)  # fmt: skip
ALL = (*MAKING, *CHANGING, *PROPERTIES, *VERBS, *SEVERAL, *DECIDING)
FORMS = {form.key: form for form in ALL}

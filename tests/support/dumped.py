"""What worlds are dumped as, the lines of their objects from rows."""
from tests.support.columns import OPENING_OBJECTS, TABLES, object_line, thing

# The fields of an object, as the help names them.
FIELDS = ", ".join({"n": "number", "accept": "accept list or 0"}.get(column, column) for column in TABLES["object"])
# The objects of a new world.
OPENING = "".join(f"{object_line(row)}\n" for row in OPENING_OBJECTS)
# The world of tree.txt.
TREE = f"""seq 1
top #7
{OPENING}{object_line(thing(4))}
property {{#4, "a"}}
slot {{#4, #4, "a", #3, "r", 1, 10}}
{object_line(thing(5, parent=4))}
property {{#5, "b"}}
slot {{#5, #5, "b", #3, "r", 1, 20}}
slot {{#5, #4, "a", #3, "r", 0}}
{object_line(thing(6, parent=5))}
slot {{#6, #5, "b", #3, "r", 1, 21}}
slot {{#6, #4, "a", #3, "r", 0}}
{object_line(thing(7))}
property {{#7, "c"}}
slot {{#7, #7, "c", #3, "r", 1, 30}}
end
"""

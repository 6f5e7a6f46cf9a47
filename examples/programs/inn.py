"""The least program: it makes an inn in one batch, reads it, is refused, and follows what changes.

    python3 inn.py URL TOKEN
"""

import sys

from moo_client import E_PERM, Moo, Obj

world = Moo(sys.argv[1], token=sys.argv[2])
with world.batch() as batch:
    inn = batch.add("create", Obj(1))
    batch.add("set", inn, "name", "The Inn")
    owner = batch.add("get", inn, "owner")
    batch.add("add_property", inn, "beds", 3, [owner, "r"])
print(f"made {inn.value}")

name, beds, owner_of_it = world.ask([("get", inn.value, "name"), ("get", inn.value, "beds"), ("get", inn.value, "owner")])
print(f"{name} has {beds} beds and {owner_of_it} owns it")

try:
    world.run([("set", Obj(3), "name", "Ada's")])
except E_PERM as refusal:
    print(f"refused: E_PERM at call {refusal.call}")

since = world.seq()
world.run([("set", inn.value, "beds", 4)])
change = next(world.changes(since))
print(f"changed: {', '.join(map(str, change.objects))}")

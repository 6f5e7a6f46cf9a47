// Three classes: rooms, things and lamps. `moo-shell -f examples/classes.moo world.db` makes them; village.moo includes this file.

// A class is an object that others are made under. `create(#1)` makes one under the root class, and $room stands for its number from here
// on. What is between `begin` and `end` is one batch: all of it acts, or nothing.
begin
$room = create(#1)
set($room, "name", "generic room")
// "f" is the mark of a fertile object: builders may make rooms under it.
set($room, "f", 1)
// Each room inherits a description. "r": everybody may read it; "c": the owner of a room owns the description there, and may change it.
add_property($room, "description", "There is nothing special here.", {#3, "rc"})
// Exits are a list of pairs, a direction and a room. A new room has none.
add_property($room, "exits", {}, {#3, "rc"})
// What may be put into a room: everything under the root class. The rooms under this one inherit the list.
set_accept($room, {#1})
end

// The same for things: what can be carried. A weight without "c" stays the wizard's on each thing, so that builders can't change it.
begin
$thing = create(#1)
set($thing, "name", "generic thing")
set($thing, "f", 1)
add_property($thing, "description", "You see nothing special.", {#3, "rc"})
add_property($thing, "weight", 1, {#3, "r"})
end

// A class may be made under another: a lamp is a thing, with a weight and a description, that is lit or not.
begin
$lamp = create($thing)
set($lamp, "name", "generic lamp")
set($lamp, "f", 1)
add_property($lamp, "lit", 0, {#3, "rc"})
// A verb is kept as its header: who owns it, "r" for everybody may read it, its names, and the words that it takes.
add_verb($lamp, {#3, "r", "light ignite"}, {"this", "none", "none"})
end

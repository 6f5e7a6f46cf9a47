// A village of ten rooms with a lamp in it, two builders, and a petition.
//
//   moo init world.db
//   moo-shell --dry-run -f examples/village.moo world.db     says what it would make, and changes nothing
//   moo-shell -f examples/village.moo world.db               makes it

// The classes come from another file. Its names, $room, $thing and $lamp, are known from here on.
include classes.moo

// The first four rooms. A call may use a name of the same batch.
begin
$square = create($room)
set($square, "name", "The Square")
set($square, "description", "Lime trees stand round a dry fountain.")
$lane = create($room)
set($lane, "name", "Mill Lane")
$mill = create($room)
set($mill, "name", "The Mill")
$bridge = create($room)
set($bridge, "name", "The Bridge")
end

// Six more.
begin
$inn = create($room)
set($inn, "name", "The Inn")
$cellar = create($room)
set($cellar, "name", "The Cellar")
$chapel = create($room)
set($chapel, "name", "The Chapel")
$school = create($room)
set($school, "name", "The School")
$garden = create($room)
set($garden, "name", "The Garden")
$wood = create($room)
set($wood, "name", "The Wood")
end

// How they are joined. A name may be in a list, at any depth.
begin
set($square, "exits", {{"north", $lane}, {"east", $inn}, {"south", $chapel}, {"west", $school}})
set($lane, "exits", {{"south", $square}, {"north", $mill}})
set($mill, "exits", {{"south", $lane}, {"east", $bridge}})
set($bridge, "exits", {{"west", $mill}, {"east", $wood}})
set($inn, "exits", {{"west", $square}, {"down", $cellar}})
set($cellar, "exits", {{"up", $inn}})
set($chapel, "exits", {{"north", $square}})
set($school, "exits", {{"east", $square}, {"south", $garden}})
set($garden, "exits", {{"north", $school}})
set($wood, "exits", {{"west", $bridge}})
end

// A lamp, in the cellar. It is lit: the value of the class stays 0.
begin
$light = create($lamp)
set($light, "name", "brass lamp")
set($light, "lit", 1)
move($light, $cellar)
end

// The wizard goes to the square. A call without `begin` is a batch of its own.
move(#3, $square)

// The builders, and what one of them asks for.
include builders.moo

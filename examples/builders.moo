// Two builders with quotas, and a petition. village.moo includes this file, and its names $room, $square and $wood are used here.

// The quota is a property like any other. It is made once, on the root class, with a text as its value: only an integer bounds anything.
// Without "r" and "c" nobody but a wizard reads or sets it.
add_property(#1, "ownership_quota", "", {#3, ""})

// A builder is an object that calls. The owner #-1 says that it owns itself.
begin
$ada = create(#1, #-1)
set($ada, "name", "Ada")
set_player_flag($ada, 1)
set($ada, "ownership_quota", 2)
move($ada, $square)
$ben = create(#1, #-1)
set($ben, "name", "Ben")
set_player_flag($ben, 1)
set($ben, "ownership_quota", 1)
move($ben, $square)
end

// The calls that follow are Ada's. She may make two objects: here is the first.
\as $ada
begin
$hut = create($room)
set($hut, "name", "Ada's Hut")
// What she makes is hers, and so is its description.
set($hut, "description", "It smells of smoke.")
end

// Ben makes his one object. A second one would be refused by his quota: `\ask` tries it, and goes on.
\as $ben
$boat = create($room)
\ask create($room)

// Ada can't join her hut to the wood, since the wood isn't hers. So she asks the wizards for it, and for one more object in her quota.
\as $ada
\ask set($wood, "exits", {{"north", $hut}})
$asked = petition({{"set", $wood, "exits", {{"west", $bridge}, {"north", $hut}}}, {"set", $ada, "ownership_quota", 2}})

// The wizard looks at the petitions, tries what a grant would do, and grants it.
\as #3
\petitions
\ask grant($asked)
grant($asked)

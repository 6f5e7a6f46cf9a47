"""A game for two on a front of moo: rooms with exits, things to take and to make, a quota, and a petition for more.

    python3 game.py URL WIZARD=3=TOKEN ada=4=TOKEN ben=5=TOKEN <moves

URL is the front's address. A word is a name, the number of the person's object, and the person's token. Each line of `moves` is a move:
`ada: east`, `ada: take lamp`, `ada: drop lamp`, `ada: make kite`, `ada: beg`, `ada: look`. The game says what comes of it, and what the
other player sees of it.

Players talk to this program, and this program talks to moo. moo keeps the world and its rights: who may write what, how many objects a
player may make, what a room accepts. Rules that moo doesn't know are here: that a room is left by its exits, and that hands reach what is in
the same room. For these the game acts as a wizard; what players make is theirs, by their own tokens.
"""

from __future__ import annotations

import sys
from collections.abc import Iterator
from typing import Any

from moo_client import E_QUOTA, Change, Moo, Obj, Stale

QUOTA, MOST = 1, 3
ROOMS = ("Hall", "Attic", "Garden", "Cellar")
# From which room one gets by which word to which other.
EXITS = (
    ("Hall", "up", "Attic"), ("Attic", "down", "Hall"), ("Hall", "east", "Garden"), ("Garden", "west", "Hall"),
    ("Garden", "down", "Cellar"), ("Cellar", "up", "Garden"),
)  # fmt: skip
THINGS = (("lamp", "Hall"), ("apple", "Garden"))


class Game:
    """The world of the game, and its players."""

    def __init__(self, hand: Moo, wizard: Obj, players: dict[str, tuple[Obj, Moo]]) -> None:
        self.hand, self.wizard, self.players = hand, wizard, players
        self.thing = self.build()
        self.changes: Iterator[Change] = hand.changes(hand.seq())
        self.number = hand.seq()
        self.scenes = {name: self.scene(name) for name in players}

    def build(self) -> Any:
        """Makes the rooms and the things, all in one batch; it gives the class of things."""
        with self.hand.batch() as batch:
            room, thing = batch.add("create", Obj(1)), batch.add("create", Obj(1))
            batch.add("set", thing, "f", 1)
            batch.add("add_property", room, "exits", [], [self.wizard, "r"])
            rooms = {name: batch.add("create", room) for name in ROOMS}
            for name, made in rooms.items():
                batch.add("set", made, "name", name)
                batch.add("set", made, "exits", [[word, rooms[to]] for place, word, to in EXITS if place == name])
                batch.add("set_accept", made, [thing])
            for name, place in THINGS:
                made = batch.add("create", thing)
                batch.add("set", made, "name", name)
                batch.add("move", made, rooms[place])
            for name, (player, _) in self.players.items():
                batch.add("set", player, "name", name)
                batch.add("add_property", player, "ownership_quota", QUOTA, [self.wizard, "r"])
                batch.add("move", player, rooms["Hall"])
        return thing.value

    # What is there

    def names(self, objects: list[Obj]) -> dict[str, Obj]:
        """These objects by their names, asked for all at once."""
        return dict(zip(self.hand.ask([("get", one, "name") for one in objects]), objects))

    def around(self, name: str) -> tuple[Obj, list[Obj]]:
        """The room that a player is in, and what else is there."""
        player, _ = self.players[name]
        (room,) = self.hand.ask([("get", player, "location")])
        (inside,) = self.hand.ask([("get", room, "contents")])
        return room, [one for one in inside if one != player]

    def scene(self, name: str) -> set[str]:
        """What a player sees besides the room."""
        return set(self.names(self.around(name)[1]))

    # What players do

    def look(self, name: str) -> str:
        """Where the player is, and what is there."""
        room, inside = self.around(name)
        title, exits = self.hand.ask([("get", room, "name"), ("get", room, "exits")])
        return f"{title}: {', '.join(sorted(self.names(inside))) or 'nothing'}; exits {', '.join(word for word, _ in exits)}"

    def walk(self, name: str, word: str) -> str:
        """Takes an exit, if the room has it."""
        room, _ = self.around(name)
        (exits,) = self.hand.ask([("get", room, "exits")])
        to = dict(exits).get(word)
        if to is None:
            return "no way there"
        self.hand.run([("move", self.players[name][0], to)])
        return self.look(name)

    def take(self, name: str, what: str) -> str:
        """Takes a thing of the same room. If the world moves on between look and grasp, it looks again."""
        player, _ = self.players[name]
        while True:
            at = self.hand.seq()
            thing = self.names(self.around(name)[1]).get(what)
            if thing is None or what in self.players:
                return f"no {what} here"
            try:
                self.hand.run([("move", thing, player)], at=at)
                return f"taken: {what}"
            except Stale:
                continue

    def drop(self, name: str, what: str) -> str:
        """Puts a thing down that the player has."""
        player, _ = self.players[name]
        (held,) = self.hand.ask([("get", player, "contents")])
        thing = self.names(held).get(what)
        if thing is None:
            return f"no {what} in hand"
        self.hand.run([("move", thing, self.around(name)[0])])
        return f"dropped: {what}"

    def make(self, name: str, what: str) -> str:
        """Makes a thing of the player's own, by the player's token, so that it counts against the player's quota."""
        _, own = self.players[name]
        room, _ = self.around(name)
        try:
            with own.batch() as batch:
                made = batch.add("create", self.thing)
                batch.add("set", made, "name", what)
                batch.add("move", made, room)
        except E_QUOTA:
            return "nothing left to make it of"
        return f"made: {what}"

    def beg(self, name: str) -> str:
        """Asks for one more thing to make, by a petition, and lets the wizard answer it."""
        player, own = self.players[name]
        (number,) = own.run([("petition", [["set", player, "ownership_quota", 1]])])
        made = sum(one["owner"] == player for one in self.hand.objects())
        self.hand.run([("grant" if made < MOST else "decline", number)])
        return "granted" if made < MOST else "declined"

    # The game itself

    def move(self, name: str, words: list[str]) -> Iterator[str]:
        """What comes of a move, and then what the others see of it, by the feed."""
        acts = {"take": self.take, "drop": self.drop, "make": self.make}
        if words == ["look"] or words == ["beg"]:
            yield f"{name}: {getattr(self, words[0])(name)}"
        elif len(words) == 2 and words[0] in acts:
            yield f"{name}: {acts[words[0]](name, words[1])}"
        else:
            yield f"{name}: {self.walk(name, ' '.join(words))}"
        yield from self.news(name)

    def news(self, mover: str) -> Iterator[str]:
        """What came into the scenes of the others and what left them, once the feed has told of all that is done."""
        done = self.hand.seq()
        while self.number < done:
            self.number = next(self.changes).seq
        for name in self.players:
            before, self.scenes[name] = self.scenes[name], self.scene(name)
            for what in sorted(before ^ self.scenes[name]) if name != mover else ():
                yield f"{name} sees: {what} {'goes' if what in before else 'comes'}"


def main(url: str, *words: str) -> None:
    """Plays the moves of standard input."""
    people = {name: (Obj(int(number)), Moo(url, token=token)) for name, number, token in (word.split("=") for word in words)}
    wizard, hand = people.pop(next(iter(people)))
    game = Game(hand, wizard, people)
    for line in sys.stdin:
        name, _, move = line.strip().partition(": ")
        for said in game.move(name, move.split()):
            print(said, flush=True)


if __name__ == "__main__":
    main(*sys.argv[1:])

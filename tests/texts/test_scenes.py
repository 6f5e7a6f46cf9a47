"""Worked batches and their replies: each scene of tests/scenes, played as a text, rehearsed, up to its first mistake, and over HTTP."""
import itertools

from tests.support.cases import ProgramTest
from tests.support.notation import read_scenes
from tests.support.program import MOO, TOP, edit, run_bytes
from tests.support.service import Service, post

SCENES = TOP / "tests/scenes"

numbers = itertools.count(1)


def new_world(scene):
    """A world in memory, or a file if the scene changes it by hand."""
    if not scene.is_on_file():
        return ":memory:"
    file = f"scene{next(numbers)}.db"
    run_bytes("init", file)
    return file


def play(scene, take):
    """What each stretch of a scene is answered in turn, by what takes a world and batches."""
    world = new_world(scene)
    came = []
    for batches, change in scene.stretches():
        if batches:
            came.append(take(world, batches))
        if change:
            edit(world, change)
    return came


def as_text(world, batches):
    return run_bytes("apply", world, "-", text=b"".join(batch.text() for batch in batches))


def as_rehearsal(world, batches):
    return run_bytes("rehearse", world, "-", text=b"".join(batch.text() for batch in batches))


def up_to_a_mistake(world, batches):
    return run_bytes("apply", "--stop", world, "-", text=b"".join(batch.text() for batch in batches))


def over_http(world, batches):
    service = Service(MOO, world, len(batches))
    responses = [service.ask(post("/batch", batch.body())) for batch in batches] if service.is_listening() else []
    return responses, service.end()


def replies(batches):
    return 0, b"".join(batch.reply_text() for batch in batches)


def first_replies(batches):
    """The replies up to and with the first that isn't `accepted`, and status 1 if there is one."""
    front = []
    for batch in batches:
        front.append(batch.reply_text())
        if not batch.reply.startswith("accepted"):
            return 1, b"".join(front)
    return 0, b"".join(front)


def responses(batches):
    return [batch.response() for batch in batches], (0, f"served {len(batches)} failed 0\n")


def wanted(scene, expect):
    return [expect(batches) for batches, _ in scene.stretches() if batches]


def scenes():
    """Each scene, with its name and that of its file."""
    for path in sorted(SCENES.glob("*.txt")):
        for scene in read_scenes(path.read_text()):
            yield f"{path.stem}: {scene.name}", scene


class Scenes(ProgramTest):
    def test_as_texts(self):
        for name, scene in scenes():
            self.case(f"{name}, as a text", play(scene, as_text), wanted(scene, replies))

    def test_rehearsed(self):
        """Each stretch that is rehearsed is run then, for the one after it."""
        def told(world, batches):
            came = as_rehearsal(world, batches)
            as_text(world, batches)
            return came

        for name, scene in scenes():
            self.case(f"{name}, rehearsed", play(scene, told), wanted(scene, replies))

    def test_up_to_a_mistake(self):
        for name, scene in scenes():
            if not scene.is_on_file():
                self.case(f"{name}, up to a mistake", play(scene, up_to_a_mistake), wanted(scene, first_replies))

    def test_over_http(self):
        for name, scene in scenes():
            self.case(f"{name}, over HTTP", play(scene, over_http), wanted(scene, responses))

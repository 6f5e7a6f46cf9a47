"""What programs send to `/api/..`, read once: a body, its calls with their names, and answers as they are wanted."""

from __future__ import annotations

import json
from typing import Any, NamedTuple

from moolib.batches import Item
from moolib.json_values import calls_of, in_json as value_in_json
from moolib.names import NoName, have_names, names_of, read_items
from moolib.service import MOST_CALLS
from moolib.values import read

from moo_web.app import Reply, Request, in_json
from moo_web.journal.notes import Note, Unfit, words_in
from moo_web.people.person import Person
from moo_web.world.door import Answer

NOT_JSON = in_json(400, error="bad request", why="the body isn't JSON")
NOT_AN_OBJECT = in_json(400, error="bad request", why="the body isn't an object")


class BadBody(Exception):
    """The body isn't an object in JSON, or has calls that can't be; `reply` says so."""

    def __init__(self, reply: Reply) -> None:
        super().__init__()
        self.reply = reply


class Sent(NamedTuple):
    """A body: who sent it, the object that it is, its calls with their names if it has any, and whether values are wanted as JSON."""

    person: Person
    said: dict[str, Any]
    items: list[Item] | None
    is_json: bool

    @property
    def calls(self) -> list[str]:
        """The calls, as texts."""
        calls: list[str] = self.said["calls"]
        return calls

    @property
    def at(self) -> int | None:
        """The number of the world for which they are."""
        at: int | None = self.said.get("at")
        return at

    @property
    def note(self) -> Note:
        """The words that came with it. `BadBody`: they can't be kept."""
        words = self.said.get("words", "")
        if not isinstance(words, str):
            raise BadBody(in_json(400, error="bad request", why="the value of words isn't a string"))
        try:
            return Note(words_in(words))
        except Unfit as unfit:
            raise BadBody(in_json(400, error="bad request", why=str(unfit))) from None

    @property
    def is_batch(self) -> bool:
        """Whether it has the shape of a batch."""
        calls, at = self.said.get("calls"), self.said.get("at")
        is_number = at is None or (isinstance(at, int) and not isinstance(at, bool) and at >= 0)
        return is_number and isinstance(calls, list) and len(calls) <= MOST_CALLS and all(isinstance(call, str) for call in calls)

    def body(self) -> bytes:
        """The body that moo is sent: the person's own number, and what was said of `calls` and `at`. Nothing else gets through."""
        asked = {"as": f"#{self.person.number}"} | {key: self.said[key] for key in ("at", "calls") if key in self.said}
        text = json.dumps(asked, separators=(",", ":"), ensure_ascii=False)
        return text.encode(errors="surrogatepass")


def read_number(text: str) -> int | float:
    """A number as Python has it. -0 becomes one that isn't written in digits alone, as it wasn't."""
    return int(text) if text != "-0" else -0.0


def read_body(request: Request) -> dict[str, Any]:
    """The object in a request's body. `BadBody`: there is none."""
    try:
        said = json.loads(request.body().decode(), parse_int=read_number)
    except (ValueError, RecursionError):
        raise BadBody(NOT_JSON) from None
    if not isinstance(said, dict):
        raise BadBody(NOT_AN_OBJECT)
    return said


def wants(request: Request, word: str) -> bool:
    """Whether the query has this word, alone or as one of several."""
    return request.fields().get(word) in ("", "1")


def read_sent(person: Person, said: dict[str, Any], is_json: bool, may_name: bool) -> Sent:
    """What a person sent. `BadBody`: a value in a call can't be, or a call uses a name before it is given."""
    calls = said.get("calls")
    try:
        if is_json and isinstance(calls, list) and len(calls) <= MOST_CALLS:
            said = {**said, "calls": calls_of(calls)}
        sent = Sent(person, said, None, is_json)
        if may_name and sent.is_batch and any("$" in call for call in sent.calls):
            items = read_items(sent.calls)
            sent = sent._replace(items=items if have_names(items) else None)
        return sent
    except (ValueError, NoName) as error:
        raise BadBody(in_json(400, error="bad request", why=str(error))) from None


def replied(sent: Sent, answer: Answer) -> Reply:
    """moo's answer as it came; with the names of its answers, if it has some; and with its values as JSON, if they are wanted so."""
    if answer.status != 200 or not (sent.items or sent.is_json):
        return Reply(answer.status, answer.body)
    said: dict[str, Any] = dict(answer.said)
    if sent.items:
        said["names"] = names_of(sent.items, said["answers"])
    if sent.is_json and "answers" in said:
        said["answers"] = list(map(of_literal, said["answers"]))
        said |= {"names": {name: of_literal(text) for name, text in said["names"].items()}} if sent.items else {}
    elif sent.is_json:
        said["each"] = [{"answer": of_literal(one["answer"])} if "answer" in one else one for one in said["each"]]
    return in_json(200, **said)


def of_literal(text: str) -> Any:
    """The value of a literal, as JSON."""
    return value_in_json(read(text))

"""The interface for programs as a table: each route of `/api/..`, what it takes, and what it answers.

`api` makes its routes of this table, `openapi` describes them by it, and the page `/api` shows it.
"""

from __future__ import annotations

from typing import NamedTuple


class Word(NamedTuple):
    """A word of a path or of a query: its name, what it is, and in JSON Schema which values it may have."""

    name: str
    says: str
    schema: dict[str, object]


class Outcome(NamedTuple):
    """An answer: its status, when it comes, and the name of its shape."""

    status: int
    says: str
    shape: str


class ApiRoute(NamedTuple):
    """A route: its name, method and path, what it does, the words of its path and query, the shape of its body, and its own answers.

    `is_open`: it wants no token. `is_writing`: a token that is for reading alone isn't enough.
    """

    name: str
    method: str
    path: str
    says: str
    answers: tuple[Outcome, ...]
    words: tuple[Word, ...] = ()
    query: tuple[Word, ...] = ()
    body: str = ""
    is_open: bool = False
    is_writing: bool = False


FLAG: dict[str, object] = {"type": "string", "enum": ["", "1"]}
JSON = Word("json", "values in answers are JSON, and a call may be a list of its name and its values in JSON", FLAG)
OBJECT = Word("any", "the number of an object", {"type": "integer", "minimum": -(2**31), "maximum": 2**31 - 1})
NUMBER = Word("batch", "a number of the world", {"type": "integer", "minimum": 0})
WAIT = Word("wait", "how many seconds to wait for the next change, if there is none yet", {"type": "integer", "minimum": 0, "maximum": 25})
LOSSES = Word("losses", "besides, what the batch would destroy or replace", FLAG)
BATCHES = Word("batches", "whole batches besides, for wizards", FLAG)

BAD_BODY = Outcome(400, "the body isn't a batch, a call can't be read, or a name or a value can't be", "refusal")
STALE = Outcome(409, "a call fails, or the world has another number than `at`", "refusal")
TOO_LARGE = Outcome(413, "the body has over 1,048,576 bytes, or the answer over 16 MiB", "refusal")
NO_OBJECT = Outcome(404, "there is no such object", "refusal")

ROUTES = (
    ApiRoute(
        "batch", "POST", "/api/batch", "Runs a batch, once, and journals it.",
        (Outcome(200, "every call was done", "answers"), BAD_BODY, STALE, TOO_LARGE), query=(JSON,), body="calls", is_writing=True,
    ),
    ApiRoute(
        "ask", "POST", "/api/ask", "Says what a batch would answer, and changes nothing.",
        (Outcome(200, "what it would answer", "answers"), BAD_BODY, STALE, TOO_LARGE), query=(JSON, LOSSES), body="calls",
    ),
    ApiRoute(
        "each", "POST", "/api/each", "Says what each call alone would answer, and changes nothing.",
        (Outcome(200, "an answer or an error for each call", "each"), BAD_BODY, STALE, TOO_LARGE), query=(JSON,), body="calls",
    ),
    ApiRoute("seq", "GET", "/api/seq", "The number of accepted batches.", (Outcome(200, "the number", "seq"),)),
    ApiRoute(
        "object", "GET", "/api/object/<any>", "What is built in of an object.",
        (Outcome(200, "the object", "object"), NO_OBJECT), words=(OBJECT,),
    ),
    ApiRoute(
        "objects", "GET", "/api/objects/<any>", "The objects from a number on, at most 1,000.",
        (Outcome(200, "some objects, and the number to go on from", "objects"), NO_OBJECT), words=(OBJECT,),
    ),
    ApiRoute(
        "since", "GET", "/api/since/<batch>", "Which objects the batches after a number named or made, now or when the next batch comes.",
        (
            Outcome(200, "these objects, and the number up to which that is", "changes"),
            Outcome(400, "the world hasn't that number yet, or `wait` isn't from 0 to 25", "refusal"),
            Outcome(410, "the journal begins later, at `seq`: read the world again", "gone"),
        ), words=(NUMBER,), query=(WAIT, BATCHES),
    ),
    ApiRoute(
        "dump", "GET", "/api/dump", "All that the world holds, for wizards, as `moo dump` writes it.", (Outcome(200, "the dump", "dump"),),
    ),
    ApiRoute(
        "openapi", "GET", "/api/openapi.json", "This interface, for programs that read OpenAPI.",
        (Outcome(200, "the description", "description"),), is_open=True,
    ),
)  # fmt: skip
# What any route may answer besides.
ALWAYS = (
    Outcome(401, "no token came that is known", "refusal"),
    Outcome(403, "the person may not do this, or the token is read-only and the route writes, or `as` is another's number, or `host` another's name", "refusal"),
    Outcome(429, "the token or the address has used up its rate, or the person a share or what may be added; `retry-after` says when to come again", "refusal"),
    Outcome(503, "nothing was sent (`busy`, `gap`), it isn't decided yet (`unknown`), or moo couldn't", "refusal"),
)


class Cause(NamedTuple):
    """An error by its code: what it means, and what a program does about it."""

    code: str
    status: str
    says: str
    do: str


CAUSES = (
    Cause("bad request", "400", "the body, a name, a value or a word of the query isn't as it has to be; `why` says which", "mend the program"),
    Cause("malformed", "400", "call K, counted from 1, isn't a call", "mend the program"),
    Cause("unauthorized", "401", "no token came that is known", "get a token"),
    Cause("forbidden", "403", "the person may not do this, or the token is for reading alone", "ask an operator, or use another token"),
    Cause("not found", "404", "there is no such route, or N is no number", "mend the program"),
    Cause("method not allowed", "405", "the route has another method, which `allow` names", "mend the program"),
    Cause("stale", "409", "the world has the number S, and not the one in `at`", "look at the world, and send it for S"),
    Cause("full", "409", "no number is left for what call K makes", "ask an operator"),
    Cause("gone", "410", "the feed begins at S, after the number that was asked for", "read the world again, and follow from its number"),
    Cause("too large", "413", "the body or the answer is too long", "make two batches of it"),
    Cause("too many", "429", "the token or the address has used up its rate, or the person a share or what may be added", "wait for `retry-after` seconds"),
    Cause("busy", "503", "nothing was sent", "send it again, after a pause that has chance"),
    Cause("unknown", "503", "the batch was sent for number S, and will be decided", "see what became of it before you send it again"),
    Cause("gap", "503", "writing has stopped: somebody else wrote the world", "ask an operator"),
    Cause("nomemory", "503", "moo's memory ran out, or it is too much work for one request, as `why` says then; nothing changed", "make several batches of it"),
    Cause("closed", "503", "moo's store failed before; nothing changed", "send it again, after a pause: the service is started again"),
    Cause("fault", "503", "moo's store failed now: the batch has acted or not", "see what became of it before you send it again"),
    Cause("internal", "500", "the front failed; its log says how", "ask an operator"),
)

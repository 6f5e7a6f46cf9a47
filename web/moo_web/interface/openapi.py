"""The description of the interface for programs as OpenAPI has it, made of the table in `interface`."""

from __future__ import annotations

from typing import Any

from moo_web.interface.interface import ALWAYS, ROUTES, ApiRoute, Outcome, Word
from moo_web.paths import PART
from moolib.calls import LONGEST_CALL
from moolib.service import MOST_CALLS

VERSION = "3.0.3"
NUMBER = {"type": "string", "pattern": "^#-?[0-9]{1,10}$", "example": "#4"}
BIT = {"type": "integer", "enum": [0, 1]}
COUNT = {"type": "integer", "minimum": 0}
# A value as a literal, or with `?json` as JSON.
VALUE: dict[str, Any] = {"description": "a literal such as \"#4\", or with ?json a value as JSON"}
LINKS = {name: NUMBER for name in ("location", "owner", "parent")}
BITS = {name: BIT for name in ("f", "player", "programmer", "r", "w", "wizard")}


def shape_of(required: dict[str, Any], **more: Any) -> dict[str, Any]:
    """The shape of an object with these keys, and perhaps some more."""
    return {"type": "object", "required": sorted(required), "properties": {**required, **more}}


def many(inner: Any) -> dict[str, Any]:
    """The shape of a list."""
    return {"type": "array", "items": inner}


CALL = {
    "oneOf": [
        {"type": "string", "maxLength": LONGEST_CALL, "example": "$room = create(#1)"},
        {"type": "array", "minItems": 1, "items": {}, "description": "with ?json alone", "example": ["set", {"obj": 4}, "name", "Inn"]},
    ]
}
BATCH = {
    "answers": {"type": "array", "nullable": True, "items": {"type": "string"}}, "as": NUMBER, "at": {"type": "string", "format": "date-time"},
    "calls": many({"type": "string"}), "seq": COUNT, "who": {"type": "string"},
}  # fmt: skip
LOSS = shape_of({"object": NUMBER, "property": {"type": "string"}, "value": {"type": "string"}})
SHAPES: dict[str, dict[str, Any]] = {
    "calls": shape_of(
        {"calls": {**many(CALL), "maxItems": MOST_CALLS}}, at={**COUNT, "nullable": True},
        words={"type": "string", "maxLength": 1000, "description": "for /api/batch: why it is sent"},
        **{"as": {**NUMBER, "description": "one's own number"}},
    ),
    "answers": shape_of(
        {"answers": many(VALUE), "seq": COUNT}, names={"type": "object", "additionalProperties": VALUE}, losses=many(LOSS),
        hidden={**COUNT, "nullable": True},
    ),
    "each": shape_of({
        "each": many({"type": "object", "properties": {"answer": VALUE, "error": {"type": "string"}, "why": {"type": "string"}}}),
        "seq": COUNT,
    }),
    "seq": shape_of({"seq": COUNT}),
    "object": shape_of({"name": {"type": "string"}, "children": many(NUMBER), "contents": many(NUMBER), **LINKS, **BITS}),
    "objects": shape_of({
        "objects": many(shape_of({"name": {"type": "string"}, "number": NUMBER, **LINKS, **BITS})),
        "next": {**NUMBER, "nullable": True}, "seq": COUNT,
    }),
    "changes": shape_of({"objects": many(NUMBER), "seq": COUNT}, batches=many(shape_of(BATCH))),
    "gone": shape_of({"error": {"type": "string", "enum": ["gone"]}, "seq": COUNT}),
    "refusal": shape_of(
        {"error": {"type": "string"}}, why={"type": "string"}, call={"type": "integer", "minimum": 1}, seq=COUNT, at=COUNT
    ),
    "description": {"type": "object"},
}  # fmt: skip


def path_of(route: ApiRoute) -> str:
    """The path of a route as OpenAPI writes it."""
    names = iter(("N",) * 9)
    return PART.sub(lambda found: "{" + next(names) + "}", route.path)


def parameter(word: Word, place: str) -> dict[str, Any]:
    """A word of the path or of the query."""
    name = "N" if place == "path" else word.name
    more = {"allowEmptyValue": True} if place == "query" and word.schema.get("type") == "string" else {}
    return {"name": name, "in": place, "required": place == "path", "description": word.says, "schema": word.schema, **more}


def response(outcome: Outcome) -> dict[str, Any]:
    """What may come of a request."""
    if outcome.shape == "dump":
        return {"description": outcome.says, "content": {"text/plain": {"schema": {"type": "string"}}}}
    return {"description": outcome.says, "content": {"application/json": {"schema": {"$ref": f"#/components/schemas/{outcome.shape}"}}}}


def operation(route: ApiRoute) -> dict[str, Any]:
    """What a route does."""
    answers = (*route.answers, *(() if route.is_open else ALWAYS))
    said: dict[str, Any] = {
        "operationId": route.name, "summary": route.says,
        "parameters": [*[parameter(word, "path") for word in route.words], *[parameter(word, "query") for word in route.query]],
        "responses": {str(answer.status): response(answer) for answer in answers},
    }  # fmt: skip
    if route.body:
        schema = {"$ref": f"#/components/schemas/{route.body}"}
        said["requestBody"] = {"required": True, "content": {"application/json": {"schema": schema}}}
    if route.is_open:
        said["security"] = []
    return said


def description(routes: tuple[ApiRoute, ...] = ROUTES) -> dict[str, Any]:
    """The whole description."""
    paths: dict[str, dict[str, Any]] = {}
    for route in routes:
        paths.setdefault(path_of(route), {})[route.method.lower()] = operation(route)
    return {
        "openapi": VERSION,
        "info": {"title": "moo, for programs", "version": "1", "description": "Batches of calls on a world of objects, and what changes in it."},
        "security": [{"token": []}],
        "paths": paths,
        "components": {"schemas": SHAPES, "securitySchemes": {"token": {"type": "http", "scheme": "bearer"}}},
    }

"""What the front counts while it works. Each part is given the one method that it needs."""

from __future__ import annotations

from moolib.errors import is_too_much
from moolib.service import Answer

from moo_web.status.metrics import Counter, Histogram, Metric

LOST = "no answer"
TOO_MUCH = "too much"


class Meters:
    """The counters and histograms of a front."""

    def __init__(self) -> None:
        self.answers = Counter("moo_requests_total", "Requests that the front has answered, by route and status.", "route", "status")
        told = "Seconds until the answer to a request was made, of programs (api) and of people (pages)."
        self.answer_seconds = Histogram("moo_answer_seconds", told, "kind")
        self.refusals = Counter("moo_refusals_total", "Refusals, by who refused (front or moo) and the word for it.", "by", "kind")
        self.moo_seconds = Histogram("moo_request_seconds", "Seconds that moo took for a request, by its route.", "route")
        self.sync_seconds = Histogram("moo_journal_sync_seconds", "Seconds that a sync of the journal took, of all its disks.")
        self.audited = Counter("moo_audit_total", "What was done about accounts, by the words of its line in the log.", "event")

    def all(self) -> list[Metric]:
        """All of them."""
        return [self.answers, self.answer_seconds, self.refusals, self.moo_seconds, self.sync_seconds, self.audited]

    def asked(self, target: str, seconds: float, answer: Answer | None) -> None:
        """Counts a request to moo; None: no answer came."""
        self.moo_seconds.take(seconds, "/" + target[1:].partition("?")[0].partition("/")[0])
        if answer is None or answer.error:
            self.refusals.add("moo", kind_of(answer.error, answer.why) if answer else LOST)


def kind_of(error: str, why: str) -> str:
    """The kind of a refusal: its error, or that it was too much work for one request. Memory isn't short then."""
    return TOO_MUCH if is_too_much(error, why) else error

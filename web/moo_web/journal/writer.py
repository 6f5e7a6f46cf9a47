"""The one writer of a world: an intent in the journal before each batch, its outcome after it. docs/JOURNAL.md has the argument.

    writer = Writer(Door(8080), journal, tell)
    writer.start()
    answer = writer.write("ada", 4, ["create(#2)"])

Batches wait in a queue for one thread, which asks moo what a batch would answer, puts the intent on the disk, and sends the batch until it
is decided. Who waits for a batch waits for so many seconds and no longer.
"""

from __future__ import annotations

import collections
import threading
import time
from typing import Any, Callable

from moolib.batches import Item, resolved
from moolib.errors import Failed, LostAnswer, NoService
from moolib.service import FIRST_PAUSE, LONGEST_PAUSE

from moo_web.journal.jobs import Barred, Busy, Job, Stopped, TooMuch, Unknown
from moo_web.journal.journal import Broken, Journal, NoRoom, told_of_gap
from moo_web.journal.memory import Memory
from moo_web.journal.notes import NO_NOTE, Note
from moo_web.journal.segments import Accepted, accepted_of, kept_answers
from moo_web.people.person import Person
from moo_web.traffic.turns import NobodyWaits
from moo_web.traffic.visitors import never, present, visiting
from moo_web.traffic.writing import Free
from moo_web.world.asking import Moved
from moo_web.world.door import Answer, Door, TooLong, Unreachable, batch_body, own_answer, told_of_answer

PATIENCE = 10.0
LONGEST_QUEUE = 64
TOLD_AFTER = 5.0


class Writer:
    """The only writer of the world at a door. `tell` is given a sentence for each thing that an operator should know."""

    def __init__(self, door: Door, journal: Journal, tell: Callable[[str], None], patience: float = PATIENCE) -> None:
        self.door, self.journal, self.tell, self.patience = door, journal, tell, patience
        self.memory = Memory(door)
        self.queue: collections.deque[Job] = collections.deque()
        self.wake = threading.Condition()
        self.seq = journal.seq or 0
        self.stopped: str | None = None
        self.owed: list[dict[str, Any]] = []
        self.listeners: list[Callable[[Accepted], None]] = []
        # What is asked before a batch that would be accepted: its person, programmer and calls. `TooMuch`: it isn't sent.
        self.bound: Callable[[str, int, list[str]], None] = lambda who, programmer, calls: None
        self.is_ended = False
        # Why the last batch wasn't taken, and the moment of that; nothing, once one is taken.
        self.trouble, self.troubled_at = "", 0.0
        self.watch = Free()
        self.thread = threading.Thread(target=self.run, name="writer", daemon=True)

    # For those who wait

    def write(
        self, who: str, programmer: int, calls: list[str], at: int | None = None, items: list[Item] | None = None, note: Note = NO_NOTE
    ) -> Answer:  # fmt: skip
        """Runs a batch at most once, and gives moo's answer. It is journaled as `who`'s. `items` are calls with names in place of `calls`.

        `Busy`: nothing was sent. `Unknown`: it was sent and isn't decided yet. `Stopped`: writing has stopped. `TooLong`: nothing was sent,
        since the answer would be too long. `Barred`, `Spent`, `TooMuch`: nothing was sent, since who wrote it may not, or may not add so much.
        """
        self.watch.test_share(present(), Person(who, programmer))
        job = Job(who, programmer, calls, at, self.patience, items, note)
        with self.wake:
            if self.stopped:
                raise Stopped(self.stopped)
            if len(self.queue) >= LONGEST_QUEUE:
                raise Busy
            self.queue.append(job)
            self.wake.notify()
        try:
            return job.outcome()
        finally:
            if job.intent_at >= 0:
                self.watch.was_sent(job.visitor, job.calls)

    # The start and the end

    def start(self, is_rebase: bool = False) -> None:
        """Decides what was left open, compares the world with the journal, and begins to take batches. It waits for moo."""
        is_new = self.journal.seq is None
        if self.journal.gap and not is_rebase:
            self.stop(told_of_gap(self.journal.gap))
        elif not self.journal.gap:
            self.recover()
        if is_rebase and not is_new:
            self.begin(self.number(), "rebase")
        self.thread.start()

    def recover(self) -> None:
        """Settles open intents, and sees whether anybody else has written."""
        for intent in list(self.journal.open_intents):
            if not self.stopped and intent["at"] == self.seq:
                self.settle(intent, True, None)
        self.journal.open_intents = []
        if self.stopped:
            return
        seq = self.number()
        if self.journal.seq is None:
            self.begin(seq, "new")
        elif seq != self.seq:
            self.note_gap(seq)

    def begin(self, seq: int, why: str) -> None:
        """Begins a segment, and the numbers with it. `NoRoom`, `Broken`: as the journal has them."""
        self.journal.begin(seq, self.moment(), why)
        self.seq, self.stopped, self.owed = seq, None, []
        self.tell(f"the journal begins at number {seq} of the world")

    def number(self) -> int:
        """The world's number, for which this waits as long as need be."""
        began, is_told = time.monotonic(), False
        while True:
            try:
                answer = self.door.asked("GET", "/seq", None, time.monotonic() + 1)
                seq = answer.said.get("seq")
                if answer.status == 200 and isinstance(seq, int):
                    return seq
            except Unreachable:
                pass
            if not is_told and time.monotonic() > began + TOLD_AFTER:
                self.tell(f"moo doesn't answer at port {self.door.port} yet")
                is_told = True

    def end(self, seconds: float) -> None:
        """Takes no more batches, and waits for the one in hand for so long."""
        with self.wake:
            self.is_ended = True
            self.wake.notify()
        if self.thread.is_alive():
            self.thread.join(seconds)

    def stop(self, why: str) -> None:
        """Takes no more batches until an operator has decided."""
        with self.wake:
            self.stopped = why
            waiting, self.queue = list(self.queue), collections.deque()
        self.tell(why)
        for job in waiting:
            job.fail(Stopped(why))

    # The thread

    def run(self) -> None:
        """Serves the batches of the queue one after another."""
        while True:
            with self.wake:
                while not self.queue and not self.is_ended:
                    self.wake.wait()
                if self.is_ended:
                    return
                job = self.queue.popleft()
            try:
                self.serve(job)
            except Exception as error:  # what this doesn't foresee must not leave a thread that serves nobody
                self.stop(f"the writer failed: {error!r}")
                job.fail(Stopped(repr(error)))

    def serve(self, job: Job) -> None:
        """One batch, from its question to its outcome."""
        if self.stopped:
            job.fail(Stopped(self.stopped))
            return
        with visiting(job.visitor):
            asked = self.ask(job)
            if asked is None or not self.is_wanted(job) or not self.is_within_bounds(job):
                return
            memory = self.remember(job, asked)
        # The reading may have taken long.
        if memory is None or not self.is_wanted(job) or not job.commit(self.seq):
            return
        intent = {
            "k": "intent", "at": self.seq, "t": self.moment(), "who": job.who, "as": job.programmer,
            "calls": job.calls, **kept_answers(asked.said["answers"]), **memory, **job.note.keys,
        }  # fmt: skip
        job.would = asked.said["answers"]
        if self.record(job, intent):
            with visiting(job.visitor._replace(is_gone=never, is_first=True)):
                self.settle(intent, False, job)

    def is_wanted(self, job: Job) -> bool:
        """Whether a batch may still be sent: its author may come in, and waits for the answer. If not, it has its answer."""
        if not self.watch.may_send(job.who):
            job.fail(Barred())
        elif job.visitor.is_gone():
            job.fail(Busy())
        return not job.decided.is_set()

    def ask(self, job: Job) -> Answer | None:
        """What the batch would answer at this number. None if it has its answer: it is refused, or moo doesn't answer."""
        try:
            answer = self.named(job, job.items) if job.items else self.question(job, job.calls)
        except (Unreachable, NobodyWaits, TooLong) as error:
            job.fail(error if isinstance(error, TooLong) else Busy())
            return None
        except ValueError:
            job.finish(own_answer(413, error="too large"))
            return None
        except Failed as failed:
            job.finish(own_answer(400, error="bad request", why=failed.reason))
            return None
        seq = answer.said.get("seq")
        if seq is not None and seq != self.seq:
            self.note_gap(seq)
            job.fail(Stopped(self.stopped))
            return None
        if answer.status != 200 or not isinstance(answer.said.get("answers"), list):
            job.finish(answer)
            return None
        return answer

    def is_within_bounds(self, job: Job) -> bool:
        """Whether a batch that would be accepted is within its person's bounds. If it isn't, who waits is told."""
        try:
            self.bound(job.who, job.programmer, job.calls)
            return True
        except (TooMuch, TooLong, Unreachable, NobodyWaits) as error:
            job.fail(error if isinstance(error, (TooMuch, TooLong)) else Busy())
            return False

    def question(self, job: Job, calls: list[str]) -> Answer:
        """What these calls of a batch would answer. `ValueError`: they are longer than moo takes."""
        body = batch_body(job.programmer, calls, self.seq if job.at is None else job.at)
        return self.door.asked("POST", "/ask?why", body, job.end)

    def named(self, job: Job, items: list[Item]) -> Answer:
        """The same of a batch with names. Nothing else is written meanwhile, so its calls get what the names stand for at this number."""
        job.calls, answer = resolved(items, {}, lambda calls: self.question(job, calls))
        return answer

    def remember(self, job: Job, asked: Answer) -> dict[str, Any] | None:
        """What is kept of the world before a batch, so that it can be undone. None: it has its answer, since moo doesn't answer in time, or
        nobody waits for it any more.
        """
        try:
            return self.memory.keys(job.programmer, job.calls, asked.said["answers"], self.seq, job.end)
        except (Unreachable, NobodyWaits):
            job.fail(Busy())
            return None
        except Moved:
            # Somebody else has written, which the answer to the batch will say.
            pass
        except Exception as error:  # a batch that moo accepts mustn't fail since this does
            self.tell(f"the batch for number {self.seq} can't be undone later: {error!r}")
        return {"before": [None] * len(job.calls), "names": {}}

    def record(self, job: Job, intent: dict[str, Any]) -> bool:
        """Puts an intent on the disk. False if that failed: the batch wasn't sent."""
        try:
            self.pay()
            if self.journal.is_full:
                self.journal.begin(self.seq, self.moment(), "full")
            self.journal.append(intent, True)
            self.trouble = ""
            return True
        except NoRoom as error:
            self.trouble, self.troubled_at = f"no batch is taken: {error}", time.monotonic()
            self.tell(self.trouble)
            job.uncommit()
            job.fail(Busy())
        except Broken as error:
            self.stop(f"{error}. Nothing is written until the front is started again")
            job.fail(Unknown(self.seq))
        finally:
            job.recorded.set()
        return False

    def settle(self, intent: dict[str, Any], is_unsure: bool, job: Job | None) -> None:
        """Sends an intent until it is decided. Sent more than once it acts once, for its `at`.

        `is_unsure`: it may have been sent before, and no answer came.
        """
        body = batch_body(intent["as"], intent["calls"], intent["at"])
        pause, began, is_told, why = FIRST_PAUSE, time.monotonic(), False, ""
        while True:
            try:
                answer = self.door.sent("POST", "/batch?why", body)
                if self.decide(intent, answer, is_unsure, job):
                    return
                is_unsure, why = is_unsure or answer.error == "fault" or not answer.error, told_of_answer(answer)
            except (LostAnswer, TooLong):
                is_unsure, why = True, "moo's answer was lost"
            except NoService:
                why = f"moo can't be reached at port {self.door.port}"
            if not is_told and time.monotonic() > began + TOLD_AFTER:
                self.tell(f"the batch for number {intent['at']} isn't decided yet: {why}")
                is_told = True
            time.sleep(pause)
            pause = min(2 * pause, LONGEST_PAUSE)

    def decide(self, intent: dict[str, Any], answer: Answer, is_unsure: bool, job: Job | None) -> bool:
        """Whether this answer decides the intent. If it does its outcome is noted and told."""
        at, seq = intent["at"], answer.said.get("seq")
        if answer.status == 200 and isinstance(seq, int):
            if seq == at + 1:
                self.accept(intent, answer, job)
            else:
                self.fail_at_gap(seq, job)
            return True
        if answer.error == "stale" and isinstance(seq, int):
            if is_unsure and seq == at + 1:
                self.accept(intent, None, job)
            else:
                self.fail_at_gap(seq, job)
            return True
        if answer.error == "nomemory":
            return not is_unsure and job is not None and self.give_up(intent, answer, job)
        is_refusal = answer.status in (400, 409, 413) and answer.error != ""
        if is_refusal:
            self.note({"k": "void", "at": at, "answer": answer.said})
            if job:
                job.finish(answer)
        return is_refusal

    def give_up(self, intent: dict[str, Any], answer: Answer, job: Job) -> bool:
        """Ends an intent for which moo had no memory, though it might have later. False if who waits was told that it will be decided.

        Sent again it might be accepted. So its end is on the disk before it is told.
        """
        with job.lock:
            if job.is_unknown:
                return False
            try:
                self.pay()
                self.journal.append({"k": "void", "at": intent["at"], "answer": answer.said}, True)
            except NoRoom:
                return False
            except Broken as error:
                self.stop(f"{error}. Nothing is written until the front is started again")
                job.fail(Unknown(intent["at"]))
                return True
            job.finish(answer)
            return True

    def accept(self, intent: dict[str, Any], answer: Answer | None, job: Job | None) -> None:
        """Notes that an intent was accepted, and then tells who waits. If the answer was lost it is what `/ask` has said."""
        done: dict[str, Any] = {"k": "done", "seq": intent["at"] + 1}
        if answer and not kept_answers(answer.said["answers"]).items() <= intent.items():
            done |= kept_answers(answer.said["answers"])
        self.note(done)
        # Who sees the new number finds that the listeners know of it.
        self.tell_listeners(accepted_of(intent, done))
        self.seq = intent["at"] + 1
        if job:
            job.finish(answer or own_answer(200, answers=job.would, seq=self.seq))

    def tell_listeners(self, accepted: Accepted) -> None:
        """Tells those who keep something up with the world. What they do wrong stops nothing."""
        for listener in self.listeners:
            try:
                listener(accepted)
            except Exception as error:
                self.tell(f"number {accepted.seq} couldn't be taken in: {error!r}")

    # Lines that need no sync, and gaps

    def note(self, line: dict[str, Any]) -> None:
        """Puts an outcome into the journal. If there is no room, that is done before the next intent."""
        self.owed.append(line)
        try:
            self.pay()
        except NoRoom as error:
            self.tell(f"an outcome waits for room: {error}")
        except Broken as error:
            self.stop(f"{error}. Nothing is written until the front is started again")

    def pay(self) -> None:
        """Writes the outcomes that are owed. `NoRoom`, `Broken`: as the journal has them."""
        while self.owed:
            self.journal.append(self.owed[0], self.owed[0]["k"] == "gap")
            self.owed.pop(0)

    def fail_at_gap(self, seq: int, job: Job | None) -> None:
        """Notes a gap, and tells who waits."""
        self.note_gap(seq)
        if job:
            job.fail(Stopped(self.stopped))

    def note_gap(self, seq: int) -> None:
        """Notes that the world isn't where the journal is, and stops writing."""
        gap = {"k": "gap", "world": seq, "journal": self.seq, "t": self.moment()}
        self.note(gap)
        self.stop(told_of_gap(gap))

    def moment(self) -> float:
        """The present moment. A clock that went back is told."""
        now = round(time.time(), 3)
        back = self.journal.moment - now
        if back > 0 and self.journal.seq is not None:
            self.tell(f"the clock went back: the journal's last line is of {back:.3f} seconds later")
        return now

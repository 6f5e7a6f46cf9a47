"""All pages: what they are made of, and their routes. This needs python3-jinja2."""

from __future__ import annotations

from pathlib import Path
from typing import Optional

from moo_web.app import App
from moo_web.forms.answers import AnswerPages
from moo_web.forms.editor import BatchPages
from moo_web.forms.handlers import FormPages
from moo_web.forms.inbox import PetitionPages
from moo_web.forms.newcomers import NewcomerPages
from moo_web.forms.one_form import ClassPages, ObjectPages
from moo_web.forms.previews import Previews
from moo_web.forms.undo import UndoPages
from moo_web.forms.questions import Questions
from moo_web.journal.history import History
from moo_web.journal.recent import Recent
from moo_web.journal.writer import Writer
from moo_web.pages import history as done
from moo_web.pages import home, lists, maps, objects, programs, scripts, search
from moo_web.pages.about import About
from moo_web.pages.accounts import AccountPages
from moo_web.pages.differences import differences
from moo_web.pages.feeds import FeedPages
from moo_web.pages.own import OwnPages
from moo_web.pages.pages import Pages
from moo_web.world.properties import SightNames
from moo_web.pages.sign import Sign
from moo_web.people.people import People
from moo_web.world.asking import Asker
from moo_web.world.definers import Definers
from moo_web.world.holdings import Holdings
from moo_web.world.index import Index


def make_pages(
    app: App, people: People, writer: Writer, history: History, rate: float, names: SightNames = SightNames(),
    about: Optional[Path] = None
) -> Pages:  # fmt: skip
    """The pages of a front. `names` are those of the properties that say what is seen at a place; `about` is the text of what it is."""
    index, asker = Index(writer.door, lambda: writer.stopped is not None), Asker(writer.door)
    holdings = Holdings(index, writer.door)
    # What is found is of the world that the index knows, so the values are told first.
    writer.listeners += [holdings.take, index.take]
    pages = Pages(app, people, index, asker, history, rate, names)
    pages.open("GET", "programs", lambda request: programs.programs_page(pages, request))
    text = About(about, app.tell)
    pages.open("GET", "about", lambda request: text.page(pages, request))
    add_pages_to_sign_in(pages, people)
    add_pages_to_read(pages, history)
    add_pages_to_find(pages, Definers(index, asker), holdings)
    recent = Recent(writer, history)
    previews = Previews(Questions(writer.door), writer, recent)
    add_pages_to_change(pages, previews, recent, history)
    add_pages_of_people(pages, people, previews, recent)
    return pages


def add_pages_to_sign_in(pages: Pages, people: People) -> None:
    """The pages to sign in and out, and a person's own."""
    sign, own = Sign(pages, people), OwnPages(people)
    pages.open("GET", "in", sign.form)
    pages.open("POST", "in", sign.sign_in)
    pages.open("GET", "link", sign.link)
    pages.open("POST", "link", sign.use_link)
    pages.post("out", sign.sign_out)
    pages.get("you", own.show)
    pages.post("password", own.set_password)
    pages.post("zone", own.set_zone)
    pages.post("token", own.make_token)
    pages.post("end", own.end)


def add_pages_of_people(pages: Pages, people: People, previews: Previews, recent: Recent) -> None:
    """The pages by which wizards see people, let them in and keep them out."""
    accounts = AccountPages(people)
    newcomers = NewcomerPages(previews, recent, people, accounts.show)
    pages.get("people", newcomers.all)
    pages.post("people", newcomers.add, is_kept=True)
    pages.get("person", accounts.show)
    pages.get("deed", accounts.preview)
    pages.post("deed", accounts.act)


def add_pages_to_find(pages: Pages, definers: Definers, holdings: Holdings) -> None:
    """The pages of what is found."""
    pages.get("find", lambda visit: search.find(visit, definers, holdings))
    pages.get("named", lambda visit, number: search.what_names(visit, holdings, number))


def add_pages_to_read(pages: Pages, history: History) -> None:
    """The pages of what is there, and of what was done."""
    pages.get("home", lambda visit: home.home(visit, history))
    pages.get("list", lists.listed)
    pages.get("nowhere", lists.nowhere)
    pages.get("roots", lists.roots)
    pages.get("object", lambda visit, number: objects.object_page(visit, history, number))
    pages.get("property", lambda visit, number: objects.one_property(visit, history, number))
    pages.get("script", scripts.script_page)
    pages.get("download", scripts.file)
    pages.get("tree", maps.map_page)
    pages.get("map", maps.first)
    pages.get("history", lambda visit: done.batches(visit, history))
    pages.get("batch", lambda visit, number: done.one(visit, history, number))
    pages.get("differences", lambda visit: differences(visit, history))
    pages.get("done", lambda visit, number: done.one(visit, history, number, is_done=True))


def add_pages_to_change(pages: Pages, previews: Previews, recent: Recent, history: History) -> None:
    """The pages by which people change the world: forms, the editor of batches, petitions, quotas."""
    forms, editor, petitions = FormPages(previews, recent), BatchPages(previews, recent), PetitionPages(previews, history)
    pages.get("forms", forms.all)
    pages.get("form", forms.show)
    pages.post("form", forms.act, is_kept=True)
    whole, classes = ObjectPages(previews, recent), ClassPages(previews, recent)
    pages.get("edit", whole.edit)
    pages.post("edit", whole.edited, is_kept=True)
    pages.get("new", whole.new)
    pages.post("new", whole.made, is_kept=True)
    pages.get("class", classes.table)
    pages.post("class", classes.changed, is_kept=True)
    pages.get("editor", editor.empty)
    pages.post("editor", editor.edit, is_kept=True)
    pages.get("undo", UndoPages(previews, recent, history.one).undo)
    pages.get("petitions", petitions.inbox)
    pages.get("petition", petitions.one)
    pages.post("petition", AnswerPages(petitions).answer, is_kept=True)
    add_feeds(FeedPages(pages, petitions, history))
    pages.get("quotas", petitions.quotas)


def add_feeds(feeds: FeedPages) -> None:
    """The feeds, which programs may read by a token."""
    feeds.add("feed", feeds.inbox)
    feeds.add("feed_person", feeds.of_person)
    feeds.add("feed_object", feeds.of_object)

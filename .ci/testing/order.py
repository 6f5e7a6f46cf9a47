"""The order of modules that run side by side: which begin first, and which run alone after all others, each with the reason."""
from __future__ import annotations

# The longest ones: if one of them began last, the other processors would wait for it.
FIRST = (
    "texts.rehearse",
    "requests.memory",
    "files.load",
    "files.refuse",
    "files.migration",
    "files.killed",
    "shell.terminal",
    "web.journal",
    "tools.client",
    "web.crashes",
    "files.edits",
    "files.cells",
    "lambdamoo.converters",
    "requests.dump",
    "types",
)

BROWSER = "it leads a browser, which takes all the processors and memory that there are"
KILLS = "it kills programs at moments that chance gives, and starts them again at the same port, which others could take"
SECONDS = "it bounds a few seconds of the clock"
WORK = "it bounds the seconds of a processor, which get longer while the other thread of a core works"

ALONE = {
    "requests.browser": BROWSER,
    "requests.desk": SECONDS,
    "tools.moolib": SECONDS,
    "web.alone": KILLS,
    "web.browser": BROWSER,
    "web.browser_asking": BROWSER,
    "web.browser_edit": BROWSER,
    "web.browser_forms": BROWSER,
    "web.browser_undo": BROWSER,
    "web.clients_kills": KILLS,
    "web.connections": SECONDS,
    "web.feed": SECONDS,
    "web.follow": KILLS,
    "web.full": KILLS,
    "web.kills": KILLS,
    "web.large": WORK,
    "web.programs": SECONDS,
    "web.shares": SECONDS,
}


def beside(names: list[str]) -> list[str]:
    """The modules that run side by side, in the order in which they begin."""
    return sorted((name for name in names if name not in ALONE), key=lambda name: FIRST.index(name) if name in FIRST else len(FIRST))


def alone(names: list[str]) -> list[str]:
    """The modules that run one after another, when those have ended."""
    return [name for name in names if name in ALONE]

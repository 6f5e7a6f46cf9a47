"""That each function of tools/, bench/, packaging/ and tests/support/ that others may call says what it does. `types` asks for its types."""
from __future__ import annotations

import ast
import re
from pathlib import Path
from typing import Iterator, Optional

TOP = Path(__file__).resolve().parents[2]
WHAT = ("tools", "bench", "packaging", "tests/support")
# What a class of the standard library has already.
OVERRIDES = re.compile("run|setUp|setUpClass|log_message|do_[A-Z]+|handle_[a-z]+")


def scripts(folder: Path) -> Iterator[Path]:
    """The modules and scripts of Python in a folder and in those below it."""
    for path in sorted(folder.rglob("*")):
        if path.is_file() and "__pycache__" not in path.parts:
            if path.suffix == ".py" or (not path.suffix and re.match(rb"#!.*python", path.read_bytes()[:80])):
                yield path


def classes(tree: ast.AST) -> Iterator[ast.ClassDef]:
    """The classes of a module, also those in functions."""
    return (node for node in ast.walk(tree) if isinstance(node, ast.ClassDef))


def functions(body: list[ast.stmt]) -> Iterator[ast.FunctionDef]:
    """The functions right in a module or a class that others may call."""
    return (node for node in body if isinstance(node, ast.FunctionDef) and not node.name.startswith("_"))


def bases_of(made: ast.ClassDef) -> list[str]:
    """The names of the classes that a class is made of."""
    return [base.id if isinstance(base, ast.Name) else getattr(base, "attr", "") for base in made.bases]


def methods_of(trees: list[ast.Module]) -> dict[str, set[str]]:
    """The methods that each class has, those of the classes above it included."""
    found = {made.name: ({each.name for each in functions(made.body)}, bases_of(made)) for tree in trees for made in classes(tree)}
    methods: dict[str, set[str]] = {}

    def of(name: str) -> set[str]:
        if name in found and name not in methods:
            methods[name] = set()
            own, bases = found[name]
            methods[name] = own.union(*map(of, bases))
        return methods.get(name, set())

    for name in found:
        of(name)
    return methods


def silent_in(tree: ast.Module, methods: dict[str, set[str]]) -> Iterator[str]:
    """The functions of a module that don't say what they do. One that a class above has as well need not."""
    for each in functions(tree.body):
        if not ast.get_docstring(each):
            yield each.name
    for made in classes(tree):
        above = set().union(*(methods.get(base, set()) for base in bases_of(made)))
        for each in functions(made.body):
            is_override = each.name in above or bool(made.bases and OVERRIDES.fullmatch(each.name))
            if not is_override and not ast.get_docstring(each):
                yield f"{made.name}.{each.name}"


def cases() -> Iterator[tuple[str, Optional[str]]]:
    """The name of each case, and what is wrong with it."""
    for folder in WHAT:
        trees = {path: ast.parse(path.read_text()) for path in scripts(TOP / folder)}
        methods = methods_of(list(trees.values()))
        missing = [f"{path.name}: {name}" for path, tree in trees.items() for name in silent_in(tree, methods)]
        missing += [f"{path.name}: the module" for path, tree in trees.items() if not ast.get_docstring(tree)]
        yield folder, ", ".join(missing) if missing else None if trees else "there is no Python in it"

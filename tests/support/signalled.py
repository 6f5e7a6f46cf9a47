"""A program of web/ that sends itself a signal while an object is freed: there Python throws away what the handler raises.

    signalled.py NUMBER MODULE FUNCTION PROGRAM WORDS..

PROGRAM is the module of the program, as moo_web.serving, and WORDS are the program's. The signal NUMBER comes after the first call of
FUNCTION, a function of MODULE or a method of a class there, as `Heart.beat`.
"""

from __future__ import annotations

import importlib
import os
import pathlib
import sys
from typing import Any

TOP = pathlib.Path(__file__).resolve().parents[2]
sys.path[:0] = [str(TOP / "web"), str(TOP / "tools")]
sys.dont_write_bytecode = True


class Signalling:
    """Sends the signal when it is freed."""

    def __init__(self, number: int) -> None:
        self.number = number

    def __del__(self) -> None:
        os.kill(os.getpid(), self.number)


def signal_after(module: Any, function: str, number: int) -> None:
    """Has the signal sent after the first call of a function."""
    kind, _, name = function.rpartition(".")
    owner = getattr(module, kind) if kind else module
    inner, kept = getattr(owner, name), [Signalling(number)]

    def outer(*given: Any) -> Any:
        came = inner(*given)
        kept.clear()
        return came

    setattr(owner, name, outer)


def run(number: str, module: str, function: str, program: str, *words: str) -> None:
    """Runs the program."""
    main = importlib.import_module(program).main
    signal_after(importlib.import_module(module), function, int(number))
    sys.argv[1:] = words
    main()


if __name__ == "__main__":
    run(*sys.argv[1:])

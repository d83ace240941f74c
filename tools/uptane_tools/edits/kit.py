"""The kit's own `rt` as a module: it knows the crates of a repository, the words of a check, and
which lines say that a text can't be read.
"""
import importlib.machinery
import os
import re
import shutil
import types
from typing import Any


def _load() -> Any:
    file = os.path.realpath(shutil.which("rt") or "rt")
    made = types.ModuleType("rt")
    made.__file__ = file
    importlib.machinery.SourceFileLoader("rt", file).exec_module(made)
    return made


rt = _load()
rtlib = rt.rtlib
# a crate, of the kit's own class
Crate = Any


def crates() -> dict[str, Crate]:
    """Returns the crates that crates.txt in this folder lists, by name, each behind those that
    it uses.
    """
    return {it.name: it for it in rtlib.crates_below(os.getcwd())}


def name() -> str:
    """Returns the name of the kit that is here."""
    return _words()[0]


def logic() -> str:
    """Returns the sum of its logic."""
    return _words()[1]


def version() -> str:
    """Returns the line of `rt version`."""
    with open(f"{rtlib.KIT}/KIT-ID", encoding="utf-8") as it:
        return it.read().strip()


def _words() -> Any:
    words = re.fullmatch(r"(\S+) logic (\S+)", version())
    if not words:
        raise SystemExit(f"refused: no name and logic in the line of rt version: {version()}")
    return words.groups()

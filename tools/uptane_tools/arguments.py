"""The words that tools are given. What a tool's help says are the first lines of its module."""
import argparse
import sys
from collections.abc import Callable, Sequence
from typing import Any

Words = Sequence[str] | None


def parser(doc: str | None) -> argparse.ArgumentParser:
    """A parser of a tool's words."""
    plain = argparse.RawDescriptionHelpFormatter
    return argparse.ArgumentParser(prog=sys.argv[0], description=doc, formatter_class=plain)


def number(most: int) -> Callable[[str], int]:
    """What reads a whole number from 1 to that one."""

    def number(text: str) -> int:
        value = int(text)
        if not 1 <= value <= most:
            raise ValueError
        return value

    return number


def given(doc: str | None, words: Words, *names: str, **usual: Any) -> argparse.Namespace:
    """The words of a tool that has these in their order, and behind them some that may be left out.

    Each of these has what it is then: a whole number, a text, or the first of a list, of which
    it may be any.
    """
    asked = parser(doc)
    for name in names:
        asked.add_argument(name, metavar=name.upper())
    for name, value in usual.items():
        if isinstance(value, list):
            asked.add_argument(name, nargs="?", choices=value, default=value[0],
                               metavar="|".join(value))
        else:
            kind = int if isinstance(value, int) else str
            asked.add_argument(name, nargs="?", type=kind, default=value, metavar=name.upper())
    return asked.parse_args(words)

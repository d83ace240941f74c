"""Runs a tool by its name, from wherever it is called.

    tools/run                 lists the tools by folder, each with the first sentence of what it
                              says
    tools/run NAME WORD ..    runs one; `--help` says more of it
"""
import argparse
import ast
import importlib
import re
import sys
from pathlib import Path


def tools() -> dict[str, Path]:
    """The file of each tool, by name: those that have a main function. Others are parts of tools.
    """
    there = sorted(Path(__file__).resolve().parent.glob("*/*.py"))
    return {it.stem: it for it in there if "\ndef main(" in it.read_text(encoding="utf-8")}


def listed() -> None:
    """Prints a line for each tool."""
    folder = ""
    for name, path in tools().items():
        if path.parent.name != folder:
            folder = path.parent.name
            print(f"{folder}:")
        doc = ast.get_docstring(ast.parse(path.read_text(encoding="utf-8"))) or ""
        said = " ".join(doc.split("\n\n")[0].split())
        print(f"  {name:18} {re.split('(?<=[.]) ', said)[0]}")


def main() -> int:
    """Runs the tool that the first word names, on the rest."""
    asked = argparse.ArgumentParser("tools/run", "tools/run [NAME WORD ..]", add_help=False,
                                    allow_abbrev=False)
    asked.add_argument("-h", "--help", action="store_true")
    asked.add_argument("words", nargs=argparse.REMAINDER)
    given = asked.parse_args()
    name, *words = given.words or [""]
    if given.help or not name:
        print(__doc__)
        listed()
        return 0
    found = tools().get(name)
    if found is None:
        sys.exit(f"tools/run: there is no tool {name}; tools/run lists them")
    # (each tool takes its own words, and says its name in its help)
    sys.argv = [f"tools/run {name}", *words]
    return importlib.import_module(f"uptane_tools.{found.parent.name}.{name}").main()


if __name__ == "__main__":
    sys.exit(main())

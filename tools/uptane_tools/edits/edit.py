"""Edits: each turns the body of one function of a crate."""
import collections
import dataclasses
import re
from pathlib import Path
from typing import Any

from uptane_tools.edits.functions import (Function, functions_in, functions_of, module_of,
                                          tokens_of, types_of, with_bodies)
from uptane_tools.edits.kit import rt
from uptane_tools.edits.sql import chooses_a_text, rows_named, turns_a_text, unshown

NAME = re.compile(r"[A-Za-z0-9_-][A-Za-z0-9_.-]*\.edit")


class Edit:
    """An edit of a crate: the file and the function that it turns, the body that it makes, and
    whether it turns a text of SQL alone; or in `why` the reason that it is none.
    """

    def __init__(self, crate: str, folder: str, file: Path,
                 functions: dict[str, list[Function]]) -> None:
        self.label = f"{crate}/{Path(file).stem}"
        texts = None
        self.path: Any = None
        self.function: Any = None
        self.body: Any = None
        self.is_of_text, self.rows = False, []
        self.why = "its name is not of letters, digits, _, - and . with .edit at the end"
        if NAME.fullmatch(Path(file).name):
            texts, self.why = rt.read_edit(file, folder)
        if texts:
            self.why = self._read(folder, texts, functions)
        if self.function and not self.why:
            old = Path(folder, self.path).read_bytes()[self.function.opens:self.function.closes]
            self.is_of_text = turns_a_text(old, self.body)
            if chooses_a_text(old, self.body):
                self.why = ("it chooses among texts of SQL, so its spelling refuses it, and no "
                            "rows are carried out with it; turn a text alone")
        if self.is_of_text:
            self.rows, self.why = rows_named(file), unshown(folder, file)

    def _read(self, folder: str, texts: dict[str, str],
              functions: dict[str, list[Function]]) -> str | None:
        self.path = min(texts)
        if len(texts) > 1 or self.path not in functions:
            return "it changes no file of src/, or more than one"
        old, new = Path(folder, self.path).read_bytes(), texts[self.path].encode()
        here, then, grown = functions[self.path], functions_in(new), len(new) - len(old)
        if then is None:
            return "what it makes is no text of Rattle"
        places = [(it.name, it.opens, it.closes) for it in then]
        for it in here if len(then) == len(here) else []:
            is_rest_kept = old[:it.opens] == new[:it.opens] and old[it.closes:] == new[it.closes +
                                                                                       grown:]
            if is_rest_kept and (it.name, it.opens, it.closes + grown) in places:
                self.function, self.body = it, new[it.opens:it.closes + grown]
                return "a function of its own stands in the new body" if re.search(
                    rb"\bfn\s+\w", self.body) else None
        return "it changes something else than the body of one function"

    def key(self) -> tuple[str, str]:
        """Edits of one key are not tried together: those of one name in one file, so that a line
        of the prover is of one edit, or of one cycle.
        """
        return self.path, self.function.cycle or self.function.name


def functions_below(folder: str) -> dict[str, list]:
    """Returns the functions of each file in src/ of a crate's folder, by the file's path in it,
    or nothing where one is no text of Rattle. Each has the modules that it may stand in: of a
    type's own method those that declare the type, which rattle names it by; its file's else.
    """
    files = sorted(Path(folder, "src").rglob("*.rt"))
    found = dict(zip([str(it.relative_to(folder)) for it in files], tokens_of(files) or []))
    declared = {path: types_of(rows) for path, rows in found.items()}

    def modules(path: str, function: Function) -> tuple[tuple[str, ...], ...]:
        elsewhere = tuple(module_of(it) for it in declared if function.owner in declared[it])
        return (module_of(path),
                ) if not function.is_own or function.owner in declared[path] else elsewhere

    return {
        path: [dataclasses.replace(it, modules=modules(path, it)) for it in functions_of(rows)
               ] for path, rows in found.items()}


def edit_files(folder: str) -> list[Path]:
    """Returns the files in refused/ of a crate's folder that are to be edits."""
    return sorted(it for it in Path(folder, "refused").glob("*") if it.suffix != ".md")


def edits_in(crate: str, folder: str) -> list[Edit]:
    """Returns the edits that stand in refused/ of a crate's folder."""
    files = edit_files(folder)
    functions = functions_below(folder) if files else {}
    return [Edit(crate, folder, file, functions) for file in files]


def groups_of(edits: list[Edit], most: int) -> list[list[Edit]]:
    """Returns the edits in groups of different functions, of about the same size and of at most
    so many each.
    """
    times: Any
    rounds, times = collections.defaultdict(list), collections.Counter()
    for it in edits:
        rounds[times[it.key()]].append(it)
        times[it.key()] += 1
    counts = {number: -(-len(these) // most) for number, these in rounds.items()}
    return [
        these[at::counts[number]] for number, these in rounds.items()
        for at in range(counts[number])]


def texts_with(folder: str, edits: list[Edit]) -> dict[str, bytes]:
    """Returns the texts (bytes) of the files of this folder in which the edits, of different
    functions, are all made, by path.
    """
    made: Any = {}
    for path in {it.path for it in edits}:
        text = Path(folder, path).read_bytes()
        # (by name and lines, since other bodies may be left out of the text)
        here = {(it.name, it.lines): it for it in functions_in(text)}
        made[path] = with_bodies(text, [
            (here[it.function.name, it.function.lines], it.body) for it in edits if it.path == path
        ])
    return made

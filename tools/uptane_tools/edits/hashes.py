"""The hash of what the verdicts on a crate's edits rest on.

They rest on the crate's own texts, on the edits, on the kit's logic, and on what the crate's
check reads of the crates below and its own text can reach there. So a hash covers

- the tokens (so without comments, and of layout only the columns of antt's lines) of the crate's
  own src/, specs/ and proofs/, and of the file
  that each edit turns, with the edit made; its libraries in crates.txt, and the logic's sum in `rt
      version`. The kit's name stands beside the hash
  in the lock, and not in it;
- of each crate below its libraries, and of its texts, as tokens, what shown.py says;
- for a program, which is linked from the bodies below, all files of the crates below.
"""
import hashlib
import tempfile
from pathlib import Path
from typing import Any

from uptane_tools.edits.edit import edit_files
from uptane_tools.edits.functions import tokens_of
from uptane_tools.edits.kit import Crate, logic, rt, rtlib
from uptane_tools.edits.shown import Shown, files_in, reached, shown_by, spelled


def count_of(folder: str) -> int:
    """Returns the number of edits of the crate in this folder."""
    return len([*Path(folder, "refused").glob("*.edit")])


def hashes(crates: dict[str, Crate], names: list[str]) -> dict[str, tuple[int, str]]:
    """Returns for each of these crates that has edits, by name, their number and the hash."""
    names = [it for it in names if count_of(crates[it].folder)]
    shown = shown_by({it.name: it for name in names for it in crates[name].below()})
    return {it: (count_of(crates[it].folder), _hash(crates[it], shown)) for it in names}


def _hash(crate: Crate, shown: dict[str, Shown]) -> str:
    """Returns the hash of a crate, from its own files and what the crates below show."""
    whole = [crate, *crate.below()] if crate.is_program else [crate]
    own, edits = [(it.name, *row) for it in whole for row in _own(it.folder)], _made(crate.folder)
    # (of the crates below alone: which others are asked about counts for nothing)
    below = [(it.name, it.said["deps"]) for it in sorted(crate.below(), key=lambda it: it.name)]
    stated, lemmas = reached([it[-1] for it in own + edits], {it: shown[it] for it, _ in below})
    return hashlib.sha256(
        repr(
            (logic(), crate.said["deps"], own, edits, below, stated, lemmas)).encode()).hexdigest()


def _own(folder: str) -> list[tuple[str, str]]:
    """Returns the words of each file of a crate's texts, with its path."""
    paths = files_in(folder, rtlib.PARTS)
    return [*zip(paths, _texts([f"{folder}/{it}" for it in paths]))]


def _made(folder: str) -> list[tuple[str, ...]]:
    """Returns for each edit its name, and the words of the file that it turns, with the edit
    made, or why there is none.
    """
    made: Any
    made, whys = [], []
    with tempfile.TemporaryDirectory() as room:
        for file in edit_files(folder):
            texts, why = rt.read_edit(file, folder)
            whys += [] if texts else [(file.name, why)]
            for path, text in sorted((texts or {}).items()):
                copy = Path(room, f"{len(made)}{Path(path).suffix}")
                copy.write_text(text, encoding="utf-8")
                made.append((file.name, path, copy))
        return whys + [
            (name, path, text)
            for (name, path, _), text in zip(made, _texts([copy for _, _, copy in made]))]


def _texts(files: list[str | Path]) -> list[str]:
    """Returns the words of each of these files, or the files as they are where rattle can't read
    one.
    """
    tokens = tokens_of(files)
    if tokens is None:
        return [Path(it).read_bytes().decode(errors="replace") for it in files]
    return [
        "\n".join(spelled(rows,
                          Path(file).read_bytes()).values()) for file, rows in zip(files, tokens)]

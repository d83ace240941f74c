"""Verdicts that stand by those of an earlier revision: on fewer edits, or under other names.

Each edit is refused by itself: by a goal of its own function, in texts that no other edit changes.
So a subset of edits that were all refused stays refused, as long as all that the verdicts rest on
is the same.

And a verdict doesn't rest on how a definition is called. Where the earlier text has a name nowhere,
and this tree gives the earlier text once that name is taken back, this tree is the earlier one with
other names.
"""
import contextlib
import os
import re
import subprocess
import sys
import tempfile
from collections.abc import Iterator
from pathlib import Path

from uptane_tools.edits import lock
from uptane_tools.edits.edit import edit_files
from uptane_tools.edits.hashes import hashes
from uptane_tools.edits.kit import Crate, crates as crates_here


def stand(crates: dict[str, Crate], revision: str) -> dict[str, lock.Line]:
    """Returns, by name, the lines of crates whose verdicts stand by what was judged at a revision
    of git.

    There the lock has to hold for all edits of the crate, by the hash of that tree. Then the edits
    that this tree lacks are taken out of that tree. The hash of what is left has to be the one of
    this tree: it covers the edits that stay, each with the file that it turns, and all else that
    they rest on. So none of these edits is another, none is new, and nothing below has changed."""
    top, now = os.getcwd(), hashes(crates, [*crates])
    with _unpacked(revision):
        there = crates_here()
        held = _held(there)
        for name in held:
            here = crates[name].folder if name in crates else "none"
            staying = Path(top, here, "refused")
            for file in edit_files(there[name].folder):
                if not (staying / file.name).is_file():
                    file.unlink()
        left = hashes(there, [*held])
    return {it: lock.Line(left[it], held[it].kit) for it in left if now.get(it) == left[it]}


def renamed(crates: dict[str, Crate], revision: str, names: dict[str, str],
            gone: list[list[str]]) -> dict[str, lock.Line]:
    """Returns, by name, the lines of crates whose verdicts stand by what was judged at a revision
    of git, since when definitions got new names, went, or moved to another file of their crate.

    `names` has for each new name the old one. No text of that revision may have a new name. `gone`
    has the file and the name of each definition that went, and the file that it moved to, where it
    did, word for word. With each new name taken back, and without these definitions, their imports
    and names that a file of definitions imports and doesn't say, the hash of this tree has to be
    that of the tree that was judged there. (This tree is proved: so nothing in it says what went,
    and what moved is found where it is.)"""
    words = ["git", "status", "--porcelain", "--", "crates", "crates.txt"]
    if subprocess.run(words, stdout=subprocess.PIPE, check=True).stdout:
        sys.exit("refused: --renamed compares commits, and crates/ has changes that are in none")
    now = hashes(crates, [*crates])
    with _unpacked(revision):
        there = crates_here()
        held = _held(there)
        taken = sorted({
            it for file in _texts() for it in names if _word(it).search(file.read_text())})
        were = [_take_out(Path(it[0]), it[1]) for it in gone]
        _tidy()
        judged = hashes(there, [*held])
    if taken:
        sys.exit(f"refused: {revision} has the name {' '.join(taken)}")
    with _unpacked("HEAD"):
        for file in _texts():
            text = file.read_text()
            for new, old in names.items():
                text = _word(new).sub(old, text)
            file.write_text(text)
        for (_, name, *to), was in zip(gone, were):
            if to and _take_out(Path(to[0]), name) != was:
                sys.exit(f"refused: {name} didn't move to {to[0]} word for word")
        _tidy()
        back = hashes(crates_here(), [*held])
    return {
        it: lock.Line(now[it], held[it].kit) for it in held
        if it in now and back.get(it) == judged[it]}


def _take_out(file: Path, name: str) -> str:
    """Takes the definition of the name, which stands between empty lines, out of the file, and out
    of the imports of other files. Returns its text. A file that has nothing left goes."""
    declares = re.compile(rf"^(abbrev |unfoldable )?pub (record )?{name}\b", re.MULTILINE)
    parts = file.read_text().split("\n\n")
    found = [it for it in parts if declares.search(it)]
    if len(found) != 1:
        sys.exit(f"refused: {file} has no definition {name} of its own")
    parts.remove(found[0])
    file.write_text("\n\n".join(parts).rstrip("\n") + "\n")
    _, crate, kind, module = file.with_suffix("").parts
    imports = re.compile(rf"^((?:pub )?use Rattle\.{crate}\.{kind}\.{module}\.)\{{([^}}]*)\}}\n",
                         re.MULTILINE)

    def without(line: re.Match[str]) -> str:
        left = [it for it in line[2].split(", ") if it != name]
        return f"{line[1]}{{{', '.join(left)}}}\n" if left else ""

    for other in _texts():
        other.write_text(imports.sub(without, other.read_text()))
    if not [it for it in parts[1:] if it.strip()]:
        file.unlink()
        root = file.parent / "Lib.antt"
        root.write_text(root.read_text().replace(f"pub mod {module}\n", ""))
    return found[0].strip("\n")


def _tidy() -> None:
    """Takes out of each file of definitions the names that it imports and says nowhere.

    A definition is what it says, and no search reads a file of definitions. What `do` says stays,
    since no word names it."""
    for file in Path("crates").glob("*/specs/**/*.antt"):
        lines = file.read_text().splitlines(keepends=True)
        said = "".join(it for it in lines if not _IMPORT.match(it))
        for at, line in enumerate(lines):
            found = _IMPORT.match(line)
            if found:
                left = [it for it in found[2].split(", ") if it == "◌>>=◌" or _is_said(it, said)]
                lines[at] = f"{found[1]}{{{', '.join(left)}}}\n" if left else ""
            short = re.fullmatch(r"use Rattle\.[\w.]+ as (\w+)\n", line)
            if short and not re.search(rf"\b{short[1]}\.", said):
                lines[at] = ""
        file.write_text("".join(lines))


def _is_said(name: str, text: str) -> bool:
    if "◌" in name:
        return all(it in text for it in name.split("◌") if it)
    return bool(_word(name.split()[-1]).search(text))


_IMPORT = re.compile(r"(use Rattle\.[\w.]+\.)\{([^}]*)\}\n")


def _word(name: str) -> re.Pattern[str]:
    return re.compile(rf"(?<![\w']){re.escape(name)}(?![\w'])")


def _texts() -> list[Path]:
    return [it for it in Path("crates").rglob("*") if it.suffix in (".rt", ".antt", ".edit")]


def _held(crates: dict[str, Crate]) -> dict[str, lock.Line]:
    """Returns the lines of the lock that hold in the tree that is here, by name."""
    kept, judged = lock.kept(), hashes(crates, [*crates])
    return {it: kept[it] for it in judged if it in kept and kept[it].rests == judged[it]}


@contextlib.contextmanager
def _unpacked(revision: str) -> Iterator[None]:
    """Works in a copy of the tree at a revision, and comes back."""
    top = os.getcwd()
    with tempfile.TemporaryDirectory(prefix="refused-") as room:
        packed = subprocess.run(["git", "archive", revision], stdout=subprocess.PIPE, check=True)
        subprocess.run(["tar", "-x", "-C", room], input=packed.stdout, check=True)
        os.chdir(room)
        try:
            yield
        finally:
            os.chdir(top)

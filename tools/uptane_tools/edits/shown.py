"""What a crate shows to those above it, in parts, and which of the parts a crate above can
reach.

Of the crates below, rattle hands the check of a library their public items and the private ones
that these mention, "and no code", and their statements. Of that the proof of a function reads
what its own text leads to. So a part is left out where nothing leads to it:

- **A function**, or a method of a type's own `impl`, with its contract, where its name stands
  nowhere in the text above, nor in the code of anything
  that is in; a private one, where it stands in no code of its own crate that is in. Its contract is
      read where the function is called or passed
  on, and that takes its name. What is called without a name (by an operator, `?`, a `for` loop, a
      conversion, at the end of a value's life) is a
  method of a trait, and those are always in. Macros written here are in, with the names that they
      hold; those of the kit call methods by name on
  what they are given, as `write!` does, and a method of such a name stays. A clause can't call a
      function, nor name it: `same a` in a clause is
  refused as not in scope. antt names a function's contract by a path with `specs.contracts` in it
      alone. So where some text of antt has that word,
  all words of antt that its crate shows count as names too. Methods of traits and of their `impl`s,
      `const fn`, cycles of calls and functions for C
  always stay.
- **A constant** of a module, where its name stands nowhere in the text above, nor in anything that
  is in, clauses and definitions too.
- **A name that a `use` or a `ghost use` brings**, where it stands nowhere else in what is in of
  that file; of an operator its signs count, as `≡` of
  `◌≡◌`. `pub use`, `*`, `as _` and what has an attribute stay, and so do all in a file that shows
      code or a macro, which may call the methods of a
  trait that a `use` brings. The names that a `use` brings serve the modules below its own too, so
      they stay in a file that declares modules.
- **A line `mod x;`**, since it names a module to its own crate alone, and **a line `pub mod x;`**
  where `x` is no name in all this. What the module
  has in it is looked at by itself.
- **A file of specs/ or proofs/**, with its line in Lib.antt, where nothing that is in has its path,
  `Rattle.CRATE.specs.FILE`: antt reads no name of
  another file without. A path that ends before the file's name takes in all files. What rattle
      makes, `declared` and `contracts`, is made of src/.
  The files Invariants, Answers and Proof belong to one function, and no crate above can name what
      they hold.
- **A file of a private module**, `mod x;` in lib.rt, whose `impl`s are all of types that it
  declares, where `x` is no word of what is in of its crate,
  and no path in antt has it behind `declared` or `contracts`: what stands in it has no name that
      doesn't begin with `x`.
- **The bodies** of functions, and attributes `#[tactic(..)]`, which say how to prove them: rattle
  hands over neither. The bodies of `const fn` and of
  traits' defaults stay.

All else is always in: types, traits, `impl`s with their ghost items, attributes, macros and
calls of macros among items.
"""
import bisect
import collections
import math
import os
import re
from collections.abc import Iterator
from dataclasses import dataclass
from pathlib import Path
from typing import Any

from uptane_tools.edits.functions import Function, Token, closing, functions_of, tokens_of
from uptane_tools.edits.kit import Crate, rtlib

OF_A_FUNCTION = ("Invariants.antt", "Answers.antt", "Proof.antt")
NEWLINE = b"\n"
ALWAYS, NAMED, PRIVATE, CONSTANT, BROUGHT, SPECS, PROOFS = range(7)

# What a text of antt names of a crate, `Rattle.CRATE.specs.FILE`, and what an attribute does,
# `CRATE::specs::FILE`.
PATH = re.compile(r"\bRattle((?:\.[^\s.(){},;]+)*)")
PATH_OF_CODE = re.compile(r"\b(\w+)\s*::\s*(specs|proofs)\b(?:\s*::\s*(\w+))?")
ALL = ("*", "*", "*")

# The methods that macros and derives of the kit call on what they are given.
OF_MACROS = """
action add alloc as_ as_ref as_str begin_map begin_seq borrow chars clone cmp compare_exchange
custom default deref deref_mut drop duplicate end end_map end_seq eprint eprintln eq
eq_ignore_ascii_case error expect_end expect_item fetch_add fetch_and fetch_max fetch_min fetch_nand
fetch_or fetch_sub fetch_xor fill finish finish_endless fmt from ge gt hash help index index_mut
into into_inner into_iter invalid is_done is_empty is_none is_some key kind le len lend load long lt
map map_err mark ne next note num_args ok_or or_absent parse partial_cmp pass print println
put_depth read recv release remove required send settle short shown_if skip store str_cased
strip_prefix swap tag take_back to_digit union unit unknown_key unknown_variant value_name
variant_key with write_fmt write_str zip
""".split()


@dataclass(frozen=True)
class Part:
    """A part of a file that is shown: what the hash has of it, when it is in and by which name, the
    marks of its words, which a `use` of its file may bring, the words that may name a function or a
    module, those that may name a constant, the paths of antt that stand in it, and the modules that
    paths of antt name behind `declared` or `contracts`.
    """

    said: str
    when: int = ALWAYS
    name: Any = None
    marks: Any = frozenset()
    names: Any = frozenset()
    words: Any = frozenset()
    paths: Any = frozenset()
    modules: Any = frozenset()


@dataclass(frozen=True)
class Shown:
    """What a crate shows: the parts of each of its files, by path, the words of antt that may name
    functions, and of each file that a private module closes off, by path, the module's name.
    """

    files: dict[str, list[Part]]
    cites: set[str]
    closed: dict[str, str]


def files_in(folder: str, parts: tuple[str, str, str]) -> list[str]:
    """Returns the paths of the files in these parts of a crate's folder, as they are in it, in
    order.
    """
    return sorted(
        str(it.relative_to(folder)) for part in parts for it in Path(folder, part).rglob("*")
        if it.is_file())


def shown_by(crates: dict[str, Crate]) -> dict[str, Shown]:
    """Returns what each of these crates shows, by name."""
    read = [(name, it) for name in crates for it in files_in(crates[name].folder, rtlib.PARTS)
            if os.path.basename(it) not in OF_A_FUNCTION]
    tokens, shown = tokens_of([f"{crates[name].folder}/{path}" for name, path in read]), {
        it: Shown({}, set(), {}) for it in crates}
    if tokens is None:
        raise SystemExit("refused: rattle can't read a text of a crate below")
    for (name, path), rows in zip(read, tokens):
        shown[name].files[path] = _parts(name, path, rows,
                                         Path(crates[name].folder, path).read_bytes())
    private = {(name, it) for (name, path), rows in zip(read, tokens) if path == "src/lib.rt"
               for it in _private_modules(rows)}
    for (name, path), rows in zip(read, tokens):
        module = path.removeprefix("src/").removesuffix(".rt")
        if (name, module) in private and _is_closed(rows):
            shown[name].closed[path] = module
    for name, here in shown.items():
        antt = words_of("\n".join({
            it.word for (crate, _), rows in zip(read, tokens) if crate == name for it in rows
            if it.kind == "Antt"}))
        here.cites.update(antt if "contracts" in antt else ())
    return shown


def reached(texts: list[str],
            shown: dict[str, Shown]) -> tuple[list[tuple[str, list[tuple[str, str]]]], list[Any]]:
    """Returns what a crate above, which has these texts, reaches of what each crate below it
    shows: the path of each file and the text of what is in, first those of src/ and specs/, and
    then the lemma files.
    """
    lines, paths = {
        line for text in texts for line in text.split("\n")}, set().union(*map(paths_in, texts))
    words = words_of("\n".join(lines))
    cites = set().union(*(it.cites for it in shown.values()), words if "contracts" in words else ())
    words, own, named = words | cites, {it: {*cites} for it in shown}, words | cites
    modules, within_crate = set().union(*map(modules_in, texts)), {it: {*cites} for it in shown}
    marks: Any
    marks, within = collections.defaultdict(set), collections.defaultdict(set)
    out = [(crate, path, at) for crate, it in shown.items() for path in it.files
           for at in range(len(it.files[path]))]

    def is_in(crate: str, path: str, part: Part) -> bool:
        module = shown[crate].closed.get(path)
        if module and module not in within_crate[crate] and modules.isdisjoint(
            ((crate, module), (crate, "*"), ("*", "*"))):
            return False
        if part.when in (SPECS, PROOFS):
            of = "specs" if part.when == SPECS else "proofs"
            return not paths.isdisjoint(
                (ALL, (crate, "*", "*"), (crate, of, "*"), (crate, of, part.name)))
        if part.when == BROUGHT:
            return part.name <= marks[crate, path]
        return part.when == ALWAYS or part.name in {
            NAMED: words, PRIVATE: own[crate], CONSTANT: named}[part.when]

    grown = True
    while grown:
        left = []
        for crate, path, at in out:
            part = shown[crate].files[path][at]
            if not is_in(crate, path, part):
                left.append((crate, path, at))
                continue
            within[crate, path].add(at)
            words |= part.names
            own[crate] |= part.names
            within_crate[crate] |= part.names | part.words
            modules |= part.modules
            paths |= part.paths
            marks[crate, path] |= part.marks
            named |= part.words
        grown, out = len(left) < len(out), left

    def told(crate: str, is_lemma: bool) -> list[tuple[str, str]]:
        files = {
            path: [it.said for at, it in enumerate(parts) if at in within[crate, path]
                   ] for path, parts in shown[crate].files.items()}
        return [(path, "\n".join(said)) for path, said in files.items()
                if said and path.startswith("proofs/") == is_lemma]

    return [(it, told(it, False)) for it in sorted(shown)], [
        (it, told(it, True)) for it in sorted(shown) if told(it, True)]


def words_of(text: str) -> set[str]:
    """Returns the words of a text."""
    return {*re.findall(r"\w+", text)}


def paths_in(text: str, crate: str | None = None) -> set[tuple[str, str, str]]:
    """Returns the paths of antt that stand in a text: of each the crate, `specs` or `proofs`,
    and the file; `*` where it ends before. In code `crate` is this one.
    """
    found: list[Any] = [(*it.split(".")[1:4], "*", "*", "*")[:3]
                        for it in PATH.findall(text.replace("«", "").replace("»", ""))]
    if "Code specs\n" in text or "Code proofs\n" in text or "::" in text:
        # (in a text as it is, or in its words)
        code = text.replace("\nCode :\nCode :\nCode ", "::")
        found += [(crate if it == "crate" else it, part, file or "*")
                  for it, part, file in PATH_OF_CODE.findall(code)]
    return {*found}


def modules_in(text: str) -> set[tuple[str, str]]:
    """Returns the modules of src/ that paths of antt in a text name, each with its crate: behind
    `declared` or `contracts`, which rattle makes of src/. `*` where a path ends before, or where
    code names such a file.
    """
    paths = [it.split(".")[1:5] for it in PATH.findall(text.replace("«", "").replace("»", ""))]
    of_code = [
        it for it in paths_in(text)
        if it[2] in ("declared", "contracts") and [*it] not in [its[:3] for its in paths]]
    found = {(*it, "*", "*", "*", "*")[:4] for it in paths} | {(*it, "*") for it in of_code}
    return {(crate, module) for crate, part, file, module in found
            if part in ("*", "specs") and file in ("*", "declared", "contracts")}


def marks_of(word: str) -> set[str]:
    """Returns the marks that tell a word: the runs of letters in it, and each other sign, less
    the places of arguments.
    """
    return {*re.findall(r"\w+|[^\w\s◌.«»]", word)}


def spelled(rows: list[Token], text: bytes) -> dict[int, str]:
    """Returns a line for each of a text's tokens, by its place in the text (bytes): its kind and
    its word. A word of antt that begins a line stands behind its column, since antt reads that
    too.
    """
    begins = {
        it.start for it, before in zip(rows, [None, *rows])
        if it.kind == "Antt" and (before is None or it.line != before.line)}
    columns = {it: f"{it - text.rfind(NEWLINE, 0, it)} " for it in begins}
    return {it.start: f"{columns.get(it.start, '')}{it.kind} {it.word}" for it in rows}


def _parts(crate: str, path: str, rows: list[Token], text: bytes) -> list[Part]:
    """Returns the parts of a crate's file."""
    lines = spelled(rows, text)
    if path.endswith(".rt"):
        return _parts_of_code(crate, rows, lines)
    said, (of, _, file) = "\n".join(lines.values()), path.partition("/")
    when, paths, modules = SPECS if of == "specs" else PROOFS, paths_in(said), modules_in(said)
    if file != "Lib.antt":
        return [
            Part(said, when,
                 file.split("/")[0].removesuffix(".antt"), words=words_of(said), paths=paths,
                 modules=modules)]
    files = re.findall(r"mod (\S+) (?:pub )?", " ".join([*(it.word for it in rows), ""]))
    if files == [it.word for it in rows if it.word not in ("pub", "mod")]:
        return [Part(f"mod {it}", when, it.strip("«»")) for it in files]
    # (it holds more, and may name each file by its bare name)
    return [Part(said, words=words_of(said), paths={*paths, (crate, of, "*")}, modules=modules)]


def _parts_of_code(crate: str, rows: list[Token], lines: dict[int, str]) -> list[Part]:
    """Returns the parts of a file of src/."""

    def part(tokens: Any, when: int = ALWAYS, name: str | None = None) -> Part:
        said = "\n".join(lines[it.start] for it in tokens)
        code = [it.word for it in tokens if it.kind == "Code"]
        names = set().union(
            *map(words_of, {word for before, word in zip(["", *code], code) if before != "fn"}))
        # (a sign of code is none that a `ghost use` brings)
        marks = set().union(*map(words_of, {*code}),
                            *map(marks_of, {it.word for it in tokens if it.kind != "Code"}))
        return Part(said, when, name, marks, names, marks, paths_in(said, crate), modules_in(said))

    functions = functions_of(rows)
    cuts = _joined([
        *_tactics(rows),
        *((it.opens, it.closes, None) for it in functions if not it.is_read_above)])
    kept, by_name = [*_outside(rows, cuts)], [
        it for it in functions if it.begins is not None and _is_by_name(it)]
    code = [it.word for it in kept if it.kind == "Code"]
    shows_code = any(it.is_read_above for it in functions) or _has_macro(code)
    regions: Any
    places, regions = [it.start for it in kept], []
    it: Any
    for it in by_name:
        tokens = kept[bisect.bisect_left(places, it.begins):bisect.bisect_right(places, it.closes)]
        regions.append((it.begins, it.closes + 1, [
            part(tokens, PRIVATE if it.is_private else NAMED, it.name)]))
    for tokens in _items([*_outside(kept, regions)]):
        kind, name = [it.word for it in tokens[_visible(tokens, 0):]][:2]
        if kind == "const":
            made: Any = [part(tokens, CONSTANT, name)]
        elif kind == "mod":
            made = [Part(f"pub mod {name}", NAMED, name)] if _visible(tokens, 0) == 1 else []
        else:
            stays = shows_code or kind == "use" and "mod" in code
            made = (not stays and _brought(tokens, kind == "ghost")) or [part(tokens)]
        regions.append((tokens[0].start, tokens[-1].end, made))
    parts: Any
    rest: Any
    parts, rest, regions = [], [], iter(_joined(regions))
    start: Any
    end: Any
    start, end, made = next(regions, (math.inf, math.inf, []))
    for it in kept:
        while it.start >= end:
            start, end, made = next(regions, (math.inf, math.inf, []))
        if it.start < start:
            rest.append(it)
        elif made:
            parts, rest, made = [*parts, *([part(rest)] if rest else []), *made], [], []
    return parts + ([part(rest)] if rest else [])


def _is_by_name(function: Function) -> bool:
    """Returns whether a text has to have the function's name to call it."""
    return function.is_private or not function.is_own or function.name not in OF_MACROS


def _joined(
        regions: list[tuple[int, int,
                            list[Part] | None]]) -> list[tuple[int, int, list[Part] | None]]:
    """Returns these regions of a text in order, less those that lie in another."""
    found: Any = []
    for it in sorted(regions, key=lambda it: (it[0], -it[1])):
        if not found or it[0] >= found[-1][1]:
            found.append(it)
    return found


def _outside(rows: list[Token], regions: Any) -> Iterator[Token]:
    """Yields the tokens that lie outside the regions, which are given in order."""
    regions = iter(regions)
    start, end, _ = next(regions, (math.inf, math.inf, None))
    for it in rows:
        while it.start >= end:
            start, end, _ = next(regions, (math.inf, math.inf, None))
        if it.start < start:
            yield it


def _tactics(rows: list[Token]) -> Iterator[tuple[Any, Any, None]]:
    """Yields the regions of the attributes `#[tactic(..)]` in a file."""
    code = [it for it in rows if it.kind == "Code"]
    for at, it in enumerate(code):
        if [it.word for it in code[at:at + 3]] == ["#", "[", "tactic"]:
            closes = closing([it.word for it in code[at:]], 1)
            yield it.start, code[min(at + closes, len(code) - 1)].end, None


def _has_macro(words: list[str]) -> bool:
    """Returns whether a macro is declared or called among these words of code."""
    threes = zip(words, words[1:], words[2:])
    return any(
        sign == "!" and re.fullmatch(r"\w+", before) and (after in "({[" or before == "macro_rules")
        for before, sign, after in threes)


def _private_modules(rows: list[Token]) -> Iterator[str]:
    """Yields the name of each module that a file declares by `mod x;`, and not by `pub mod x;`."""
    words = ["", *(it.word for it in rows if it.kind == "Code")]
    for before, word, name, end in zip(words, words[1:], words[2:], words[3:]):
        if word == "mod" and end == ";" and before not in ("pub", ")"):
            yield name


def _is_closed(rows: list[Token]) -> bool:
    """Returns whether a file declares no macro and no module, brings nothing by `pub use`, and
    has no `impl` but of types that it declares.
    """
    words = [it.word for it in rows if it.kind == "Code"]
    declared = {name for word, name in zip(words, words[1:]) if word in ("struct", "enum", "union")}
    if {"macro_rules", "mod", "extern"} & {*words} or ("pub", "use") in zip(words, words[1:]):
        return False
    for at, word in enumerate(words):
        if word != "impl" or (at and words[at - 1] in "(<,:&>=+"):
            continue
        head = words[at + 1:next((
            it for it in range(at, len(words)) if words[it] in ("{", "where")), len(words))]
        of: Any
        depth, of = 0, []
        for it in head:
            depth += (it == "<") - (it == ">")
            if it == "for" and not depth:
                of = []
            elif not depth and it != ">":
                of.append(it)
        if not of or of[0] not in declared:
            return False
    return True


def _items(rows: list[Token]) -> Iterator[list[Token]]:
    """Yields the tokens of each `use`, `ghost use` and `mod` line in a file of src/, and of each
    constant of a module, that has no attribute.
    """
    at, depth, is_start = 0, 0, True
    while at < len(rows):
        words = [it.word for it in rows[at:at + 4]]
        bare = [it.word for it in rows[at + _visible(rows, at):][:4]]
        is_use = words[0] == "use" or words[:2] == ["ghost", "use"]
        is_constant = depth == 0 and bare[:1] == ["const"] and bare[1:2] != ["_"] and bare[2:3] == [
            ":"]
        if rows[at].kind == "Code" and words[:3] == ["#", "!", "["]:
            at += closing([it.word for it in rows[at:]], 2) + 1
        elif rows[at].kind == "Code" and is_start and (is_use or is_constant or bare[:1] == ["mod"]
                                                       and bare[2:3] == [";"]):
            end = _end(rows, at)
            yield rows[at:end]
            at = end
        else:
            word = words[0] if rows[at].kind == "Code" else "-"
            depth += (word == "{") - (word == "}")
            at, is_start = at + 1, word in "{};"


def _visible(rows: list[Token], at: int) -> int:
    """Returns how many tokens say at `at` who sees an item: `pub`, or `pub(crate)` and the like."""
    words = [it.word for it in rows[at:at + 2]]
    return 0 if words[:1] != [
        "pub"] else 1 if words[1:] != ["("] else closing([it.word for it in rows[at:]], 1) + 1


def _end(rows: list[Token], at: int) -> int:
    """Returns where the item that begins at `at` has ended: behind a `;` outside brackets and
    braces.
    """
    depth = 0
    for here in range(at, len(rows)):
        word = rows[here].word if rows[here].kind == "Code" else "-"
        depth += (word in "{([") - (word in "})]")
        if word == ";" and not depth:
            return here + 1
    return len(rows)


def _brought(tokens: list[Token], is_ghost: bool) -> list[Part] | None:
    """Returns a part for each name that a `use` brings, or None where it isn't plain which these
    are.
    """
    words = re.sub(r" : : ", " :: ", " ".join(it.word for it in tokens[1 + is_ghost:-1])).split(" ")
    found = [*_names_brought(words, [])]
    if None in found or words:
        return None
    parts = []
    for path, name in found:
        said = (f"{'ghost use' if is_ghost else 'use'} {('.' if is_ghost else '::').join(path)} as "
                f"{name}")
        # (of the path the first name alone may be one that another `use` of the file brings)
        names = set() if is_ghost else {word for it in path for word in words_of(it)}
        parts.append(
            Part(said, BROUGHT, marks_of(name), marks_of(path[0].split(".")[0]), names,
                 words_of(said), paths_in(said), modules_in(said)))
    return parts


def _names_brought(words: list[str], above: list[str]) -> Iterator[tuple[list[str], str]]:
    """Yields the path and the name of each leaf of a tree of `use`, below a path, and takes the
    tree's words away; None where it isn't plain.
    """
    path = [*above]
    while words:
        word = words.pop(0)
        if word == "{":
            while words and words[0] != "}":
                yield from _names_brought(words, path)
                if words and words[0] == ",":
                    words.pop(0)
                elif words[:1] != ["}"]:
                    yield None
                    return
            yield from [] if words else [None]
            del words[:1]
            return
        if word in ("*", "self", "}", ",", "as", "::", "."):
            yield None
            return
        path.append(word)
        if words[:1] not in (["::"], ["."]):
            break
        words.pop(0)
    name = path[-1].rpartition(".")[2] or path[-1] if path else "_"
    if words[:1] == ["as"]:
        name = "".join(words[1:2])
        del words[:2]
    yield None if name in ("", "_") else (path, name)

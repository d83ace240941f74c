"""The functions of a text of Rattle, found by rattle's own tokens."""
import bisect
import re
import subprocess
import tempfile
from dataclasses import dataclass
from typing import Any

from uptane_tools.edits.kit import rtlib


@dataclass(slots=True)
class Token:
    """A token without its place in the text: the line that it stands in, where it starts and ends
    (bytes), its kind and its words (a JSON string).
    """

    line: int
    start: int
    end: int
    kind: str
    word: str


@dataclass(frozen=True)
class Function:
    """An outermost function with a body, which lies between the bytes `opens` and `closes`.

    `lines` are its first and last, `cycle` is the cycle of calls that it is in, or None, and
    `is_read_above` says that a crate above may read its body: that of a `const fn` or of a trait's
    default. `owner` is the word that rattle puts before its name, or None: the name of its trait or
    of the type whose own `impl` it stands in; of a trait's `impl`, the names of type and trait in
    one, as in `RefusalFromRefStr`, and in `AnySource` where it is for every type. `is_own` says
    that it stands in a type's own `impl`: rattle names it by that type's module. `modules` are the
    modules that it may stand in, each a tuple of names, or None where they aren't known yet.
    `begins` is the byte that the whole function begins at, its attributes with it, where no crate
    above can read it unless something names it; else None. `is_private` says that those above can't
    name it.
    """

    name: str
    lines: tuple[int, int]
    opens: int
    closes: int
    cycle: str | None
    is_read_above: bool
    owner: str | None = None
    is_own: bool = False
    modules: tuple[tuple[str, ...], ...] | None = None
    begins: int | None = None
    is_private: bool = False


CYCLE = re.compile(r"# \[ cycle \( (\w+) \)")
ATTRIBUTE = re.compile(r"# \[ [^]]* \] ")
VISIBLE = re.compile(r"(pub (\( [\w: ]+ \) )?)?(unsafe )?")


def tokens_of(files: Any) -> Any:
    """Returns the tokens of each of these .rt and .antt files, in one run of rattle, or None
    where it can't read one.
    """
    if not files:
        return []
    ran = subprocess.run([rtlib.RATTLE, "fmt", "--tokens", *files], capture_output=True,
                         check=False)
    if ran.returncode:
        return None
    texts = re.split(r"(?m)^file \d+\n", ran.stdout.decode())[1:]
    return [[_token(*row.split(" ", 4)) for row in text.split("\n") if row] for text in texts]


def _token(line: str, start: str, end: str, kind: str, word: str) -> Token:
    return Token(int(line), int(start), int(end), kind, word[1:-1])


def functions_in(text: bytes) -> Any:
    """Returns the functions of a text (bytes), or None where it is no text of Rattle."""
    with tempfile.NamedTemporaryFile(suffix=".rt") as file:
        file.write(text)
        file.flush()
        tokens = tokens_of([file.name])
    return None if tokens is None else functions_of(tokens[0])


def functions_of(tokens: list[Token]) -> list[Function]:
    """Returns the functions among a text's tokens. What macros hold is passed over, and stays as
    it is.
    """
    code, found, at, start, trait_ends = [it for it in tokens if it.kind == "Code"], [], 0, 0, 0
    ghost = [it.start for it in tokens if it.kind != "Code"]
    owner, is_own, owner_ends = None, False, 0
    words = [it.word for it in code]
    while at < len(words):
        if words[at] == "fn" and re.fullmatch(r"\w+", "".join(words[at + 1:at + 2])):
            name, opens = words[at + 1], _next(words, at, "{;")
            closes = closing(words, opens) if words[opens:opens + 1] == ["{"] else len(words)
            if closes < len(words):
                cycle = CYCLE.search(" ".join(words[start:at]))
                lines, is_read = (code[start].line,
                                  code[closes].line), at < trait_ends or "const" in words[start:at]
                mine = (owner, is_own) if at < owner_ends else (None, False)
                is_bare = bisect.bisect(ghost, code[start].start) == bisect.bisect(
                    ghost, code[at].start)
                begins = code[start].start if not is_read and is_bare and _is_for_callers(
                    words[start:at], *mine) else None
                private = not _is_public(words[start:at])
                found.append(
                    Function(name, lines, code[opens].end, code[closes].start,
                             cycle[1] if cycle else None, is_read, *mine, None, begins, private))
                opens = closes
            at = start = opens + 1
        elif words[at:at + 3] == ["#", "!", "["]:
            # (an attribute of the file is none of what follows)
            at = start = closing(words, at + 2) + 1
        elif words[at] == "!" and at and re.fullmatch(r"\w+", words[at - 1]):
            opens = _next(words, at, "{([")
            at = start = (closing(words, opens) if opens < len(words) else opens) + 1
        else:
            if words[at] == "trait":
                opens = _next(words, at, "{;")
                trait_ends = max(trait_ends,
                                 closing(words, opens) if words[opens:opens + 1] == ["{"] else 0)
                owner, is_own, owner_ends = "".join(words[at + 1:at + 2]), False, trait_ends
            if words[at] == "impl" and at >= owner_ends:
                opens = _next(words, at, "{;")
                (owner, is_own), owner_ends = owner_of(words[at + 1:opens]), closing(words, opens)
            at += 1
            start = at if words[at - 1] in "{};" else start
    return found


def _is_public(words: list[str]) -> bool:
    """Returns whether the words before a function's `fn` make it public: `pub`, and not `pub(..)`.
    """
    return any(word == "pub" and after != "(" for word, after in zip(words, [*words[1:], ""]))


def _is_for_callers(words: list[str], owner: str | None, is_own: bool) -> bool:
    """Returns whether only those who name a function learn what it promises, from the words
    before its `fn` and whose `impl` it stands in. It isn't of a trait's `impl`, nor in a cycle
    of calls, whose contracts have one proof, nor for C to call; and nothing but attributes and
    `pub` is said.
    """
    said = "".join(f"{it} " for it in words)
    return (is_own or owner is None) and not CYCLE.search(said) and VISIBLE.fullmatch(
        ATTRIBUTE.sub("", said)) is not None


def module_of(path: str) -> Any:
    """Returns the names of the module that this file is, none of the crate's root."""
    return tuple(it for it in re.sub(r"^src/|(/mod)?\.rt$", "", path).split("/")
                 if it not in ("lib", "main"))


def types_of(tokens: list[Token]) -> set[str]:
    """Returns the names of the types that a text's tokens declare."""
    words = [it.word for it in tokens if it.kind == "Code"]
    return {
        name for word, name in zip(words, words[1:]) if word in ("struct", "enum", "union", "type")}


def owner_of(words: list[str]) -> tuple[str, bool]:
    """Returns the word that rattle puts before a name in the `impl` that has these words before
    its brace, and whether it is a type's own.
    """
    parts: Any
    parameters, parts, depth = set(), [[]], 0
    for at, (before, word) in enumerate(zip(["", *words], words)):
        depth += (word in "<([") - (word in ")]" or word == ">" and before != "-")
        is_parameter = parts == [[]] and words[0] == "<" and (depth or word == ">")
        if depth == 0 and word == "where":
            break
        if depth == 0 and word == "for":
            parts.append([])
        elif is_parameter and depth == 1 and before in ("<", ",", "const"):
            parameters.add(word)
        elif not is_parameter:
            parts[-1].append(word)
    return "".join("Any" if len(it) == 1 and it[0] in parameters else _spelled(it, parameters)
                   for it in parts[::-1]), len(parts) == 1


def _spelled(words: list[str], parameters: set[str]) -> str:
    """Returns how rattle spells a type or a trait inside a name: its words run together, without
    paths, lifetimes and parameters.
    """
    said = ""
    for at, (word, after) in enumerate(zip(words, [*words[1:], ""])):
        if word == "&":
            said += "Ref"
        elif word == "[":
            said += "Slice"
        elif word == "(":
            inside = " ".join(words[at + 1:closing(words, at)])
            said += f"Tuple{1 + _commas(inside.split())}"
        elif re.fullmatch(r"\w+", word) and after != ":" and word not in parameters:
            said += word[0].upper() + word[1:]
    return said


def _commas(words: list[str]) -> int:
    """Returns how many commas stand among these words outside parentheses, brackets and angles."""
    depth, found = 0, 0
    for word in words:
        depth += (word in "<([") - (word in ">)]")
        found += word == "," and depth == 0
    return found


def _next(words: list[str], at: int, among: str) -> int:
    """Returns where the first of these marks stands from `at` on, outside parentheses and
    brackets, or the end.
    """
    depth = 0
    while at < len(words) and (depth or words[at] not in among):
        depth += (words[at] in "([") - (words[at] in ")]")
        at += 1
    return at


def closing(words: list[str], at: int) -> int:
    """Returns where what opens at `at` closes, or the end."""
    depth = 0
    for here in range(at, len(words)):
        depth += (words[here] in "{([") - (words[here] in "})]")
        if not depth:
            return here
    return len(words)


def with_bodies(text: bytes, bodies: list[tuple[Function, bytes]]) -> bytes:
    """Returns the text (bytes) with these bodies, pairs of a function and the bytes between its
    braces, in place of its own.
    """
    for function, body in sorted(bodies, key=lambda it: -it[0].opens):
        text = text[:function.opens] + body + text[function.closes:]
    return text

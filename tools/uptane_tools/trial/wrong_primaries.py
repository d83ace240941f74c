"""Tries the vectors of `vectors/` themselves: by Primaries that are wrong.

    tools/run wrong_primaries

Each is the small Primary of `examples/primary` with one change, a mistake that a person would make,
and fails the vector that stands beside it. Each check of `verify.py` is left out by one of them.
"""
import functools
import re
import sys
import types
from collections.abc import Callable, Iterator
from dataclasses import dataclass
from pathlib import Path
from typing import Any

from uptane_tools import arguments
from uptane_tools.trial import small_rounds, trials, vector_cases

NAMES = ("ed25519", "envelopes", "forms", "verify", "primary")
FOLDER = trials.TOP / "examples" / "primary"
TABLE = Path(__file__).with_suffix(".txt")
HMAC, ED25519 = "hmac-sha256", "ed25519"


@dataclass(frozen=True)
class Wrong:
    """A wrong Primary: what it does, which text of which file is another, and a vector it fails."""

    what: str
    file: str
    old: str
    # (none where a check is left out)
    new: str | None
    vector: str
    method: str
    # whether it breaks off there, and so gives no verdict
    breaks: bool


def listed() -> list[Wrong]:
    """Those of the list beside this file."""
    found, text = [], TABLE.read_text(encoding="ascii")
    for what, given, changes in re.findall(r"(?m)^(\S.*)\n  (.+)\n((?:[-+].*\n)+)", text):
        words, vector = given.split(": ", 1)
        file, *more = words.split(", ")
        old, new = (re.findall(rf"(?m)^\{sign} ?(.*)$", changes) for sign in "-+")
        found.append(
            Wrong(what, file, "\n".join(old), "\n".join(new) if new else None, vector,
                  ED25519 if ED25519 in more else HMAC, "breaks" in more))
    return found


WRONG = listed()

# ---- how they are tried


def changed(wrong: Wrong) -> str:
    """The text of the file after the change; of a check that is left out, all of its call."""
    source = (FOLDER / (wrong.file + ".py")).read_text(encoding="ascii")
    if source.count(wrong.old) != 1:
        times = source.count(wrong.old)
        raise ValueError("%s stands %d times in %s.py" % (wrong.old, times, wrong.file))
    if wrong.new is not None:
        return source.replace(wrong.old, wrong.new)
    begins = source.index(wrong.old)
    ends = source.index("\n", begins)
    return source[:begins] + "pass" + source[ends:]


@functools.cache
def compiled(text: str, path: str) -> Any:
    return compile(text, path, "exec")


def loaded(file: str | None, source: str | None) -> types.SimpleNamespace:
    """The modules of the small Primary, of which one has another source."""
    kept, made = {name: sys.modules.pop(name, None) for name in NAMES}, {}
    try:
        for name in NAMES:
            path = FOLDER / (name + ".py")
            text = source if name == file else path.read_text(encoding="ascii")
            made[name] = sys.modules[name] = types.ModuleType(name)
            made[name].__file__ = str(path)
            exec(compiled(text, str(path)), vars(made[name]))
    finally:
        for name, module in kept.items():
            sys.modules.pop(name, None)
            if module:
                sys.modules[name] = module
    return types.SimpleNamespace(**made)


def vectors() -> Iterator[tuple[tuple[str, str], Callable[..., Any]]]:
    """The vectors of a Primary by scheme and name, and how each is tried by its modules."""
    chain, image = vector_cases.chain_is_answered, vector_cases.image_is_answered
    for method in (HMAC, ED25519):
        told = vector_cases.vectors("chains", method)
        for case in told["cases"]:
            yield (method, case["name"]), functools.partial(chain, told=told, case=case)
        for case in told["contents"]:
            yield (method, case["name"]), functools.partial(image, case=case)
        told = vector_cases.vectors("rounds", method)
        for case in told["cases"]:
            rounds = functools.partial(small_rounds.is_answered, told=told, case=case)
            yield (method, "rounds: " + case["name"]), rounds
        for case in vector_cases.vectors("manifests", method)["builds"]:
            build = vector_cases.build_is_answered
            yield (method, "build: " + case["name"]), functools.partial(build, case=case)
    for case in vector_cases.vectors("answers")["cases"]:
        answer = vector_cases.answer_is_answered
        yield (HMAC, case["name"]), functools.partial(answer, case=case)
    for case in vector_cases.vectors("answers")["files"]:
        get = vector_cases.get_is_answered
        yield (HMAC, "GET: " + case["name"]), functools.partial(get, case=case)


def answer(small: types.SimpleNamespace, method: str, is_answered: Callable[..., Any]) -> Any:
    """Whether a vector is answered so, or what broke: that is no verdict."""
    small.envelopes.use({"method": method})
    try:
        return is_answered(small)
    except Exception as broke:
        return repr(broke)


def lines_of_checks() -> list[str]:
    source = (FOLDER / "verify.py").read_text(encoding="ascii")
    return re.findall(r"(?m)^ +((?:expect|check_signed)\(.*)$", source)


def cases() -> trials.Cases:
    found, right = dict(vectors()), loaded(None, None)
    yield "at least sixty wrong Primaries", len({it.what for it in WRONG}) == len(WRONG) >= 60
    without = [it.old for it in WRONG if it.new is None]
    for line in lines_of_checks():
        yield "a wrong Primary lacks %s" % line[:60], any(map(line.startswith, without))
    for it in WRONG:
        try:
            wrong, is_answered = loaded(it.file, changed(it)), found[it.method, it.vector]
        except (KeyError, ValueError) as why:
            yield "it %s: %r" % (it.what, why), False
            continue
        said = [answer(small, it.method, is_answered) for small in (right, wrong)]
        is_wrong = isinstance(said[1], str) if it.breaks else said[1] is False
        yield "%s: %s" % (it.what, it.vector), said[0] is True and is_wrong


def main(words: arguments.Words = None) -> int:
    """Tries each wrong Primary."""
    arguments.given(__doc__, words)
    return trials.judged("wrong Primaries", cases())

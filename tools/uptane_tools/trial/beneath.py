"""Counts the definitions of the kit to which ours lead: where the count of `theorem` ends, this one
begins. A definition is one of a file of the kit's specs/, each counted once, with its words but
without comments. Types of the kit's code have none, and the logic's own names (numbers, lists,
equality) are where this count ends.
"""
import re
from collections.abc import Iterable, Iterator
from functools import lru_cache
from pathlib import Path

# a definition, of a module with parameters or of a block too; and one that is made of cases
BEGINS = re.compile(r"(?m)^ *(?:abbrev|unfoldable|pub record|pub data|record|data)(?: pub)? "
                    r"(?!use |pub |mutual\b)(\S+)")
MADE_OF_CASES = re.compile(r"\s*(?:pub )?(?:data|record)\b")
USED = re.compile(r"\buse (?:Rattle\.)?([\w.]+?)(?:\.\{([^}]*)\}| as (\w+))")
WORD = re.compile(r"[A-Za-z_]\w*(?:\.[A-Za-z_]\w*)*")
COMMENT = re.compile(r"(?m)(?:^|[ \t]+)--(?: .*)?$")

# a module and a name of it
Place = tuple[str, str]


class Module:
    """A file of the kit's specs/: the text of each definition, and where the other names are from.
    """

    def __init__(self, text: str) -> None:
        text = COMMENT.sub("", text)
        begun = [*BEGINS.finditer(text)]
        ends = [it.start() for it in begun[1:]] + [len(text)]
        self.parts = {it[1]: text[it.start():end].strip() for it, end in zip(begun, ends)}
        self.taken: dict[str, Place] = {}
        for path, names, alias in USED.findall(text):
            if alias:
                self.taken[alias] = path, ""
            for name in filter(None, (it.strip() for it in names.split(","))):
                known, _, called = name.partition(" as ")
                self.taken[called or known] = path, known

    def part_of(self, name: str) -> str | None:
        """The definition that has the name, or has a case or a field of it."""
        if name in self.parts:
            return name
        cases = re.compile(r"\b%s\b" % re.escape(name))
        return next((it for it, text in self.parts.items()
                     if MADE_OF_CASES.match(text) and cases.search(text)), None)

    def leads(self, path: str, text: str) -> Iterator[Place]:
        """Where the names of a text lead."""
        for word in WORD.findall(text):
            head, _, rest = word.partition(".")
            if head in self.taken:
                to, known = self.taken[head]
                yield to, known or rest.split(".")[0]
            elif head in self.parts:
                yield path, head


@lru_cache(None)
def module(kit: Path, path: str) -> Module | None:
    """The module of a path, if it is one of a crate of the kit."""
    crate, *rest = path.split(".")
    file = kit / "rattle" / crate / ("%s.antt" % "/".join(rest))
    if rest[:1] != ["specs"] or not file.is_file():
        return None
    return Module(file.read_text(encoding="utf-8"))


def counted(kit: Path, begun: Iterable[Place]) -> tuple[int, int]:
    """How many definitions these places lead to, and their words."""
    waiting, done, words = [*begun], set(), {}
    while waiting:
        path, name = waiting.pop()
        of = module(kit, path) if (path, name) not in done else None
        done.add((path, name))
        if of is None:
            continue
        part = of.part_of(name)
        if part:
            words[path, part] = len(of.parts[part].split())
            waiting += of.leads(path, of.parts[part])
        elif name in of.taken:
            to, known = of.taken[name]
            waiting.append((to, known or name))
    return len(words), sum(words.values())

"""Compares the page of the theorem, and the page of each crate, with the sources that they
quote, and counts the definitions that the theorem's statement rests on.

    tools/run theorem            tells what differs
    tools/run theorem write      writes the quotes and the counts anew
    tools/run theorem sizes      lists each definition that is counted, with its words
    tools/run theorem unled      lists each definition to which no contract leads

A line `<!-- quote FILE NAME -->` stands above a quote: the function's contract or the definition
of that name, as the file has it; a line `<!-- example FILE NAME -->` above a whole function,
which is proved, and run by a test where it stands in a crate of tests. A line `<!-- sizes -->`
stands above the table of counts. Counted is what the contract of the headline leads to through
names: each definition once, its lines and words without comments, and each type of the code that
a definition uses; and beneath these, by themselves, the kit's definitions. A line `<!-- kit -->`
stands above the table of the kit's crates. Both tables are compared where the kit is.
"""
import re
import shutil
import sys
from collections import defaultdict
from collections.abc import Iterable, Iterator
from functools import lru_cache
from pathlib import Path
from typing import Any

from uptane_tools import arguments
from uptane_tools.trial import beneath, trials
from uptane_tools.trial.trials import TOP

PAGE = TOP / "docs" / "trust" / "THEOREM.md"
HEADLINE = ("crates/up_desk/src/desk.rt", "run")
# the same over fresh tables, whose statements have nothing of the inside
FRESH = "crates/up_shipped/src/fresh.rt", ["run_fresh", "script_fresh", "stream_fresh"]
# a desk as whoever asks sees it: a trait, whose clauses are what its types keep, and how one begins
SEEN = "crates/up_shipped/src/machine.rt", ["Repositories", "fresh_desk", "released"]
LAWS = "crates/up_uptane/src/laws.rt"
# the law of the scheme that a desk is over, by the bound of its type
BOUND = TOP / "crates" / "up_sign" / "src" / "scheme.rt"
QUOTE = re.compile(r"^<!-- (quote|example) (\S+) (\w+) -->\n\n((?:    .*\n|\n(?=    ))*)",
                   re.MULTILINE)
SIZES = re.compile(r"^<!-- sizes -->\n\n((?:\|.*\n)*)", re.MULTILINE)
KIT_TABLE = re.compile(r"^<!-- kit -->\n\n((?:\|.*\n)*)", re.MULTILINE)
DECLARED = r"(?:abbrev|unfoldable|pub record|pub data|record|data)(?: pub)? "
BEGINS = re.compile(DECLARED + r"(?!use |pub |mutual\b)(\S+)")
MUTUAL = re.compile(DECLARED + r"mutual\b")
WORD = re.compile(r"[A-Za-z_]\w*(?:\.[A-Za-z_]\w*)*")
# what a part of the definitions is for, by crate
PARTS = {
    "up_desk": "runs of a desk: answers, repeats, crashes",
    "up_machine": "the plain machine: state, decisions, replies, lists with repeats",
    "up_plan": "plans", "up_metadata": "keys, and the files that they sign",
    "up_roles": "role files", "up_manifest": "manifests and reports",
    "up_sign": "schemes, envelopes, thresholds",
    "up_canon": "canonical text, names, moments, refusals", "up_store": "which state tables show",
    "up_rows": "the rows of a state", "up_columns": "lists in columns",
    "up_tables": "the tables, and what their statements make",
    "up_records": "what tables show to a desk, and its cache"}


def without_comments(text: str) -> str:
    # (lines of a comment first: without its words such a line would be an empty one, at which a
    # record is cut)
    return re.sub(r"[ \t]+--(?: .*)?$", "", re.sub(r"^[ \t]*--.*\n", "", text, flags=re.MULTILINE),
                  flags=re.MULTILINE)


# ---- quotes


def function_of(text: str, name: str) -> Any:
    """The head of a public function, with its contract; of a trait all that it says."""
    found = re.search(r"^( *)pub fn %s\b.*?(?=^\1\{\n|^\1\{\}\n)" % name, text,
                      re.MULTILINE | re.DOTALL)
    return re.sub(r"(?m)^%s" % found[1], "", found[0]) if found else trait_of(text, name)


def trait_of(text: str, name: str) -> Any:
    """A public trait without its comments."""
    found = re.search(r"^pub trait %s\b.*?^\}\n" % name, text, re.MULTILINE | re.DOTALL)
    return found and re.sub(r"(?m)^ *///?.*\n", "", found[0])


def definition_of(text: str, name: str) -> Any:
    """A definition, with the comment above it."""
    begins = (r"^((?:--[^\n]*\n)*)(?:abbrev|unfoldable|record|data|pub record|pub data)(?: pub)? "
              r"%s\b") % name
    found = re.search(begins + r".*?(?=\n\n|\Z)", text, re.MULTILINE | re.DOTALL)
    return found and found[0].rstrip("\n") + "\n"


def example_of(text: str, name: str) -> Any:
    """A function with its body, and its attributes."""
    found = re.search(r"^( *)(?:#\[[^\n]*\]\n *)*(?:pub(?:\(crate\))? )?fn %s\b.*?^\1\}\n" % name,
                      text, re.MULTILINE | re.DOTALL)
    return found and re.sub(r"(?m)^%s" % found[1], "", found[0])


def quoted(kind: str, file: str, name: str) -> str:
    text = (TOP / file).read_text(encoding="utf-8")
    found = example_of(text, name) if kind == "example" else function_of(
        text, name) if file.endswith(".rt") else definition_of(text, name)
    if not found:
        sys.exit("theorem: %s has no %s" % (file, name))
    return "".join(
        "    " + line if line.strip() else line for line in found.splitlines(keepends=True))


# ---- what the statement leads to


def parts_of(text: str) -> dict[str | Any, Any]:
    """The declarations of a module: the text of each, with its fields or equations, by its name.
    Those that are defined by one another stand in one block, and are apart here.
    """
    parts = {}
    for block in re.split(r"(?m)^(?=%s)" % DECLARED, without_comments(text))[1:]:
        found = BEGINS.match(block)
        if found:
            parts[found[1]] = block.strip() + "\n"
        for one in re.split(r"(?m)^  (?=pub \w+ :)", block)[1:] if MUTUAL.match(block) else ():
            parts[one.split()[1]] = one.strip() + "\n"
    return parts


@lru_cache(None)
def module(crate: str, path: str) -> Any:
    """A module of definitions: the texts of its declarations, and what it takes from which
    module, by the name that it uses.
    """
    file = TOP / "crates" / crate / "specs" / ("%s.antt" % path.replace(".", "/"))
    text = file.read_text(encoding="utf-8")
    return file, parts_of(text), taken(text)


def taken(text: str) -> dict[str, tuple[Any, str]]:
    """The imports of a text, of both forms."""
    found = {}
    for path, names in re.findall(r"use Rattle\.([\w.]+?)(?:\.\{([^}]*)\}|(?= as))", text):
        for name in filter(None, (it.strip() for it in (names or "").split(","))):
            known, _, called = name.partition(" as ")
            found[called or known] = path, known
    for path, alias in re.findall(r"use Rattle\.([\w.]+) as (\w+)", text):
        found[alias] = path, None
    return found


def place_of(path: Any) -> tuple[str | Any, str] | None:
    """The crate and the module of a path; the module of a type of the code begins with `declared`.
    """
    crate, *rest = path.split(".")
    return (crate,
            ".".join(rest[1:])) if crate.startswith("up_") and rest and rest[0] == "specs" else None


def declared(crate: str, path: str) -> Any:
    """The file of a type of the code, and its text there."""
    _, file, name, *_ = path.split(".") + ["", ""]
    source = TOP / "crates" / crate / "src" / ("%s.rt" % file)
    if not source.is_file():
        return None
    found = re.search(r"^(?:pub )?(?:struct|enum) %s\b.*?^\}" % name,
                      source.read_text(encoding="utf-8"), re.MULTILINE | re.DOTALL)
    return found and (source, name, re.sub(r"^\s*///?.*\n", "", found[0], flags=re.MULTILINE))


def names_in(text: str, parts: Any, imports: Any) -> trials.Cases:
    """Where the names of a text lead: a crate, a module and a name."""
    for word in WORD.findall(text):
        head, _, rest = word.partition(".")
        if head in imports:
            path, known = imports[head]
            yield path, known if known else rest.split(".")[0]
        elif head in parts:
            yield None, head


def closure(head: Any = HEADLINE) -> list[Any]:
    """Each definition that the contract leads to: the file, its name and its text."""
    return closure_and_ends(head)[0]


def closure_and_ends(head: Any) -> tuple[list[Any], set[Any]]:
    """Each definition that the contract leads to, and the law of the scheme that it is over; and
    the names of the kit's at which they end, each with its module.
    """
    file, name = head
    text, bound = (TOP / file).read_text(encoding="utf-8"), BOUND.read_text(encoding="utf-8")
    law = re.search(r"ghost lawful: .*", bound)
    waiting, done, found, ends = [], set(), [], set()
    source: Any
    for source, begins in ((text, function_of(text, name)), (bound, law[0])):
        imports: Any = taken(re.sub(r"^(ghost )", "", source, flags=re.MULTILINE))
        waiting += [(path, known) for path, known in names_in(begins, {}, imports) if path]
    while waiting:
        path, known = waiting.pop()
        place = place_of(path)
        if place is None:
            ends.add((path, known))
        if place is None or (path, known) in done:
            continue
        done.add((path, known))
        crate, at = place
        if at.startswith("declared."):
            it = declared(crate, at)
            if it and it not in found:
                found.append(it)
            continue
        if not (TOP / "crates" / crate / "specs" / ("%s.antt" % at.replace(".", "/"))).is_file():
            continue
        parts: Any
        source, parts, imports = module(crate, at)
        if known in parts and (source, known, parts[known]) not in found:
            found.append((source, known, parts[known]))
            waiting += [(to or path, name) for to, name in names_in(parts[known], parts, imports)]
    return found, ends


def unled() -> list[tuple[str, Any]]:
    """The definitions of the folders specs/ to which no contract of any function leads."""
    modules, waiting = {}, []
    for file in (TOP / "crates").glob("up*/specs/**/*.antt"):
        path: Any
        _: Any
        crate, _, *path = file.relative_to(TOP / "crates").with_suffix("").parts
        modules[crate, ".".join(path)] = file
    for file in (TOP / "crates").glob("up*/src/**/*.rt"):
        text = re.sub(r"(?m)^\s*//.*\n", "", file.read_text(encoding="utf-8"))
        imports: Any = taken(text)
        name: Any
        for path, name in names_in(re.sub(r"(?m)^ghost use [^;]*;", "", text), {}, imports):
            waiting.append((place_of(path or ""), name))
    # (where an operator stands isn't seen)
    waiting += [(place, name) for place in modules for name in module(*place)[1] if "◌" in name]
    led = set()
    while waiting:
        place, name = waiting.pop()
        if place in modules and (place, name) not in led:
            led.add((place, name))
            parts: Any
            _, parts, imports = module(*place)
            other: Any
            for path, other in names_in(parts.get(name, ""), parts, imports):
                waiting.append((place_of(path) if path else place, other))
    return sorted((str(modules[place].relative_to(TOP)), name) for place in modules
                  for name in module(*place)[1] if (place, name) not in led)


def to_read(text: str) -> Iterator[Any]:
    """The files that the page lists to be read; one without a folder is in that of the one before.
    """
    folder = None
    for crate, name in re.findall(r"`(?:(up_\w+)/specs/)?(\w+\.antt)`",
                                  re.search(r"(?s)\nTo read them:.*?\n\n", text)[0]):
        folder = TOP / "crates" / crate / "specs" if crate else folder
        yield folder / name


def counted(file: str, names: list[str]) -> dict[str, tuple[int, int]]:
    """For each crate, in the order of the table: how many definitions the contracts of these
    functions lead to, together, and their words.
    """
    rows: Any = defaultdict(list)
    for source, _, text in {it: 0 for name in names for it in closure((file, name))}:
        rows[source.relative_to(TOP / "crates").parts[0]].append(len(text.split()))
    order = [it for it in PARTS if it in rows] + sorted(set(rows) - set(PARTS))
    return {it: (len(rows[it]), sum(rows[it])) for it in order}


def row(what: str, crate: str, numbers: Iterable[int]) -> str:
    return "| %s | %s | %s |" % (what, crate, " | ".join("{:,}".format(it) for it in numbers))


def total(what: str, kit: Any, file: str, names: list[str]) -> str:
    """The row of all that these contracts lead to, and of the kit's definitions beneath."""
    ours = [sum(it) for it in zip(*counted(file, names).values())]
    ends = {it for name in names for it in closure_and_ends((file, name))[1]}
    return row(what, "", [*ours, *beneath.counted(kit, ends)])


def table(kit: Any) -> str:
    lines = [
        "| Part | Crate | Definitions | Words | The kit's | Words |", "|---|---|---|---|---|---|"]
    lines += [
        row(PARTS.get(crate, ""), "`%s`" % crate, it) + " | |"
        for crate, it in counted(HEADLINE[0], [HEADLINE[1]]).items()]
    lines.append(total("all", kit, HEADLINE[0], [HEADLINE[1]]))
    lines += [total("of `%s`" % name, kit, FRESH[0], [name]) for name in FRESH[1]]
    lines.append(total("of `%s`" % SEEN[1][0], kit, *SEEN))
    laws = re.findall(r"(?m)^pub fn (\w+)", (TOP / LAWS).read_text(encoding="utf-8"))
    lines.append(total("of `up_uptane`'s laws", kit, LAWS, laws))
    return "\n".join(lines) + "\n"


# ---- the kit

FAMILIES = [("Rust's libraries", r"core|std|std_\w+|io"), ("the system's calls", r"libc|os"),
            ("JSON", r"json|serde|serde_json|ryu|itoa|fast_float|simdutf8"), ("times", r"jiff\w*"),
            ("hashes and text", r"sha2|hex|memchr|arrayvec|slab|bytes"),
            ("HTTP", r"httparse|http\w*|matchit|mio"), ("SQLite", r"sqlite\w*"), ("other", r".*")]


def kit_crates(kit: Any) -> list[Any]:
    """The kit's crates that the program stands on."""
    program = (TOP / "crates.txt").read_text(encoding="utf-8").split("\n#")[0]
    waiting = ["core", "std"] + [
        it for it in re.findall(r"\b[a-z]\w*\b", re.sub(r"(?m)^.*?:", "", program))
        if not it.startswith("up")]
    found = set()
    while waiting:
        name = waiting.pop()
        if name not in found and (kit / "rlibs" / ("%s.rlib" % name) / "format").is_file():
            found.add(name)
            waiting += re.findall(r"^dep (\w+)$", (kit / "rlibs" / ("%s.rlib" % name) /
                                                   "format").read_text(encoding="utf-8"),
                                  re.MULTILINE)
    return sorted(found)


def lines_of(folder: Path, pattern: str) -> int:
    return sum(path.read_text(encoding="utf-8").count("\n") for path in folder.glob(pattern))


def foreign(folder: Path) -> int:
    """How many functions of C the crate calls."""
    blocks = [
        block for path in folder.glob("src/**/*.rt")
        for block in re.findall(r'extern "C" \{(.*?)^\}', path.read_text(
            encoding="utf-8"), re.DOTALL | re.MULTILINE)]
    return sum(len(re.findall(r"\bfn \w+", block)) for block in blocks)


def kit_table(kit: Any) -> str:
    left, lines = kit_crates(kit), [
        "| For | Crates | Code | Statements | Proofs | Calls of C |", "|---|---|---|---|---|---|"]
    for words, pattern in FAMILIES:
        of = [it for it in left if re.fullmatch(pattern, it)]
        left = [it for it in left if it not in of]
        folders = [kit / "rattle" / it for it in of]
        counts = [
            sum(map(count, folders))
            for count in (lambda it: lines_of(it, "src/**/*.rt"),
                          lambda it: lines_of(it, "specs/**/*.antt"),
                          lambda it: lines_of(it, "proofs/**/*.antt"), foreign)]
        if of:
            lines.append("| %s | %s | %s |" % (words, ", ".join(
                "`%s`" % it for it in of), " | ".join("{:,}".format(it) for it in counts)))
    return "\n".join(lines) + "\n"


def kit_here() -> Path | None:
    """The folder of the kit, if there is one."""
    found = shutil.which("rt")
    return Path(found).resolve().parents[1] if found else None


# ---- the page


def written(text: str) -> str:
    """The page with the quotes and the counts of the sources."""
    text = QUOTE.sub(
        lambda it: "<!-- %s %s %s -->\n\n%s%s" % (*it.groups()[:3], quoted(*it.groups()[:3]), ""
                                                  if it[4] else "\n"), text)
    if kit_here():
        text = KIT_TABLE.sub(lambda it: "<!-- kit -->\n\n" + kit_table(kit_here()), text)
        text = SIZES.sub(lambda it: "<!-- sizes -->\n\n" + table(kit_here()), text)
    return text.rstrip("\n") + "\n"


def pages() -> list[Path]:
    return [PAGE, *sorted((TOP / "crates").glob("*/README.md"))]


def cases() -> trials.Cases:
    text = PAGE.read_text(encoding="utf-8")
    yield "the page quotes the headline", HEADLINE in [
        (file, name) for _, file, name, _ in QUOTE.findall(text)]
    for page in pages():
        for kind, file, name, shown in QUOTE.findall(page.read_text(encoding="utf-8")):
            yield "%s: %s of %s" % (page.relative_to(TOP), name, file), shown == quoted(
                kind, file, name)
    led = {source for source, _, _ in closure()}
    for path in to_read(text):
        yield "the headline leads to %s" % path.relative_to(TOP), path in led
    yield "a contract leads to each definition", not [*unled()]
    if kit_here():
        yield "the counts of definitions", SIZES.findall(text) == [table(kit_here())]
        yield "the counts of the kit", KIT_TABLE.findall(text) == [kit_table(kit_here())]


def main(words: arguments.Words = None) -> int:
    """Compares the pages, writes them, or lists what is counted."""
    order = arguments.given(__doc__, words, order=["tell", "write", "sizes", "unled"]).order
    if order == "unled":
        for file, name in unled():
            print("%s: %s" % (file, name))
        return 0
    if order == "sizes":
        for path, what, text in sorted(closure(), key=lambda it: (str(it[0]), it[1])):
            print("%5d %s: %s" % (len(text.split()), path.relative_to(TOP), what))
        return 0
    if order == "write":
        for page in pages():
            page.write_text(written(page.read_text(encoding="utf-8")), encoding="utf-8")
    return trials.judged("theorem", cases())

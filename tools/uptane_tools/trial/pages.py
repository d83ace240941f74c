"""What the pages name is there: links, headings, files, contracts, calls, tests, rows, and the
texts of the Primary's page. Tests are functions, or sections of the rows that a crate or a tool
carries out, named by their words. And each public call of the program's libraries is named by
the page of proofs, each refusal and each message of the program by the page for operators. The
version is the project's wherever it is told.

    tools/run pages          tells what isn't there
    tools/run pages write    writes, for each promise of the page of proofs, the files of its
                             contract; then the same
"""
import re
import textwrap
from collections.abc import Iterator
from pathlib import Path
from typing import Any

from uptane_tools import arguments
from uptane_tools.__main__ import tools
from uptane_tools.trial import trials
from uptane_tools.trial.promises import sections as sections_of
from uptane_tools.trial.trials import TOP

# the words of each cause for which no database is opened
CAUSES = "crates/up_program/specs/Unopened.antt"
PAGES = [
    "README.md", "SECURITY.md", "docs/**/*.md", "examples/**/README.md", "rows/README.md",
    "vectors/README.md", "crates/*/README.md"]


def pages() -> list[Path]:
    return sorted(path for pattern in PAGES for path in TOP.glob(pattern))


def anchors(page: Path) -> set[str]:
    """The names by which links find the headings of a page."""
    headings = re.findall(r"^#+ (.+)$", page.read_text(encoding="utf-8"), re.MULTILINE)
    return {re.sub(r"[^\w\- ]", "", heading.lower()).replace(" ", "-") for heading in headings}


def leads(page: Path, link: str) -> bool:
    """Whether a link leads to a file, and to a heading of it where it names one."""
    name, _, anchor = link.partition("#")
    path = (page.parent / name).resolve() if name else page
    return path.exists() and (not anchor or anchor in anchors(path))


def links() -> trials.Cases:
    for page in pages():
        for link in re.findall(r"\]\(([^)\s]+)\)", page.read_text(encoding="utf-8")):
            if not link.startswith(("http:", "https:")):
                yield "%s: the link %s" % (page.relative_to(TOP), link), leads(page, link)


def files() -> trials.Cases:
    """The files and folders of the repository that the pages name, but for what is built."""
    for page in pages():
        named = re.findall(r"`((?:tools|docs|rows|vectors|examples|crates|up_\w+)/[\w./-]*)`",
                           page.read_text(encoding="utf-8"))
        for name in sorted(set(named)):
            if "/NAME/" not in name and "/out/" not in name:
                yield "%s: the file %s" % (page.relative_to(TOP), name), any(
                    (top / name).exists() for top in (TOP, TOP / "crates"))


def promised() -> Iterator[tuple[str, str, str]]:
    """The names that the front page, the page of proofs and that on the Standard give, with what
    each names.
    """
    proofs, standard = ((TOP / "docs" / "trust" / name).read_text(encoding="utf-8")
                        for name in ("PROOFS.md", "STANDARD.md"))
    front = (TOP / "README.md").read_text(
        encoding="utf-8").split("\n## What is proved\n")[1].split("\n## ")[0]
    yield from (("README.md", "Contract", name) for name in re.findall(r"`([\w:]+)`", front))
    for bullet in BULLET.findall(proofs):
        yield from (("PROOFS.md", "Contract", name)
                    for name in re.findall(r"`([\w:]+)`",
                                           CONTRACT.search(bullet)[1]))
    for _, _, kept, *shown in rows_of(standard, "Requirement"):
        yield from (("STANDARD.md", "Contract", name) for name in re.findall(r"`([\w:]+)`", kept))
        yield from (("STANDARD.md", "Tests, Rows, Tools", name) for it in shown
                    for name in re.findall(r"`([\w: ]+)`", it))
    for cells in rows_of((TOP / "SECURITY.md").read_text(encoding="utf-8"), "Stolen"):
        yield from (
            ("SECURITY.md", "Contract, Tools", name) for name in re.findall(r"`(\w+)`", cells[-1]))


def rows_of(page: str, first: str) -> Iterator[list[str]]:
    """The cells of the rows of a page's tables whose first column is headed so."""
    for table in re.findall(r"^\| %s \|.*\n\|[-|]+\n((?:\|.*\n)+)" % first, page, re.MULTILINE):
        yield from (re.split(r" *\| *", row[2:-2]) for row in table.splitlines())


def read_all(pattern: str) -> str:
    return "\n".join(path.read_text(encoding="utf-8") for path in TOP.glob(pattern))


def sections() -> set[str]:
    """The words of the sections of rows, those too that are computed."""
    return {name for path in TOP.glob("crates/*/stdin") for name in sections_of(path.parent)}


def names_there() -> dict[str, set[str]]:
    """The functions, clauses, types and definitions of the crates, their tests, the rows, and
    the tools.
    """
    code, specs = read_all("crates/*/src/**/*.rt"), read_all("crates/*/specs/*.antt")
    contracts = re.findall(r"\b(?:fn|ensures|struct|enum|trait|mod) (\w+)", code)
    return {
        "Contract": set(contracts) | set(re.findall(r"\bpub (?:record |data )?(\w+)", specs)),
        "Tests": set(re.findall(r"#\[test\]\s*fn (\w+)", code))
        | {path.name for path in TOP.glob("crates/*")} | sections(), "Rows": {
            path.parent.name for path in TOP.glob("rows/*/script")}, "Tools": set(tools())}


def promises() -> trials.Cases:
    """Whether what the pages name is there. Crates of tests stand for their tests."""
    there = names_there()
    for page, labels, name in sorted(set(promised())):
        words = set(name.split("::"))
        yield "%s: %s" % (page, name), any(words <= there[label] for label in labels.split(", "))


# ---- the files of contracts

# A promise: its name and its sentence, then its contract, with the files in which that is declared.
BULLET = re.compile(r"^- `[a-z][a-z0-9-]*`: .*?(?=^- `[a-z]|^## |^Crates? |\n\n|\Z)",
                    re.MULTILINE | re.DOTALL)
CONTRACT = re.compile(r"^  \*Contract\*: (.*?)(?:,\s+in\s+(`[\w./]+`(?:,\s+`[\w./]+`)*))?\.\s*\Z",
                      re.MULTILINE | re.DOTALL)
# so many files are named, and else their folder
MOST_FILES = 4


def crates_in(text: str) -> list[str]:
    return [
        name for name in re.findall(r"`(up_\w+|uptane_desk)`", text)
        if not re.search(r"_tests$|^up_test", name)]


def sources(crates: list[str]) -> dict[Path, str]:
    return {
        path: path.read_text(encoding="utf-8") for crate in crates
        for path in sorted((TOP / "crates" / crate / "src").glob("**/*.rt"))}


def declaring(name: str, code: dict[Path, str]) -> list[Path]:
    """The files that declare a function or a type, `Type::function` where both stand in one;
    else the module of that name.
    """
    *within, last = name.split("::")
    kinds = r"\b(?:fn|struct|enum|trait) %s\b" % last
    owner = r"\b(?:impl|struct|enum|trait)\b[^\n{;]*\b%s\b" % within[0] if within else ""
    there = [
        path for path, text in code.items() if re.search(kinds, text) and re.search(owner, text)]
    return there or [path for path in code if path.stem == name]


def contract_files(contract: str, code: dict[Path, str]) -> list[Path]:
    """The files in which a contract's names are declared. One that several files have is that of
    a file which another of the names has alone, if there is one; a clause's name is that of the
    files which have such a clause, where there is no other.
    """
    names = [
        name for name in re.findall(r"`([^`]+)`", re.sub(r"\([^)]*\)", "", contract))
        if re.fullmatch(r"[\w:]+", name)]
    found = {name: declaring(name, code) for name in names}
    alone = {paths[0] for paths in found.values() if len(paths) == 1}
    made = set(alone)
    for name, paths in found.items():
        made |= set(paths) & alone if set(paths) & alone and not name.endswith("copy") else set(
            paths)
    return sorted(
        made or {
            path for path, text in code.items()
            for name in names if re.search(r"\bensures %s\b" % name, text)})


def with_files(text: str) -> str:
    """The page of proofs, with the files of each contract."""
    crates: Any
    made, crates = [], []
    for part in re.split(r"(?m)^(?=Crates? `)", text):
        head = re.match(r"Crates? .*?\.\n", part, re.DOTALL)
        crates = crates_in(head[0]) if head else crates
        code = sources(crates)

        def named(found: re.Match[str]) -> str:
            bullet = found[0].rstrip("\n")
            contract = CONTRACT.search(bullet)
            paths = contract_files(contract[1], code)
            names = [
                str(path.relative_to(TOP / "crates")) if len(crates) > 1 else path.name
                for path in paths]
            if len(names) > MOST_FILES:
                names = sorted({
                    "%s/src/" % path.relative_to(TOP / "crates").parts[0] for path in paths})
            said = "*Contract*: %s, in %s." % (" ".join(contract[1].split()), ", ".join(
                "`%s`" % name for name in names))
            made_of = textwrap.fill(said, 100, initial_indent="  ", subsequent_indent="  ",
                                    break_on_hyphens=False)
            return bullet[:contract.start()] + made_of + "\n" * (len(found[0]) - len(bullet))

        made.append(BULLET.sub(named, part) if head else part)
    return "".join(made)


def located() -> trials.Cases:
    """Whether each promise of the page of proofs names the files of its contract."""
    page = (TOP / "docs" / "trust" / "PROOFS.md").read_text(encoding="utf-8")
    here, wanted = (BULLET.findall(text) for text in (page, with_files(page)))
    for bullet, other in zip(here, wanted, strict=True):
        yield "docs/trust/PROOFS.md: the files of %s" % bullet.split(
            "`")[1], bullet == other and CONTRACT.search(other)[2] is not None


def calls() -> trials.Cases:
    """The public calls of the program's libraries, and whether the page of proofs names them."""
    proofs = (TOP / "docs" / "trust" / "PROOFS.md").read_text(encoding="utf-8")
    named = {word for it in re.findall(r"`([^`]+)`", proofs) for word in re.findall(r"\w+", it)}
    libraries = (TOP / "crates.txt").read_text(encoding="utf-8").split("\n#")[0]
    for crate in re.findall(r"^(up_\w+):", libraries, re.MULTILINE):
        source = TOP / "crates" / crate / "src"
        modules = re.findall(r"^pub mod (\w+);", (source / "lib.rt").read_text(encoding="utf-8"),
                             re.MULTILINE)
        for module in ("lib", *modules):
            text = (source / ("%s.rt" % module)).read_text(encoding="utf-8")
            for name in sorted(set(re.findall(r"^ *pub fn (\w+)", text, re.MULTILINE))):
                yield "docs/trust/PROOFS.md: the call %s::%s::%s" % (crate, module,
                                                                     name), name in named


def primary() -> trials.Cases:
    page = (TOP / "docs" / "integrate" / "PRIMARY.md").read_text(encoding="utf-8")
    for name in ("manifest.json", "reply.json"):
        text = (TOP / "examples" / "primary" / name).read_text(encoding="ascii")
        yield "docs/integrate/PRIMARY.md shows " + name, text.strip() in page


def part(page: str, heading: str) -> str:
    """What stands under a heading of a page of `docs/`, up to the next."""
    return (TOP / "docs" / page).read_text(encoding="utf-8").split(
        "\n## %s\n" % heading)[1].split("\n## ")[0]


def refusals() -> trials.Cases:
    """Whether the pages on formats and on operating list the refusals, by number and name, as
    the code has them, and no other.
    """
    code = (TOP / "crates" / "up_canon" / "src" / "refusal.rt").read_text(encoding="utf-8")
    named = re.findall(r"^    (\w+)[(,]",
                       code.split("pub enum Refusal {\n")[1].split("\n}")[0], re.MULTILINE)
    wanted = ["%d `%s`" % it for it in enumerate(named, 1)]
    for page, heading in (("integrate/FORMATS.md", "Refusals"), ("use/OPERATING.md",
                                                                 "What refusals ask of you")):
        listed = re.findall(r"^\| (\d.*?) \|", part(page, heading), re.MULTILINE)
        for name in [it for it in wanted if it not in listed] + [
                it for it in listed if it not in wanted]:
            yield "docs/%s: the refusal %s" % (page, name), False
        yield "docs/%s: the refusals" % page, listed == wanted


def messages() -> trials.Cases:
    """Whether the page for operators says what to do at each message of the program, as its own
    page lists them.
    """
    told = re.findall(r"`([^`]+)`", part("use/OPERATING.md", "What the exit statuses ask of you"))
    listed = part("use/PROGRAM.md", "Exit statuses and messages")
    for name in re.findall(r"`uptane_desk: (cannot .*?)`", listed) + re.findall(
            r"^\| `(.*?)` \|", listed, re.MULTILINE):
        yield "docs/use/OPERATING.md: the message %s" % name, name in told
    for name in re.findall(r'= codes "(.*)"', (TOP / CAUSES).read_text("utf-8")):
        yield "docs/use/OPERATING.md: the cause %s" % name, name in told


def versions() -> trials.Cases:
    """Whether `--version`, its definition and its page tell the project's version, and one kit."""
    source = (TOP / "crates" / "up_program" / "src" / "version.rt").read_text("utf-8")
    told = dict(re.findall(r'const (\w+): &str = "(.*)";', source))
    yield "version.rt: VERSION", told["VERSION"] == (TOP / "VERSION").read_text("ascii").strip()
    line = "uptane_desk %(VERSION)s, ed25519, kit %(KIT)s, %(PROOF)s" % told
    yield "docs/use/PROGRAM.md: the version", line in part("use/PROGRAM.md", "`--version`")
    first, last = line.split("ed25519")
    stated = (TOP / "crates" / "up_program" / "specs" / "Versions.antt").read_text("utf-8")
    yield "Versions.antt: the version", '"%s" ++ method ++ codes "%s\\n"' % (first, last) in stated


def cases() -> trials.Cases:
    """Each of the names that lead nowhere, and what the pages show."""
    found = [
        *links(), *files(), *promises(), *located(), *calls(), *refusals(), *messages(),
        *versions()]
    yield "%d links and names of the pages" % len(found), all(well for _, well in found)
    yield from ((name, well) for name, well in found if not well)
    yield from primary()


def main(words: arguments.Words = None) -> int:
    """Tells what isn't there, or writes the files of contracts."""
    if arguments.given(__doc__, words, order=["tell", "write"]).order == "write":
        proofs = TOP / "docs" / "trust" / "PROOFS.md"
        proofs.write_text(with_files(proofs.read_text(encoding="utf-8")), encoding="utf-8")
    return trials.judged("page", cases())

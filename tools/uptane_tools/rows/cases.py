"""The cases of the crates of tests, as their programs read them: `## KIND` heads the sections of
one kind, `# WORDS` each section, and a case is what a call is given, ` => `, and what it has to
answer. Sections that no kind heads are of the kind without a name.
"""
from uptane_tools import TOP


def kinds(crate: str) -> dict[str, str]:
    """What the crate's input has of each kind."""
    text = (TOP / "crates" / crate / "stdin").read_text(encoding="utf-8")
    first, *others = text.split("\n## ")
    found = {it.partition("\n")[0]: "\n" + it.partition("\n")[2] for it in others}
    return {"": first} | found if first else found


def headed(texts: dict[str, str]) -> str:
    """The input that has these of each kind."""
    return "".join(("\n## " + kind if kind else "") + text for kind, text in texts.items())


def sections(text: str) -> dict[str, str]:
    """The lines behind the head of each section."""
    return {it.partition("\n")[0]: it.partition("\n")[2] for it in text.split("\n# ")[1:]}


def pairs(lines: str) -> list[tuple[str, str]]:
    """What each case of a section is given and wants."""
    found = (it.partition(" => ") for it in lines.split("\n"))
    return [(given, wanted) for given, sign, wanted in found if sign]


def put(crate: str, kind: str, text: str) -> None:
    """Writes the sections of one kind."""
    made = headed(kinds(crate) | {kind: text})
    (TOP / "crates" / crate / "stdin").write_text(made, encoding="utf-8")

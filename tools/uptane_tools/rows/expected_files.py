"""Which examples, rows and texts there have to be: what is missing, and what nobody lists.

    tools/run expected_files       tells it
"""
import re
from collections.abc import Iterator
from pathlib import Path

from uptane_tools import TOP, arguments
from uptane_tools.rows import row_texts

EXAMPLE = {"README.md", "script", "printed"}
PRIMARY = {
    "primary.py", "envelopes.py", "forms.py", "verify.py", "ed25519.py", "director-secrets.json",
    "manifest-input.json", "manifest.json", "reply.json", "vehicle.json", "ed25519"}
ED25519 = {
    "director-root.json", "manifest-input.json", "manifest.json", "reply.json", "vehicle.json"}
SERVICE = {
    "README.md", "nginx.conf", "haproxy.cfg", "settings", "apply.sh", "backup.sh", "before.sh",
    "listening.sh", "maintainer", "setup.sh", "several", "alerts", "watch.sh",
    "uptane-desk.logrotate"}
SERVICE |= {
    "uptane-desk%s" % it
    for it in (".service", "-refresh.service", "-refresh.timer", "-backup.service", "-backup.timer",
               "-failed@.service", "-now.path", "-now.service", "-watch.service", "-watch.timer")}
SEVERAL, ALERTS = {"nginx.conf", "haproxy.cfg", "uptane-desk@.service"}, {
    "uptane.yml", "uptane_test.yml"}
ROW = {"script", "printed"}


def names(folder: Path) -> set[str]:
    return {path.name for path in folder.iterdir() if not path.name.startswith("_")}


def folders(folder: Path) -> set[str]:
    return {name for name in names(folder) if (folder / name).is_dir()}


def listed(page: Path) -> set[str]:
    """The names that begin the lines of a page's table."""
    return set(re.findall(r"^\| `(\w+)/?` \|", page.read_text(encoding="utf-8"), re.MULTILINE))


def apart(what: str, wanted: set[str], there: set[str]) -> Iterator[str]:
    """A line for each name that stands in one of two sets alone."""
    yield from ("%s: %s is missing" % (what, name) for name in sorted(wanted - there))
    yield from ("%s: nothing speaks of %s" % (what, name) for name in sorted(there - wanted))


def lines(path: Path) -> list[str]:
    return path.read_text(encoding="ascii").split("\n")[:-1]


def row_gaps(folder: Path) -> Iterator[str]:
    """What a row lacks: files, printed lines, texts of replies."""
    what = "rows/" + folder.name
    if not ROW <= names(folder):
        yield from apart(what, ROW, names(folder) & ROW)
        return
    printed = lines(folder / "printed")
    replies = [line for line in printed if line.startswith("reply ")]
    yield from apart(what, ROW | ({"replies"} if replies else set()), names(folder) - {"under"})
    if len(printed) != sum(bool(line) for line in lines(folder / "script")):
        yield what + ": another number of printed lines than of lines that are answered"
    if replies and (folder / "replies").exists() and len(lines(folder / "replies")) != len(replies):
        yield what + ": another number of texts than of replies"
    yield from text_gaps(folder.name, bool(replies),
                         any(line.startswith("file ") for line in printed))


def text_gaps(row: str, has_replies: bool, has_files: bool) -> Iterator[str]:
    """Whether the texts of a row are computed from the formats."""
    if has_replies != (row in row_texts.REPLIES):
        yield "row_texts: the replies of %s" % row
    if has_files != (row in row_texts.FILES):
        yield "row_texts: the files of %s" % row


def gaps() -> Iterator[str]:
    """A line for each example, row or text that is missing, or that nothing speaks of."""
    examples, rows = TOP / "examples", TOP / "rows"
    yield from apart("examples", listed(examples / "README.md"), folders(examples))
    for name in sorted(folders(examples)):
        yield from apart(
            "examples/" + name, {
                "primary": PRIMARY, "primary_node": {"primary.mjs"}, "proved_primary": {"round.py"},
                "service": SERVICE}.get(name, EXAMPLE),
            names(examples / name) - {"under"})
    yield from apart("examples/primary/ed25519", ED25519, names(examples / "primary" / "ed25519"))
    yield from apart("examples/service/several", SEVERAL, names(examples / "service" / "several"))
    yield from apart("examples/service/alerts", ALERTS, names(examples / "service" / "alerts"))
    yield from apart("rows",
                     listed(rows / "README.md") | set(row_texts.REPLIES) | set(row_texts.FILES),
                     folders(rows))
    for name in sorted(folders(rows)):
        yield from row_gaps(rows / name)


def main(words: arguments.Words = None) -> int:
    """Tells what is missing."""
    arguments.given(__doc__, words)
    other = list(gaps())
    print("\n".join(other) or "nothing is missing")
    return int(bool(other))

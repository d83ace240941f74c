"""Counts the words of the pages, and holds them to their limits.

    tools/run page_sizes

A word has a letter or a digit. Quotes that another tool compares with the sources, below a line
`<!-- quote .. -->` or `<!-- example .. -->`, are the sources' and don't count. The front page
has at most 1,200 words, the page of proofs 8,000, that on working 2,000, a crate's page
300, and all pages together 45,000.
"""
import re

from uptane_tools import arguments
from uptane_tools.trial import pages, theorem, trials
from uptane_tools.trial.trials import TOP

LIMITS = {"README.md": 1200, "docs/trust/PROOFS.md": 8000, "docs/develop/WORKING.md": 2000}
OF_A_CRATE, OF_ALL = 300, 45000


def words_of(text: str) -> int:
    return len(re.findall(r"\S*\w\S*", theorem.QUOTE.sub("", text)))


def cases() -> trials.Cases:
    sizes = {
        str(page.relative_to(TOP)): words_of(page.read_text(encoding="utf-8"))
        for page in pages.pages()}
    for page, count in sorted(sizes.items(), key=lambda it: -it[1]):
        limit = LIMITS.get(page, OF_A_CRATE if page.startswith("crates/") else OF_ALL)
        if page in LIMITS or page.startswith("docs/") or count > limit:
            yield "%s has %d words" % (page, count), count <= limit
    crates = [count for page, count in sizes.items() if page.startswith("crates/")]
    yield "%d pages of crates have %d words" % (len(crates), sum(crates)), max(crates) <= OF_A_CRATE
    yield "all %d pages have %d words, of %d at most" % (len(sizes), sum(
        sizes.values()), OF_ALL), sum(sizes.values()) <= OF_ALL


def main(words: arguments.Words = None) -> int:
    """Tries them."""
    arguments.given(__doc__, words)
    return trials.judged("size", cases())

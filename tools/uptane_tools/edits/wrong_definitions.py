"""Plants wrong definitions, each in its turn, in a copy of the crates from its own up to that of a
law, and tells whether the law falls.

    tools/run wrong_definitions [WORD]

They are listed in `wrong_definitions.txt`: what each says, the crate and the file of the
definition, the law, the text and the wrong one in its place, once in that file. With a WORD only
those are tried in which it stands. A library below that isn't built is read, too. The first of each
law's crate takes minutes, each further one half a minute and more.
"""
import os
import re
import shutil
import subprocess
from collections.abc import Iterator
from dataclasses import dataclass
from pathlib import Path

from uptane_tools import TOP, arguments
from uptane_tools.trial import trials

LISTED = Path(__file__).with_suffix(".txt")
ENTRY = re.compile(r"(?m)^(\S.*)\n  (\w+)/(\w+): (\w+)::([\w:]+)\n-(.*)\n\+(.*)\n")


@dataclass(frozen=True)
class Wrong:
    """A wrong definition: what it says, its crate and file, the law's crate and path, the text
    that it takes and the one that it puts there.
    """

    what: str
    crate: str
    file: str
    above: str
    law: str
    old: str
    new: str

    def path(self, own: Path) -> Path:
        """The file, in a copy."""
        return own / self.crate / "specs" / (self.file + ".antt")


def listed(word: str) -> list[Wrong]:
    """Those of the list in which the word stands."""
    text = LISTED.read_text(encoding="utf-8")
    return [Wrong(*it.groups()) for it in ENTRY.finditer(text) if word in it[0]]


class Bench:
    """Copies of the crates from that of the definitions up to that of the laws."""

    def __init__(self, room: Path, crate: str, above: str) -> None:
        from uptane_tools.edits import kit
        crates = kit.crates()
        self.own, self.law_crate, self.kept = room / (crate + "-" + above), crates[above], room
        self.sources = [
            it for it in self.law_crate.below()
            if any(on.name == crate or not os.path.exists(on.rlib) for on in (it, *it.below()))]
        for name in {above, *(it.name for it in self.sources)}:
            for part in ("src", "specs", "proofs"):
                if (TOP / "crates" / name / part).is_dir():
                    shutil.copytree(TOP / "crates" / name / part, self.own / name / part)
        self.words = self._words(kit.rtlib.KIT)

    def _words(self, top: str) -> list[str]:
        """The words that have rattle check the laws' crate, over those below as sources."""
        above, names = self.law_crate, {it.name for it in self.sources}
        of_kit = {"core", *above.of_kit, *(name for it in self.sources for name in it.of_kit)}
        words = ["rattle", "check", "--crate-name", above.name, "src/lib.rt", "--logic-built"]
        words += [f"{top}/logic_built", "--antt-project", f"{top}/rattle/logic/antt-project.json"]
        for name in sorted(of_kit):
            words += ["--extern", f"{name}={top}/rlibs/{name}.rlib"]
        words += ["-L", f"dependency={top}/rlibs", "--incremental", str(self.own / "kept")]
        for it in above.below():
            if it.name in names:
                uses = ",".join(dict.fromkeys(["core", *it.of_kit, *(on.name for on in it.deps)]))
                words += ["--lib", f"{it.name}:{uses}={self.own}/{it.name}/src/lib.rt"]
            else:
                words += ["--extern", f"{it.name}={it.rlib}"]
                words += ["-L", f"dependency={os.path.dirname(it.rlib)}"]
        return [*words, "--jobs", "1"]

    def stand(self, laws: list[str]) -> dict[str, bool]:
        """Whether each of the laws is proved over the definitions as they are, for which it can be
        told.
        """
        name = self.law_crate.name
        only = [word for law in laws for word in ("--only", f"{name}::{law}")]
        ran = subprocess.run([*self.words, *only], stdout=subprocess.PIPE, stderr=subprocess.STDOUT,
                             check=False, cwd=self.own / name)
        (self.own / "said").write_bytes(ran.stdout)
        told = dict(re.findall(rf"(?m)^fn {name}::(\S+): (.*)$", ran.stdout.decode()))
        return {
            law: told[law].startswith(("proved", "no holes")) for law in laws
            if law in told and not told[law].startswith("could not tell")}


def cases(word: str) -> Iterator[tuple[str, bool]]:
    """Each law, and each wrong definition."""
    wrongs = listed(word)
    with trials.folder() as folder:
        for crate, above in dict.fromkeys((it.crate, it.above) for it in wrongs):
            here = [it for it in wrongs if (it.crate, it.above) == (crate, above)]
            bench = Bench(Path(folder), crate, above)
            laws = sorted({it.law for it in here})
            proved = bench.stand(laws)
            for law in laws:
                yield f"{above}::{law} stands over {crate}", proved.get(law, False)
            for wrong in here:
                path = wrong.path(bench.own)
                text = path.read_text(encoding="utf-8")
                path.write_text(text.replace(wrong.old, wrong.new), encoding="utf-8")
                falls = text.count(wrong.old) == 1 and bench.stand([wrong.law])
                yield f"{wrong.what}: {above}::{wrong.law} falls", falls == {wrong.law: False}
                path.write_text(text, encoding="utf-8")
            shutil.rmtree(bench.own)


def main(words: arguments.Words = None) -> int:
    """Plants them."""
    asked = arguments.given(__doc__, words, word="")
    return trials.judged("definition", cases(asked.word))

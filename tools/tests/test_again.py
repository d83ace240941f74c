"""What a restore asks for again, over a history of lines that the reference took: behind each of
them a copy is made, as `apply.sh` makes one behind each rotation, and each is restored.
"""
import json
import shutil
import sqlite3
import tempfile
import unittest
from collections.abc import Iterator
from contextlib import closing
from pathlib import Path

from uptane_tools.measure import fleet
from uptane_tools.operate import again
from uptane_tools.oracle import reference

NOW = fleet.START + 100


def image(name: str, release: int) -> str:
    return fleet.line("add_image", file=name, length=1, sha256=64 * "a", hardware=["HP"],
                      release=release)


def history() -> list[str]:
    return [
        fleet.line("found", **fleet.key_set(1)),
        image("a", 1),
        fleet.line("rotate", **fleet.key_set(9)),
        fleet.line("rotate", **fleet.key_set(17)),
        image("b", 2),
        fleet.line("refresh", version=9),
        fleet.line("rotate", **fleet.key_set(25))]


def answers(path: Path, lines: list[str]) -> list[str]:
    desk = reference.opened(str(path))
    with closing(desk.db):
        return [desk.answer(line) for line in lines]


def kept(path: Path) -> Iterator[list[tuple[object, ...]]]:
    """The keys, the images, and which Root files there are."""
    with closing(sqlite3.connect(path)) as db:
        for asked in ("* FROM role_key", "* FROM image", "id, root FROM image_repository"):
            yield db.execute("SELECT %s ORDER BY rowid" % asked).fetchall()
        yield db.execute("SELECT repository, name FROM repo_file ORDER BY 1, 2").fetchall()


class Again(unittest.TestCase):

    def setUp(self) -> None:
        folder = tempfile.TemporaryDirectory()
        self.addCleanup(folder.cleanup)
        self.own, self.copies = Path(folder.name), Path(folder.name, "copies")
        self.copies.mkdir()
        self.later, self.made = self.own / "desk.db", list[Path]()
        for number, line in enumerate(history()):
            self.assertEqual(answers(self.later, [line]), ["done"])
            self.made.append(self.copies / ("desk-%03d.db" % number))
            shutil.copyfile(self.later, self.made[-1])

    def restored(self, copy: Path, lines: list[str]) -> Path:
        path = self.own / "restored.db"
        shutil.copyfile(copy, path)
        self.assertEqual(answers(path, lines), len(lines) * ["done"])
        return path

    def test_by_a_later_file(self) -> None:
        for copy in self.made:
            with self.subTest(copy.name):
                found, lacking = again.lines(copy, self.later, self.copies, NOW)
                self.assertEqual(lacking, [])
                self.assertEqual(list(kept(self.restored(copy, found))), list(kept(self.later)))

    def test_keys_that_no_copy_has(self) -> None:
        self.made[2].unlink()
        found, lacking = again.lines(self.made[1], self.later, self.copies, NOW)
        self.assertEqual(lacking, ["to give again by hand: 3 rotations, whose keys no copy has"])
        self.assertEqual([json.loads(it)["do"] for it in found], ["add_image", "refresh"])

    def test_by_the_journal(self) -> None:
        journal = self.own / "journal"
        entry = {"answer": "done", "given": "2030-01-01T00:00:00Z", "script": "a", "line": 1}
        asked = [json.loads(line) for line in history()[2:]]
        journal.write_text("".join(json.dumps(entry | {"asked": it}) + "\n" for it in asked),
                           encoding="ascii")
        found, lacking = again.by_journal(self.made[1], journal, self.copies, NOW)
        self.assertEqual(lacking, [])
        self.assertEqual(list(kept(self.restored(self.made[1], found))), list(kept(self.later)))

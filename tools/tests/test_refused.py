"""Tests of `tools/run refused`: on texts, on hashes of small trees, and by the prover on a tiny
crate.
"""
import itertools
import os
import re
import subprocess
import sys
import tempfile
import unittest
from collections.abc import Callable, Iterator
from dataclasses import replace
from pathlib import Path
from unittest import mock

from uptane_tools import RUN
from uptane_tools.edits import kit, lock
from uptane_tools.edits.check import is_of, is_shown, refusals
from uptane_tools.edits.edit import edits_in, functions_below, groups_of
from uptane_tools.edits.functions import Function, functions_in
from uptane_tools.edits.hashes import hashes
from uptane_tools.edits.kit import crates as crates_here
from uptane_tools.edits.shown import OF_MACROS

LOW = """//! A low crate.
#![tactic(auto)]

pub mod counts;
"""
COUNTS = """//! Counts.
ghost use Rattle.std.specs.Prelude.{◌≡◌, nat_le, true};
ghost use Rattle.low.specs.Numbers.{least};

/// The least count.
pub const LEAST: u64 = 3;

pub trait Counted {
    fn count(&self) -> u64 {
        4
    }
}

pub const fn doubled(a: u8) -> u16 {
    a as u16 + a as u16
}

pub fn least_count() -> u64
    ensures { result ≡ least }
{
    // a brace } in a comment, and "{" in a text
    let count = LEAST;
    count
}

pub fn reaches(a: u64, b: u64) -> bool
    ensures { result ≡ nat_le b a }
{
    b <= a
}

pub fn same(a: u64) -> u64
    ensures { result ≡ a }
{
    a
}

pub fn kept(items: Vec<u8>) -> Vec<u8>
    ensures { result.items ≡ items.items }
{
    items
}

pub fn either(a: bool, b: bool) -> bool
    requires { a ≡ true }
    ensures { result ≡ true }
{
    a || b
}
"""
UP = """//! An upper crate.
#![tactic(auto)]

pub fn two() -> u8 {
    2
}
"""
TREE = {
    "crates.txt": "low:\nup: low\n", "crates/low/src/lib.rt": LOW,
    "crates/low/src/counts.rt": COUNTS, "crates/low/specs/Lib.antt": "pub mod Numbers\n",
    "crates/low/specs/Numbers.antt": "use Rattle.std.specs.Prelude.{ℕ}\n\n-- the "
    "least count\nabbrev pub least : ℕ\nleast = 3\n",
    "crates/low/proofs/Lib.antt": "pub mod Facts\n",
    "crates/low/proofs/Facts.antt": "use Rattle.std.specs.Prelude.{ℕ}\n\nabbrev "
    "pub three : ℕ\nthree = 3\n",
    "crates/low/refused/another-least.edit": "file: src/counts.rt\nold: let count = "
    "LEAST;\nnew: let count = LEAST + 1;\n", "crates/up/src/lib.rt": UP,
    "crates/up/refused/three-told-as-two.edit": "file: src/lib.rt\nold:     2\nnew:     3\n"}

LOW_COUNTS = "crates/low/src/counts.rt"


def edit(old: str, new: str, file: str = "src/counts.rt") -> str:
    return f"file: {file}\nold: {old}\nnew: {new}\n"


class OnATree(unittest.TestCase):
    """A test in a repository of two small crates, made anew."""

    def setUp(self) -> None:
        room = tempfile.TemporaryDirectory()
        self.addCleanup(room.cleanup)
        self.addCleanup(os.chdir, os.getcwd())
        os.chdir(room.name)
        for path, text in TREE.items():
            self.write(path, text)

    def write(self, path: str, text: str) -> None:
        Path(path).parent.mkdir(parents=True, exist_ok=True)
        Path(path).write_text(text, encoding="utf-8")

    def turn(self, old: str, new: str, path: str = LOW_COUNTS) -> None:
        text = Path(path).read_text(encoding="utf-8")
        self.assertEqual(text.count(old), 1)
        self.write(path, text.replace(old, new))

    def tool(self, *words: str) -> tuple[int, list[str], str]:
        ran = subprocess.run([sys.executable, RUN, "refused", *words], capture_output=True,
                             text=True, check=False)
        return ran.returncode, ran.stdout.splitlines(), ran.stderr


class Hashes(OnATree):
    """What a change makes of the hash of the crate that it stands in, and of the crate above."""

    def changed(self) -> Callable[[], list[str]]:
        before = hashes(crates_here(), ["low", "up"])

        def now() -> list[str]:
            after = hashes(crates_here(), ["low", "up"])
            return [name for name in ("low", "up") if after[name] != before[name]]

        return now

    def turned(self, crates: list[str], old: str, new: str, path: str = LOW_COUNTS) -> None:
        """Turns a text, by which the hashes of these crates change, and no other."""
        now = self.changed()
        self.turn(old, new, path)
        self.assertEqual(now(), crates)

    def test_a_body_below_is_not_read_above(self) -> None:
        self.turned(["low"], "b <= a", "b <= a && true")

    def test_comments_are_not_read(self) -> None:
        now = self.changed()
        self.turn("-- the least count", "-- the least of all counts\n",
                  "crates/low/specs/Numbers.antt")
        self.turn("/// The least count.", "/// The least\n/// of all counts.")
        self.turn("    // a brace }", "    // no brace")
        self.assertEqual(now(), [])

    def test_a_comment_that_an_edit_names_is_read(self) -> None:
        self.write("crates/low/refused/same-below.edit", edit("    b <= a // of counts",
                                                              "    b < a"))
        self.turn("b <= a", "b <= a // of counts")
        self.turned(["low"], "// of counts", "// of numbers")

    def test_of_layout_the_columns_of_antt_are_read(self) -> None:
        now = self.changed()
        self.turn("    items\n", "  items\n\n")
        self.assertEqual(now(), [])
        self.turn("three = 3", "three =\n 3", "crates/low/proofs/Facts.antt")
        low = hashes(crates_here(), ["low"])
        self.assertEqual(now(), ["low"])
        self.turn("\n 3", "\n  3", "crates/low/proofs/Facts.antt")
        self.assertNotEqual(hashes(crates_here(), ["low"]), low)

    def test_what_crosses_the_boundary_is_read_above(self) -> None:
        self.above("use low::counts::{same, LEAST};")
        texts = [("src/counts.rt", "ensures { result ≡ a }", "ensures { a ≡ result }"),
                 ("src/counts.rt", "LEAST: u64 = 3", "LEAST: u64 = 4"),
                 ("src/counts.rt", "a as u16 + a as u16", "2 * (a as u16)"),
                 ("src/counts.rt", "        4", "        5"),
                 ("specs/Numbers.antt", "least = 3", "least = 4")]
        for path, old, new in texts:
            with self.subTest(new):
                self.turned(["low", "up"], old, new, f"crates/low/{path}")

    def more(self, text: str, path: str = LOW_COUNTS) -> None:
        """Writes a text behind the counts of the low crate, or behind another file."""
        self.write(path, f"{Path(path).read_text(encoding='utf-8')}\n{text}\n")

    def above(self, text: str) -> None:
        """Writes a file of the upper crate."""
        self.write("crates/up/src/more.rt", f"{text}\n")

    def test_a_private_function_below_is_not_read_above(self) -> None:
        now = self.changed()
        self.more("#[inline]\nfn halved(a: u64) -> u64\n    ensures { result ≡ a }\n{\n    a\n}")
        self.assertEqual(now(), ["low"])
        self.turn("fn halved(a: u64) -> u64\n    ensures { result ≡ a }",
                  "fn halved(a: u8)\n    ensures { a ≡ a }")
        self.more("pub(crate) fn third() -> u64 {\n    halved(3) as u64\n}")
        self.more("pub(in crate::counts) fn fourth() -> u64 {\n    third()\n}")
        self.assertEqual(now(), ["low"])
        self.more("pub struct Held;\nimpl Held {\n}")
        self.turned(["low"], "impl Held {\n}",
                    "impl Held {\n    fn told(&self) -> u64 {\n        3\n    }\n}")

    def test_a_private_function_below_that_is_named_is_read_above(self) -> None:
        private = "fn halved(a: u64) -> u64\n    ensures { nat_le result a }\n{\n    a / 2\n}"
        other = "fn other(a: u64) -> u64\n    ensures { result ≡ halved }\n{\n    a\n}"
        namings = [
            [("src/more.rt", "pub use crate::counts::halved;\n")],
            [("src/more.rt", "pub static HALF: fn(u64) -> u64 = halved;\n")],
            [("src/more.rt", "macro_rules! half { () => { halved(2) } }\n")],
            [("specs/More.antt", "use Rattle.low.specs.contracts.counts.halved\n")],
            # (by another one, which antt names)
            [("specs/More.antt", "use Rattle.low.specs.contracts.counts.other\n")]]
        for files in namings:
            with self.subTest(files):
                self.setUp()
                self.more(private)
                self.more(other)
                for path, text in files:
                    self.write(f"crates/low/{path}", text)
                self.turned(["low", "up"], "ensures { nat_le result a }",
                            "ensures { nat_le a result }")
                self.turned(["low"], "a / 2", "a / 3")

    def test_a_function_that_is_more_than_private_is_read_above(self) -> None:
        texts = {
            "of a trait's impl": "impl Counted for u8 {\n    fn count(&self) -> u64\n        "
            "ensures { result ≡ 4 }\n    {\n        4\n    }\n}",
            "of a cycle of calls": "#[cycle(parity)]\nfn even(a: u64) -> u64\n    "
            "ensures { result ≡ 4 }\n{\n    a\n}",
            "for C": "extern \"C\" fn made() -> u64\n    ensures { result ≡ 4 }\n{\n    4\n}",
            "const": "const fn made() -> u64\n    ensures { result ≡ 4 }\n{\n    4\n}",
            "of an operator": "impl Add for Held {\n    fn add(self, b: Held) -> Held\n        "
            "ensures { result ≡ 4 }\n    {\n        b\n    }\n}",
            "of a name that macros call": "impl Held {\n    pub fn write_fmt(&self)\n        "
            "ensures { result ≡ 4 }\n    {\n        4\n    }\n}",
            "of a fault by ?": "impl From<Held> for u8 {\n    fn from(a: Held) -> u8\n        "
            "ensures { result ≡ 4 }\n    {\n        4\n    }\n}"}
        for name, text in texts.items():
            with self.subTest(name):
                self.setUp()
                self.more(text)
                self.turned(["low", "up"], "ensures { result ≡ 4 }", "ensures { 4 ≡ result }")

    def test_what_stands_before_a_private_function_is_read_above(self) -> None:
        before = "//! More.\n#![tactic(auto)]\n"
        self.write("crates/low/src/more.rt", f"{before}fn halved() {{}}\n")
        now = self.changed()
        self.write("crates/low/src/more.rt", f"{before}fn third() {{}}\n")
        self.assertEqual(now(), ["low"])
        self.turn("(auto)", "(search)", "crates/low/src/more.rt")
        self.assertEqual(now(), ["low", "up"])
        items = [
            "macro_rules! made { () => {} }", "struct Held { a: u8 }",
            "pub use crate::counts::same;", "use crate::counts::*;"]
        for text in items:
            with self.subTest(text):
                self.turned(["low", "up"], "fn third()", f"{text}\nfn third()",
                            "crates/low/src/more.rt")

    def test_a_public_function_below_is_read_above_where_it_is_named(self) -> None:
        halved = ("#[inline]\npub fn halved(a: u64) -> u64\n    ensures { nat_le result a }\n{\n   "
                  " a / 2\n}")
        begun = "pub struct Held;\nimpl Held {"
        of_held = (f"{begun}\n    pub fn halved(a: u64) -> u64\n        ensures "
                   f"{{ nat_le result a }}\n    {{\n        a / 2\n    }}\n}}")
        namings = [
            ("crates/up/src/more.rt", "fn calls(a: u64) -> u64 { halved(a) }"),
            ("crates/up/proofs/Lib.antt", "use Rattle.low.specs.contracts.counts.halved as f"),
            ("crates/up/refused/calls.edit", "file: src/lib.rt\nold:     2\nnew:     halved(2)\n"),
            ("crates/low/src/more.rt", "pub static HALF: fn(u64) -> u64 = halved;"),
            ("crates/low/src/more.rt", "pub trait Half { fn half(a: u64) -> u64 { halved(a) } }"),
            ("crates/low/specs/More.antt", "use Rattle.low.specs.contracts.counts.halved as f")]
        for text, before in ((halved, ""), (of_held, f"{begun}}}")):
            for path, naming in namings:
                with self.subTest(naming):
                    self.setUp()
                    self.more(f"// here\n{before}")
                    now = self.changed()
                    self.turn(f"// here\n{before}", text)
                    self.turn("nat_le result a", "nat_le a result")
                    # a clause below that has its name knows a variable by it
                    self.turn("requires { a ≡ true }", "requires { (halved : ℕ) → a ≡ true }")
                    self.assertEqual(now(), ["low"])
                    self.write(path, naming)
                    self.turned(["low", "up"], "nat_le a result", "nat_le result a")
                    self.turned(["low"], "a / 2", "a / 3")

    def test_what_stands_beside_a_function_below_is_read_above(self) -> None:
        self.more(
            "pub struct Held;\nimpl Held {\n    ghost view = { 4 }\n    pub fn made() -> u64 {\n  "
            "      4\n    }\n    const MADE: u64 = 3;\n}")
        now = self.changed()
        self.turn("pub fn made() -> u64 {\n        4", "pub fn made(a: u64) -> u64 {\n        a")
        self.assertEqual(now(), ["low"])
        for old, new in (("view = { 4 }", "view = { 5 }"), ("MADE: u64 = 3", "MADE: u64 = 4")):
            self.turned(["low", "up"], old, new)

    def test_a_constant_below_is_read_above_where_it_is_named(self) -> None:
        made = "const MADE: [u64; 2] = [3, 4];\n"
        namings = [
            ("crates/up/src/more.rt", "fn calls(a: u64) -> u64 { MADE[0] }"),
            ("crates/low/src/counts.rt",
             "pub const MORE: u64 = 3;\npub struct Held { a: [u64; MADE] }"),
            ("crates/low/src/counts.rt", "pub struct Held { pub a: u64, ghost b: { MADE } }"),
            ("crates/low/src/counts.rt",
             "ghost use Rattle.low.specs.declared.TheConstants.{MADE as first};"),
            ("crates/low/specs/Numbers.antt",
             "use Rattle.low.specs.declared.TheConstants.{MADE as first}")]
        for of in ("", "pub "):
            for path, naming in namings:
                with self.subTest(naming):
                    self.setUp()
                    self.above("")
                    now = self.changed()
                    self.more(of + made)
                    self.turn("[3, 4]", "[3, 5]")
                    self.assertEqual(now(), ["low"])
                    self.write(path, f"{naming}\n{Path(path).read_text(encoding='utf-8')}")
                    self.turned(["low", "up"], "[3, 5]", "[3, 4]")

    def test_a_constant_below_that_its_crate_alone_may_name_is_read_above_where_it_is_named(
            self) -> None:
        self.more("pub(crate) const MOST: u64 = 4;")
        self.turned(["low"], "MOST: u64 = 4", "MOST: u64 = 5")
        self.more("pub const fn most() -> u64 {\n    MOST\n}")
        self.turned(["low", "up"], "MOST: u64 = 5", "MOST: u64 = 6")

    def test_how_a_function_below_is_proved_is_not_read_above(self) -> None:
        self.above("use low::counts::same;")
        self.turned(["low"], "pub fn same",
                    "#[tactic(auto, using(crate::proofs::Facts::three))]\npub fn same")

    HELD = """//! Held.
use crate::counts::{Counted, same as alike};
ghost use Rattle.std.specs.Prelude.{◌≡◌, ◌≤◌, ℕ};
ghost use Rattle.low.specs.Numbers.{least as first};
ghost use Rattle.low.specs.Lists as lists;

pub struct Held {
    pub count: u64,
}

impl Counted for Held {
    fn count(&self) -> u64
        ensures first_of { result ≡ first }
        ensures listed { lists.all result ≡ lists.all first }
    {
        alike(self.count)
    }
}
"""

    def test_a_name_that_is_brought_below_is_read_above_where_it_stands(self) -> None:
        path = "crates/low/src/held.rt"
        self.write(path, self.HELD)
        turns = [
            ("use crate::counts::{Counted,", "use crate::counts::{Counted, doubled,", ["low"]),
            ("doubled, same as alike};", "{least_count, reaches as reach}, same as alike};", [
                "low"]), ("same as alike};", "same as alike};\nuse crate::Held as Other;", ["low"]),
            ("same as alike};", "reaches as alike};", ["low"]),
            ("◌≤◌, ℕ}", "◌<◌, List, []}", ["low"]),
            ("{least as first}", "{least as first, least}", ["low"]),
            ("\nuse crate::Held as Other;", "", ["low"]),
            ("{least as first, least}", "{most as first, least}", ["low", "up"]),
            ("{◌≡◌, ◌<◌", "{◌==◌ as ◌≡◌, ◌<◌", ["low", "up"]),
            ("specs.Lists as lists", "specs.Lines as lists", ["low", "up"]),
            ("use crate::counts::{Counted,", "use crate::more::{Counted,", ["low", "up"]),
            ("use crate::more::{Counted,", "use crate::more::{self, Counted,", ["low", "up"]),
            ("use crate::more", "use crate::counts::Read as _;\nuse crate::more", ["low", "up"]),
            ("use crate::counts::Read",
             "#[cfg(test)]\nuse crate::counts::Write;\nuse crate::counts::Read", ["low", "up"])]
        for old, new, crates in turns:
            with self.subTest(new):
                self.turned(crates, old, new, path)

    def test_what_may_use_a_name_that_is_brought_below_and_not_say_it_is_read_above(self) -> None:
        default = "pub trait More { fn more(&self) -> u64 { self.count() } }"
        for text in (default, "macro_rules! more { () => { 4.count() } }", "more! { 4 }",
                     "mod third;"):
            with self.subTest(text):
                self.write("crates/low/src/more.rt", f"{text}\n")
                now = self.changed()
                self.write("crates/low/src/more.rt", f"use crate::counts::Counted;\n{text}\n")
                self.assertEqual(now(), ["low", "up"])

    def test_a_module_below_that_nothing_names_is_not_read_above(self) -> None:
        for line in ("mod third;", "pub mod third;"):
            with self.subTest(line):
                self.setUp()
                now = self.changed()
                self.more(line, "crates/low/src/lib.rt")
                self.write(
                    "crates/low/src/third.rt",
                    "//! The third.\nuse crate::counts::same;\n\npub fn third() -> u64 {\n    "
                    "same(3)\n}\n")
                self.assertEqual(now(), ["low"])
                self.more("pub struct Third;", "crates/low/src/third.rt")
                self.assertEqual(now(), ["low", "up"] if "pub" in line else ["low"])
        self.above("use low::third::third;")
        self.turned(["low", "up"], "pub mod third;", "mod third;", "crates/low/src/lib.rt")

    def test_a_file_of_a_private_module_below_is_read_above_where_something_leads_to_it(
            self) -> None:
        third = ("pub(crate) struct Third { a: u8 }\n\nimpl Third {\n    pub fn a(&self) -> u8 {\n "
                 "       3\n    }\n}\n\nimpl From<u8> for Third {}\n\npub(crate) const MOST: u8 = "
                 "4;\n")
        declared = "Rattle.low.specs.declared"
        leads = [
            ("crates/low/src/held.rt",
             "use crate::third::Third;\n\npub struct Held { pub a: Third }\n"),
            ("crates/low/src/held.rt", "pub struct Held { pub a: crate::third::Third }\n"),
            ("crates/low/src/third.rt",
             f"{third}\nimpl<'a> From<&'a Third> for crate::counts::Held {{}}\n"),
            ("crates/low/src/third.rt", f"{third}\nimpl<T> Held<T> {{}}\n"),
            ("crates/low/src/third.rt", f"{third}\nmacro_rules! third {{ () => {{}} }}\n"),
            ("crates/low/specs/Numbers.antt",
             f"use {declared}.third.Third.{{Third}}\n" + TREE["crates/low/specs/Numbers.antt"]),
            ("crates/up/specs/Lib.antt", f"use {declared}.third.Third.{{Third}}\n"),
            ("crates/up/specs/Lib.antt", f"use {declared}.{{third}}\n"),
            ("crates/up/src/more.rt", f"ghost use {declared}.third as third;\n"),
            ("crates/up/src/more.rt",
             "#[tactic(auto, unfolding(low::specs::declared::third::Third))]\nfn other() {}\n")]
        for path, text in leads:
            with self.subTest(text):
                self.setUp()
                now = self.changed()
                self.more("mod third;", "crates/low/src/lib.rt")
                self.write("crates/low/src/third.rt", third)
                self.turn("struct Third { a: u8 }", "struct Third { a: u16 }",
                          "crates/low/src/third.rt")
                self.assertEqual(now(), ["low"])
                self.write(path, text)
                self.turned(["low", "up"], "struct Third {", "struct Third { b: u8,",
                            "crates/low/src/third.rt")

    def test_a_file_of_definitions_below_is_read_above_where_something_leads_to_it(self) -> None:
        more = "use Rattle.std.specs.Prelude.{ℕ}\n\nabbrev pub more : ℕ\nmore = 4\n"
        leads = [
            ("crates/up/specs/Lib.antt", "use Rattle.low.specs.More.{more}\n"),
            ("crates/up/src/more.rt", "ghost use Rattle.low.specs.More as more;\n"),
            ("crates/up/src/more.rt",
             "#[tactic(auto, unfolding(low::specs::More::more))]\nfn third() {}\n"),
            ("crates/up/src/more.rt", "ghost use Rattle.low.specs as s;\n"),
            ("crates/up/src/more.rt", "ghost use Rattle.low.{specs.More.more};\n"),
            ("crates/low/src/more.rt",
             "pub struct Held { pub a: u64, ghost b: { Rattle.«low».specs.More.more } }\n"),
            ("crates/low/specs/Numbers.antt", TREE["crates/low/specs/Numbers.antt"].replace(
                "\n\n", "\nuse Rattle.low.specs.More.{more}\n\n", 1)),
            ("crates/low/specs/Lib.antt", "pub mod Numbers\npub mod More\npub use More.{more}\n")]
        for path, text in leads:
            with self.subTest(text):
                self.setUp()
                now = self.changed()
                self.write("crates/low/specs/More.antt", more)
                self.write("crates/low/specs/Lib.antt", "pub mod Numbers\npub mod More\n")
                self.turn("more = 4", "more = 5", "crates/low/specs/More.antt")
                self.assertEqual(now(), ["low"])
                self.write(path, text)
                self.turned(["low", "up"], "more = 5", "more = 4", "crates/low/specs/More.antt")

    def test_a_file_of_definitions_that_a_function_below_leads_to_is_read_with_it(self) -> None:
        self.write("crates/low/specs/More.antt", "use Rattle.low.specs.Most.{most}\n")
        self.write("crates/low/specs/Most.antt", "abbrev pub most : ℕ\nmost = 4\n")
        third = ("ghost use Rattle.low.specs.More.{most as third_of};\n\npub fn third() -> u64\n   "
                 " ensures { result ≡ third_of }\n{\n    4\n}\n")
        self.write("crates/low/src/more.rt", third)
        self.turned(["low"], "most = 4", "most = 5", "crates/low/specs/Most.antt")
        self.above("use low::more::third;")
        self.turned(["low", "up"], "most = 5", "most = 4", "crates/low/specs/Most.antt")

    def test_another_kit_of_the_same_logic_is_not_read(self) -> None:
        now = self.changed()
        with mock.patch.object(kit, "version", return_value=f"another-kit logic {kit.logic()}"):
            self.assertEqual((kit.name(), now()), ("another-kit", []))
        with mock.patch.object(kit, "version", return_value=f"{kit.name()} logic 0123456789abcdef"):
            self.assertEqual(now(), ["low", "up"])
        with mock.patch.object(kit, "version", return_value="a-kit-without-logic"):
            self.assertRaises(SystemExit, now)

    def test_a_lemma_below_is_read_above_where_it_is_named(self) -> None:
        self.turned(["low"], "three = 3", "three = 2", "crates/low/proofs/Facts.antt")
        self.write("crates/up/proofs/Lib.antt", "use Rattle.low.proofs.Facts.{three}\n")
        now = self.changed()
        self.write("crates/low/proofs/Lib.antt", "pub mod Facts\npub mod More\n")
        self.write("crates/low/proofs/More.antt", "abbrev pub four : ℕ\nfour = 3\n")
        self.assertEqual(now(), ["low"])
        self.turn("three = 2", "three = 3", "crates/low/proofs/Facts.antt")
        self.assertEqual(now(), ["low", "up"])
        self.turn("ℕ}\n", "ℕ}\nuse Rattle.low.proofs.More.{four}\n", "crates/low/proofs/Facts.antt")
        self.turned(["low", "up"], "four = 3", "four = 4", "crates/low/proofs/More.antt")

    def test_it_is_the_same_asked_for_alone_and_with_others(self) -> None:
        # (a lemma file that names another of its own crate, below a crate that is asked about too)
        self.write("crates/low/proofs/Lib.antt",
                   "pub mod Facts\nuse Rattle.low.proofs.Facts.{three}\n")
        alone = hashes(crates_here(), ["low"])["low"]
        self.assertEqual(hashes(crates_here(), ["low", "up"])["low"], alone)

    def test_a_proof_of_one_function_below_is_not_read_above(self) -> None:
        self.write("crates/up/proofs/Lib.antt", "use Rattle.low.proofs.Facts.{three}\n")
        now = self.changed()
        self.write("crates/low/proofs/counts/same/Answers.antt", "-- none\n")
        self.assertEqual(now(), ["low"])

    def test_an_edit_and_a_file_of_its_own_are_read(self) -> None:
        self.turned(["up"], "3", "4", "crates/up/refused/three-told-as-two.edit")
        self.turned(["up"], "2", "2 + 0", "crates/up/src/lib.rt")

    def test_the_rows_that_an_edit_names_are_not_read(self) -> None:
        self.turned([], "LEAST + 1;\n", "LEAST + 1;\nrows: rows are set\n",
                    "crates/low/refused/another-least.edit")

    def test_owed_names_what_the_lock_lacks(self) -> None:
        lock.write(crates_here(), hashes(crates_here(), ["low", "up"]))
        self.assertEqual(self.tool("--owed"), (0, [], ""))
        self.turn("3", "4", "crates/up/refused/three-told-as-two.edit")
        self.assertEqual(
            self.tool("--owed")[:2], (1, ["up: its edits are to be judged: tools/run refused up"]))
        Path(lock.FILE).unlink()
        self.assertEqual(len(self.tool("--owed")[1]), 2)

    def test_owed_tells_where_another_kit_judged(self) -> None:
        lock.write(crates_here(), hashes(crates_here(), ["low", "up"]))
        here, text = kit.name(), Path(lock.FILE).read_text(encoding="utf-8")
        self.write(lock.FILE, re.sub(rf"(?m)^(low .*) {here}$", r"\1 an-older-kit", text))
        told = (f"the verdicts that stand, crates by the kit that judged them: 1 by an-older-kit, "
                f"1 by {here}")
        self.assertEqual(self.tool("--owed"),
                         (0, [f"{told}; the kit here, of the same logic, is {here}"], ""))
        # the kit of a verdict that doesn't stand any more tells nothing
        self.turn("LEAST + 1;", "LEAST + 2;", "crates/low/refused/another-least.edit")
        self.assertEqual(
            self.tool("--owed")[:2],
            (1, ["low: its edits are to be judged: tools/run refused low"]))
        # judging one crate leaves the kit of the others
        lock.write(crates_here(), hashes(crates_here(), ["up"]))
        self.assertEqual({name: it.kit for name, it in lock.kept().items()},
                         {"low": "an-older-kit", "up": here})

    def test_a_line_of_another_form_is_none(self) -> None:
        lock.write(crates_here(), hashes(crates_here(), ["low", "up"]))
        self.write(
            lock.FILE,
            re.sub(r"(?m)^(low .*) \S+$", r"\1",
                   Path(lock.FILE).read_text(encoding="utf-8")))
        self.assertEqual(
            self.tool("--owed")[:2],
            (1, ["low: its edits are to be judged: tools/run refused low"]))

    def git(self, *words: str) -> None:
        made = ["git", "-c", "user.name=a", "-c", "user.email=a@b", *words]
        subprocess.run(made, check=True, stdout=subprocess.DEVNULL, stderr=subprocess.DEVNULL)

    def judged(self) -> None:
        """A commit at which an older kit judged all edits, two of the low crate among them."""
        self.write("crates/low/refused/less-reached.edit", edit("b <= a", "b < a"))
        lock.write(crates_here(), hashes(crates_here(), ["low", "up"]))
        self.write(lock.FILE,
                   Path(lock.FILE).read_text(encoding="utf-8").replace(kit.name(), "an-older-kit"))
        self.git("init", "-q")
        self.git("add", "-A")
        self.git("commit", "-q", "-m", "judged")

    def test_fewer_edits_stand_by_the_verdicts_on_all(self) -> None:
        self.judged()
        Path("crates/low/refused/another-least.edit").unlink()
        self.assertEqual(self.tool("--owed")[0], 1)
        self.assertEqual(self.tool("--fewer", "HEAD")[0], 0)
        self.assertEqual({name: (it.rests[0], it.kit) for name, it in lock.kept().items()},
                         {"low": (1, "an-older-kit"), "up": (1, "an-older-kit")})
        # and what went comes back by itself
        self.git("checkout", "-q", "HEAD", "--", "crates")
        self.assertEqual(self.tool("--owed")[0], 1)
        self.assertEqual(self.tool("--fewer", "HEAD")[0], 0)
        self.assertEqual(lock.kept()["low"].rests[0], 2)
        # a crate without edits has no line
        Path("crates/up/refused/three-told-as-two.edit").unlink()
        self.assertEqual((self.tool("--fewer", "HEAD")[0], [*lock.kept()]), (0, ["low"]))

    def test_fewer_edits_are_judged_where_anything_else_changed(self) -> None:
        more = Path("crates/low/refused/more.edit")
        turns = {
            "an edit that is another": lambda: self.turn("b < a", "b > a",
                                                         "crates/low/refused/less-reached.edit"),
            "an edit that is new": lambda: self.write(str(more), edit("a || b", "a")),
            "an edit under another name": lambda: Path("crates/low/refused/less-reached.edit").
            rename(more), "a body of its own": lambda: self.turn("a || b", "b || a"),
            "a definition of its own": lambda: self.turn("least = 3", "least = 4",
                                                         "crates/low/specs/Numbers.antt"),
            "a lemma of its own": lambda: self.turn("three = 3", "three = 2",
                                                    "crates/low/proofs/Facts.antt"),
            "the lock at that revision": lambda: self.unjudged("28"),
            "the number in the lock": lambda: self.unjudged("low 2", "low 3")}
        for name, turn in turns.items():
            with self.subTest(name):
                self.setUp()
                self.judged()
                Path("crates/low/refused/another-least.edit").unlink()
                turn()
                status, lines, _ = self.tool("--fewer", "HEAD")
                self.assertEqual((status, lines[:1]),
                                 (1, ["low: its edits are to be judged: tools/run refused low"]))

    def unjudged(self, old: str, new: str = "") -> None:
        """A line of the lock that didn't hold when it was kept."""
        text = Path(lock.FILE).read_text(encoding="utf-8")
        self.write(
            lock.FILE,
            text.replace(old, new)
            if new else re.sub(r"(?m)^(low \d+ )\w{8}", r"\g<1>00000000", text))
        self.git("commit", "-q", "-m", "another lock", lock.FILE)

    def test_fewer_edits_are_judged_where_a_crate_below_changed(self) -> None:
        self.above("use low::counts::same;")
        self.judged()
        Path("crates/low/refused/another-least.edit").unlink()
        self.turn("ensures { result ≡ a }", "ensures { a ≡ result }")
        status, lines, _ = self.tool("--fewer", "HEAD")
        words = [
            f"{it}: its edits are to be judged: tools/run refused {it}" for it in ("low", "up")]
        self.assertEqual((status, lines[:2]), (1, words))

    NUMBERS, FACTS = "crates/low/specs/Numbers.antt", "crates/low/proofs/Facts.antt"

    def renamed(self, *words: str) -> tuple[int, str]:
        """The status of a commit's verdicts by those of the commit before, and what is told."""
        self.git("add", "-A")
        self.git("commit", "-q", "-m", "names")
        status, _, why = self.tool("--renamed", "HEAD~1", *words)
        return status, why

    def test_verdicts_stand_under_other_names(self) -> None:
        self.judged()
        for old, new in ("abbrev pub least", "abbrev pub fewest"), ("\nleast =", "\nfewest ="):
            self.turn(old, new, self.NUMBERS)
        self.assertEqual(self.tool("--owed")[0], 1)
        self.assertEqual(self.renamed("fewest=least"), (0, ""))
        self.assertEqual(lock.kept()["low"].kit, "an-older-kit")

    def test_verdicts_do_not_stand_where_more_than_a_name_changed(self) -> None:
        self.judged()
        for old, new in ("abbrev pub least", "abbrev pub fewest"), ("\nleast = 3", "\nfewest = 4"):
            self.turn(old, new, self.NUMBERS)
        self.assertEqual(self.renamed("fewest=least")[0], 1)

    def test_what_no_commit_has_gets_no_verdict_by_names(self) -> None:
        self.judged()
        self.turn("a || b", "b || a")
        status, _, why = self.tool("--renamed", "HEAD", "fewest=least")
        self.assertEqual((status, "in none" in why), (1, True))

    def test_a_name_that_was_there_is_no_new_name(self) -> None:
        self.judged()
        self.turn("abbrev pub least", "abbrev pub three", self.NUMBERS)
        status, why = self.renamed("three=least")
        self.assertEqual((status, why), (1, "refused: HEAD~1 has the name three\n"))

    def test_verdicts_stand_where_a_definition_moved_word_for_word(self) -> None:
        moved = "\n\n-- the least count\nabbrev pub least : ℕ\nleast = 3"
        rest = "use Rattle.std.specs.Prelude.{ℕ}\n\nabbrev pub most : ℕ\nmost = 9"
        self.write(self.NUMBERS, rest + moved + "\n")
        self.judged()
        for text, status in (moved.replace("= 3", "= 2"), 1), (moved, 0):
            with self.subTest(text):
                self.git("checkout", "-q", ":/judged", "--", self.FACTS)
                self.write(self.NUMBERS, rest + "\n")
                self.turn("three = 3", "three = 3" + text, self.FACTS)
                self.git("add", "-A")
                self.git("commit", "-q", "-m", "moved")
                word = f"{self.NUMBERS}:least:{self.FACTS}"
                self.assertEqual(self.tool("--renamed", ":/judged", word)[0], status)

    def test_a_crate_without_edits_is_not_owed(self) -> None:
        lock.write(crates_here(), hashes(crates_here(), ["low", "up"]))
        Path("crates/up/refused/three-told-as-two.edit").unlink()
        self.assertEqual(self.tool("--owed")[:2], (0, []))
        lock.write(crates_here(), {})
        self.assertEqual([*lock.kept()], ["low"])


class Texts(OnATree):
    """Functions, edits and what the prover's lines say of them."""

    def test_functions(self) -> None:
        found = functions_in(COUNTS.encode())
        self.assertEqual([it.name for it in found],
                         ["count", "doubled", "least_count", "reaches", "same", "kept", "either"])
        self.assertEqual([it.name for it in found if it.is_read_above], ["count", "doubled"])
        self.assertIsNone(functions_in(b"fn broken() { \" }"))
        macro = (b"macro_rules! made { () => { fn inner() { 1 } } }\nmade! { fn more() { 2 } }\nfn "
                 b"outer() { fn inside() {} }\n")
        self.assertEqual([it.name for it in functions_in(macro)], ["outer"])

    def test_owners(self) -> None:
        text = b"""
        impl<D: Fn(u8) -> u8> crate::held::Held<'_, D> where D: Copy { fn first() {} \
const fn second() {} }
        impl<T> From<Vec<T>> for Other { fn third() {} }
        impl<K: Scheme, D> a::Interpret<b::Desk<K, D>> for Scripter { fn fourth() {} }
        impl<'a> Shown for &'a [u8] { fn fifth() {} }
        impl From<&'static str> for (u8, Held) { fn sixth() {} }
        trait Counted { fn none(); fn seventh() {} }
        impl<R: Read> Source for R { fn eighth() {} }
        fn alone() {}
        """
        owners = {it.name: (it.owner, it.is_own) for it in functions_in(text)}
        own = {"first": ("Held", True), "second": ("Held", True)}
        others: dict[str, str | None] = {
            "third": "OtherFromVec", "fourth": "ScripterInterpretDesk", "fifth": "RefSliceU8Shown",
            "sixth": "Tuple2U8HeldFromRefStr"}
        others |= {"seventh": "Counted", "eighth": "AnySource", "alone": None}
        self.assertEqual(owners, own | {name: (owner, False) for name, owner in others.items()})

    def test_a_method_is_named_by_the_module_of_its_type(self) -> None:
        self.write("crates/low/src/held.rt", "pub struct Held;\nimpl Held { fn two() {} }\n")
        self.write(
            "crates/low/src/more.rt",
            "impl Held { fn one() {} fn two() {} }\nimpl Shown for Held { fn one() {} }\nfn "
            "three() {}\n")
        self.write("crates/low/src/deep/other.rt", "enum Held { A }\nimpl Held { fn two() {} }\n")
        modules = {
            path: [it.modules for it in found
                   ] for path, found in functions_below("crates/low").items()}
        self.assertEqual(modules["src/held.rt"], [(("held", ), )])
        both = (("deep", "other"), ("held", ))
        self.assertEqual([tuple(sorted(it)) for it in modules["src/more.rt"]],
                         [both, both, (("more", ), ), (("more", ), )])
        self.assertEqual(modules["src/deep/other.rt"], [(("deep", "other"), )])

    def test_edits_of_something_else_than_one_body_are_bad(self) -> None:
        texts = {
            "a-constant": edit("LEAST: u64 = 3", "LEAST: u64 = 4"), "a-signature": edit(
                "pub fn same(a: u64)", "pub fn same(a: u32)"), "a-definition": edit(
                    "least = 3", "least = 4",
                    "specs/Numbers.antt"), "two-bodies": edit("b <= a", "b < a") +
            "old: a || b\nnew: a\n", "a-function-of-its-own": edit(
                "a || b", "fn more() -> bool { true } more()"), "no-such-text": edit(
                    "let total = 0;", "let total = 1;"), "an-open-brace": edit(
                        "a || b", "a || { b")}
        for name, text in texts.items():
            self.write(f"crates/low/refused/{name}.edit", text)
        bad = [it.label for it in edits_in("low", "crates/low") if it.why]
        self.assertEqual(bad, [f"low/{name}" for name in sorted(texts)])

    def test_an_edit_of_a_text_of_sql_names_rows(self) -> None:
        asked = ('pub fn asked() -> &\'static str {\n    let held = "SELECT a"; "UPDATE t SET a = '
                 '1 WHERE b = 2"\n}\npub fn named() -> &\'static str {\n    "a SELECT"\n}\n')
        self.write("crates/low/src/asked.rt", asked)
        self.write("crates/low_tests/stdin", "\n# rows are set\nset 1 => done\n")
        of_text = edit("WHERE b = 2", "WHERE a = 2", "src/asked.rt")
        held, new = '"UPDATE t SET a = 1 WHERE b = 2"', '"UPDATE t SET a = 1"'
        chosen = [
            f"if 1 > 2 {{ {new} }} else {{ {held} }}",
            f"if let Some(_) = more(1) {{ {held} }} else if held.len() == 9 {{ ({new}) }} else "
            f"{{ {held} }}", f"match (1, 2) {{ (a, 2) if a >= 2 => {new}, (_, 2) => {{ {held} }} "
            f"_ => if more() {{ {new} }} else {{ {held} }} }}", f"{{ {new} }}"]
        others = [
            f"if 1 > 2 {{ {new} }} else {{ held }}",
            f"match 1 {{ 1 => {new}, _ => return {held} }}", f"{{ let held = {new}; {held} }}",
            f"if 1 > 2 {{ {new} }} else {{ {held} }}.trim()",
            f"more(if 1 > 2 {{ {new} }} else {{ {held} }})"]
        chosen, others = (
            [edit(held, new, "src/asked.rt") for new in these] for these in (chosen, others))
        beside = chosen[0].partition("\n")[2]
        chosen.append(edit("SELECT a", "SELECT b", "src/asked.rt") + beside)
        others.append(edit("let held", "let mut held", "src/asked.rt") + beside)
        texts = {
            "no-rows": (of_text, True, "it turns a text of SQL alone"),
            "other-rows": (of_text + "rows: rows are read\n", True,
                           "it names the rows 'rows are read'"),
            "shown": (of_text + "rows: rows are set\n", True, None),
            "two-texts": (of_text + 'old: "SELECT a"\nnew: "SELECT b"\nrows: rows are set\n', True,
                          None), "text-and-code": (of_text + "old: let held\nnew: let mut held\n",
                                                   False, None),
            "another-text": (edit('"a SELECT"', '"b SELECT"',
                                  "src/asked.rt"), False, None), "another-begins": (edit(
                                      '"a SELECT"', '"SELECT"', "src/asked.rt"), False, None)}
        for at, it in enumerate(chosen):
            texts[f"chosen-{at}"] = (it + "rows: rows are set\n", False,
                                     "it chooses among texts of SQL")
        texts |= {f"not-chosen-{at}": (it, False, None) for at, it in enumerate(others)}
        for name, (text, _, _) in texts.items():
            self.write(f"crates/low/refused/{name}.edit", text)
        found = {it.label.partition("/")[2]: it for it in edits_in("low", "crates/low")}
        for name, (_, is_of_text, why) in texts.items():
            with self.subTest(name):
                self.assertEqual((found[name].is_of_text, (found[name].why or "")[:len(why or "")]),
                                 (is_of_text, why or ""))
                self.assertEqual(found[name].why is None, why is None)
        self.assertEqual(found["shown"].rows, ["rows are set"])

    def test_groups_have_different_functions(self) -> None:
        for name, body in (("less", "b < a"), ("more", "b > a"), ("always", "true")):
            self.write(f"crates/low/refused/reaches-{name}.edit", edit("b <= a", body))
        self.write("crates/low/refused/both.edit", edit("a || b", "a && b"))
        edits = edits_in("low", "crates/low")
        for most, sizes in ((16, [1, 1, 3]), (2, [1, 1, 1, 2]), (1, [1] * 5)):
            groups = groups_of(edits, most)
            self.assertEqual(sorted(map(len, groups)), sizes)
            for group in groups:
                self.assertEqual(len({it.function.name for it in group}), len(group))

    def test_a_refusal_is_of_the_function_whose_goal_stays_open(self) -> None:
        lines = [
            "note: src/counts.rt:31:5: it is not proved that the result is so (`returns`); the "
            "facts known there allow other values",
            "fn low::counts::reaches: no proof: expected answers in "
            "./proofs/counts/reaches/Answers.antt; `search` did not prove `returns`",
            "fn low::counts::same: no proof: it calls `low::counts::reaches`, which is not proved",
            "proofs/counts/kept/Answers.antt:4:1: error: `returns`: the two types differ",
            "proofs/counts/either/Answers.antt:4:1: error: `returns`: `more` is not in scope",
            "note: src/counts.rt:50:5: `search` found no proof (`invariant_of-table-2`)",
            "fn low::counts::placed: no proof: expected answers in "
            "./proofs/counts/placed/Answers.antt; `search` did not prove `invariant_of-table-2`",
            "fn low::counts::kept: not proved", "fn low::counts::either: not proved",
            "proofs/held/Held/told/Proof.antt:4:1: error: `returns`: the two types differ",
            "fn low::held::Held::told: not proved", "logic=not-proved"]
        found = [*refusals(lines)]
        self.assertEqual([it[0] for it in found], [
            "low::counts::reaches", "low::counts::placed", "low::counts::kept",
            "low::held::Held::told"])
        reaches = Function("reaches", (28, 32), 0, 0, None, False)
        self.assertTrue(is_shown("src/counts.rt", reaches, *found[0][:2]))
        self.assertFalse(is_shown("src/more.rt", reaches, *found[0][:2]))
        self.assertFalse(is_shown("src/counts.rt", replace(reaches, lines=(40, 42)), *found[0][:2]))
        self.assertFalse(is_shown("src/counts.rt", replace(reaches, name="same"), *found[0][:2]))
        placed = replace(reaches, name="placed", lines=(48, 52))
        self.assertTrue(is_shown("src/counts.rt", placed, *found[1][:2]))
        self.assertTrue(is_shown("src/counts.rt", replace(reaches, name="kept"), *found[2][:2]))
        # a method of a type that another file has
        told = replace(reaches, name="told", owner="Held", is_own=True, modules=(("held", ), ))
        self.assertTrue(is_shown("src/counts.rt", told, *found[3][:2]))
        self.assertFalse(
            is_shown("src/counts.rt", replace(told, modules=(("counts", ), )), *found[3][:2]))
        self.assertFalse(is_shown("src/counts.rt", replace(told, owner=None), *found[3][:2]))
        self.assertFalse(is_shown("src/counts.rt", replace(told, owner="Other"), *found[3][:2]))
        self.assertFalse(is_shown("src/counts.rt", replace(told, name="kept"), *found[3][:2]))

    def test_a_function_is_told_by_its_whole_path(self) -> None:
        # (a module and a function of one name, and a goal of another function of that module,
        # placed where a helper's lines are)
        response = Function("response", (10, 20), 0, 0, None, False)
        called = replace(response, name="called_response", lines=(22, 30))
        place = [("src/response.rt", 15)]
        self.assertTrue(is_shown("src/response.rt", response, "up::response::response", place))
        self.assertFalse(
            is_shown("src/response.rt", response, "up::response::called_response", place))
        self.assertFalse(
            is_shown("src/response.rt", called, "up::response::response",
                     [("src/response.rt", 25)]))
        # names that hold it elsewhere than at the end: an outer module, and a method, of another
        # function
        for name in ("up::response::called::Held::shown",
                     "up::response::fn::called_response::response", "up::other::response"):
            self.assertFalse(is_shown("src/response.rt", response, name, place), name)
        # refused terms, which have no place
        root = replace(response, name="response")
        self.assertTrue(is_of("up::response", "src/lib.rt", root))
        self.assertFalse(is_of("up::response::called_response", "src/lib.rt", root))
        self.assertFalse(is_of("up::response::Held::response", "src/response.rt", response))
        # what stands in it
        self.assertTrue(
            is_shown("src/response.rt", response, "up::response::fn::response::any", place))
        self.assertTrue(
            is_shown("src/response.rt", response, "up::response::fn::response::any+FnMut::call_mut",
                     place))
        self.assertFalse(is_shown("src/response.rt", response, "up::response::fn::response", place))

    def test_a_method_is_told_by_its_type_and_trait(self) -> None:
        compared = Function("cmp", (10, 20), 0, 0, None, False, "IdentOrd")
        self.assertTrue(is_of("up::compared::IdentOrd::cmp", "src/compared.rt", compared))
        for name in ("up::compared::NoteOrd::cmp", "up::compared::Ident::cmp",
                     "up::ident::IdentOrd::cmp", "up::compared::cmp"):
            self.assertFalse(is_of(name, "src/compared.rt", compared), name)
        held = Function("any_is", (10, 20), 0, 0, None, False, "Held", True, (("held", ), ))
        self.assertTrue(is_of("up::held::fn::Held::any_is::any", "src/more.rt", held))
        self.assertTrue(is_of("up::more::fn::Held::any_is::inner", "src/more.rt", held))
        self.assertFalse(is_of("up::held::fn::any_is::any", "src/more.rt", held))
        self.assertFalse(is_of("up::more::Held::any_is", "src/more.rt", held))


class Macros(unittest.TestCase):
    """The kit's macros."""

    def test_the_methods_that_they_call_are_listed(self) -> None:
        called: set[str] = set()
        for file in Path(kit.rtlib.KIT, "rattle").rglob("src/**/*.rt"):
            text = file.read_text(encoding="utf-8")
            if "macro_rules" in text and "uses" not in file.parts:
                called |= set().union(*map(methods_called, macros_in(text)))
        self.assertIn("write_fmt", called)
        self.assertEqual(sorted(called - {*OF_MACROS}), [])

    def test_what_they_call_is_found(self) -> None:
        text = ("fn a() { b.c() }\nmacro_rules! d { ($e:expr) => { $e.f(\"}\").g::<u8>(); /* .h() "
                "*/ // .i()\n $e . j () } }\nfn k() { l.m() }")
        self.assertEqual([*map(methods_called, macros_in(text))], [{"f", "g", "j"}])


def macros_in(text: str) -> Iterator[str]:
    """Yields what each macro that a text declares has in its braces, without comments and texts."""
    code = re.sub(r'//[^\n]*|/\*.*?\*/|"(?:[^"\\]|\\.)*"|\'(?:[^\'\\]|\\.)\'', " ", text,
                  flags=re.DOTALL)
    for found in re.finditer(r"\bmacro_rules\s*!\s*\w+\s*(?=\{)", code):
        depths = itertools.accumulate((it == "{") - (it == "}") for it in code[found.end():])
        yield code[found.end():][:next((
            at for at, depth in enumerate(depths) if not depth), len(code))]


def methods_called(code: str) -> set[str]:
    """Returns the names of the methods that are called in code."""
    return {*re.findall(r"\.\s*([a-z_]\w*)\s*(?:::\s*<[^()]*>\s*)?\(", code)}


class Verdicts(OnATree):
    """By the prover: real edits beside some that change nothing and some that are broken, and
    then the real ones alone.
    """

    REAL = {
        "another-least": edit("let count = LEAST;", "let count = LEAST + 1;"), "less-reached": edit(
            "b <= a", "b < a")}
    HARMLESS = {
        "again-kept": edit("    items", "    let again = items; again"), "exchanged": edit(
            "a || b", "b || a")}
    BROKEN = {
        "moved-value": edit("    items",
                            "    let again = items; drop(again); items"), "no-operand": edit(
                                "a || b", "a || || ;; b"), "unknown-name": edit("b <= a", "c <= a"),
        "wrong-type": edit("let count = LEAST;", "let count = b\"3\";")}

    def begun(self, edits: dict[str, str], *words: str) -> tuple[str, subprocess.Popen[str]]:
        """Starts the tool in a tree of its own, whose low crate has these edits."""
        self.setUp()
        for file in Path("crates/low/refused").iterdir():
            file.unlink()
        Path("crates/up/refused/three-told-as-two.edit").unlink()
        for name, text in edits.items():
            self.write(f"crates/low/refused/{name}.edit", text)
        asked = [sys.executable, str(RUN), "refused", "--jobs", "1", *words]
        return os.getcwd(), subprocess.Popen(asked, stdout=subprocess.PIPE,
                                             stderr=subprocess.DEVNULL, text=True)

    def ended(self, folder: str,
              run: subprocess.Popen[str]) -> tuple[int, dict[str, str], str, list[str]]:
        """Returns how the tool ended: its status, what it said of each edit, its last line, and
        the crates in the lock.
        """
        lines = run.communicate()[0].splitlines()
        os.chdir(folder)
        verdicts = {
            name: verdict
            for verdict, name in re.findall(r"(?m)^([A-Za-z ]+) low/([\w-]+):", "\n".join(lines))}
        return run.returncode, verdicts, lines[-1], [*lock.kept()]

    def test_verdicts(self) -> None:
        kinds = [(self.REAL, "refused"), (self.HARMLESS, "NOT REFUSED"), (self.BROKEN, "BAD EDIT")]
        wanted = {name: verdict for names, verdict in kinds for name in names}
        # (side by side, since each waits for the prover)
        all_kinds = self.begun({**self.REAL, **self.HARMLESS, **self.BROKEN}, "low")
        real = self.begun(self.REAL, "low")
        drawn = self.begun({**self.REAL, **self.HARMLESS}, "--drawn", "a word")
        apart = self.begun({**self.REAL, **self.HARMLESS, **self.BROKEN}, "--apart", "low")
        real_apart = self.begun(self.REAL, "--apart", "low")
        for it in (all_kinds, apart):
            self.assertEqual(self.ended(*it), (1, wanted, "2 passed, 6 failed", []))
        for it in (real, real_apart):
            self.assertEqual(
                self.ended(*it),
                (0, {name: "refused" for name in self.REAL}, "2 passed, 0 failed", ["low"]))
        known = {name: wanted[name] for name in (*self.REAL, *self.HARMLESS)}
        self.assertEqual(self.ended(*drawn), (1, known, "2 passed, 2 failed", []))

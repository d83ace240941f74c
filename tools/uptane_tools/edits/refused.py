"""Judges the edits crates/NAME/refused/*.edit, each of which turns the body of one function: the
prover has to refuse it.

    tools/run refused NAME ..          judges the edits of these crates, over what `rt check` kept.
                                       Where all edits of a crate were refused, it writes the
                                       crate's line in refused.lock: how many they are, the hash of
                                       all that the verdicts rest on (of what,
                                       tools/uptane_tools/edits/hashes.py says), and the kit that
                                       judged them
    tools/run refused --owed           names the crates whose hash the lock lacks, in seconds; the
                                       status is 1 where there is one. A last line tells where
                                       another kit of the same logic judged, which is no fault
    tools/run refused --apart NAME ..    the same, each group without the other bodies, several at
                                         one time
    tools/run refused --all            judges all edits in a copy of the tree, from nothing, and
                                       then writes the lock
    tools/run refused --drawn WORD     judges anew, from nothing, one group of edits, which the word
                                       draws, such as a commit's hash
    tools/run refused --fewer REVISION    judges nothing: where the lock held at that revision of
                                          git, and since then edits went and nothing else that the
                                          verdicts rest on has changed, it writes the crate's line
                                          (why that is sound, tools/uptane_tools/edits/fewer.py
                                          says)

An edit is a line 'file: src/FILE.rt' and then pairs of lines 'old: TEXT' and 'new: TEXT', each
old TEXT standing once in that file. A value, a test or a rule is turned, and names stay. The
crate is proved as it stands. Then edits of different functions are made in one copy and checked
together, since a contract is all that the proof of one function knows of another. An edit is
refused where a goal of its own function, placed between that function's lines, stays open, or
where antt refuses a term in that function's own folder of proofs/ for more than a name that is
gone. What is not shown so is judged alone, by the same rule. A fault of parsing, types or
borrows, and a check that ends late, is killed or gets no verdict, is never a refusal.

An edit that turns a text of SQL alone is refused by its spelling, since the proofs have the text
once more. So it also names rows of a test that fail with it, by a line 'rows: SECTION' of some
crate's stdin, and is a bad edit without. `tools/run sql_edits` carries such edits out. One that
has a choice among texts in the place of one, as an `if`, is refused so, too. It can't be carried
out, and is a bad edit.

--drawn proves and judges the group in a copy that leaves out the bodies of all other functions,
over the libraries below as `rt ci` or `rt check` left them. --apart judges each group of a crate
so, several at one time, and proves no crate whole: a large crate's few edits come sooner by it.

A line for each edit begins with 'refused', or with 'NOT REFUSED', 'BAD EDIT' or 'NOT JUDGED',
which fail. The last line is 'N passed, M failed', and the status is 0 where all passed. It runs
at the top of a repository of Rattle crates and needs rt on the path.
"""
import argparse
import collections
import hashlib
import os
import shutil
import subprocess
import sys
import tempfile
import threading
from concurrent.futures import FIRST_COMPLETED, ThreadPoolExecutor, wait
from typing import Any

from uptane_tools import arguments
from uptane_tools.edits import fewer, kit, lock
from uptane_tools.edits.check import Bench
from uptane_tools.edits.edit import Edit, edits_in, groups_of
from uptane_tools.edits.hashes import count_of, hashes
from uptane_tools.edits.kit import Crate, crates as crates_here, rt, rtlib


class Judge:
    """Judges edits, prints a line for each as it is known, and counts them."""

    def __init__(self, given: argparse.Namespace) -> None:
        self.given, self.passed, self.failed, self.telling = given, 0, 0, threading.Lock()
        self.jobs = given.jobs or max(1, min(rt.processors(), rt.free() // 3_000_000_000))

    def tell(self, is_well: bool, line: str) -> None:
        with self.telling:
            self.passed, self.failed = self.passed + is_well, self.failed + (not is_well)
            print(line, flush=True)

    def bench(self, crate: Crate, room: str) -> Bench:
        told = (lambda line: print(line, flush=True)) if self.given.times else (lambda line: None)
        return Bench(crate, room, self.given.seconds, told)

    def crate(self, crates: dict[str, Crate], crate: Crate) -> None:
        """Judges all edits of a crate, and writes its line in the lock where all were refused
        and nothing changed meanwhile.
        """
        before, failed, edits = hashes(crates, [crate.name]), self.failed, edits_in(
            crate.name, crate.folder)
        if self.given.apart:
            self.all_apart(crate, edits)
        else:
            os.makedirs(f"{crate.folder}/out", exist_ok=True)
            with tempfile.TemporaryDirectory(prefix="refused-", dir=f"{crate.folder}/out") as room:
                bench = self.bench(crate, room)
                self.edits(bench, edits, bench.prove(self.jobs))
        if edits and self.failed == failed and hashes(crates, [crate.name]) == before:
            lock.write(crates, before)

    def edits(self, bench: Bench | None, edits: list[Edit], why: None,
              jobs: int | None = None) -> None:
        """Judges these edits on the bench, or says why none can be judged there."""
        for it in edits:
            if it.why or why:
                self.tell(
                    False,
                    f"BAD EDIT {it.label}: {it.why}" if it.why else f"NOT JUDGED {it.label}: {why}")
        groups = [] if why else groups_of([it for it in edits if not it.why], self.given.most)
        jobs = jobs or max(1, self.jobs // max(1, len(groups)))
        with ThreadPoolExecutor(self.jobs) as pool:
            running = {pool.submit(bench.judged, it, jobs) for it in groups}
            while running:
                done, running = wait(running, return_when=FIRST_COMPLETED)
                for known, left in (it.result() for it in done):
                    for is_well, line in known:
                        self.tell(is_well, line)
                    running |= {pool.submit(bench.judged, it, jobs) for it in left if it}

    def anew(self, crates: dict[str, Crate]) -> None:
        """Judges all edits in a copy of the tree without kept work, and takes over the lines of
        the lock that this makes there.
        """
        top = os.getcwd()
        with tempfile.TemporaryDirectory(prefix="refused-") as room:
            shutil.copytree(
                top, f"{room}/top", ignore=shutil.ignore_patterns("out", ".git",
                                                                  os.path.basename(lock.FILE)))
            os.chdir(f"{room}/top")
            copied = crates_here()
            for it in copied.values():
                if count_of(it.folder):
                    self.crate(copied, it)
            found = lock.kept()
            os.chdir(top)
        now = hashes(crates, [*found])
        lock.write(crates, {it: now[it] for it in now if now[it] == found[it].rests})

    def drawn(self, crates: dict[str, Crate], word: str) -> None:
        """Judges anew, from nothing, the group of the one edit that the word draws."""
        number = int(hashlib.sha256(word.encode()).hexdigest(), 16)
        names = [it for it in crates for _ in range(count_of(crates[it].folder))]
        if not names:
            return
        crate = crates[names[number % len(names)]]
        edits = edits_in(crate.name, crate.folder)
        edit = edits[number % len(edits)]
        groups = groups_of([it for it in edits if not it.why], self.given.most)
        group = next((it for it in groups if edit in it), [edit])
        print(f"drawn by {word}: {len(group)} of the {len(edits)} edits of {crate.name}",
              flush=True)
        make_ready(crate, self.jobs)
        self.apart(crate, group, self.jobs)

    def apart(self, crate: Crate, group: list[Edit], jobs: int) -> None:
        """Judges a group in a copy of the crate that leaves out the other bodies, or in a whole
        one where these are needed.
        """
        with tempfile.TemporaryDirectory(prefix="refused-") as room, tempfile.TemporaryDirectory(
                prefix="refused-") as whole:
            bench = self.bench(crate, room)
            why = bench.prove_alone([(it.path, it.function) for it in group if not it.why], jobs)
            if why:
                print(
                    f"a group is judged over the whole crate, since without the other bodies {why}",
                    flush=True)
                bench = self.bench(crate, whole)
                why = bench.prove_anew(jobs)
            self.edits(bench, group, why, jobs)

    def all_apart(self, crate: Crate, edits: list[Edit]) -> None:
        """Judges all edits of a crate so, as many groups at one time as there are jobs."""
        make_ready(crate, self.jobs)
        self.edits(None, [it for it in edits if it.why], None)
        groups = groups_of([it for it in edits if not it.why], self.given.most)
        each = max(1, self.jobs // max(1, len(groups)))
        with ThreadPoolExecutor(self.jobs) as pool:
            for done in [pool.submit(self.apart, crate, it, each) for it in groups]:
                done.result()


def make_ready(crate: Crate, jobs: int) -> None:
    """Has the libraries below a crate built, unless they are all as `rt ci` left them."""

    def time(file: Any) -> float:
        # (`rt ci` links a kept library into its place, which changes its ctime alone)
        return max(os.path.getmtime(file), os.path.getctime(file)) if os.path.isfile(file) else 0

    def is_by_ci(it: Any) -> bool | Any:
        return not time(f"{it.folder}/out/rlib/stamp") and time(f"{it.rlib}/format") > max(
            map(time, rtlib.files_of(it.folder)))

    for it in [] if all(map(is_by_ci, crate.below())) else crate.deps:
        words = [*rtlib.guarded(), "rt", "lib", "--jobs", str(jobs)]
        subprocess.run(words, cwd=it.folder, stdout=subprocess.DEVNULL, check=True)


def owed(crates: dict[str, Crate]) -> int:
    """Names the crates whose hash the lock lacks, and returns how many they are. Of the others
    it tells which kits judged them, where another did.
    """
    kept, now = lock.kept(), hashes(crates, [*crates])
    names = [it for it in now if it not in kept or kept[it].rests != now[it]]
    for it in names:
        print(f"{it}: its edits are to be judged: tools/run refused {it}")
    kits = collections.Counter(kept[it].kit for it in now if it not in names)
    if {*kits} - {kit.name()}:
        told = ", ".join(f"{count} by {name}" for name, count in sorted(kits.items()))
        print(f"the verdicts that stand, crates by the kit that judged them: {told}; the kit here, "
              f"of the same logic, is {kit.name()}")
    return len(names)


def given_words(words: Any) -> argparse.Namespace:
    parser = arguments.parser(__doc__)
    add = parser.add_argument
    add("--owed", action="store_true", help="names the crates whose hash the lock lacks")
    add("--all", action="store_true", help="judges all edits from nothing")
    add("--drawn", metavar="WORD", help="judges anew the group of edits that the word draws")
    add("--fewer", metavar="REVISION",
        help="writes the lines of crates that have fewer edits than were judged at this revision")
    add("--renamed", metavar="REVISION",
        help="writes the lines of crates where names alone changed since this revision")
    add("--apart", action="store_true",
        help="judges each group without the other bodies, several at one time")
    add("--jobs", type=int, metavar="N",
        help="checks at one time (one for each processor and 3 GB of free memory)")
    add("--most", type=int, default=16, metavar="N",
        help="edits in one check (16); with 1 each is judged alone")
    add("--seconds", type=int, default=1800, metavar="N",
        help="the longest that one check may take (1800)")
    add("--times", action="store_true",
        help="a line for each check, with its processor seconds and memory")
    add("names", nargs="*", metavar="NAME",
        help="the crates; with --renamed NEW=OLD or FILE:NAME[:FILE]")
    given = parser.parse_args(words)
    if not os.path.isfile("crates.txt"):
        parser.error("it runs at the top of a repository, where crates.txt stands")
    given.renames = dict(it.split("=", 1) for it in given.names if "=" in it)
    given.gone = [it.split(":") for it in given.names if ":" in it]
    given.names = [it for it in given.names if "=" not in it and ":" not in it]
    if bool(given.renamed) != bool(given.renames or given.gone):
        parser.error("--renamed REVISION wants names, as NEW=OLD or FILE:NAME[:FILE]")
    if sum(map(bool,
               (given.owed, given.all, given.drawn, given.fewer, given.renamed, given.names))) != 1:
        parser.error("give --owed, --all, --drawn WORD, --fewer REVISION, --renamed REVISION or "
                     "names of crates")
    if given.apart and not given.names:
        parser.error("--apart wants names of crates")
    return given


def main(words: arguments.Words = None) -> int:
    """Judges edits."""
    given, crates = given_words(words), crates_here()
    unknown = {*given.names} - {*crates}
    if unknown:
        sys.exit(f"refused: crates.txt names no crate {' '.join(sorted(unknown))}")
    if given.owed:
        return 1 if owed(crates) else 0
    if given.fewer:
        lock.put(crates, fewer.stand(crates, given.fewer))
        return 1 if owed(crates) else 0
    if given.renamed:
        lock.put(crates, fewer.renamed(crates, given.renamed, given.renames, given.gone))
        return 1 if owed(crates) else 0
    # (its first call sets a signal's handler, which only the main thread may)
    rtlib.guarded()
    judge = Judge(given)
    if given.all:
        judge.anew(crates)
    elif given.drawn:
        judge.drawn(crates, given.drawn)
    for it in crates.values():
        if it.name in given.names:
            judge.crate(crates, it)
    print(f"{judge.passed} passed, {judge.failed} failed")
    return 1 if judge.failed or not judge.passed else 0

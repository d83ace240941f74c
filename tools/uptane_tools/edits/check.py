"""Checks of a crate in which edits are made, and what the prover's lines say of each edit."""
import collections
import os
import re
import shutil
import subprocess
import tempfile
import threading
from collections.abc import Callable, Iterator
from dataclasses import dataclass
from pathlib import Path
from typing import Any

from uptane_tools.edits.edit import Edit, functions_below, texts_with
from uptane_tools.edits.functions import Function, module_of, with_bodies
from uptane_tools.edits.kit import Crate, rt, rtlib

# A note that places a goal which stays open: its file, its line and its name.
GOAL = re.compile(
    r"note: (?:\./)?(src/\S+?):(\d+):\d+: (?:it is not proved .*?|`search` found no proof "
    r")\(`([^`]+)`\)")
# A term that antt refuses in a function's own folder of proofs/.
TERM = re.compile(r"(?:\./)?proofs/(\S+)/[^/:\s]+:\d+:\d+: error: (.*)")
# An error in the code, and where.
ERROR = re.compile(r"(?:\./)?(src/\S+?):(\d+):\d+: error")
# antt's words where a proof file names what an edit took away, or cites a proof that was refused:
# they say nothing of a contract.
GONE = re.compile(r"has no field|has no `|not in scope|is no name|not admitted")
# The line of a function, and of any item: the notes above it are its own.
FUNCTION = re.compile(r"fn (\S+): (.*)")
ITEM = re.compile(r"(?:fn|struct|enum|trait|impl) \S+: ")
OPEN_GOALS = re.compile(r"`search` did not prove ([^;]*)")
WAITS = re.compile(r"no proof: it calls `.+`, which (?:is|are) not proved")
NO_VERDICT = re.compile(r"(?m)^fn \S+: could not tell|^rattle: no verdict")
# How the last line begins where antt's run has ended and not all is proved: of a whole crate, and
# of the functions that it was asked for.
NOT_PROVED = ("logic=not-proved", "only=")

LEFT_OUT = b" unreachable!() "
PROOF_FILES = {"Invariants.antt", "Answers.antt", "Proof.antt"}


@dataclass(frozen=True)
class Said:
    """What a check says: 0 where all is proved, 1 where not, or None where it says nothing of an
    edit; its lines; and why it says nothing, which may be the edit's own fault.
    """

    status: int | None
    lines: list[str]
    why: str | None
    is_fault: bool


class Bench:
    """A crate to try edits on: its texts, in a folder of their own, and the work that a check of
    them as they stand has kept.
    """

    def __init__(self, crate: Crate, room: str, seconds: int, tell: Callable[..., Any]) -> None:
        self.crate, self.room, self.seconds, self.tell = crate, room, seconds, tell
        self.folder, self.kept, self.only = f"{room}/texts", f"{room}/kept", list[Any]()
        for part in rtlib.PARTS:
            if os.path.isdir(f"{crate.folder}/{part}"):
                shutil.copytree(f"{crate.folder}/{part}", f"{self.folder}/{part}")

    def prove(self, jobs: int) -> Any:
        """Proves the crate as it stands, over what earlier checks kept in its out/. Returns why
        no edit can be judged on it, or None.
        """
        words = [*rtlib.guarded(), "rt", "check", "--jobs", str(jobs)]
        ran = subprocess.run(words, cwd=self.crate.folder, capture_output=True, text=True,
                             errors="replace", check=False)
        if ran.returncode:
            return (f"{self.crate.name} is not proved as it stands: "
                    f"{_first_error((ran.stdout + ran.stderr).splitlines())}")
        shutil.copytree(f"{self.crate.folder}/out/incremental", self.kept, copy_function=_link)
        return None

    def prove_alone(self, functions: list[tuple[str, Function]], jobs: int) -> Any:
        """Proves these functions, pairs of a path and a function, as they stand and from
        nothing, in a copy of the crate that leaves out the bodies of the others. Returns why no
        edit of them can be judged on it, or None.
        """
        os.mkdir(self.kept)
        self._leave_out_all_but(functions)
        modules = sorted({"::".join(module_of(path)) for path, _ in functions})
        # (the crate's root has no name, so it is checked whole)
        self.only = [word for it in modules for word in ("--only", it)] if all(modules) else []
        said = self.check({}, self.kept, jobs, "as it stands, without the other bodies")
        lines, refused = [it for it in map(FUNCTION.fullmatch, said.lines) if it], [
            *refusals(said.lines)]
        for path, function in functions:
            mine = [it[2] for it in lines if is_of(it[1], path, function)]
            is_refused = any(is_shown(path, function, name, places) for name, places, _ in refused)
            if not mine or is_refused or not all(
                    it.startswith("proved") or WAITS.fullmatch(it) for it in mine):
                return (f"{path}, {function.name} is not proved as it stands: "
                        f"{said.why or ' | '.join(mine)[:200] or 'no line tells of it'}")
        return said.why

    def prove_anew(self, jobs: int) -> str | None:
        """Proves the whole crate as it stands, from nothing. Returns why no edit can be judged
        on it, or None.
        """
        os.mkdir(self.kept)
        said = self.check({}, self.kept, jobs, "as it stands, from nothing")
        return None if said.status == 0 else (f"{self.crate.name} is not proved as it stands: "
                                              f"{said.why or _first_error(said.lines)}")

    def _leave_out_all_but(self, functions: list[tuple[str, Function]]) -> None:
        """Leaves out the bodies of the functions that have neither the name nor the cycle of one
        of these, and what proofs/ has for them.
        """
        names = {(path, it.name) for path, it in functions}
        cycles = {(path, it.cycle) for path, it in functions if it.cycle}
        for path, here in functions_below(self.folder).items():
            text = Path(self.folder, path).read_bytes()
            out = [
                it for it in here if (path, it.name) not in names and (
                    path, it.cycle) not in cycles and not it.is_read_above]
            # (each line stays where it is)
            lines = {it: b"\n" * text.count(b"\n", it.opens, it.closes) for it in out}
            Path(self.folder, path).write_bytes(
                with_bodies(text, [(it, LEFT_OUT + lines[it]) for it in out]))
        stay = {name for _, name in names} | {f"+{cycle}" for _, cycle in cycles}
        for at, _, files in os.walk(f"{self.folder}/proofs", topdown=False):
            if PROOF_FILES & {*files} and os.path.basename(at) not in stay:
                shutil.rmtree(at)

    def judged(self, group: list[Edit],
               jobs: Any) -> tuple[list[tuple[bool, str]], list[list[Edit]]]:
        """Tries the edits of a group, all of different functions, in one check. Returns what is
        known now, as pairs of whether it is well and a line, and the groups that are left to
        try.
        """
        what = group[0].label if len(group) == 1 else f"{len(group)} edits"
        with tempfile.TemporaryDirectory(dir=self.room) as kept:
            shutil.copytree(self.kept, kept, copy_function=_link, dirs_exist_ok=True)
            said = self.check(texts_with(self.folder, group), kept, jobs, what)
        known, left = [], []
        refused = [*refusals(said.lines)] if said.status == 1 else []
        for it in group:
            shown = next((why for name, places, why in refused
                          if is_shown(it.path, it.function, name, places)), None)
            if shown:
                beside = ""
                if it.is_of_text:
                    beside = f" (a text of SQL alone, beside the rows of '{it.rows[0]}')"
                known.append((True, f"refused {it.label}: {shown[:160]}{beside}"))
            elif len(group) == 1:
                known.append((False, _failure(it, said)))
            else:
                left.append(it)
        return known, [[it] for it in left] if said.status is not None else _parts(left, said)

    def check(self, texts: dict[str, bytes], kept: str, jobs: int, what: str) -> Said:
        """Checks a copy of the crate with these texts, over the work in `kept`."""
        with tempfile.TemporaryDirectory(dir=self.room) as room, tempfile.TemporaryFile(
                "w+", errors="replace") as out:
            shutil.copytree(self.folder, room, dirs_exist_ok=True)
            for path, text in texts.items():
                Path(room, path).write_bytes(text)
            words = [
                *self.crate.words(["--jobs", str(jobs)], keeps=False), "--incremental", kept,
                *self.only]
            words = [*rtlib.guarded(), rtlib.RATTLE, "check", *words]
            ran = subprocess.Popen(words, cwd=room, stdin=subprocess.DEVNULL, stdout=out,
                                   stderr=subprocess.STDOUT)
            late = threading.Timer(self.seconds, ran.kill)
            late.start()
            _, status, used = os.wait4(ran.pid, 0)
            ran.returncode, is_late = os.waitstatus_to_exitcode(status), not late.is_alive()
            late.cancel()
            out.seek(0)
            lines = out.read().rstrip("\n").split("\n")
        seconds = used.ru_utime + used.ru_stime
        self.tell(f"check of {self.crate.name}, {what}: {seconds:.0f} processor seconds, "
                  f"{used.ru_maxrss // 1000} MB")
        return what_is_said(ran.returncode, is_late, lines, texts)


def _parts(group: list[Edit], said: Said) -> list[list[Edit]]:
    """Returns the groups to try in place of one whose check says nothing: the edits at fault
    each alone, where that is told, else halves.
    """
    places = [(path, int(line)) for path, line in ERROR.findall("\n".join(said.lines))
              ] if said.is_fault else []
    faulty = [
        it for it in group
        if any(path == it.path and it.function.lines[0] <= line <= it.function.lines[1]
               for path, line in places)]
    others = [it for it in group if it not in faulty]
    return [*([it] for it in faulty), others] if faulty else [group[::2], group[1::2]]


def what_is_said(status: int, is_late: bool, lines: list[str], texts: dict[str, bytes]) -> Said:
    """Returns what a check says of the edits that made these texts, from how it ended and its
    lines.
    """
    said = "\n".join(lines)
    unread = next((it for it in lines if texts and rt.unread(it, texts)), None)
    if status < 0:
        why = "the check had not ended in its time" if is_late else ("the check was killed, most "
                                                                     "likely for memory")
        return Said(None, lines, why, False)
    if unread:
        return Said(None, lines, f"the prover can't read the text: {unread[:200]}", True)
    if rtlib.STALE.search(said):
        return Said(None, lines, "the kept work of a library could not be used", False)
    if status == 0 or status == 1 and lines[-1].startswith(
            NOT_PROVED) and not NO_VERDICT.search(said):
        return Said(status, lines, None, False)
    is_fault = status == 1 and not NO_VERDICT.search(said)
    return Said(None, lines,
                f"it did not reach the prover, or got no verdict: {_first_error(lines)}", is_fault)


def refusals(lines: list[str]) -> Iterator[tuple[str, list[tuple[str, int]], str]]:
    """Yields each function of which a goal or a term of its own was refused: its name, the
    places of the goals, and what was refused.
    """
    terms, goals = collections.defaultdict(list), []
    for path, why in (it.groups() for it in map(TERM.match, lines) if it):
        if not GONE.search(why):
            terms[path.replace("/", "::")].append(why)
    for line in lines:
        goals += [(path, int(at), name) for path, at, name in GOAL.findall(line)]
        function = FUNCTION.fullmatch(line)
        if function and not function[2].startswith("proved"):
            named: Any = OPEN_GOALS.search(function[2])
            named = re.findall("`([^`]+)`", named[1]) if named else []
            own, mine = [it for it in goals if it[2] in named or not named
                         ], terms[function[1].partition("::")[2]]
            if own or mine:
                yield function[1], [it[:2] for it in own], ", ".join(it[2] for it in own) or mine[0]
        if ITEM.match(line):
            goals = []


def is_shown(path: str, function: Function, name: str, places: list[tuple[str, int]]) -> bool:
    """Returns whether what rattle names so, with open goals at these places or else a refused
    term, is this function of this file.
    """
    first, last = function.lines
    is_inside = any(file == path and first <= line <= last for file, line in places)
    return (is_inside or not places) and is_of(name, path, function)


def is_of(name: str, path: str, function: Function) -> bool:
    """Returns whether what rattle names so is this function, told by its whole path
    CRATE::MODULE::NAME or CRATE::MODULE::OWNER::NAME, or stands in it:
    CRATE::MODULE::fn::NAME::PART, as a closure does.
    """
    words, here = name.split("::")[1:], module_of(path)
    own = [function.owner, function.name] if function.owner else [function.name]
    modules = function.modules or (here, )
    # (a closure in a method is named by its type's module too, and a function there by that of its
    # file)
    inside = [[*it, "fn", *own] for it in (*modules, here)]
    return words in [[*it, *own] for it in modules] or any(
        words[:len(it)] == it and len(words) > len(it) for it in inside)


def _failure(edit: Edit, said: Said) -> str:
    if said.status is None:
        return f"{'BAD EDIT' if said.is_fault else 'NOT JUDGED'} {edit.label}: {said.why}"
    if said.status == 0:
        return f"NOT REFUSED {edit.label}: the crate is still proved with it"
    return (f"NOT REFUSED {edit.label}: no goal of {edit.function.name} stays open: "
            f"{_first_error(said.lines)}")


def _first_error(lines: list[str]) -> str:
    return " | ".join([it[:160] for it in lines if "error" in it][:2] or lines[-2:])


def _link(file: str, to: str) -> None:
    """Gives a file of kept work a second name, or copies it where that can't be: a check
    replaces such files, and writes into none.
    """
    try:
        os.link(file, to)
    except OSError:
        shutil.copyfile(file, to)

"""Makes a Debian package of the program, its units, the tools of operators with their data, and
the pages; or one of the program for benches alone.

    tools/run package [--bench] [--program PROGRAM] [--to FOLDER]
            makes FOLDER/NAME_VERSION_ARCHITECTURE.deb, and prints its path
    tools/run package [--program PROGRAM] --tree FOLDER
            puts the same files below FOLDER, `/` for one, where there is no dpkg

`uptane-desk` has PROGRAM as `/usr/bin/uptane_desk`:
`crates/uptane_desk_ed25519/out/uptane_desk_ed25519` where none is named, what the gate built and
proved for a fleet. `uptane-desk-bench` has `crates/uptane_desk/out/uptane_desk`, under HMAC, as
`/usr/bin/uptane_desk_bench`, and no unit. `MANIFEST` has the commit, whether the checkout
differed from it, what the program says of itself (`--version`), and the SHA-256 sum of each
file; `sha256sum --check` reads it, from `/`. `NAME.spdx.json` lists the crates that the program
is made of. The maintainer is the line of `examples/service/maintainer`. Made twice of one
commit, it is the same file.

Links of the packed pages lead to what is packed; the text of another is followed by `(in the
sources)`. Installing makes a user, a group of operators and folders, and enables the units,
which start nothing before the founding. An upgrade leaves the service as it runs, and says so.
Removing stops the units, and leaves data, copies, the spool and the journal. A program that was
built without a proof is refused; with --unproved it is packed, and its version, its description
and MANIFEST say so.
"""
import gzip
import hashlib
import os
import re
import shutil
import subprocess
import sys
import tempfile
import time
from pathlib import Path

from typing import Iterator

from uptane_tools import RUN, TOP, arguments
from uptane_tools.operate import bill

LIBRARY, DOCUMENTS, UNITS = Path("usr/lib/uptane_desk"), Path("usr/share/doc/uptane-desk"), Path(
    "usr/lib/systemd/system")
SERVICE = TOP / "examples" / "service"
# what belongs to whoever installs it
CONFIGURED = {
    "etc/uptane/settings": "settings", "etc/logrotate.d/uptane-desk": "uptane-desk.logrotate"}
# how a program ends that `tools/run unproved` built
LABEL = b"\nUNPROVED: "

# places, each with the file that it is a copy of and its mode
Parts = Iterator[tuple[Path, Path, int]]

CONTROL = """Package: uptane-desk
Version: %s
Architecture: %s
Maintainer: %s
Depends: libc6, python3 (>= 3.10), curl, passwd, util-linux
Recommends: libjemalloc2, nginx | haproxy, openssl
Suggests: prometheus-node-exporter, logrotate
Section: net
Priority: optional
Installed-Size: %d
Description: %s Director and Image repository of the Uptane Standard 2.1.0
 The program, units of systemd, tools of operators and pages. The database engine
 is the program's own, and reads and writes SQLite's format.
"""
BENCH = """Package: uptane-desk-bench
Version: %s
Architecture: %s
Maintainer: %s
Depends: libc6
Section: net
Priority: optional
Installed-Size: %d
Description: %s repositories of the Uptane Standard 2.1.0, for benches and tests
 The program under HMAC-SHA-256: whoever can check a signature of it can make
 one, so it is for no fleet.
"""
# a script is run outside of the folder that it is for where dpkg is told so: then it does nothing
INSTALLED = """#!/bin/sh
set -e
if [ "$1" = configure ] && [ -z "$DPKG_ROOT" ]; then sh /usr/lib/uptane_desk/setup.sh; fi
if [ "$1" = configure ] && [ "$2" ] && [ -z "$DPKG_ROOT" ] && [ -d /run/systemd/system ]; then
    # the timers' scripts are the new ones; the service goes on until it is told
    for unit in $(systemctl list-units --plain --no-legend --state=active \
'uptane-desk.service' 'uptane-desk@*.service' | cut -d' ' -f1); do
        echo "$unit still runs the program of $2: systemctl restart $unit \
starts this one, and copies the file first if its schema is older"
    done
fi
if [ "$1" = configure ] && [ -z "$DPKG_ROOT" ] && ! ls /var/lib/uptane/desk*.db \
> /dev/null 2>&1; then
    echo "nothing is founded yet: read Founding in /usr/share/doc/uptane-desk/docs/use/OPERATING.md"
fi
"""
BEFORE = """#!/bin/sh
set -e
if [ "$1" = remove ] && [ -z "$DPKG_ROOT" ] && [ -d /run/systemd/system ]; then
    systemctl stop uptane-desk-refresh.timer uptane-desk-backup.timer uptane-desk-watch.timer \
uptane-desk-now.path
    systemctl stop uptane-desk.service 'uptane-desk@*.service'
fi
if [ "$1" = remove ] && [ -z "$DPKG_ROOT" ]; then
    systemctl disable uptane-desk.service uptane-desk-refresh.timer uptane-desk-backup.timer \
uptane-desk-watch.timer uptane-desk-now.path
fi
"""
REMOVED = """#!/bin/sh
set -e
if [ -z "$DPKG_ROOT" ] && [ -d /run/systemd/system ]; then systemctl daemon-reload; fi
if [ "$1" = purge ]; then
    if [ -z "$DPKG_ROOT" ]; then rm -rf /etc/uptane/founded; fi
    echo "what vehicles and operators made is left: /var/lib/uptane /var/backups/uptane \
/var/spool/uptane /var/log/uptane"
fi
"""


def git(*words: str) -> str:
    ran = subprocess.run(["git", "-C", str(TOP), *words], capture_output=True, text=True,
                         check=False)
    return ran.stdout.strip() if ran.returncode == 0 else ""


def is_unproved(program: Path) -> bool:
    return LABEL in program.read_bytes()[-200:]


def parts(program: Path) -> Parts:
    """Each file of the package, by its place, with the file that it is a copy of and its mode."""
    yield Path("usr/bin/uptane_desk"), program, 0o755
    for path in sorted(SERVICE.iterdir()):
        if path.suffix == ".sh":
            yield LIBRARY / path.name, path, 0o755
        elif path.suffix in (".service", ".timer", ".path"):
            yield UNITS / path.name, path, 0o644
    for path in sorted((SERVICE / "several").glob("*.service")):
        yield UNITS / path.name, path, 0o644
    tools = TOP / "tools" / "uptane_tools"
    for path in sorted([Path(RUN), *tools.glob("*.py"), *(tools / "operate").iterdir()]):
        if path.suffix in ("", ".py", ".js", ".css") and path.name not in ("package.py",
                                                                           "__pycache__"):
            yield LIBRARY / path.relative_to(TOP), path, 0o755 if str(path) == RUN else 0o644
    examples = [it for it in (TOP / "examples").rglob("*") if it.is_file() and it.suffix != ".pyc"]
    for path in sorted([
            *(TOP / "docs").rglob("*.md"), *examples,
            *(TOP / it for it in ("README.md", "SECURITY.md", "CHANGELOG.md", "LICENSE"))]):
        yield LIBRARY / path.relative_to(TOP), path, 0o755 if os.access(path, os.X_OK) else 0o644
    for name in ("README.md", "nginx.conf", "haproxy.cfg", "several/nginx.conf",
                 "several/haproxy.cfg", "alerts/uptane.yml"):
        yield DOCUMENTS / "examples" / name, SERVICE / name, 0o644
    for name in ("LICENSE", "README.md", "SECURITY.md", "CHANGELOG.md"):
        yield DOCUMENTS / name, TOP / name, 0o644
    for place, name in CONFIGURED.items():
        yield Path(place), SERVICE / name, 0o644


def of_bench(program: Path) -> Parts:
    """The same of the program for benches."""
    yield Path("usr/bin/uptane_desk_bench"), program, 0o755
    for name in ("LICENSE", "CHANGELOG.md"):
        yield Path("usr/share/doc/uptane-desk-bench") / name, TOP / name, 0o644


def linked(page: str, given: Path, place: Path, there: set[Path]) -> str:
    """A page whose links lead to what is packed. One to anything else is its text alone."""

    def link(found: re.Match[str]) -> str:
        text, target, anchor = found.groups()
        at = Path(os.path.normpath(given.parent / target))
        to = LIBRARY / at.relative_to(TOP) if at.is_relative_to(TOP) else None
        if to in there:
            return "[%s](%s%s)" % (text, os.path.relpath(to, place.parent), anchor)
        return "%s (in the sources)" % text

    return re.sub(r"!?\[([^][]*)\]\(([\w./-]+)((?:#[\w-]*)?)\)", link, page)


def copied(given: Path, to: Path, mode: int) -> None:
    to.parent.mkdir(parents=True, exist_ok=True)
    shutil.copyfile(given, to)
    to.chmod(mode)


def said(program: Path) -> str:
    """What the program says of itself; nothing where it doesn't know the word."""
    ran = subprocess.run([program.resolve(), "--version"], capture_output=True, text=True,
                         check=False)
    return ran.stdout.strip() if ran.returncode == 0 else ""


def manifest(listed: list[tuple[Path, Path]], program: Path) -> str:
    """The commit, what the program says of itself, and the sum of each file."""
    changed = git("status", "--porcelain", "--untracked-files=no")
    words = said(program)
    if words and (("built with a proof" in words) == is_unproved(program)
                  or not words.startswith("uptane_desk %s, " % project())):
        raise OSError("%s says that it is %s, which it isn't" % (program, words))
    head = ["# " + words] if words else []
    head = [
        *head,
        "# commit %s%s" % (git("rev-parse", "HEAD")
                           or "unknown", ", and changes that are in no commit" if changed else ""),
        "# program %s%s, %s, %d bytes" %
        (program.name, ", built without a proof" if is_unproved(program) else "",
         hashlib.sha256(program.read_bytes()).hexdigest(), program.stat().st_size)]
    sums = [
        "%s  %s" % (hashlib.sha256(path.read_bytes()).hexdigest(), place) for place, path in listed]
    return "\n".join(head + sums) + "\n"


def laid(program: Path, folder: Path, bench: bool = False) -> None:
    """Puts all files below a folder. What settings there are stay."""
    listed: list[tuple[Path, Path]] = []
    name = "uptane-desk-bench" if bench else "uptane-desk"
    every = list(of_bench(program) if bench else parts(program))
    there = {place for place, _, _ in every}
    there |= {folder for it in there for folder in it.parents}
    for place, given, mode in every:
        if place.parts[0] != "etc" or not (folder / place).exists():
            copied(given, folder / place, mode)
        if place.suffix == ".md":
            (folder / place).write_text(
                linked(given.read_text(encoding="utf-8"), given, place, there), encoding="utf-8")
        if place.parts[0] != "etc":
            listed.append((place, folder / place))
    if not bench:
        # (the pages name the program for fleets so, beside the one for benches)
        for link, to in ((DOCUMENTS / "docs", "../../../lib/uptane_desk/docs"),
                         (Path("usr/bin/uptane_desk_ed25519"), "uptane_desk")):
            (folder / link).unlink(missing_ok=True)
            (folder / link).symlink_to(to)
    documents, library = Path("usr/share/doc") / name, Path("usr/lib") / name.replace("-", "_")
    crate = "uptane_desk" if bench else "uptane_desk_ed25519"
    kit = said(program).partition(", kit ")[2].partition(",")[0] or "NOASSERTION"
    bill.written(crate, program, version(program), kit, moment(),
                 folder / documents / (name + ".spdx.json"))
    with open(folder / documents / "changelog.gz", "wb") as file, gzip.GzipFile(
            "", "wb", 9, file, mtime=0) as packed:
        packed.write(changes(name, version(program)).encode("ascii"))
    listed += [
        (documents / it, folder / documents / it) for it in (name + ".spdx.json", "changelog.gz")]
    (folder / library).mkdir(parents=True, exist_ok=True)
    (folder / library / "MANIFEST").write_text(manifest(listed, program), encoding="ascii")


def project() -> str:
    return (TOP / "VERSION").read_text(encoding="ascii").strip()


def version(program: Path) -> str:
    """The project's version, with the number of the commit, so that a later one is greater; and
    whether there is no proof.
    """
    number, commit = git("rev-list", "--count", "HEAD"), git("rev-parse", "--short", "HEAD")
    return project() + ("+%s.%s" % (number, commit)
                        if commit else "") + ("~unproved" if is_unproved(program) else "")


def moment() -> int:
    """The moment of the commit, which all files get."""
    return int(os.environ.get("SOURCE_DATE_EPOCH") or git("log", "-1", "--format=%ct") or 0)


def maintainer() -> str:
    return (SERVICE / "maintainer").read_text(encoding="utf-8").strip()


def changes(name: str, number: str) -> str:
    """Debian's list of changes, which points to the project's own."""
    date = time.strftime("%a, %d %b %Y %H:%M:%S +0000", time.gmtime(moment()))
    return "%s (%s) unstable; urgency=medium\n\n  * See CHANGELOG.md.\n\n -- %s  %s\n" % (
        name, number, maintainer(), date)


def packed(program: Path, to: Path, bench: bool = False) -> Path:
    with tempfile.TemporaryDirectory() as own:
        folder = Path(own) / "files"
        laid(program, folder, bench)
        for path in [folder, *folder.rglob("*")]:
            if path.is_dir():
                path.chmod(0o755)
        size = sum(path.stat().st_size for path in folder.rglob("*") if path.is_file()) >> 10
        control = folder / "DEBIAN"
        control.mkdir(mode=0o755)
        machine = subprocess.run(["dpkg", "--print-architecture"], capture_output=True, text=True,
                                 check=True).stdout.strip()
        proof = "UNPROVED" if is_unproved(program) else "proved"
        told = (BENCH if bench else CONTROL) % (version(program), machine, maintainer(), size,
                                                proof)
        (control / "control").write_text(told, encoding="ascii")
        if not bench:
            (control / "conffiles").write_text("".join("/%s\n" % it for it in CONFIGURED),
                                               encoding="ascii")
            for name, text in (("postinst", INSTALLED), ("prerm", BEFORE), ("postrm", REMOVED)):
                (control / name).write_text(text, encoding="ascii")
                (control / name).chmod(0o755)
        for path in [*folder.rglob("*"), folder]:
            os.utime(path, (moment(), moment()), follow_symlinks=False)
        made = to / ("uptane-desk%s_%s_%s.deb" %
                     ("-bench" if bench else "", version(program), machine))
        words = ["dpkg-deb", "--root-owner-group", "-Zgzip", "--build", str(folder), str(made)]
        subprocess.run(words, check=True, stdout=subprocess.DEVNULL,
                       env=os.environ | {"SOURCE_DATE_EPOCH": str(moment())})
    return made


def main(words: arguments.Words = None) -> int:
    """Makes the package, or lays its files."""
    parser = arguments.parser(__doc__)
    parser.add_argument("--bench", action="store_true")
    parser.add_argument("--program", type=Path, default=None)
    parser.add_argument("--to", type=Path, default=Path("."))
    parser.add_argument("--tree", type=Path)
    parser.add_argument("--unproved", action="store_true")
    given = parser.parse_args(words)
    os.umask(0o022)
    crate = "uptane_desk" if given.bench else "uptane_desk_ed25519"
    program = given.program or TOP / "crates" / crate / "out" / crate
    try:
        if is_unproved(program) and not given.unproved:
            raise OSError("%s was built without a proof" % program)
        if given.tree:
            laid(program, given.tree, given.bench)
        else:
            print(packed(program, given.to, given.bench))
    except (OSError, subprocess.CalledProcessError) as wrong:
        print("package: %s" % wrong, file=sys.stderr)
        return 1
    return 0

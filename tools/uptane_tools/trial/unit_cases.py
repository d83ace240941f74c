"""Tries the units of `examples/service` under a systemd that runs, set up by the commands of its
page.

    tools/run unit_cases PROGRAM [PART ..]

systemd starts in a container: its files are this machine's, what it writes is in memory and gone
at the end, and it has a network of its own. That needs root, overlayfs, systemd and
systemd-nspawn (Debian's `systemd-container`), iproute2 and curl. Where one of them is missing
nothing is tried, and it says which, as where the container doesn't come up. Takes a few minutes.
With SCHEME=ed25519 the program is uptane_desk_ed25519. PART is one of ends, hardened, refreshed,
dropped, copied, killed, broken, lost, restored, upgraded, queued, several, removed, in this order;
all where none is named.
"""
import contextlib
import http.client
import json
import os
import re
import shutil
import signal
import subprocess
import sys
import time
from collections.abc import Callable, Iterator
from concurrent.futures import ThreadPoolExecutor
from pathlib import Path
from typing import Any

from uptane_tools import arguments
from uptane_tools.operate import package
from uptane_tools.trial import http_cases, proxy_cases, schemas, trials

GIVEN = trials.TOP / "examples" / "service"
UNIT, REFRESH = "uptane-desk.service", "uptane-desk-refresh.service"
TIMER, BACKUP = "uptane-desk-refresh.timer", "uptane-desk-backup.service"
WATCH = "uptane-desk-watch.service"
FOLDER, PORT, PATIENCE = Path("/var/lib/uptane"), 8080, 240
FILE, SOCKET = FOLDER / "desk.db", FOLDER / "desk.socket"
AS_OWNER, RUN = ["runuser", "-u", "uptane", "--"], ["/usr/bin/uptane_desk", "run"]
PATH = "/usr/local/sbin:/usr/local/bin:/usr/sbin:/usr/bin:/sbin:/bin"

# ---- the container


class NoContainerError(OSError):
    pass


def missing() -> list[str]:
    """What the container needs and isn't there."""
    found = [] if os.getuid() == 0 else ["root"]
    found += [
        word for word in ("systemd-nspawn", "nsenter", "useradd", "runuser", "ip", "curl", "dpkg")
        if not shutil.which(word)]
    found += [] if Path("/lib/systemd/systemd").exists() else ["systemd"]
    found += [] if "\toverlay\n" in Path("/proc/filesystems").read_text("ascii") else ["overlayfs"]
    return found + ([] if control_groups() else ["control groups of the second version"])


def control_groups() -> list[str]:
    """Where they are mounted."""
    return [
        line.split()[1] for line in Path("/proc/mounts").read_text("ascii").splitlines()
        if line.split()[2] == "cgroup2"]


@contextlib.contextmanager
def mounted(own: Path) -> Iterator[Path]:
    """This machine's files, with what is written to them in memory. No service but systemd's own
    starts with them.
    """
    subprocess.run(["mount", "-t", "tmpfs", "-o", "mode=755,size=1g", "unit_cases",
                    str(own)], check=True)
    try:
        upper, work, root = made = [own / name for name in ("upper", "work", "root")]
        for name in made:
            name.mkdir()
        options = "lowerdir=/,upperdir=%s,workdir=%s" % (upper, work)
        subprocess.run(["mount", "-t", "overlay", "-o", options, "unit_cases",
                        str(root)], check=True)
        for link in root.glob("etc/systemd/system/*.wants/*"):
            link.unlink()
        (root / "etc" / "machine-id").unlink(missing_ok=True)
        (root / "etc" / "machine-id").write_text(os.urandom(16).hex() + "\n", "ascii")
        yield root
    finally:
        subprocess.run(["umount", "-R", str(own)], check=True)


@contextlib.contextmanager
def own_group() -> Iterator[Path]:
    """A control group of its own, so that two containers don't meet in one."""
    group = Path(control_groups()[0]) / ("unit_cases_%d" % os.getpid())
    group.mkdir()
    try:
        yield group
    finally:
        for name, _, _ in os.walk(group, topdown=False):
            os.rmdir(name)


@contextlib.contextmanager
def booted(root: Any, group: Any, folders: Any) -> Iterator[Any]:
    """The words that enter a container of these files in which systemd has come up."""
    words = ["sh", "-c", 'echo $$ > "$0" && exec "$@"', str(group / "cgroup.procs")]
    words += [
        "systemd-nspawn", "--quiet", "--boot", "--register=no", "--keep-unit", "--private-network",
        "--directory",
        str(root)]
    words += [
        "--machine=unit-cases-%d" % os.getpid(), "--system-call-filter=bpf",
        "--capability=CAP_BPF,CAP_PERFMON"]
    words += ["--bind-ro=%s" % name for name in folders]
    told = os.environ | {"SYSTEMD_NSPAWN_UNIFIED_HIERARCHY": "1"}
    with open(root.parent / "said", "wb") as said:
        running = subprocess.Popen(words, stdin=subprocess.DEVNULL, stdout=said, stderr=said,
                                   env=told, start_new_session=True)
    try:
        yield entered(running)
    finally:
        running.terminate()
        running.wait(PATIENCE)


def entered(running: subprocess.Popen[bytes]) -> list[str]:
    scheme = ["SCHEME=" + os.environ["SCHEME"]] if "SCHEME" in os.environ else []
    children = Path("/proc/%d/task/%d/children" % (running.pid, running.pid))
    for _ in range(PATIENCE):
        time.sleep(1)
        for child in children.read_text("ascii").split():
            words = [
                "nsenter", "-t", child, "-m", "-u", "-i", "-n", "-p", "-C", "env", "-i",
                "PATH=" + PATH, *scheme, "setsid", "--wait"]
            if subprocess.run([*words, "systemctl", "is-system-running"], capture_output=True,
                              check=False).stdout == b"running\n":
                return words
    raise NoContainerError("systemd didn't come up")


# ---- inside


def ran(*words: Any, limit: int = PATIENCE, **more: Any) -> subprocess.CompletedProcess[Any]:
    return subprocess.run(words, capture_output=True, check=False, timeout=limit, **more)


def well(*words: Any, **more: Any) -> Any:
    return ran(*words, **more).returncode == 0


def shown(name: str, unit: Any = UNIT) -> Any:
    """A property of the unit."""
    return ran("systemctl", "show", "-p", name, "--value", unit, text=True).stdout.strip()


def said(line: Any) -> bool:
    """Whether the service wrote this."""
    return line in ran("journalctl", "-q", "-o", "cat", "-u", UNIT).stdout


def changed(lines: Any, unit: Any = UNIT) -> Any:
    """Whether the unit could be given these lines in the place of its own, or its own again
    where there are none.
    """
    path = Path("/run/systemd/system/%s.d/changed.conf" % unit)
    path.parent.mkdir(parents=True, exist_ok=True)
    path.write_text(lines, "ascii")
    return well("systemctl", "daemon-reload")


def until(test: Any) -> bool:
    """Whether a test holds within the time that is given to it."""
    end = time.monotonic() + PATIENCE
    while not test():
        if time.monotonic() > end:
            return False
        time.sleep(0.2)
    return True


def asked(target: str, body: bytes | None = None, port: int = PORT) -> bytes | None:
    """The body of an answer, once the service gives one."""
    for _ in range(PATIENCE):
        with contextlib.suppress(OSError, http.client.HTTPException):
            with contextlib.closing(http.client.HTTPConnection("127.0.0.1", port,
                                                               timeout=PATIENCE)) as client:
                client.request("POST" if body else "GET", target, body)
                return client.getresponse().read()
        time.sleep(1)
    return None


def delivered(body: bytes) -> Any:
    return asked("/director/manifest", body)


def version() -> Any:
    """The Image repository's version."""
    return json.loads(asked("/image/timestamp.json"))["signed"]["version"]


def page() -> list[Any]:
    """The blocks of commands of the page: to install, to found, and for several desks."""
    return re.findall(r"(?m)((?:^    .*\n)+)", (GIVEN / "README.md").read_text("ascii"))


def carried_out(block: Any, folder: Path) -> tuple[Any, Any]:
    """What the commands print, and whether they go well, one after another."""
    done = ran("sh", "-eu", limit=4 * PATIENCE, cwd=folder, input=block.encode("ascii"))
    print(done.stderr.decode("utf-8", "replace") if done.returncode else "", end="")
    return done.stdout.decode("ascii"), done.returncode == 0


def installing(program: str | Path) -> Any:
    """The page's commands, for a program of which there may be no proof yet."""
    text = page()[0].replace("apt install ./", "dpkg --force-depends --install ./")
    return text.replace("tools/run package", "tools/run package --unproved") if package.is_unproved(
        Path(program)) else text


def set_up(program: str | Path, own: Path) -> trials.Cases:
    """The page's commands, given where it says: the package is made and installed, and the
    service starts behind the founding.
    """
    for name in ("docs", "examples", "tools"):
        shutil.copytree(trials.TOP / name, own / name)
    for name in ("README.md", "LICENSE", "SECURITY.md", "CHANGELOG.md", "VERSION", "crates.txt"):
        shutil.copy(trials.TOP / name, own / name)
    built = own / "crates" / "uptane_desk_ed25519" / "out" / "uptane_desk_ed25519"
    built.parent.mkdir(parents=True)
    shutil.copy(program, built)
    (own / "founding.script").write_text("\n".join(http_cases.FIRST_PATH) + "\n", "ascii")
    said, is_well = carried_out(installing(program), own)
    yield "the package is made and installed, and says what comes next", is_well and (
        "nothing is founded yet: read Founding in /usr/share/doc/") in said
    states = [ran("systemctl", "start", unit).returncode for unit in (UNIT, REFRESH, BACKUP)] + [
        shown("ActiveState", unit) for unit in (UNIT, REFRESH, BACKUP)]
    yield "before the founding nothing starts, and nothing fails", states == [0, 0, 0
                                                                              ] + 3 * ["inactive"]
    said = carried_out(page()[1], own)
    timers = [
        "uptane-desk-%s" % it for it in ("refresh.timer", "backup.timer", "watch.timer", "now.path")
    ]
    yield "what watches and copies runs from the first", [
        shown("ActiveState", unit) for unit in timers] == 4 * ["active"]
    yield "the founding, and the service starts", said == (
        "done\ndone\nreply V1 version 1 targets 0\n", True)
    yield "that there is a file is kept elsewhere", Path("/etc/uptane/founded/desk.db").exists()
    yield "the service serves", delivered(
        http_cases.MANIFEST) == http_cases.REPLY and shown("ActiveState") == "active"
    yield "it starts with the machine", [
        shown("UnitFileState", unit) for unit in (UNIT, TIMER, "uptane-desk-backup.timer")
    ] == 3 * ["enabled"]
    yield "what the units name is there", all(
        Path(name[7:]).exists() for name in shown("Documentation").split())
    yield "behind the clock", "time-sync.target" in shown("After").split()
    modes = [path.stat().st_mode & 0o777 for path in (FOLDER, FILE)]
    yield "the file and its folder are their owner's alone", modes == [0o700, 0o600] and {
        FOLDER.owner(), FILE.owner()} == {"uptane"}
    yield "so is the operators' socket", SOCKET.is_socket() and (SOCKET.stat().st_mode & 0o777,
                                                                 SOCKET.owner()) == (0o600,
                                                                                     "uptane")
    hook = Path("/etc/uptane/failed")
    hook.write_text('#!/bin/sh\necho "$1" >> /run/failed\ncat > /run/said\n', "ascii")
    hook.chmod(0o755)
    maps = Path("/proc/%s/maps" % shown("MainPID")).read_text("utf-8")
    if Path("/usr/lib/x86_64-linux-gnu/libjemalloc.so.2").exists():
        yield "with jemalloc, where it is installed", "libjemalloc" in maps
    else:
        print("libjemalloc2 isn't installed")


# ---- how the program ends


def replies() -> tuple[list[tuple[bytes, bytes]], Callable[[Callable[[], object]], bool]]:
    """Manifests with their replies, and what tells whether they come back when the program has
    ended so.
    """
    kept = [(http_cases.MANIFEST, http_cases.REPLY)]

    def comes_back(end: Callable[[], object]) -> bool:
        body = http_cases.next_manifest(len(kept) + 1)
        kept.append((body, delivered(body)))
        before = shown("MainPID")
        return bool(end()) and until(lambda: shown("MainPID") not in
                                     ("0", before)) and delivered(body) == kept[-1][1]

    return kept, comes_back


def served_so(count: int) -> str:
    """The unit's lines for another COUNT."""
    return "[Service]\nExecStart=\nExecStart=%s serve %s %d %s\n" % (RUN[0], FILE, PORT, count)


def by_script(path: str | Path, *lines: Any) -> Any:
    """What an operator's script prints, given as the page says, while the service doesn't run."""
    return ran(*AS_OWNER, *RUN, str(path),
               input="".join(line + "\n" for line in lines).encode("ascii")).stdout.decode("ascii")


def ends() -> trials.Cases:
    """However the program ends, the service comes back with what it had."""
    kept, comes_back = replies()
    yield "a restart", comes_back(lambda: well("systemctl", "restart", UNIT))
    for name in ("KILL", "SEGV", "TERM"):
        yield "the program ends by SIG" + name, comes_back(lambda: well(
            "systemctl", "kill", "--signal=" + name, UNIT))
    begun = changed(served_so(3)) and well("systemctl", "restart", UNIT)
    yield "the last of the connections", begun and comes_back(lambda: [
        asked("/image/root.json"), asked("/image/root.json")])
    at_once = []
    for _ in range(12):
        well("systemctl", "restart", UNIT)
        with contextlib.suppress(OSError), contextlib.closing(
                http.client.HTTPConnection("127.0.0.1", PORT, timeout=PATIENCE)) as client:
            client.request("GET", "/image/root.json")
            at_once.append(client.getresponse().status)
    yield "where a start is told as done, it listens", at_once == 12 * [200]
    well("systemctl", "reset-failed", UNIT)
    wrong = changed(served_so(0)) and ran("systemctl", "restart",
                                          UNIT) and until(lambda: shown("ActiveState") == "failed")
    # (those before, behind the last of the connections, may be among them)
    tries = shown("NRestarts")
    time.sleep(4)
    yield "wrong words aren't tried again", wrong and (shown("ExecMainStatus"), shown("NRestarts"),
                                                       shown("ActiveState")) == ("2", tries,
                                                                                 "failed")
    yield "where it failed, that is told", failed_so(UNIT)
    yield "its own words again", changed("") and well("systemctl", "restart", UNIT) and delivered(
        kept[-1][0]) == kept[-1][1]
    yield "a stop", well("systemctl", "stop",
                         UNIT) and shown("ActiveState") == "inactive" and trials.faults(FILE) == []
    show = '{"at":1767225600,"do":"show","vehicle":"V1"}'
    yield "a script meanwhile", by_script(
        FILE, show) == "vehicle V1 version %d P1=factory.bin\n" % len(kept)
    with subprocess.Popen([*AS_OWNER, *RUN, str(FILE)], stdin=subprocess.PIPE,
                          stdout=subprocess.PIPE, text=True, bufsize=1) as other:
        print(show, file=other.stdin)
        waits = other.stdout.readline() and ran("systemctl", "start",
                                                UNIT) and until(lambda: int(shown("NRestarts")) > 1)
        other.stdin.close()
    yield "its log says that another program has it", said(trials.UNOPENED["locked"])
    yield "it waits for a program that has the file", waits and all(
        delivered(body) == reply for body, reply in kept)


# ---- files, and what the program may do

PROBE = """
import ctypes, mmap, os, socket
def write(path):
    open(path, "w").close()
def call(*words):
    child = os.fork()
    if child == 0:
        os._exit(ctypes.CDLL(None).syscall(*words) < 0)
    assert os.waitpid(child, 0)[1] == 0
def send(address):
    socket.socket(socket.AF_INET, socket.SOCK_DGRAM).sendto(b"x", (address, 9))
every = mmap.PROT_READ | mmap.PROT_WRITE | mmap.PROT_EXEC
tried = {"writes in " + name: lambda name=name: write(name + "/probe")
         for name in ["/var/lib/uptane", *OTHERS]}
tried |= {"a socket of " + name:
          lambda name=name: socket.socket(getattr(socket, name), socket.SOCK_DGRAM)
          for name in ("AF_INET", "AF_INET6", "AF_UNIX", "AF_NETLINK")}
tried |= {"sends to " + name: lambda name=name: send(name) for name in ("127.0.0.1", "192.0.2.1")}
tried |= {"sees " + name: lambda name=name: os.stat(name)
          for name in ["/proc/1/status", "/proc/sys", *SEEN]}
tried |= {"memory to write and to execute": lambda: mmap.mmap(-1, 4096, prot=every),
          "a file that runs as its owner": lambda: os.chmod("/var/lib/uptane/probe", 0o4700),
          "another priority": lambda: call(141, 0, 0, 19),
          "an owner of a file": lambda: call(92, b"/var/lib/uptane/probe", -1, -1),
          "another personality": lambda: call(135, 8),
          "another user": lambda: call(105, os.getuid()),
          "a core of its memory": lambda: call(160, 4, (ctypes.c_long * 2)(1, 1))}
with open("/var/lib/uptane/told", "w") as out:
    for name, made in tried.items():
        try:
            made()
            print("may:", name, file=out)
        except (OSError, AssertionError):
            print("may not:", name, file=out)
"""
OTHERS = [
    "%s/other" % name for name in ("/etc", "/usr/local", "/var/lib", "/var/log", "/srv", "/run",
                                   "/tmp", "/dev/shm", "/home")]
OTHERS += ["/run/lock", "/dev/mqueue"]
SEEN = [name for name in OTHERS if name.startswith(("/tmp", "/home"))]
MAY = [
    "writes in /var/lib/uptane", "a socket of AF_INET", "a socket of AF_UNIX", "sends to 127.0.0.1"]


def told_of(word: str, path: Any) -> list[Any]:
    """What the probe may do, or may not."""
    return re.findall("(?m)^%s: (.*)$" % word, path.read_text("ascii"))


def hardened() -> trials.Cases:
    """A program in the place of the service's may do what the service does, and nothing of what
    the same user may otherwise.
    """
    for name in map(Path, OTHERS):
        name.mkdir(exist_ok=True)
        name.chmod(0o1777)
    script = Path("/usr/local/lib/probe.py")
    script.write_text(
        PROBE.replace("*OTHERS", "*%r" % OTHERS).replace("*SEEN", "*%r" % SEEN), "ascii")
    words, told = ["/usr/bin/python3", str(script)], FOLDER / "told"
    made = well("ip", "address", "add", "192.0.2.1/32", "dev", "lo") and well(*AS_OWNER, *words)
    yield "without the unit its user may do all of it", made and told_of("may not", told) == []
    told.unlink()
    lines = "[Service]\nType=oneshot\nRestart=no\nExecStart=\nExecStart=%s\n" % " ".join(words)
    made = well("systemctl", "stop", UNIT) and changed(lines) and well("systemctl", "start", UNIT)
    yield "in the unit it may do what the service needs", made and told_of("may", told) == MAY
    yield "what it makes is its owner's alone", (told.stat().st_mode & 0o777,
                                                 FOLDER.stat().st_mode & 0o777) == (0o600, 0o700)
    yield "the service again", changed("") and well("systemctl", "start",
                                                    UNIT) and asked("/image/root.json") is not None


# ---- new files of the Image repository


def refreshed() -> trials.Cases:
    """The refreshing script gives new files and leaves the service running; the timer starts it
    at its time, and after a missed one.
    """
    before, process = version(), shown("MainPID")
    yield "a refresh, while it serves", well(
        "systemctl", "start", REFRESH) and version() == before + 1 and shown("MainPID") == process
    begun = well("systemctl", "stop", UNIT) and well("systemctl", "start", "--no-block", UNIT,
                                                     REFRESH)
    # (while one goes on, a start of it makes no other)
    yield "a refresh right after a start", begun and until(lambda: version() == before + 2) and (
        until(lambda: shown("ActiveState", REFRESH) == "inactive"))
    fewer, before = changed("[Unit]\nStartLimitBurst=2\n"), version()
    yield "as many as operators need, one behind another", fewer and all(
        well("systemctl", "start", REFRESH)
        for _ in range(7)) and version() == before + 7 and changed("")
    yield "however quickly", shown("StartLimitIntervalUSec", REFRESH) == "0"
    before = version()
    yield "after one that fails the service runs", not well("env", "FOLDER=/nowhere",
                                                            "/usr/lib/uptane_desk/apply.sh",
                                                            "--refresh") and version() == before
    stamp, now = Path("/var/lib/systemd/timers/stamp-" + TIMER), time.time()
    missed = well("systemctl", "stop", TIMER) and stamp.exists() and changed(
        "[Timer]\nRandomizedDelaySec=0\n", TIMER)
    os.utime(stamp, (now - 2 * 86400, now - 2 * 86400))
    yield "the timer's time was missed", missed and well(
        "systemctl", "start", TIMER) and until(lambda: version() == before + 1)
    soon = changed("[Timer]\nRandomizedDelaySec=0\nOnCalendar=\nOnCalendar=*:*:0/20\n", TIMER)
    yield "the timer's time has come", soon and well(
        "systemctl", "restart", TIMER) and until(lambda: version() > before + 1)
    yield "its own times again", changed("", TIMER) and well("systemctl", "restart", TIMER)


# ---- scripts, copies, and requests while the service starts anew


def dropped() -> trials.Cases:
    """An operator drops a script, and the next refresh gives it; who it was stands in the journal.
    """
    made = well("useradd", "alice") and well("usermod", "-a", "-G", "uptane-operators", "alice")
    line = '{"at":%d,"do":"show","vehicle":"V1"}' % time.time()
    drop = ("cd /var/spool/uptane && echo '%s' > show.new && mv show.new show.script && ! ls . 2> "
            "/dev/null") % line
    made = made and well("runuser", "-u", "alice", "--", "sh", "-c", "umask 077; " +
                         drop) and not well("runuser", "-u", "nobody", "--", "sh", "-c", drop)
    before = version()
    yield "a script is given with the refresh", made and well("systemctl", "start",
                                                              REFRESH) and version() == before + 1
    told = well("runuser", "-u", "alice", "--", "grep", "-q", "^vehicle V1 ",
                "/var/spool/uptane/answers/show.answers")
    yield "its operator finds the answers", told and not well("runuser", "-u", "alice", "--", "cat",
                                                              "/var/log/uptane/journal")
    last = [
        json.loads(it) for it in Path("/var/log/uptane/journal").read_text("ascii").splitlines()
    ][-2]
    yield "the journal has it", (last["who"], last["script"],
                                 last["asked"]["do"]) == ("alice", "show.script", "show")
    answers, before = Path("/var/spool/uptane/answers/show.answers"), shown("MainPID")
    answers.unlink()
    asks = "umask 077; " + drop + "; touch now"
    yield "she has it given at once, by herself", well("runuser", "-u", "alice", "--", "sh", "-c",
                                                       asks) and until(answers.exists)
    yield "which stops nothing", until(lambda: not Path("/var/spool/uptane/now").exists(
    )) and shown("MainPID") == before
    told = Path("/var/spool/uptane/answers/show.refused")
    yield "one that others can read isn't given", well(
        "runuser", "-u", "alice", "--", "sh", "-c", drop + "; touch now") and until(
            told.exists) and failed_so("uptane-desk-now.service")


def failed_so(unit: Any) -> Any:
    """Whether that this unit failed is told."""
    told = Path("/run/failed")
    found = until(lambda: told.exists() and unit in told.read_text("ascii").split())
    told.unlink(missing_ok=True)
    return found


def killed() -> trials.Cases:
    """apply.sh is killed while it gives a script: the service knows nothing of it, and that is
    told.
    """
    slow, settings = Path("/usr/local/lib/slow"), Path("/etc/uptane/settings")
    slow.mkdir()
    (slow / "run").write_text(
        "import os, sys, time\nif sys.argv[1] == 'tell':\n    open('/run/stands', 'w').close()\n"
        "    time.sleep(600)\nos.execv('/usr/lib/uptane_desk/tools/run', ['run', *sys.argv[1:]])\n",
        "ascii")
    before, process = settings.read_text("ascii"), shown("MainPID")
    settings.write_text(before + "TOOLS=%s\n" % slow, "ascii")
    Path("/run/stands").unlink(missing_ok=True)
    begun = well("systemctl", "start", "--no-block",
                 REFRESH) and until(lambda: Path("/run/stands").exists())
    yield "a refresh stands, and the service serves", begun and version() > 0
    ended = well("systemctl", "kill", "--signal=KILL", REFRESH)
    settings.write_text(before, "ascii")
    yield "it is killed, which is told, and it serves on", ended and failed_so(REFRESH) and shown(
        "MainPID") == process
    yield "the next one goes on", well("systemctl", "start", REFRESH) and version() > 0


# ---- what alarms


def broken() -> trials.Cases:
    """A service that can't open its file gives up, and that is told; so are a Timestamp near its
    end, and a copy that is old.
    """
    # (the watch is started here by hand)
    well("systemctl", "stop", "uptane-desk-watch.timer")
    shutil.rmtree("/run/uptane-watch", ignore_errors=True)
    Path("/run/failed").unlink(missing_ok=True)
    shutil.chown(FILE, "root", "root")
    FILE.chmod(0o600)
    limits = [shown(name) for name in ("StartLimitBurst", "StartLimitIntervalUSec")]
    # (fewer tries, which take long where the machine has other work)
    fewer = changed("[Unit]\nStartLimitBurst=4\n")
    well("systemctl", "restart", "--no-block", UNIT)
    yield "a file of another owner: it gives up", until(lambda: shown(
        "ActiveState") == "failed") and fewer and limits == ["30", "1h"]
    yield "its log says why", said(trials.UNOPENED["path"])
    yield "and that is told", failed_so(UNIT)
    with open("/etc/uptane/settings", "a", encoding="ascii") as settings:
        settings.write("LATE=1\nWATCHED=/run/watch.prom\n")
    well("systemctl", "start", WATCH)
    time.sleep(2)
    yield "the watch tells that it is down", not well("systemctl", "start", WATCH) and failed_so(
        WATCH) and 'uptane_desk_up{desk="desk"} 0\n' in Path("/run/watch.prom").read_text("ascii")
    yield "once", well("systemctl", "start", WATCH) and not Path("/run/failed").exists()
    shutil.chown(FILE, "uptane", "uptane")
    again = changed("") and well("systemctl", "reset-failed", UNIT) and well(
        "systemctl", "start", UNIT) and asked("/image/root.json") is not None
    yield "with its owner it starts again", again
    now = int(time.time())
    line = '{"at":%d,"do":"refresh","version":%d}' % (now - 80000, version() + 1)
    given = well("systemctl", "stop", UNIT) and by_script(FILE, line) == "done\n" and well(
        "systemctl", "start", UNIT)
    for path in Path("/var/backups/uptane").glob("desk-*.db"):
        os.utime(path, (now - 86400, now - 86400))
    yield "a Timestamp near its end, and an old copy", given and not well(
        "systemctl", "start", WATCH) and failed_so(WATCH)
    well("systemctl", "start", BACKUP, REFRESH)
    time.sleep(1)
    well("systemctl", "start", BACKUP)
    yield "all is well again", well(
        "systemctl", "start", WATCH) and 'uptane_desk_up{desk="desk"} 1\n' in Path(
            "/run/watch.prom").read_text("ascii") and not Path("/run/failed").exists()


# ---- a restore, and a newer program


def lost() -> trials.Cases:
    """The file is removed while it is served: that is told within the next look, and what the
    program has is copied. Once it has ended, each start fails, which is told too.
    """
    well("systemctl", "stop", "uptane-desk-watch.timer")
    shutil.rmtree("/run/uptane-watch", ignore_errors=True)
    Path("/run/failed").unlink(missing_ok=True)
    FILE.unlink()
    trials.log_of(FILE).unlink(missing_ok=True)
    kept = delivered(http_cases.next_manifest(2))
    words = "desk: its file is gone, and the program still has it: don't stop it"
    yield "a file that is gone is told, with why", not well(
        "systemctl", "start",
        WATCH) and failed_so(WATCH) and until(lambda: words in Path("/run/said").read_text("utf-8"))
    before = shown("MainPID")
    yield "no refresh stops what has it", not well(
        "systemctl", "start", REFRESH) and shown("MainPID") == before and failed_so(REFRESH)
    yield "what the program has is copied", well("systemctl", "start", BACKUP)
    backup = sorted(Path("/var/backups/uptane").glob("desk-*Z.db"))[-1]
    fewer = changed("[Unit]\nStartLimitBurst=4\n")
    well("systemctl", "kill", "--signal=KILL", UNIT)
    yield "once it has ended the service fails, and that is told", fewer and until(lambda: shown(
        "ActiveState") == "failed") and failed_so(UNIT) and not FILE.exists()
    yield "its log says why", said(b"/var/lib/uptane/desk.db is gone: restore a copy")
    yield "so does a backup", not well("systemctl", "start", BACKUP) and failed_so(BACKUP)
    done = ran("/usr/lib/uptane_desk/tools/run", "restore", str(backup))
    print(done.stdout.decode("utf-8") + done.stderr.decode("utf-8"), end="")
    yield "restored, with what came last", changed("") and done.returncode == 0 and delivered(
        http_cases.next_manifest(2)) == kept
    for path in FOLDER.glob("before-*"):
        shutil.rmtree(path)


def restored() -> trials.Cases:
    """The file is lost; the tool that the page names brings the newest copy back, and the
    service runs over it.
    """
    kept = delivered(http_cases.MANIFEST)
    yield "a copy", well("systemctl", "start", BACKUP)
    backup = sorted(Path("/var/backups/uptane").glob("desk-*Z.db"))[-1]
    well("systemctl", "stop", UNIT)
    FILE.write_bytes(b"lost")
    trials.log_of(FILE).unlink(missing_ok=True)
    well("systemctl", "start", "--no-block", UNIT)
    yield "the file is lost, and the service fails", until(lambda: int(shown("NRestarts")) > 2)
    yield "its log says that it is damaged", said(trials.UNOPENED["damaged"])
    done = ran("/usr/lib/uptane_desk/tools/run", "restore", str(backup))
    print(done.stdout.decode("utf-8") + done.stderr.decode("utf-8"), end="")
    # (a start answers before the unit tells that it is done)
    yield "it is restored, and served", done.returncode == 0 and delivered(
        http_cases.MANIFEST) == kept and until(lambda: shown("ActiveState") == "active")
    modes = [path.stat().st_mode & 0o777 for path in (FOLDER, FILE)]
    yield "with its owner and mode", modes == [0o700, 0o600] and FILE.owner() == "uptane"
    aside = list(FOLDER.glob("before-*"))
    yield "what was there is kept", len(aside) == 1 and (aside[0] /
                                                         "desk.db").read_bytes() == b"lost"
    yield "and it starts with the machine as before", well(
        "systemctl", "restart", UNIT) and delivered(http_cases.MANIFEST) == kept


def upgraded(program: str | Path, own: Path) -> trials.Cases:
    """An upgrade leaves the service as it runs, and says so. A start that raises an older schema
    copies the file before.
    """
    before = shown("MainPID")
    said, well_done = carried_out(installing(program), own)
    yield "an upgrade says that the older program still runs", well_done and UNIT + (
        " still runs "
        "the program "
        "of") in said and shown("MainPID") == before
    older = own / "older.db"
    well("systemctl", "stop", UNIT)
    rows = schemas.rows(FILE)
    schemas.lowered(FILE, older, 2)
    shutil.copyfile(older, FILE)
    trials.log_of(FILE).unlink(missing_ok=True)
    raised = ran("systemctl", "start", UNIT, text=True)
    print(raised.stderr if raised.returncode ==
          0 else ran("journalctl", "-n", "30", text=True).stdout)
    yield "an older schema is raised at the start", raised.returncode == 0 and asked(
        "/image/root.json") is not None
    copies = list(Path("/var/backups/uptane").glob("desk-*-schema2.db"))
    yield "and copied before", len(copies) == 1 and copies[0].read_bytes() == older.read_bytes(
    ) and copies[0].stat().st_mode & 0o777 == 0o600
    well("systemctl", "stop", UNIT)
    yield "with all rows", rows == schemas.rows(FILE) and well("systemctl", "start", UNIT)


def copied() -> trials.Cases:
    before = shown("MainPID")
    delivered(http_cases.MANIFEST.replace(b'"V1"', b'"V7"'))
    yield "a refused manifest is in its log, by vehicle", said(
        b"uptane_desk: vehicle V7: refused 10 UnknownVehicle\n")
    settings, made = Path("/etc/uptane/settings"), Path("/run/uptane.prom")
    own = settings.read_text("ascii")
    settings.write_text(own + "METRICS=%s\n" % made, "ascii")

    def copies() -> list[Path]:
        return sorted(Path("/var/backups/uptane").glob("desk-*Z.db"))

    yield "a copy while it serves", well("systemctl", "start", BACKUP) and len(
        copies()) == 1 and shown("MainPID") == before
    settings.write_text(own, "ascii")
    yield "metrics count what its log has", (
        'uptane_desk_refusals_logged{desk="desk",refusal="UnknownVehicle"} 1\n'
    ) in made.read_text("ascii")
    drilled = ran("/usr/lib/uptane_desk/tools/run", "restore_drill", RUN[0], str(copies()[0]))
    yield "a restore of it, tried", drilled.returncode == 0 and b"\nserves: " in drilled.stdout


def queued(own: Path) -> trials.Cases:
    """A hundred requests through HAProxy while the unit is started anew: none is refused."""
    if not shutil.which("haproxy"):
        print("haproxy isn't installed, so no request waits")
        return
    proxy = proxy_cases.Proxy(own, "haproxy", http_cases.free_port(), PORT, False)
    with proxy.running(), ThreadPoolExecutor(10) as pool:
        sent = [
            pool.submit(proxy_cases.asked, proxy, "POST", "/director/manifest", http_cases.MANIFEST)
            for _ in range(100)]
        until(lambda: any(it.done() for it in sent))
        again = well("systemctl", "restart", UNIT)
        yield "a hundred requests over a restart, none is refused", again and [
            it.result() for it in sent] == 100 * [[(200, http_cases.REPLY)]]


# ---- several desks, and the end


def several(own: Path) -> trials.Cases:
    """Four desks by the page's commands, and a refresh of each."""
    folder, desks = "/var/lib/uptane-division", range(1, 5)

    def divide(*words: Any) -> Any:
        return ran(sys.executable, str(own / "tools" / "run"), "divide_script", folder, *words,
                   input=(own / "founding.script").read_bytes())

    told = [divide("--desks", "4")]
    for desk in desks:
        answers = by_script(FOLDER / ("desk%d.db" % desk),
                            *Path(folder, "desk%d.script" % desk).read_text("ascii").splitlines())
        Path(folder, "desk%d.answers" % desk).write_text(answers, "ascii")
    told.append(divide("--join"))
    yield "four are founded", [it.returncode for it in told] == [
        0, 0] and told[1].stdout == b"done\ndone\nreply V1 version 1 targets 0\n"
    served = carried_out(page()[2], own)[1]
    yield "four serve", served and len({
        asked("/director/root.json", None, 8080 + desk) for desk in desks}) == 1 and asked(
            "/director/manifest", http_cases.MANIFEST, 8081) == http_cases.REPLY
    begun = [
        int(shown("ActiveEnterTimestampMonotonic", "uptane-desk@%d.service" % desk))
        for desk in desks]
    again = well("systemctl", "stop", "uptane-desk@*.service") and well(
        "systemctl", "start", *("uptane-desk@%d.service" % desk for desk in desks))
    starts = [[
        int(shown(name, "uptane-desk@%d.service" % desk))
        for name in ("ExecMainStartTimestampMonotonic", "ActiveEnterTimestampMonotonic")]
              for desk in desks]
    yield "they start one after another", begun and again and all(
        starts[at][1] <= starts[at + 1][0] for at in range(3))

    def versions() -> list[Any]:
        return [
            json.loads(asked("/image/timestamp.json", None, 8080 + desk))["signed"]["version"]
            for desk in desks]

    before = versions()
    yield "four are refreshed", well("systemctl", "start", REFRESH) and versions() == [
        it + 1 for it in before]


def removed() -> trials.Cases:
    """The package goes, and leaves the data."""
    there = sorted(str(it) for it in FOLDER.iterdir() if it.suffix == ".db")
    gone = well("dpkg", "--remove", "uptane-desk") and not Path(RUN[0]).exists()
    yield "removed, it leaves the data", gone and shown("ActiveState") == "inactive" and sorted(
        str(it) for it in FOLDER.iterdir() if it.suffix == ".db") == there and len(there) == 5


def cases(program: str | Path, names: Any) -> trials.Cases:
    with trials.folder() as own:
        own.chmod(0o755)
        yield from set_up(program, own)
        parts = {
            "ends": ends, "hardened": hardened, "refreshed": refreshed, "dropped": dropped,
            "copied": copied, "killed": killed, "broken": broken, "lost": lost,
            "restored": restored, "upgraded": lambda: upgraded(program, own),
            "queued": lambda: queued(own), "several": lambda: several(own), "removed": removed}
        for name, part in parts.items():
            if not names or name in names:
                yield from part()


def main(words: arguments.Words = None) -> int:
    """Boots a container, and tries the units in it."""
    asking = arguments.parser(__doc__)
    asking.add_argument("program")
    asking.add_argument("part", nargs="*")
    asking.add_argument("--inside", action="store_true")
    asked = asking.parse_args(words)
    if asked.inside:
        return trials.judged("units", cases(asked.program, asked.part))
    lacks = missing()
    if lacks:
        print("there is no %s, so no unit is started" % ", no ".join(lacks))
        return trials.judged("units", [])
    # where it is told to end, the container ends first
    signal.signal(signal.SIGTERM, lambda *_: sys.exit(1))
    program = Path(asked.program).resolve()
    folders = {trials.TOP, program.parent}
    with trials.folder() as own, mounted(own) as root, own_group() as group:
        with contextlib.suppress(NoContainerError), booted(root, group, folders) as begun:
            tool = [sys.executable, str(trials.RUN), "unit_cases", str(program), *asked.part]
            return subprocess.run([*begun, *tool, "--inside"], check=False).returncode
    print("systemd didn't come up in a container, so no unit is started")
    return trials.judged("units", [])

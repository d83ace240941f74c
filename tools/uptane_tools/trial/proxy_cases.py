"""Tries the configurations of `examples/service`: the program behind each proxy that is
installed, and the units.

    tools/run proxy_cases PROGRAM [EACH]

EACH (40) clients that send nothing, as many that send half a head, half a body or a byte a second,
and as many that read nothing, stay at the proxy while vehicles' requests are sent through it. One
of 64 vehicles sends without end, under its own name and under others; each limit is tried alone. Of
the configurations addresses, paths and the user are changed, for the second and third of these
limits the figure before them, and the lines for vehicles' certificates are taken in. Each client
comes from an address of its own. What isn't installed (nginx, haproxy, systemd-analyze; openssl,
without which the proxies are tried without TLS) is left out, and told. Takes a minute.
"""
import contextlib
import http.client
import itertools
import json
import os
import re
import resource
import shutil
import socket
import ssl
import subprocess
import tempfile
import threading
import time
from collections import Counter
from collections.abc import Callable, Iterable, Iterator
from concurrent.futures import ThreadPoolExecutor
from pathlib import Path
from typing import Any

from uptane_tools import arguments
from uptane_tools.measure import fleet
from uptane_tools.oracle import reference
from uptane_tools.trial import http_cases, trials

GIVEN = trials.TOP / "examples" / "service"
MANIFEST, REPLY = (
    (trials.MESSAGES / name).read_bytes().strip() for name in ("manifest.json", "reply.json"))
VEHICLES = ("VIN-1", "VIN-2", "VIN-3")
EACH, AT_ONCE, ROUNDS, PATIENCE, SLOWEST, HUNDRED = 40, 300, 20, 60, 10, 100
# the vehicles of the fleet in which one floods, and the longest body that is taken
FLEET, LONGEST = 64, 65_536


def address(number: int) -> str:
    """One of the addresses of this host from which clients come."""
    return "127.%d.%d.%d" % (1 + number // 62_500, 1 + number // 250 % 250, 1 + number % 250)


# (a generator can't be asked by two threads at once)
ADDRESSES = map(address, itertools.count())

Changes = Iterable[tuple[str, str]]


class Proxy:
    """A proxy at a port, before a service at another one. `more` are further changes of its
    configuration: a text that it has, and the one in its place.
    """

    def __init__(self, own: Path, name: str, port: int, service: int, secret: bool,
                 more: Changes = ()) -> None:
        self.own, self.name, self.port, self.service, self.secret = own, name, port, service, secret
        self.more = more
        # (nobody need listen there)
        self.logged = 9

    def words(self) -> list[str]:
        text = self.changed(
            (GIVEN / ("nginx.conf" if self.name == "nginx" else "haproxy.cfg")).read_text("ascii"))
        path = self.own / (self.name + ".conf")
        path.write_text(text, "ascii")
        return ["nginx", "-p", str(self.own), "-c", str(path)] if self.name == "nginx" else [
            "haproxy", "-db", "-f", str(path)]

    def changed(self, text: str) -> str:
        """The configuration with other addresses, paths and user."""
        own, there = str(self.own), "127.0.0.1:%d" % self.port
        for old, new in self.more:
            assert old in text, old
            text = text.replace(old, new)
        text = text.replace("127.0.0.1:8080", "127.0.0.1:%d" % self.service)
        if self.name == "haproxy":
            text = text.replace("log /dev/log local0", "log 127.0.0.1:%d local0" % self.logged)
            bound = there + (" ssl crt %s/both.pem" % own if self.secret else "")
            text = text.replace(":443 ssl crt /etc/uptane/both.pem", bound)
            return text.replace("/etc/uptane/", own + "/")
        text = text.replace("listen 443 ssl",
                            "listen %s%s" % (there, " ssl" if self.secret else ""))
        text = text.replace("/etc/uptane/", own +
                            "/") if self.secret else re.sub(r"(?m)^ *ssl_.*\n", "", text)
        text = text.replace("/var/log/nginx/", own + "/").replace("/run/nginx.pid",
                                                                  own + "/nginx.pid")
        text = text.replace("user www-data;", "user root;" if os.getuid() == 0 else "")
        kept = "".join("    %s_temp_path %s/%s;\n" % (it, own, it)
                       for it in ("client_body", "proxy", "fastcgi", "uwsgi", "scgi"))
        return "daemon off;\n" + text.replace("http {\n", "http {\n" + kept, 1)

    @contextlib.contextmanager
    def running(self) -> Iterator[subprocess.Popen[bytes]]:
        """The proxy, once it takes connections."""
        with open(self.own / (self.name + ".out"), "wb") as out:
            it = subprocess.Popen(self.words(), stdout=out, stderr=out)
        try:
            for _ in range(100):
                with contextlib.suppress(OSError), socket.create_connection(
                    ("127.0.0.1", self.port), timeout=1):
                    break
                time.sleep(0.1)
            yield it
        finally:
            it.terminate()
            it.wait()

    def connected(self, source: str | None = None, shown: str | None = None) -> Any:
        """A connection from this address, or from one that no other came from, which shows the
        certificate of a vehicle.
        """
        plain = socket.create_connection(("127.0.0.1", self.port), timeout=PATIENCE,
                                         source_address=(source or next(ADDRESSES), 0))
        if not self.secret:
            return plain
        trusting = ssl.create_default_context(cafile=str(self.own / "certificate.pem"))
        if shown:
            trusting.load_cert_chain(self.own / (shown + ".pem"))
        return trusting.wrap_socket(plain, server_hostname="desk.example")

    def client(self, *words: Any) -> http.client.HTTPConnection:
        """Python's client, over a connection of this kind."""
        client = http.client.HTTPConnection("desk.example", timeout=PATIENCE)
        client.sock = self.connected(*words)
        return client


def certified(own: Path) -> bool:
    """Makes a certificate of the name that the configurations have; whether it could."""
    if not shutil.which("openssl"):
        return False
    words = [
        "openssl", "req", "-x509", "-newkey", "rsa:2048", "-nodes", "-days", "2", "-subj",
        "/CN=desk.example"]
    words += [
        "-addext", "subjectAltName=DNS:desk.example", "-keyout",
        str(own / "key.pem"), "-out",
        str(own / "certificate.pem")]
    subprocess.run(words, check=True, capture_output=True)
    (own / "vehicles.pem").write_bytes((own / "certificate.pem").read_bytes())
    (own / "both.pem").write_bytes((own / "certificate.pem").read_bytes() +
                                   (own / "key.pem").read_bytes())
    return True


def asked(proxy: Proxy, method: Any, target: str, body: Any = None, times: int = 1,
          come: tuple[Any, ...] = (), **more: Any) -> list[tuple[int, bytes]]:
    """The answers to a request, so many times over one connection of the client's, which comes
    from an address and with a certificate where these are given.
    """
    with contextlib.closing(proxy.client(*come)) as client:
        told = []
        for _ in range(times):
            client.request(method, target, body, **more)
            came = client.getresponse()
            told.append((came.status, came.read()))
        return told


def timed(*words: Any, **more: Any) -> tuple[list[tuple[int, bytes]], float]:
    begun = time.monotonic()
    return asked(*words, **more), time.monotonic() - begun


# what vehicles and others ask, and how it is answered
def exchanges(root: bytes) -> list[Any]:
    large = b'{"error":4,"text":"TooLarge"}'
    return [("POST", "/director/manifest", MANIFEST, (200, REPLY)),
            ("GET", "/image/root.json?a=%20", None, (200, root)),
            ("POST", "/director/manifest", b"{", (400, b'{"error":5,"text":"NotJson"}')),
            ("GET", "/nothing", None, (404, b'{"error":0,"text":"not found"}')),
            ("POST", "/director/manifest", LONGEST * b" ", (400, b'{"error":5,"text":"NotJson"}')),
            ("POST", "/director/manifest", (LONGEST + 1) * b" ", (413, large))]


# ---- clients that stay

HEAD = b"POST /director/manifest HTTP/1.1\r\nHost: desk.example\r\nContent-Length: %d\r\n" % len(
    MANIFEST)
TARGETS = b"GET /image/targets.json HTTP/1.1\r\nHost: desk.example\r\n\r\n"
BEGUN = [b"", HEAD[:20], HEAD + b"\r\n" + MANIFEST[:100], 50 * TARGETS]


class Strangers:
    """Clients that send nothing, half a head, half a body, a byte a second, or that read nothing
    of fifty answers.
    """

    def __init__(self, proxy: Proxy, each: int) -> None:
        self.proxy, self.left, self.all = proxy, threading.Event(), list[Any]()
        self.each = each

    def __enter__(self) -> "Strangers":
        with ThreadPoolExecutor(16) as pool:
            self.all = list(pool.map(self.come, (self.each * BEGUN) + self.each * [None]))
        self.dripping = threading.Thread(target=self.drip)
        self.dripping.start()
        return self

    def come(self, begun: bytes | None) -> tuple[bool, ssl.SSLSocket]:
        client = self.proxy.connected()
        if begun:
            client.sendall(begun)
        return begun is None, client

    def drip(self) -> None:
        for at in range(len(HEAD)):
            for drips, client in self.all:
                with contextlib.suppress(OSError):
                    if drips:
                        client.sendall(HEAD[at:at + 1])
            if self.left.wait(1):
                return

    def __exit__(self, *_: Any) -> None:
        self.left.set()
        self.dripping.join()
        for _, client in self.all:
            client.close()


def passes(proxy: Proxy, root: bytes, each: int) -> trials.Cases:
    """Each case with whether requests pass the proxy as they should."""
    name = proxy.name
    yield name + ": each kind of request", all(
        asked(proxy, *words) == [wanted] for *words, wanted in exchanges(root))
    kept = asked(proxy, "GET", "/image/root.json", times=5)
    yield name + ": a client keeps its connection", kept == 5 * [(200, root)]
    chunks = asked(proxy, "POST", "/director/manifest", iter([MANIFEST[:100], MANIFEST[100:]]),
                   encode_chunked=True, headers={"Transfer-Encoding": "chunked"})
    unchunked = {"nginx": (200, REPLY), "haproxy": (501, b'{"error":0,"text":"not implemented"}')}
    yield name + ": a body in chunks", chunks == [unchunked[name]]
    with Strangers(proxy, each) as strangers, ThreadPoolExecutor(8) as pool:
        time.sleep(1)
        told: list[Any] = list(
            pool.map(lambda words: (timed(proxy, *words[:-1]), words[-1]),
                     ROUNDS * exchanges(root)))
        well = all(came == [wanted] and after < SLOWEST for (came, after), wanted in told)
        words = name, len(told), len(strangers.all), max(after for (_, after), _ in told)
        print("%s: %d requests beside %d strangers, the slowest took %.2f seconds" % words,
              flush=True)
        yield name + ": requests beside clients that hold their connections", well
    with ThreadPoolExecutor(AT_ONCE) as pool:
        told = list(
            pool.map(lambda _: timed(proxy, "POST", "/director/manifest", MANIFEST),
                     range(AT_ONCE)))
        print(
            "%s: %d at once, the slowest took %.2f seconds" %
            (name, AT_ONCE, max(after for _, after in told)), flush=True)
        yield name + ": many at once", all(came == [(200, REPLY)] for came, _ in told)


TARGET = "/%s/director/manifest"


def limited(proxy: Proxy) -> trials.Cases:
    """A vehicle whose address begins with its identifier: its requests are limited, and it
    stands in the log.
    """
    name, target = proxy.name, TARGET
    yield name + ": an address of a vehicle", asked(proxy, "POST", target % "VIN-1",
                                                    MANIFEST) == [(200, REPLY)]
    with ThreadPoolExecutor(8) as pool:
        told = [
            it for its in pool.map(lambda _: asked(proxy, "POST", target % "VIN-2", MANIFEST),
                                   range(150)) for it in its]
    answered = sum(it == (200, REPLY) for it in told)
    yield name + ": one that asks without end is told so", 20 <= answered <= 100 and {
        status for status, _ in told} == {200, 429}
    yield name + ": others are answered as before", asked(
        proxy, "POST", target % "VIN-3", MANIFEST) == asked(proxy, "POST", "/director/manifest",
                                                            MANIFEST) == [(200, REPLY)]


def listed(proxy: Proxy, log: Callable[[], str] | None) -> trials.Cases:
    """The log has the vehicles, with the status of their answers."""
    ends, lines, found = time.monotonic() + 5, "", dict.fromkeys(VEHICLES, set[str]())
    # (a proxy may write a line only behind the answer)
    while not all(found.values()) and time.monotonic() < ends:
        time.sleep(0.1)
        lines = (proxy.own / "access.log").read_text("ascii") if log is None else lines + log()
        found = {it: set(re.findall(r"vehicle=%s .*status=(\d+)" % it, lines)) for it in VEHICLES}
    yield proxy.name + ": the log has each vehicle", found == {
        "VIN-1": {"200"}, "VIN-2": {"200", "429"}, "VIN-3": {"200"}} or print(found)


@contextlib.contextmanager
def logging(proxy: Proxy) -> Iterator[Any]:
    """What gives all lines that HAProxy sent."""
    with socket.socket(socket.AF_INET, socket.SOCK_DGRAM) as one:
        one.setsockopt(socket.SOL_SOCKET, socket.SO_RCVBUF, 1 << 22)
        one.bind(("127.0.0.1", 0))
        one.settimeout(2)
        proxy.logged = one.getsockname()[1]

        def lines() -> str:
            made = []
            with contextlib.suppress(TimeoutError):
                while True:
                    made.append(one.recv(65536).decode("ascii", "replace"))
            return "\n".join(made)

        yield lines if proxy.name == "haproxy" else None


# ---- a vehicle that floods


def keys_of(name: str) -> dict[str, Any]:
    return {"ecu": name + "-e0", "key": fleet.digest(name)}


def sent_by(name: str, counter: int, longest: bool = False) -> bytes:
    """A new manifest of a vehicle, as its Primary makes it, or as long as one may be."""
    told = keys_of(name) | fleet.FACTORY | {"counter": counter, "time": fleet.START}
    signed = {
        "counter": counter, "primary": name + "-e0", "type": "manifest", "vehicle": name,
        "reports": [json.loads(fleet.report_text(told))], "unknown": ""}

    def made() -> bytes:
        return reference.sealed([bytes.fromhex(fleet.digest(name))],
                                reference.canonical(signed)).encode("ascii")

    if longest:
        signed["unknown"] = (LONGEST - len(made())) * "u"
    return made()


def pushed(proxy: Proxy, name: str, body: bytes, *come: Any) -> int:
    """The status of the answer to a manifest; 429 too where the proxy ends the connection while
    the client still sends.
    """
    with contextlib.suppress(OSError, http.client.HTTPException):
        return asked(proxy, "POST", TARGET % name, body, come=come)[0][0]
    return 429


@contextlib.contextmanager
def before_a_fleet(program: Path, own: Path, name: str, secret: bool,
                   more: Changes = ()) -> Iterator[tuple[Proxy, Path]]:
    """A proxy before a service of 64 vehicles, and its file."""
    path = own / (name + " fleet")
    path.unlink(missing_ok=True)
    names = ["VIN-%d" % it for it in range(FLEET)]
    vehicles = [
        fleet.line("add_vehicle", vehicle=it, primary=it + "-e0", ecus=[
            keys_of(it) | {"hardware": "HP"}]) for it in names]
    trials.printed(program, path, [fleet.line("found", **fleet.key_set(1)), *vehicles])
    with http_cases.served(program, path, 100_000) as service:
        proxy = Proxy(own, name, http_cases.free_port(), service.port, secret, more)
        with proxy.running():
            yield proxy, path


def folded(program: Path, path: Path) -> int:
    """The bytes of a file into which its log was copied."""
    trials.printed(program, path, [])
    return path.stat().st_size


def a_round(proxy: Proxy, name: str) -> set[int]:
    """The statuses of an honest round: a manifest, and five files."""
    sent = asked(proxy, "POST", TARGET % name, sent_by(name, 1))
    files = [
        "director/root.json",
        *("image/%s.json" % it for it in ("root", "timestamp", "snapshot", "targets"))]
    return {
        status for it in (sent, *(asked(proxy, "GET", "/%s/%s" % (name, file)) for file in files))
        for status, _ in it}


def flooded(program: Path, own: Path, name: str, secret: bool, bodies: list[bytes]) -> trials.Cases:
    """One of 64 sends the longest manifests without end, while the others go their rounds."""
    with before_a_fleet(
            program, own, name,
            secret) as (proxy, _), ThreadPoolExecutor(16) as pool, ThreadPoolExecutor(1) as one:
        flood = [one.submit(pushed, proxy, "VIN-0", it) for it in bodies]
        honest = [pool.submit(a_round, proxy, "VIN-%d" % it) for it in range(1, FLEET)]
        yield name + ": honest vehicles beside one that floods", all(
            it.result() == {200} for it in honest)
        told = Counter(it.result() for it in flood)
        yield name + ": the flood is told so", told.keys() == {200, 429} and told[200] < 100
        longer = asked(proxy, "POST", TARGET % "VIN-9", iter(2 * [40_000 * b" "]),
                       encode_chunked=True, headers={"Transfer-Encoding": "chunked"})
        chunked = {"nginx": 413, "haproxy": 501}[name]
        yield name + ": in chunks no longer one is taken", longer[0][0] == chunked


def alone(program: Path, own: Path, name: str, secret: bool, bodies: list[bytes]) -> trials.Cases:
    """Each of the further limits by itself, with the ones before it out of its way."""
    many, most, few = {
        "nginx": (("rate=30r/m", "rate=6000r/s"), 67, ("burst=600", "burst=60")),
        "haproxy": (("gt 60 }", "gt 6000000 }"), 120, ("gt 4200", "gt 60"))}[name]
    with before_a_fleet(program, own, name, secret, [many]) as (proxy, path):
        before = path.stat().st_size
        told = Counter(pushed(proxy, "VIN-0", it) for it in bodies)
        yield name + ": manifests of one vehicle", told.keys() == {
            200, 429} and most <= told[200] <= most + 5
    each, hourly = (folded(program, path) - before) / told[200], told[200] + {
        "nginx": 60, "haproxy": 0}[name]
    words = name, told[200], len(bodies), hourly, hourly * each
    print("%s: %d of %d manifests at once, so %d in an hour: %.0f bytes" % words, flush=True)
    yield name + ": what is kept in an hour", 1 < each / LONGEST < 1.1 and hourly * each < 9e6
    with before_a_fleet(program, own, name, secret, [few]) as (proxy, _):
        source = next(ADDRESSES)
        told = Counter(pushed(proxy, "other-%d" % it, b"{", source) for it in range(100))
        yield name + ": manifests under other names from one address", told.keys() == {
            400, 429} and 60 <= told[400] <= 70
        yield name + ": another address is answered as before", pushed(proxy, "other", b"{") == 400


def shown(program: Path, own: Path, name: str) -> trials.Cases:
    """Vehicles that show certificates: none is taken for another."""
    taken_in: Changes = [("#ssl_", "ssl_"), ("#if", "if")]
    if name == "haproxy":
        plain = "    bind :443 ssl crt /etc/uptane/both.pem\n"
        taken_in = [(plain + "    #", "    "), ("#http-request", "http-request")]
    named(own, "VIN-11")
    come = None, "VIN-11"
    with before_a_fleet(program, own, name, True, taken_in) as (proxy, path):
        yield name + ": a vehicle with its certificate", pushed(proxy, "VIN-11", sent_by(
            "VIN-11", 1), *come) == 200
        yield name + ": at another's address", pushed(proxy, "VIN-12", sent_by("VIN-12", 1),
                                                      *come) == 403
        yield name + ": at none", asked(proxy, "POST", "/director/manifest", sent_by("VIN-12", 1),
                                        come=come)[0][0] == 403
        yield name + ": without one", pushed(proxy, "VIN-12", sent_by("VIN-12", 1)) in (400, 429)
    yield name + ": nothing of these is kept", trials.printed(
        program, path, [fleet.line("show", vehicle="VIN-12")]) == [
            "vehicle VIN-12 version 0 VIN-12-e0=-"]


def named(own: Path, vehicle: str) -> None:
    """Makes a vehicle's certificate and key, by the authority that signs for all."""
    key, asks, made = (own / (vehicle + it) for it in (".key", ".csr", ".crt"))
    for words in (("req", "-new", "-newkey", "ec", "-pkeyopt", "ec_paramgen_curve:P-256", "-nodes",
                   "-subj", "/CN=" + vehicle, "-keyout", key, "-out", asks),
                  ("x509", "-req", "-in", asks, "-CA", own / "certificate.pem", "-CAkey",
                   own / "key.pem", "-CAcreateserial", "-days", "2", "-out", made)):
        subprocess.run(["openssl", *map(str, words)], check=True, capture_output=True)
    (own / (vehicle + ".pem")).write_bytes(made.read_bytes() + key.read_bytes())


def proxied(program: Path, own: Path, name: str, secret: bool, each: int) -> trials.Cases:
    """The cases of one proxy, before a service of its own that is started again in the end."""
    path = trials.copied(own / "first", own / (name + ".db"))
    root = http_cases.root_text()
    with contextlib.ExitStack() as up:
        service = up.enter_context(http_cases.served(program, path, 100_000))
        proxy = Proxy(own, name, http_cases.free_port(), service.port, secret)
        log = up.enter_context(logging(proxy))
        up.enter_context(proxy.running())
        yield from limited(proxy)
        yield from listed(proxy, log)
        yield from passes(proxy, root, each)
        words = [str(program), "serve", str(path), str(service.port), "100000"]
        with up.enter_context(ThreadPoolExecutor(10)) as pool:
            service.kill()
            service.wait()
            if name == "nginx":
                (status, _), = asked(proxy, "GET", "/image/root.json")
                yield name + ": no service is the proxy's own answer", status == 502
            waits = [
                pool.submit(asked, proxy, "GET", "/image/root.json")
                for _ in range(10 if name == "haproxy" else 0)]
            time.sleep(1)
            again = begun(up, words)
            yield name + ": a service that is started again", asked(
                proxy, "GET", "/image/root.json") == [(200, root)]
            yield from over_a_restart(proxy, pool, again, words, up, waits,
                                      root) if name == "haproxy" else ()


def begun(up: Any, words: Any) -> Any:
    """The service, once it listens; it ends with the rest."""
    running = up.enter_context(subprocess.Popen(words, stdout=subprocess.PIPE))
    up.callback(running.kill)
    running.stdout.readline()
    return running


def over_a_restart(proxy: Proxy, pool: Any, running: http_cases.Served, words: Any, up: Any,
                   waits: Any, root: bytes) -> trials.Cases:
    """While the service starts anew, requests wait in HAProxy's queue: none is refused."""
    yield "haproxy: ten that came before it was there", all(
        it.result() == [(200, root)] for it in waits)
    sent = [
        pool.submit(asked, proxy, "POST", "/director/manifest", MANIFEST) for _ in range(HUNDRED)]
    while not any(it.done() for it in sent):
        time.sleep(0.001)
    running.kill()
    running.wait()
    time.sleep(1.5)
    begun(up, words)
    before = sum(it.done() for it in sent)
    well = [it.result() for it in sent] == HUNDRED * [[(200, REPLY)]]
    print("haproxy: %d of %d were answered before the service was there again" % (before, HUNDRED))
    yield "haproxy: a hundred requests over a restart, none is refused", well and before < HUNDRED


# ---- units


def units(program: str | Path, own: Path) -> trials.Cases:
    """What systemd says of the units, with the program and the scripts in their places."""
    given = sorted(it for it in [*GIVEN.glob("uptane-desk*"), *GIVEN.glob("several/uptane-desk*")]
                   if it.suffix in (".service", ".timer", ".path"))
    names = []
    for path in given:
        text = path.read_text("ascii").replace("/usr/bin/uptane_desk", str(Path(program).resolve()))
        names.append(own / path.name.replace("@.", "@1."))
        names[-1].write_text(text.replace("/usr/lib/uptane_desk/", str(GIVEN) + "/"), "ascii")
    ran = subprocess.run(["systemd-analyze", "verify", "--man=no", *map(str, names)],
                         capture_output=True, text=True, check=False, timeout=60)
    own_lines = [line for line in ran.stderr.splitlines() if "uptane-desk" in line]
    print("".join(line + "\n" for line in own_lines), end="")
    yield "systemd verifies the units", len(names) == 11 and ran.returncode == 0 and not own_lines


def shells() -> trials.Cases:
    scripts = sorted(GIVEN.glob("*.sh"))
    yield "a shell reads the scripts", len(scripts) == 6 and all(
        subprocess.run(["sh", "-n", str(it)], check=False).returncode == 0 for it in scripts)
    if shutil.which("shellcheck"):
        ran = subprocess.run(["shellcheck", "-s", "sh", *map(str, scripts)], capture_output=True,
                             check=False)
        print(ran.stdout.decode("utf-8"), end="")
        yield "shellcheck finds nothing in them", ran.returncode == 0


def cases(program: Path, each: int = EACH) -> trials.Cases:
    soft, hard = resource.getrlimit(resource.RLIMIT_NOFILE)
    resource.setrlimit(resource.RLIMIT_NOFILE, (max(soft, min(hard, 8192)), hard))
    with tempfile.TemporaryDirectory() as folder:
        own = Path(folder)
        own.chmod(0o755)
        trials.printed(program, own / "first", http_cases.FIRST_PATH)
        secret = certified(own)
        if not secret:
            print("no openssl, so no TLS")
        bodies = [sent_by("VIN-0", counter, True) for counter in range(1, 151)]
        for name in ("nginx", "haproxy"):
            if shutil.which(name):
                yield from flooded(program, own, name, secret, bodies)
                yield from alone(program, own, name, secret, bodies)
                yield from shown(program, own, name) if secret else ()
                yield from proxied(program, own, name, secret, each)
            else:
                print("%s isn't installed, so it is left out" % name)
        yield from shells()
        if shutil.which("systemd-analyze"):
            yield from units(program, own)
        else:
            print("systemd-analyze isn't installed, so no units are verified")


def main(words: arguments.Words = None) -> int:
    """Tries the program that is named."""
    return trials.tried(__doc__, words, "proxy", cases, each=EACH)

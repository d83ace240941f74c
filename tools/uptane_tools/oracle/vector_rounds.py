"""Test vectors of a vehicle's rounds: what comes back, one answer after another, and what a Primary
sends, waits, installs and trusts then. What it has to do is written by hand, from the rules of
`docs/integrate/PRIMARY.md`.
"""
from collections.abc import Iterable, Iterator
from typing import Any

from uptane_tools.operate.formats import LAST_MOMENT, MOST
from uptane_tools.oracle.vector_answers import told
from uptane_tools.oracle.vector_chains import INSTALLS, VEHICLE, Chain, members, nothing, target
from uptane_tools.oracle.vector_fleet import CONTENT, DAY, ECUS, FIRST, NOW, image_of, moment
from uptane_tools.oracle.vector_forms import numbered

LARGEST = 4_194_304
# what the vehicle knows: each of its ECUs has its secret, and reported by this counter last
KNOWN = VEHICLE | {
    "counter": 4, "ecus": [
        it | {"secret": ECUS["VIN-1"][it["ecu"]][1], "counter": 4} for it in VEHICLE["ecus"]]}
IMAGES = {name: CONTENT[name] for name in sorted({*INSTALLS.values()})}
ROOT, TARGETS = "director/2.root.json", "image/targets.json"
OF_IMAGES = {
    "image/%s" % it: 1 for it in ("2.root.json", "timestamp.json", "snapshot.json", "targets.json")}
# seconds until the next round: at least, at most
DAILY, SOON = [77760, 95040], [150, 300]
NONE: Any = None
STOP = "stop"
SAME = {"new": False}


def texts(it: Chain) -> dict[str, str]:
    """The replies and the files that cases name."""
    empty = members(targets=[])
    return {
        "nothing": it.director("targets", empty)["reply"],
        "update": it.files["reply"], "another vehicle's": it.other, "expired": it.director(
            "timestamp", members(expires=moment(NOW)))["reply"], "of root 2": it.director(
                "targets", empty, root=2)["reply"], "unknown image": it.director(
                    "targets", target(release=9))["reply"],
        "with a letter": it.director("targets", empty)["reply"][:-1] + ',"note":"\u00fc"}',
        "of version 3": numbered(it, 3)["reply"], "targets": it.files[TARGETS], "root 2": it.root(
            nothing, FIRST["director"]["root"]["keys"])[ROOT], "other targets": it.image(
                "targets", members(version=4))[TARGETS]}


def files(it: Chain) -> dict[str, str]:
    return {name: text for name, text in it.files.items() if name != "reply"}


# ---- what comes back, and what was sent

# of each case the name, what the vehicle knows otherwise, and its rounds
Rounds = Iterator[tuple[str, dict[str, Any], list[dict[str, Any]]]]


def comes(name: str, **more: int) -> dict[str, Any]:
    return {"status": 200, "text": name} | more


def refusal(status: int, number: int, words: str) -> dict[str, Any]:
    return {"status": status, "body": told(number, words)}


def body(status: int, words: str, **more: int) -> dict[str, Any]:
    return {"status": status, "body": words} | more


def new(attack: bool = False, **more: Any) -> dict[str, Any]:
    return {"new": True, "attack": attack} | more


NO_FILE = refusal(404, 29, "UnknownFile")
FOUR = 4 * [NONE]
ALL = [1, 3, 9]


def behind(failed: int) -> list[int]:
    """The seconds until the next round behind so many in a row that failed."""
    most = min(86400, 300 * 2**(failed - 1))
    return [most // 2, most]


def state(director: int, image: int, root: int = 1) -> dict[str, dict[str, int]]:
    versions = [dict.fromkeys(("timestamp", "snapshot", "targets"), it) for it in (director, image)]
    return {"director": {"root": root} | versions[0], "image": {"root": 1} | versions[1]}


def gone(answers: list[Any], sent: list[dict[str, Any]], verdict: str | None,
         wait: list[int] | None, waits: Iterable[int] = (), **more: Any) -> dict[str, Any]:
    """A round: what comes to its manifests, and what is to be seen of it."""
    return {"answers": answers, "sent": sent, "verdict": verdict, "waits": [*waits], "next": wait
            } | more


def well(*, attack: bool = False, **more: Any) -> dict[str, Any]:
    """A round in which nothing is assigned."""
    given: dict[str, Any] = {"trusts": state(1, 0)} | more
    return gone([comes("nothing")], [new(attack)], "accepted", DAILY, **given)


def without(failed: int, sent: list[dict[str, Any]] | None = None, **more: Any) -> dict[str, Any]:
    """A round in which no answer comes."""
    return gone(FOUR, sent or [new(), *3 * [SAME]], None, behind(failed), ALL, **more)


def again(**more: Any) -> dict[str, Any]:
    """A round that sends the last body again, to which nothing is assigned."""
    return gone([comes("nothing")], [SAME], "accepted", DAILY, trusts=state(1, 0), **more)


def updated(wait: list[int] | None = None, *, attack: bool = False, **more: Any) -> dict[str, Any]:
    """A round in which all ECUs install something."""
    given: dict[str, Any] = {
        "installs": INSTALLS, "trusts": state(1, 5), "fetched": {ROOT: 1} | OF_IMAGES}
    given |= more
    return gone([comes("update")], [new(attack)], "accepted", wait or SOON, **given)


def refused(reply: str = "another vehicle's", *, failed: int = 1, attack: bool = False,
            **more: Any) -> dict[str, Any]:
    return gone([comes(reply)], [new(attack)], "refused", behind(failed), **more)


# ---- the cases: a name, what the vehicle knows otherwise, and its rounds


def of_answers() -> Rounds:
    yield "nothing is assigned", {}, [well(fetched={ROOT: 1})]
    yield "an update, and what is reported then", {}, [updated(), well(trusts=state(1, 5))]
    yield "three times no answer", {}, [
        gone([*3 * [NONE], comes("nothing")], [new(), *3 * [SAME]], "accepted", DAILY, ALL)]
    yield "no answer at all: the same body in the next round", {}, [without(1), again()]
    strange = [
        body(502, "<html>502</html>"),
        refusal(503, 1, "Memory"),
        refusal(400, 0, "bad request"),
        comes("nothing")]
    yield "answers that are no verdict on the body", {}, [
        gone(strange, [new(), *3 * [SAME]], "accepted", DAILY, ALL)]
    same = 4 * [SAME]
    yield "rounds that fail wait longer, until one doesn't", {}, [
        without(1), without(2, same),
        without(3, same), again(),
        without(1)]
    yield "twenty rounds have failed: a day at most", {"failed": 19}, [without(20)]
    yield "a stop before the answer: the same body", {}, [
        gone([STOP], [new()], "stopped", None),
        again(now=NOW + 60)]
    yield "a stop behind failures: neither they nor the cut round count then", {}, [
        without(1),
        without(2, same),
        gone([STOP], [SAME], "stopped", None),
        without(1, same)]
    yield "what is installed ends a row of failures", {"failed": 3}, [updated(), without(1)]
    yield "a body of more bytes than are read", {}, [
        gone([body(200, "", bytes=LARGEST + 1)], [new()], "refused", SOON, trusts=state(0, 0)),
        well(attack=True)]
    yield "a member more, of other letters than ASCII's", {}, [
        gone([comes("with a letter")], [new()], "accepted", DAILY)]
    yield "more bytes than are read, with another status", {}, [
        gone([body(502, "", bytes=LARGEST + 1)], [new()], "refused", SOON)]
    yield "a reply of as many bytes as are read", {}, [
        gone([comes("nothing", bytes=LARGEST)], [new()], "accepted", DAILY)]


def of_counters() -> Rounds:

    def stale(number: int) -> dict[str, Any]:
        return refusal(409, 13, "Stale %d" % number)

    def replayed(ecu: str) -> dict[str, Any]:
        return refusal(409, 18, "ReportReplayed %s" % ecu)

    found = comes("nothing")
    yield "a counter that was lost", {}, [
        gone([stale(70), found], [new(), new(above=70)], "accepted", DAILY)]
    yield "13 with a number below the counter that was sent", {}, [
        gone([stale(2), found], [new(), new()], "accepted", DAILY)]
    for name, number in (("the one before the greatest", MOST - 1), ("the greatest counter", MOST)):
        yield "13 names %s: no counter is left" % name, {}, [
            gone([stale(number)], [new()], None, SOON),
            gone([found], [new(below=MOST // 2)], "accepted", DAILY, trusts=state(1, 0))]
    yield "a manifest's counter is the one before the greatest", {"counter": MOST - 1}, [
        gone([], [], None, SOON)]
    yield "a report's counter is the one before the greatest", {"counters": {"left": MOST - 1}}, [
        gone([], [], None, SOON)]
    last: dict[str, Any] = {"counters": {"left": MOST - 2}}
    yield "no counter is left, and the time alone moves: the report is repeated", last, [
        well(), well(now=NOW + 60)]
    yield "no counter is left, and the image is another", last, [
        updated(), gone([], [], None, SOON)]
    lost = {"counters": {"left": 0}}
    yield "a report's counter was lost before it is refused: 1", lost, [
        gone([replayed("left"), found],
             [new(counters={"left": 1}), new(raised="left")], "accepted", DAILY)]
    yield "a report's counter that was lost", {}, [
        gone([replayed("left"), found], [new(), new(raised="left")], "accepted", DAILY)]
    yield "no time is known: twice the counter that was refused", {}, [
        gone([replayed("left"), found], [new(), new(raised="left")], "accepted", DAILY, now=0)]
    yield "one that was above the clock", {}, [
        gone([replayed("left")] * 3 + [found], [new(), *3 * [new(raised="left")]], "accepted",
             DAILY)]
    yield "twice the counter would be too much", {"counters": {"left": MOST // 2 + 1}}, [
        gone([replayed("left")], [new()], None, SOON),
        gone([found], [new(fresh="left")], "accepted", DAILY)]
    yield "a report with the last counter is refused 18: it is never sent again", last, [
        gone([replayed("left")], [new()], None, SOON),
        gone([], [], None, behind(2))]
    raised = [new(raised="left"), new(raised="right")]
    answers = [replayed("left"), replayed("right"), stale(70)]
    sent = [*raised, new(above=70)]
    yield "seven refused manifests, and the eighth accepted", {}, [
        gone([NONE, *2 * answers, stale(99), found],
             [new(), SAME, *sent, *sent, new(above=99)], "accepted", DAILY, [1])]
    yield "eight refused manifests: the round ends, and the next has a new one", {}, [
        gone(2 * answers + [stale(99), stale(999)],
             [new(), *sent, *sent, new(above=99)], None, SOON),
        gone([found], [new(above=999)], "accepted", DAILY)]
    yield "eight refused manifests, the last by 18: its report is raised in the next round", {}, [
        gone(2 * answers + [stale(99), replayed("gw")],
             [new(), *sent, *sent, new(above=99)], None, SOON),
        gone([found], [new(raised="gw")], "accepted", DAILY)]
    yield "the eighth manifest's reply is old: none follows in the round", {}, [
        gone(2 * answers + [stale(99), comes("expired"), found],
             [new(), *sent, *sent, new(above=99)], None, SOON),
        well()]
    yield "a kept body is the first of eight that are refused", {}, [
        without(1),
        gone(2 * answers + [stale(99), stale(999)],
             [SAME, *sent, *sent, new(above=99)], None, behind(2)),
        well()]
    yield "no answer behind a counter: the same body in the next round", {}, [
        gone([stale(70), *FOUR], [new(), new(above=70), *3 * [SAME]], None, SOON, ALL),
        again()]
    yield "no try counts twice: the body is sent again, and is refused 18", {}, [
        gone([NONE, replayed("gw"), NONE, found], [new(), SAME, new(raised="gw"), SAME], "accepted",
             DAILY, [1, 1])]


def of_mending() -> Rounds:
    put: dict[str, Any] = {"replaced": {"left": "left-2"}}
    yield "an ECU was replaced before its report arrived", {}, [
        without(1),
        gone([refusal(409, 14, "UnknownEcu left")], [SAME], None, behind(2), **put),
        well()]
    yield "18 names an ECU that the vehicle hasn't any more", {}, [
        without(1),
        gone([refusal(409, 18, "ReportReplayed left"),
              comes("nothing")], [SAME, new()], "accepted", DAILY, **put)]
    yield "18 names an ECU that hasn't reported yet, and no time is known: 1", {}, [
        without(1, now=0),
        gone([refusal(409, 18, "ReportReplayed left-2"), comes("nothing")],
             [SAME, new(counters={"left-2": 1})], "accepted", DAILY, now=0, **put)]
    yield "18 names an ECU that never was the vehicle's", {}, [
        gone([refusal(409, 18, "ReportReplayed other"),
              comes("nothing")], [new(), new()], "accepted", DAILY)]
    yield "the inventory has another ECU than the vehicle", {}, [
        gone([refusal(409, 16, "MissingEcu left-2")], [new()], None, SOON),
        well(**put)]
    yield "what isn't mended is refused anew", {}, [
        gone([refusal(403, 12, "BadManifestSignature")], [new()], None, behind(it)) for it in (1, 2)
    ]
    yield "an error that nobody knows", {}, [
        gone([refusal(404, 29, "UnknownFile")], [new()], None, SOON),
        well()]


def of_verdicts() -> Rounds:
    yield "a refused reply: an attack, until a reply is accepted", {}, [
        refused(fetched={ROOT: 1}, trusts=state(0, 0)),
        well(attack=True),
        well()]
    yield "the attack is told in each manifest", {}, [
        refused(),
        gone([refusal(409, 13, "Stale 70"), *FOUR],
             [new(True), new(True, above=70), *3 * [SAME]], None, behind(2), ALL),
        again(),
        well()]
    old, found = comes("expired"), comes("nothing")
    yield "an old reply behind a refused one: the attack is told still", {}, [
        refused(),
        gone([old, found], [new(True), new(True)], "accepted", DAILY),
        well()]
    mended = refusal(403, 12, "BadManifestSignature")
    yield "a round without a verdict behind a refused reply: the attack is told still", {}, [
        refused(),
        gone([mended], [new(True)], None, behind(2)),
        well(attack=True),
        well()]
    yield "a stop behind a refused reply: the attack is told still", {}, [
        refused(),
        gone([STOP], [new(True)], "stopped", None),
        gone([refusal(409, 13, "Stale 70"), found], [SAME, new(True, above=70)], "accepted", DAILY)]
    yield "an old reply, and a new manifest at once", {}, [
        gone([old, found], [new(), new()], "accepted", DAILY, trusts=state(1, 0))]
    yield "a second old reply is refused, and an attack", {}, [
        gone([old, old], [new(), new()], "refused", SOON, trusts=state(0, 0)),
        well(attack=True)]
    yield "the second old reply comes behind another refusal", {}, [
        gone([old, refusal(409, 13, "Stale 70"), old], [new(), new(), new(above=70)], "refused",
             SOON)]
    yield "an old reply in each of two rounds", {}, [
        gone([old, found], [new(), new()], "accepted", DAILY),
        gone([old, found], [new(), new()], "accepted", DAILY)]
    yield "an old reply, and no answer to the new manifest", {}, [
        gone([old, *FOUR], [new(), new(), *3 * [SAME]], None, SOON, ALL),
        again()]
    yield "a kept reply of an older Root: the newer one is trusted", {}, [
        gone([found, comes("of root 2")], [new(), new()], "accepted", DAILY, gets={
            ROOT: [comes("root 2")]}, trusts=state(1, 0, root=2))]
    yield "a kept reply from before an ECU was replaced", {}, [
        without(1),
        gone([comes("update"), found], [SAME, new()], "accepted", DAILY, replaced={
            "left": "left-2"})]
    late = NOW + 8 * DAY
    yield "a clock that goes back: the latest time decides", {}, [
        without(1, now=late),
        gone([found, found], [SAME, new()], "refused", behind(2), trusts=state(0, 0))]
    yield "a clock past the year 9999: the last second of that year", {}, [
        gone([found], [new()], "refused", SOON, now=LAST_MOMENT + 1)]
    known = {"trusted": {"director": {"timestamp": 3, "snapshot": 3, "targets": 3}}}
    yield "a restored database comes up to the version that the vehicle keeps", known, [
        refused("update", trusts=state(3, 0)),
        gone([comes("of version 3")], [new(True)], "accepted", SOON, installs=INSTALLS,
             trusts=state(3, 5))]


def of_files() -> Rounds:
    got = comes("nothing")
    yield "no answer to a GET, twice", {}, [
        gone([got], [new()], "accepted", DAILY, [1, 3], gets={ROOT: [NONE, NONE, NO_FILE]},
             fetched={ROOT: 3})]
    yield "no answer to a GET at all: the same body in the next round", {}, [
        gone([got], [new()], None, SOON, ALL, gets={ROOT: [NONE]}, fetched={ROOT: 4}, trusts=state(
            0, 0)),
        again()]
    yield "a proxy's page with status 200 to a GET", {}, [
        gone([got], [new()], "accepted", DAILY, [1], gets={
            ROOT: [body(200, "<html>200</html>"), NO_FILE]}, fetched={ROOT: 2})]
    yield "29 with another status than 404 to a GET", {}, [
        gone([got], [new()], None, SOON, gets={ROOT: [refusal(400, 29, "UnknownFile")]}, fetched={
            ROOT: 1}),
        again()]
    much = {"bytes": LARGEST + 1}
    for name, one in (("a file of more bytes than are read: an attack", comes("root 2")),
                      ("29 with more bytes than are read: an attack too", NO_FILE)):
        yield name, {}, [
            refused("nothing", gets={ROOT: [one | much]}, fetched={ROOT: 1}, trusts=state(0, 0)),
            well(attack=True)]
    twice = {ROOT: 1} | dict.fromkeys(OF_IMAGES, 2)
    yield "the Image repository changes between two requests", {}, [
        updated(gets={TARGETS: [comes("other targets"), comes("targets")]}, fetched=twice)]
    yield "its Targets come at the second time alone", {}, [
        updated(gets={TARGETS: [NO_FILE, comes("targets")]}, fetched=twice)]
    yield "the Image repository's files never fit", {}, [
        refused("update", gets={TARGETS: [comes("other targets")]}, fetched=twice, trusts=state(
            0, 0)),
        well(attack=True)]
    yield "its Timestamp is missing: the others are fetched all the same", {}, [
        refused("update", gets={"image/timestamp.json": [NO_FILE]}, fetched=twice)]
    yield "its Timestamp has more bytes than are read: the others are fetched all the same", {}, [
        refused("update", gets={"image/timestamp.json": [body(200, "", **much)]}, fetched=twice)]
    yield "its new Root is wrong: none of its files is fetched", {}, [
        refused("update", gets={"image/2.root.json": [comes("root 2")]}, fetched={
            ROOT: 1, "image/2.root.json": 2})]
    first = {ROOT: 1, "image/2.root.json": 1, "image/timestamp.json": 1, "image/snapshot.json": 4}
    yield "its Timestamp is wrong, and no Snapshot comes: all are fetched first", {}, [
        gone([comes("update")], [new()], None, SOON, ALL, gets={
            "image/timestamp.json": [comes("targets")], "image/snapshot.json": [NONE]},
             fetched=first, trusts=state(0, 0)),
        again()]
    yield "the Image repository hasn't such an image: nothing is fetched once more", {}, [
        refused("unknown image", fetched={ROOT: 1} | OF_IMAGES, trusts=state(0, 0))]


def of_images() -> Rounds:
    brake = "brake-2.bin"
    lacks: dict[str, Any] = {"images": {brake: None}, "installs": {}}
    yield "an image that can't be had", {}, [updated(**lacks), updated()]
    yield "two rounds without it", {}, [updated(**lacks), updated(behind(2), **lacks)]
    yield "an attack ends where an image can't be had", {}, [
        refused(), updated(behind(2), attack=True, **lacks),
        well(trusts=state(1, 5))]
    one = {name: INSTALLS[name] for name in ("gw", )}
    two = {name: INSTALLS[name] for name in ("left", "right")}
    yield "an ECU fails to install: those behind it get nothing", {}, [
        updated(installs=one, fails=["left"]),
        updated(installs=two),
        well(trusts=state(1, 5))]
    yield "two rounds in which an ECU fails", {}, [
        updated(installs=one, fails=["left"]),
        updated(behind(2), installs={}, fails=["left"])]
    other = IMAGES[brake].replace("2", "3")
    yield "a wrong image: none is installed, and the versions are kept", {}, [
        refused("update", images={brake: other}, trusts=state(1, 5)),
        updated(attack=True),
        well(trusts=state(1, 5))]
    yield "a wrong image, and one that can't be had", {}, [
        refused("update", images={brake: other, "gateway-2.bin": None})]
    yield "a stop while images are fetched: the reply had its verdict", {}, [
        gone([comes("update")], [new()], "stopped", None, images={brake: STOP}, trusts=state(1, 5)),
        updated()]


def of_installed() -> Rounds:
    """What an ECU has already. Where it has another image than its target's it installs that one,
    which is seen by its failing.
    """
    has: dict[str, dict[str, Any]] = {
        ecu: image_of(name) | {"release": 2} for ecu, name in INSTALLS.items()}
    yield "all ECUs have their images: none is fetched or installed", {"installed": has}, [
        updated(DAILY, images=dict.fromkeys(IMAGES), installs={})]
    two = {name: INSTALLS[name] for name in ("left", "right")}
    own, first = has["gw"], {"sha256": has["gw"]["hashes"]["sha256"]}
    short = own | {"hashes": first}
    for name, one in (("its image", own), ("its image, without a SHA-512", short)):
        yield "an ECU has %s already: it is left as it is" % name, {"installed": {"gw": one}}, [
            updated(images={"gateway-2.bin": None}, fails=["gw"], installs=two)]
    yield "an ECU has an image of equal release under another filename", {
        "installed": {"gw": own | {"file": "gateway-3.bin"}}}, [updated()]
    others = {
        "SHA-256": {"hashes": {"sha256": own["hashes"]["sha256"][::-1]}}, "SHA-512": {
            "hashes": first | {"sha512": 128 * "0"}}, "release, which isn't known": {
                "release": NONE}}
    for name, other in others.items():
        yield "an ECU has its image but for the %s: it is installed" % name, {
            "installed": {"gw": own | other}}, [updated(fails=["gw"], installs={})]


def cases() -> Iterator[dict[str, Any]]:
    of_all = (of_answers, of_counters, of_mending, of_verdicts, of_files, of_images, of_installed)
    for of in of_all:
        for name, knows, rounds in of():
            yield {"name": name} | ({"knows": knows} if knows else {}) | {"rounds": rounds}

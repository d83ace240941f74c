"""Test vectors of manifests, with the refusal that each gets, and of replies."""
import json
from collections.abc import Iterator
from typing import Any

from uptane_tools.oracle import reference_http
from uptane_tools.oracle.reference import canonical, moment
from uptane_tools.oracle.vector_fleet import (NOW, PRIMARY, ROTATE, SETUP, UPDATE, desk, digest,
                                              image_of, key, line, manifest, payload_of, report,
                                              reports_of, signed_by)

# ---- manifests: one after another, from where the setup ends


def without(text: str, name: str) -> str:
    """A manifest of VIN-2 whose payload lacks a member, or whose one report does; signed all the
    same.
    """
    told = json.loads(text)
    del told[name]
    return canonical(told)


def manifests() -> Iterator[tuple[str, str]]:
    three, solo = reports_of("VIN-1", 1), key(0xA4)

    def one(**more: Any) -> str:
        return report("solo", solo, 1, image_of("gateway-1.bin"), **more)

    def as_told(payload: str) -> str:
        return signed_by([solo], payload)

    payload = payload_of("VIN-2", 1, [one()])
    good = as_told(payload)
    image = image_of("gateway-1.bin")

    def changed_report(name: str) -> str:
        return signed_by([solo], without(canonical(json.loads(one())["signed"]), name))

    def of_report(made: str) -> str:
        return as_told(payload_of("VIN-2", 1, [made]))

    def of_image(**more: Any) -> str:
        return of_report(one(image=image | more))

    yield "no bytes", ""
    yield "a list", "[]"
    yield "an object without members", "{}"
    yield "a body that ends early", good[:-1]
    yield "a body past 262,144 bytes", " " * 262145
    yield "signed is no object", '{"signatures":%s,"signed":1}' % canonical(
        json.loads(good)["signatures"])
    yield "a fraction in what is signed", as_told(
        payload.replace('"counter":1,"primary"', '"counter":1.5,"primary"', 1))
    for name in ("type", "vehicle", "primary", "counter", "reports"):
        yield "no " + name, as_told(without(payload, name))
    yield "another type", as_told(payload_of("VIN-2", 1, [one()], type="report"))
    yield "a counter of 0", manifest("VIN-2", 0, [one()])
    yield "a counter past 2^53-1 has no canonical text", manifest("VIN-2", 2**53, [one()])
    yield "a counter that is a text", as_told(payload_of("VIN-2", 1, [one()], counter="1"))
    yield "a vehicle's identifier with a space", manifest("VIN-2", 1, [one()], vehicle="VIN 2")
    yield "an identifier of 65 characters", manifest("VIN-2", 1, [one()], vehicle=65 * "v")
    yield "65 reports", manifest("VIN-2", 1, 65 * ["{}"])
    yield "a report that is no object", as_told(payload_of("VIN-2", 1, ["1"]))
    for name in ("type", "ecu", "counter", "time", "attack", "image"):
        yield "a report without " + name, of_report(changed_report(name))
    for name in ("file", "length", "hashes"):
        yield "an image without " + name, of_report(
            one(image={it: image[it] for it in image if it != name}))
    yield "a time without seconds", of_report(one(time="2026-01-01T00:00Z"))
    yield "a time with a fraction", of_report(one(time="2026-01-01T00:00:00.5Z"))
    yield "a day that isn't there", of_report(one(time="2026-02-29T00:00:00Z"))
    yield "an attack of 257 characters", of_report(one(attack=257 * "a"))
    yield "a filename with a space", of_image(file="a b")
    yield "a SHA-256 of 63 digits", of_image(hashes={"sha256": 63 * "0"})
    yield "a vehicle that isn't in the inventory", manifest("VIN-2", 1, [one()], vehicle="VIN-9")
    yield "another Primary", manifest("VIN-1", 1, three, primary="left", secret=key(0xA2))
    yield "signed by a Secondary", manifest("VIN-1", 1, three, secret=key(0xA2))
    yield "a payload that was changed", good.replace('"counter":1,"primary"',
                                                     '"counter":2,"primary"', 1)
    yield "no report of right", manifest("VIN-1", 1, three[:2])
    yield "a report of another vehicle's ECU", manifest("VIN-1", 1, [*three, one()])
    yield "two reports of left", manifest("VIN-1", 1, [*three, three[1]])
    yield "a report of right that left signed", manifest(
        "VIN-1", 1, [*three[:2], report("right", key(0xA2), 1, image_of("brake-1.bin"))])
    first, odd = manifest("VIN-1", 1, three), image | {"hashes": image["hashes"] | {"sha512": "x"}}
    upper_case = image | {"hashes": {name: it.upper() for name, it in image["hashes"].items()}}

    def later(counter: int, gw: str) -> str:
        return manifest("VIN-1", counter, [gw, *reports_of("VIN-1", 7)[1:]])

    yield "a manifest of three ECUs", first
    yield "the same with other white space and another order of members: a repeat", respelt(first)
    yield "another manifest of the same counter", manifest("VIN-1", 1, three, more=1)
    yield ("the same reports with a greater counter, in another order, and a member that nobody "
           "knows"), manifest("VIN-1", 3, three[::-1], more={"a": [1]})
    yield "a counter between two that were taken", manifest("VIN-1", 2, three)
    yield "the first one again: its kept reply", first
    yield "another report at its counter", manifest(
        "VIN-1", 4, [report("gw", key(0xA1), 1, image_of("gateway-2.bin")), *three[1:]])
    yield "reports with greater counters", manifest("VIN-1", 4, reports_of("VIN-1", 7))
    yield "a report with a lower counter", later(5, report("gw", key(0xA1), 6, image))
    yield "a report of an attack, at the end of the year 9999", later(
        5, report("gw", key(0xA1), 8, image, attack="bus flooded", time="9999-12-31T23:59:59Z"))
    yield "hashes in upper case", later(6, report("gw", key(0xA1), 9, upper_case))
    yield "a SHA-512 that is none: it counts as a member that nobody knows", later(
        7, report("gw", key(0xA1), 10, odd))
    unknown = {"file": "unknown", "length": 0, "hashes": {"sha256": digest("")}}
    yield "no time was verified, and the installed image isn't known", later(
        8, report("gw", key(0xA1), 11, unknown, time="1970-01-01T00:00:00Z"))
    yield "the greatest counter", manifest("VIN-2", 2**53 - 1, [one()])
    yield "another one: no greater counter is left, so each is refused from now on", manifest(
        "VIN-2", 2**53 - 1, [one(attack="x")])


def respelt(text: str) -> str:
    """The same value, spelt otherwise: other white space, and the members in another order."""

    def turned(value: Any) -> Any:
        return ({name: turned(value[name]) for name in sorted(value, reverse=True)} if isinstance(
            value, dict) else (list(map(turned, value)) if isinstance(value, list) else value))

    return json.dumps(turned(json.loads(text)), indent=1)


def builds() -> Iterator[dict[str, Any]]:
    """What the ECUs of a vehicle are to report, with their secrets, and the body of the manifest.
    Each is taken by the service.
    """
    image, other = image_of("gateway-1.bin"), image_of("brake-1.bin")
    unknown = {"file": "unknown", "length": 0, "hashes": {"sha256": digest("")}}
    three = [("gw", key(0xA1), image), ("left", key(0xA2), other), ("right", key(0xA3), other)]
    cases: list[tuple[str, str, int, list[Any], dict[str, Any]]] = [
        ("one ECU", "VIN-2", 1, [("solo", key(0xA4), image)], {"counter": 0, "time": NOW}),
        ("three ECUs, the second of which tells of an attack", "VIN-1", 1, three, {
            "attack": 'bus "CAN/1" \\ flooded', "counter": 7, "time": 253402300799}),
        ("no time was verified, and the installed image isn't known", "VIN-2", 2**53 - 1, [
            ("solo", key(0xA4), unknown)], {"counter": 2**53 - 1, "time": 0})]
    for name, vehicle, counter, ecus, more in cases:
        reports = [{
            "ecu": ecu, "key": secret, "counter": more["counter"] + place, "time": more["time"],
            "attack": more.get("attack", "") if place == 1 else "", "file": has["file"],
            "length": has["length"], **has["hashes"]}
                   for place, (ecu, secret, has) in enumerate(ecus)]
        made = [
            report(it["ecu"], it["key"], it["counter"], has, attack=it["attack"],
                   time=moment(it["time"])) for it, (_, _, has) in zip(reports, ecus, strict=True)]
        build = {"vehicle": vehicle, "primary": PRIMARY[vehicle], "key": ecus[0][1]}
        body = manifest(vehicle, counter, made)
        with desk() as it:
            assert [it.answer(given) for given in SETUP] == len(SETUP) * ["done"]
            assert it.answer(line("deliver", body=body)).startswith("reply"), name
        yield {
            "name": name, "build": build | {"counter": counter, "reports": reports}, "body": body}


def delivered() -> Iterator[dict[str, Any]]:
    """Each manifest with what the program prints for it, and the status and body of the answer
    over HTTP where it is refused.
    """
    with desk() as it:
        for given in SETUP:
            assert it.answer(given) == "done"
        for name, body in manifests():
            printed = it.answer(line("deliver", body=body))
            status = reference_http.STATUS.get(int(printed.split()[1]),
                                               503) if printed.startswith("refused") else 200
            long = len(body) > 262144
            sent: dict[str, Any] = {"spaces": len(body)} if long else {"body": body}
            yield {"name": name, **sent, "printed": printed, "status": status}


# ---- replies: what an accepted manifest is answered, byte for byte


def replies() -> Iterator[dict[str, Any]]:
    steps: list[tuple[str, list[str], str, int, dict[str, str] | None]] = [
        ("nothing is assigned", [], "VIN-1", 1, None),
        ("three images, one of them with two hashes", UPDATE, "VIN-1", 2, None),
        ("one ECU has its image", [], "VIN-1", 3, {"gw": "gateway-2.bin"}),
        ("a need that isn't met: nothing is assigned", [
            line("add_image", file="gateway-3.bin", length=3, sha256=digest("abc"), hardware=["GW"],
                 release=3, needs=[{"hardware": "BR", "release": 9}]),
            line("open_campaign", campaign="summer", vehicles=["VIN-1"], items=[{
                "hardware": "GW", "file": "gateway-3.bin"}])], "VIN-1", 4, None),
        ("another vehicle", [], "VIN-2", 1, None),
        ("after a rotation: root version 2", [ROTATE], "VIN-2", 2, None),
        ("a repeat of a manifest before it: the kept reply, of root version 1", [], "VIN-2", 1,
         None)]
    with desk() as it:
        for given in SETUP:
            assert it.answer(given) == "done"
        for name, lines, vehicle, counter, images in steps:
            assert all(it.answer(given) == "done" for given in lines)
            body = manifest(vehicle, counter, reports_of(vehicle, counter, images))
            printed = it.answer(line("deliver", body=body))
            text = it.one("SELECT reply FROM kept WHERE vehicle = ? AND counter = ?", vehicle,
                          counter)[0]
            yield {"name": name, "lines": lines, "body": body, "printed": printed, "reply": text}

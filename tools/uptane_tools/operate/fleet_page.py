"""Writes a page of the fleet: one HTML file without outside parts, from a copy of the database
file, or of each desk's.

    tools/run fleet_page [DESK=]COPY [DESK=COPY ..] [--now SECONDS] > fleet.html

COPY is made as `docs/use/TABLES.md` says; a log that lies beside it is read with it, and neither
is written to. The page shows how far each campaign is, and since when; files that expire soon,
plans that were withheld, attacks that ECUs reported, releases by hardware, ECUs that were
replaced, and the vehicles with what they have and are assigned, to be searched and filtered. Of
several desks it shows what each accepted, and when it last did. Each table can be saved as CSV.
It holds no secrets, but it names vehicles and says which of them have old software: show it to
no one who needn't know that.

Everything is as of the newest moment in the copies; what has expired and who was long silent is
reckoned from now, by this machine's clock, or from SECONDS. The status is 1, with a message,
where a file isn't a database of this product, of schema 1 to 4.
"""
import html
import json
import re
import sqlite3
import sys
import time
from datetime import datetime, timezone
from pathlib import Path

from typing import Iterator

from uptane_tools import arguments
from uptane_tools.operate import fleet_tables
from uptane_tools.operate.fleet_tables import DAY, IMAGES, ROOTS, WEEK, Images
from uptane_tools.operate.formats import Named

Rows = Iterator[tuple]
# rows of a table that are shown at once, at the top of the page; so few more are shown, too
SHOWN, FEW = 10, 5
# points of a line over time
POINTS = 60
SCRIPT = Path(__file__).resolve().parent / "fleet_page.js"
STYLE = Path(__file__).resolve().parent / "fleet_page.css"

# ---- what the copies tell, as one fleet


def desk_of(name: str, path: Path, now: int) -> Named:
    """What one copy tells."""
    with fleet_tables.opened(path) as db:
        meta = fleet_tables.meta_of(db)
        images = fleet_tables.registered(db, meta["schema"])
        vehicles = fleet_tables.vehicles_of(db, fleet_tables.ecus_of(db, images, meta["schema"]))
        by_name = {it["vehicle"]: it for it in vehicles}
        campaigns = fleet_tables.campaigns_of(db, images, vehicles)
        for it in campaigns:
            its = vehicles if it["all"] else [by_name[one] for one in it.pop("reached")]
            it["moments"] = fleet_tables.taken_up(db, it, images, its) if it["running"] else []
        made: Named = {
            "name": name, "meta": dict(meta), "images": images, "vehicles": [
                it | {"desk": name} for it in vehicles]}
        made |= {
            "campaigns": campaigns, "files": list(fleet_tables.files_of(db)), "replaced": list(
                fleet_tables.replaced_of(db, meta["schema"]))}
        made |= {
            "newest": fleet_tables.newest(db), "size": fleet_tables.size_of(path),
            "day": fleet_tables.kept_since(db, now - DAY)}
        return made | {"kept": sum(it["version"] for it in vehicles)}


SUMS = ("vehicles", "ecus", "done", "left", "withheld", "moments")


def campaigns_of(desks: list[Named]) -> list[Named]:
    """A campaign of several desks is one."""
    made: dict[str, Named] = {}
    for desk in desks:
        for it in desk["campaigns"]:
            whole = made.setdefault(it["name"],
                                    it | {"running": False} | {name: it[name] * 0 for name in SUMS})
            whole["running"] |= it["running"]
            for name in SUMS:
                whole[name] += it[name]
    for it in made.values():
        it["moments"].sort()
    return sorted(made.values(), key=lambda it: (not it["running"], it["name"]))


# ---- parts of the page


def moment(seconds: int) -> str:
    return datetime.fromtimestamp(seconds, timezone.utc).strftime("%Y-%m-%d %H:%M")


def date(seconds: int) -> str:
    return '<span class="short">%s</span>' % moment(seconds)


def span(seconds: int) -> str:
    """A span of time in words."""
    for unit, size in (("day", DAY), ("hour", 3600)):
        if abs(seconds) >= 2 * size:
            return "%d %ss" % (abs(seconds) // size, unit)
    return "%d minutes" % (abs(seconds) // 60)


def grouped(number: int) -> str:
    return format(number, ",")


def many(number: int, word: str) -> str:
    return "%s %s%s" % (grouped(number), word, "" if number == 1 else "s")


def size(number: int) -> str:
    """Bytes in words."""
    for unit, by in (("GB", 10**9), ("MB", 10**6)):
        if number >= by:
            return "%.1f %s" % (number / by, unit)
    return "%d kB" % (number // 1000)


def code(text: str) -> str:
    """A name; a short one stays on one line."""
    return "<code%s>%s</code>" % (' class="short"' if len(text) <= 24 else "", html.escape(text))


def table(name: str, head: list[str], rows: list[tuple], empty: str) -> str:
    """A table of cells that are HTML already; more than so many rows are opened by hand. Its
    name is that of its CSV.
    """
    if not rows:
        return '<p class="none">%s</p>' % empty
    made = ('<div class="wide"><table '
            'data-csv="%s"><thead><tr>%s</tr></thead><tbody>%%s</tbody></table></div>')
    made %= name, "".join("<th>%s</th>" % it for it in head)
    lines = [
        "<tr>%s</tr>" % "".join('<td data-head="%s">%s</td>' % it for it in zip(head, row))
        for row in rows]
    shown = len(lines) if len(lines) <= SHOWN + FEW else SHOWN
    first, more = made % "".join(lines[:shown]), lines[shown:]
    return first + ("<details><summary>%s more</summary>%s</details>" %
                    (grouped(len(more)), made % "".join(more)) if more else "")


def bar(done: int, number: int, word: str = "ECU") -> str:
    share = done / number if number else 1
    return (
        '<div class="bar" role="img" aria-label="%d of %d"><span style="width:%.1f%%"></span></div>'
        % (done, number, 100 * share) + '<div class="of">%s of %s</div>' %
        (grouped(done), many(number, word)))


def over_time(moments: list[int], number: int, newest: int) -> str:
    """A line of how many ECUs had begun to report it, from the first to the newest moment of the
    copies.
    """
    if not moments or not number:
        return ""
    begun, length = moments[0], max(newest - moments[0], 1)
    points, at = ["0,40"], 0
    for place in range(POINTS + 1):
        while at < len(moments) and moments[at] <= begun + length * place / POINTS:
            at += 1
        points.append("%.1f,%.1f" % (220 * place / POINTS, 40 - 38 * at / number))
    half = moments[(number + 1) // 2 - 1] if len(moments) >= (number + 1) // 2 else None
    words = "since %s" % moment(begun) + (", half after %s" % span(half - begun) if half else "")
    return ('<svg class="line" viewBox="0 0 220 40" preserveAspectRatio="none" role="img" '
            'aria-label="%s"><polygon points="%s 220,40"/></svg><div class="of">%s</div>') % (
                words, " ".join(points), words)


def link(filter: str, words: str) -> str:
    return '<a class="short" href="#vehicles" data-filter="%s">%s</a>' % (html.escape(filter),
                                                                          words)


def campaign_rows(campaigns: list[Named], newest: int) -> Rows:
    for it in campaigns:
        whom = "all vehicles (%s)" % grouped(it["vehicles"]) if it["all"] else many(
            it["vehicles"], "vehicle")
        way = []
        if it["running"] and it["left"]:
            way.append(link("left " + it["name"], many(len(it["left"]), "vehicle") + " left"))
        if it["running"] and it["withheld"]:
            way.append(link("stuck " + it["name"], "%s withheld" % grouped(len(it["withheld"]))))
        files = "<br>".join(code(item["file"]) for item in it["items"])
        yield code(it["name"]), files, whom, bar(it["done"], it["ecus"]), over_time(
            it["moments"], it["ecus"], newest), "<br>".join(way)


def rollout_rows(campaigns: list[Named]) -> Rows:
    """The steps of each rollout, which are campaigns `NAME.1`, `NAME.2` and so on, as one."""
    steps: dict[str, dict[int, list[Named]]] = {}
    for it in campaigns:
        if found := re.fullmatch(r"(.+)[.]([0-9]+)[a-z]*", it["name"]):
            steps.setdefault(found[1], {}).setdefault(int(found[2]), []).append(it)
    for name, its in sorted(steps.items()):
        every = [it for step in its.values() for it in step]
        if 1 not in its:
            continue
        files = "<br>".join(
            code(file) for file in sorted({item["file"] for it in every for item in it["items"]}))
        state = '<span class="tag%s</span>' % (' well">running' if any(
            it["running"] for it in every) else '">stopped')
        rows = [
            "%d: %s of %s" %
            (number, grouped(sum(it["done"]
                                 for it in step)), many(sum(it["ecus"] for it in step), "ECU"))
            for number, step in sorted(its.items())]
        yield code(name), files, state, bar(sum(it["done"] for it in every),
                                            sum(it["ecus"] for it in every)), "<br>".join(rows)


def state_of(it: Named, now: int) -> tuple[str, str]:
    left = it["expires"] - now
    return ("bad", "expired %s ago" %
            span(left)) if left <= 0 else ("soon" if 4 * left < it["life"] else "well", span(left))


def file_rows(desks: list[Named], now: int) -> Rows:
    """One row a file: of several desks the one that expires first, which is named where
    another's expires later.
    """
    every: dict[str, list[Named]] = {}
    for desk in desks:
        for it in desk["files"]:
            every.setdefault(it["file"], []).append(it | {"desk": desk["name"]})
    for name, its in sorted(every.items(), key=lambda pair: min(it["expires"] for it in pair[1])):
        first, versions = min(its, key=lambda it: it["expires"]), sorted({
            it["version"] for it in its})
        state = state_of(first, now)
        where = " at %s" % html.escape(first["desk"]) if any(
            it["expires"] > first["expires"] for it in its) else ""
        told = "%d" % versions[0] if len(versions) == 1 else "%d to %d" % (versions[0],
                                                                           versions[-1])
        yield code(name), told, date(
            first["expires"]) + where, '<span class="tag %s">%s</span>' % state, code(
                first["by"]) if state[0] != "well" else ""


def desk_rows(desks: list[Named]) -> Rows:
    """What each desk accepted: one that vehicles no longer reach is seen here, as the others'
    newest moment is the page's.
    """
    for it in desks:
        seen = max((one["seen"] for one in it["vehicles"] if one["seen"] is not None), default=None)
        last = "never" if seen is None else date(seen)
        yield code(it["name"]), grouped(len(it["vehicles"])), last, grouped(it["day"]), grouped(
            it["kept"]), size(it["size"])


def withheld_rows(vehicles: list[Named]) -> Rows:
    for it in vehicles:
        if it["withheld"]:
            yield code(it["vehicle"]), code(it["withheld"]), date(it["seen"])


def attack_rows(vehicles: list[Named]) -> Rows:
    for it in vehicles:
        for ecu in it["ecus"]:
            if ecu["attack"]:
                yield code(it["vehicle"]), code(ecu["ecu"]), html.escape(ecu["attack"]), date(
                    it["seen"])


def release_rows(vehicles: list[Named], images: Images) -> Rows:
    """By hardware, what its ECUs report, the greatest release first."""
    counts: dict[str, dict[tuple[int, str], int]] = {}
    for it in vehicles:
        for ecu in it["ecus"]:
            own = counts.setdefault(ecu["hardware"], {})
            key = ecu["release"], ecu["file"] or ""
            own[key] = own.get(key, 0) + 1
    for hardware, own in sorted(counts.items()):
        for (release, file), number in sorted(own.items(), key=lambda pair:
                                              (-pair[0][0], pair[0][1])):
            known = file in images and (release or not images[file]["release_count"])
            yield code(hardware), code(
                file) if file else "nothing reported", release if known else (
                    "not registered" if file else ""), bar(number, sum(own.values()))


def replaced_rows(desks: list[Named]) -> Rows:
    for desk in desks:
        for it in desk["replaced"]:
            yield code(it["vehicle"]), code(
                it["ecu"]), "" if it["version"] is None else it["version"], date(
                    it["seen"]) if it["seen"] else "never"


def tile(filter: str, words: str, number: int, grave: bool) -> str:
    return '<a class="tile%s" href="#vehicles" data-filter="%s"><b>%s</b>%s</a>' % (
        " grave" if grave and number else "", filter, grouped(number), words)


def tiles(vehicles: list[Named], desks: list[Named], now: int) -> str:
    """The numbers at the top, each with the filter that it sets; and the file that expires first.
    """

    def silent(it: Named) -> bool:
        return it["seen"] is not None and it["seen"] < now - WEEK

    made = [
        tile("all", "vehicle" if len(vehicles) == 1 else "vehicles", len(vehicles), False),
        tile("open", "with an open assignment",
             sum(any(e["assigned"] for e in it["ecus"]) for it in vehicles), False),
        tile("withheld", "withheld", sum(bool(it["withheld"]) for it in vehicles), True),
        tile("attack", "report an attack",
             sum(any(e["attack"] for e in it["ecus"]) for it in vehicles), True),
        tile("silent", "silent for a week", sum(map(silent, vehicles)), True),
        tile("never", "never seen", sum(it["seen"] is None for it in vehicles), False)]
    files = [it for desk in desks for it in desk["files"]]
    gone = sum(it["expires"] <= now for it in files)
    if gone:
        made.append('<a class="tile grave" href="#files"><b>%s</b>expired</a>' % many(gone, "file"))
    elif files:
        made.append('<a class="tile" href="#files"><b>%s</b>until a file expires</a>' %
                    span(min(it["expires"] for it in files) - now))
    return '<nav class="tiles">%s</nav>' % "".join(made)


def packed(vehicles: list[Named], campaigns: list[Named]) -> str:
    """What the page's script shows: lists without names, and each name of a file or hardware once.
    """
    words: dict[str, int] = {}
    at = {it["vehicle"]: number for number, it in enumerate(vehicles)}

    def place(text: str) -> int:
        return words.setdefault(text, len(words))

    rows = [[
        it["vehicle"], it["version"], it["seen"], it["withheld"],
        [[
            e["ecu"],
            place(e["hardware"]),
            place(e["file"] or ""),
            place(e["assigned"]), e["attack"]] for e in it["ecus"]], it["desk"]] for it in vehicles]
    sets = {
        "%s %s" % (word, it["name"]): [at[name] for name in it[kind]] for it in campaigns
        if it["running"] for word, kind in (("left", "left"), ("stuck", "withheld")) if it[kind]}
    made = json.dumps({"words": list(words), "vehicles": rows, "sets": sets}, separators=(",", ":"))
    return made.replace("<", "\\u003c").replace(">", "\\u003e").replace("&", "\\u0026")


VEHICLES = """<p class="controls"><input id="search" type="search" \
placeholder="vehicle, ECU, hardware, file" aria-label="search">
<select id="filter" aria-label="filter"><option value="all">all vehicles</option>\
<option value="open">with an open assignment</option>
<option value="withheld">withheld</option><option value="attack">report an attack</option>\
<option value="silent">silent for a week</option>
<option value="never">never seen</option></select>
<select id="order" aria-label="order"><option value="name">by name</option>\
<option value="oldest">longest silent first</option>
<option value="newest">last seen first</option></select><button id="csv">CSV</button>
<span id="count"></span><span class="pages"><button id="back">&larr; back</button> \
<span id="page"></span> <button id="next">next &rarr;</button></span></p>
<div id="list"><noscript><p class="none">The list of vehicles needs JavaScript.</p></noscript>\
</div>"""


def heading(desks: list[Named], images: Images, now: int) -> str:
    newest = max(it["newest"] for it in desks)
    roots = sorted({it["meta"]["root"] for it in desks})
    grown = sum(it["day"] * it["size"] // it["kept"] for it in desks if it["kept"])
    told = [
        "as of %s UTC" % moment(newest),
        "made %s UTC" % moment(now),
        many(len(desks), "desk") if len(desks) > 1 else "",
        "root version %s of %d" % (" to ".join(map(str, {roots[0]: 0, roots[-1]: 0})), ROOTS),
        "%s of %s images" % (grouped(len(images)), grouped(IMAGES)),
        "%s in %s, %s a day" % (many(sum(it["kept"] for it in desks), "kept reply").replace(
            "replys", "replies"), size(sum(it["size"] for it in desks)), size(grown)),
        "schema %s" % " and ".join(map(str, sorted({it["meta"]["schema"] for it in desks})))]
    return "<header><h1>Fleet</h1><p>%s</p></header>" % " &middot; ".join(filter(None, told))


def parts(desks: list[Named], now: int) -> Iterator[str]:
    images = {file: it for desk in desks for file, it in desk["images"].items()}
    vehicles = sorted((it for desk in desks for it in desk["vehicles"]),
                      key=lambda it: it["vehicle"])
    campaigns, newest = campaigns_of(desks), max(it["newest"] for it in desks)
    running, closed = (
        [it for it in campaigns if it["running"] == whether] for whether in (True, False))
    heads = ["Campaign", "Images", "For", "How far", "Over time", "Vehicles"]
    yield heading(desks, images, now)
    yield tiles(vehicles, desks, now)
    yield '<h2 id="campaigns">Campaigns</h2>' + table(
        "campaigns", heads, list(campaign_rows(running, newest)), "No campaign runs.")
    if closed:
        # of those there is nothing over time, and no vehicle is left
        ended = table("closed", heads[:4], list(campaign_rows(closed, newest)), "")
        yield "<details><summary>%s closed</summary>%s</details>" % (many(len(closed),
                                                                          "campaign"), ended)
    rollouts = list(rollout_rows(campaigns))
    if rollouts:
        yield "<h2>Rollouts</h2>" + table(
            "rollouts", ["Rollout", "Image", "State", "Taken up", "Steps"], rollouts, "")
    yield '<h2 id="files">Files</h2>' + table(
        "files", ["File", "Version", "Expires (UTC)", "Left", "Made anew by"],
        list(file_rows(desks, now)), "The repositories aren't founded.")
    if len(desks) > 1:
        heads = [
            "Desk", "Vehicles", "Last manifest (UTC)", "In the last day", "Kept replies", "Size"]
        yield "<h2>Desks</h2>" + table("desks", heads, list(desk_rows(desks)), "")
    yield "<h2>Releases</h2>" + table("releases", ["Hardware", "Reported", "Release", "ECUs"],
                                      list(release_rows(vehicles, images)),
                                      "There are no vehicles.")
    yield "<h2>Withheld plans</h2>" + table("withheld", ["Vehicle", "Cause", "Seen (UTC)"],
                                            list(withheld_rows(vehicles)), "None.")
    yield "<h2>Attacks reported</h2>" + table("attacks", [
        "Vehicle", "ECU", "Its note", "Seen (UTC)"], list(attack_rows(vehicles)), "None.")
    replaced = list(replaced_rows(desks))
    yield "<h2>Replaced ECUs</h2>" + table(
        "replaced", ["Vehicle", "ECU", "Last version", "Last reported (UTC)"], replaced, "None.")
    yield '<h2 id="vehicles">Vehicles</h2>' + VEHICLES
    yield '<script type="application/json" id="data" data-now="%d">%s</script>' % (
        now, packed(vehicles, campaigns))


def page(copies: dict[str, Path], now: int) -> str:
    made = "\n".join(parts([desk_of(name, path, now) for name, path in copies.items()], now))
    top = ('<!doctype html><html lang="en"><head><meta charset="utf-8"><title>Fleet</title>'
           '<meta http-equiv="Content-Security-Policy" content="default-src \'none\'; style-src '
           '\'unsafe-inline\'; script-src \'unsafe-inline\'; base-uri \'none\'">'
           '<meta name="viewport" content="width=device-width, '
           'initial-scale=1"><style>%s</style></head><body><main>' %
           STYLE.read_text(encoding="ascii"))
    return "%s%s</main><script>%s</script></body></html>\n" % (top, made,
                                                               SCRIPT.read_text(encoding="ascii"))


def main(words: arguments.Words = None) -> int:
    parser = arguments.parser(__doc__)
    parser.add_argument("copies", nargs="+", type=fleet_tables.named, metavar="[DESK=]COPY")
    parser.add_argument("--now", type=int, default=None)
    given = parser.parse_args(words)
    copies = dict(given.copies)
    if len(copies) < len(given.copies):
        parser.error("each copy needs a name of its own")
    try:
        made = page(copies, int(time.time()) if given.now is None else given.now)
    except (fleet_tables.Other, OSError, sqlite3.Error) as wrong:
        print("fleet_page: %s: %s" % (", ".join(map(str, copies.values())), wrong), file=sys.stderr)
        return 1
    sys.stdout.write(made)
    return 0

"use strict";
// The list of vehicles: searched, filtered and ordered here, and shown a page at a time. Texts are put in as text, never as HTML.
const A_PAGE = 50, WEEK = 7 * 86400;
const holder = document.getElementById("data");
const now = Number(holder.dataset.now);
const { words, vehicles, sets } = JSON.parse(holder.textContent);
const [NAME, VERSION, SEEN, WITHHELD, ECUS, DESK] = [0, 1, 2, 3, 4, 5];
const [ECU, HARDWARE, FILE, ASSIGNED, ATTACK] = [0, 1, 2, 3, 4];

const at = (id) => document.getElementById(id);
const FILTERS = {
  all: () => true,
  open: (v) => v[ECUS].some((e) => words[e[ASSIGNED]]),
  withheld: (v) => v[WITHHELD] !== "",
  attack: (v) => v[ECUS].some((e) => e[ATTACK]),
  silent: (v) => v[SEEN] !== null && v[SEEN] < now - WEEK,
  never: (v) => v[SEEN] === null,
};
// the vehicles that are left of a campaign, and those among them whose plans are withheld for it
for (const [name, places] of Object.entries(sets)) {
  const those = new Set(places.map((place) => vehicles[place]));
  const [kind, campaign] = [name.slice(0, name.indexOf(" ")), name.slice(name.indexOf(" ") + 1)];
  FILTERS[name] = (v) => those.has(v);
  at("filter").append(new Option((kind === "left" ? "left of " : "withheld for ") + campaign, name));
}
const many = new Set(vehicles.map((v) => v[DESK])).size > 1;
const byName = (a, b) => (a[NAME] < b[NAME] ? -1 : 1);
const ORDERS = {
  name: byName,
  oldest: (a, b) => (a[SEEN] ?? -1) - (b[SEEN] ?? -1) || byName(a, b),
  newest: (a, b) => (b[SEEN] ?? -1) - (a[SEEN] ?? -1) || byName(a, b),
};
let found = [], page = 0;

function has(vehicle, text) {
  const inWord = (place) => words[place].toLowerCase().includes(text);
  return vehicle[NAME].toLowerCase().includes(text) ||
    vehicle[ECUS].some((e) => e[ECU].toLowerCase().includes(text) || inWord(e[HARDWARE]) || inWord(e[FILE]) || inWord(e[ASSIGNED]));
}

function made(name, text, of) {
  const it = document.createElement(name);
  if (text !== undefined) it.textContent = text;
  if (of) it.className = of;
  return it;
}

function span(seconds) {
  for (const [unit, size] of [["day", 86400], ["hour", 3600]])
    if (seconds >= 2 * size) return Math.floor(seconds / size) + " " + unit + "s";
  return Math.max(0, Math.floor(seconds / 60)) + " minutes";
}

function seen(vehicle) {
  const cell = made("td", undefined, "when");
  if (vehicle[SEEN] === null) { cell.append(made("span", "never", "tag")); return cell; }
  cell.append(new Date(vehicle[SEEN] * 1000).toISOString().slice(0, 16).replace("T", " "));
  cell.append(made("small", span(now - vehicle[SEEN]) + " ago"));
  if (FILTERS.silent(vehicle)) cell.classList.add("late");
  return cell;
}

function ecus(vehicle) {
  const cell = made("td"), grid = made("div", undefined, "ecus");
  for (const e of vehicle[ECUS]) {
    const has = made("span");
    has.append(made("code", words[e[FILE]] || "nothing reported"));
    if (words[e[ASSIGNED]]) has.append(made("span", " \u2192 ", "to"), made("code", words[e[ASSIGNED]], "to"));
    if (e[ATTACK]) has.append(made("div", "attack: " + e[ATTACK], "note"));
    grid.append(made("span", e[ECU], "serial"), made("span", words[e[HARDWARE]], "hw"), has);
  }
  cell.append(grid);
  if (vehicle[WITHHELD]) cell.append(made("div", "withheld: " + vehicle[WITHHELD], "note"));
  return cell;
}

function show() {
  const pages = Math.max(1, Math.ceil(found.length / A_PAGE));
  page = Math.min(Math.max(page, 0), pages - 1);
  const table = made("table", undefined, "vehicles"), head = made("tr"), body = made("tbody");
  for (const text of ["Vehicle", "Version", "Last seen (UTC)", "ECUs: installed \u2192 assigned"]) head.append(made("th", text));
  for (const vehicle of found.slice(page * A_PAGE, (page + 1) * A_PAGE)) {
    const row = made("tr");
    const name = made("td", vehicle[NAME], "name");
    if (many) name.append(made("small", vehicle[DESK]));
    row.append(name, made("td", vehicle[VERSION], "version"), seen(vehicle), ecus(vehicle));
    body.append(row);
  }
  const top = made("thead");
  top.append(head);
  table.append(top, body);
  at("list").replaceChildren(found.length ? table : made("p", "No vehicle is like that.", "none"));
  at("count").textContent = found.length.toLocaleString("en") + " of " + vehicles.length.toLocaleString("en");
  at("page").textContent = "page " + (page + 1) + " of " + pages;
  at("back").disabled = page === 0;
  at("next").disabled = page === pages - 1;
}

function find() {
  const text = at("search").value.trim().toLowerCase(), filter = FILTERS[at("filter").value];
  found = vehicles.filter((v) => filter(v) && (!text || has(v, text))).sort(ORDERS[at("order").value]);
  page = 0;
  show();
}

// ---- CSV: of a text that a spreadsheet would take for a formula the first sign is put behind an apostrophe
const cell = (text) => '"' + String(text).replace(/^[=+\-@\t\r]/, "'$&").replaceAll('"', '""') + '"';

function save(name, rows) {
  const link = document.createElement("a");
  link.href = URL.createObjectURL(new Blob([rows.map((row) => row.map(cell).join(",")).join("\r\n") + "\r\n"], { type: "text/csv" }));
  link.download = name + ".csv";
  link.click();
  URL.revokeObjectURL(link.href);
}

// the rows of a table and of its further part, as they stand
function rowsOf(name) {
  const tables = document.querySelectorAll('table[data-csv="' + name + '"]');
  const text = (it) => {
    const own = it.cloneNode(true);
    for (const end of own.querySelectorAll("br")) end.replaceWith(" ");
    return own.textContent;
  };
  const lines = (it, part) => [...it.querySelectorAll(part + " tr")].map((row) => [...row.children].map(text));
  return lines(tables[0], "thead").concat(...[...tables].map((it) => lines(it, "tbody")));
}

function rowsOfVehicles() {
  const head = ["desk", "vehicle", "version", "seen", "withheld", "ecu", "hardware", "installed", "assigned", "attack"];
  const time = (v) => v[SEEN] === null ? "" : new Date(v[SEEN] * 1000).toISOString();
  return [head].concat(found.flatMap((v) => v[ECUS].map((e) =>
    [v[DESK], v[NAME], v[VERSION], time(v), v[WITHHELD], e[ECU], words[e[HARDWARE]], words[e[FILE]], words[e[ASSIGNED]], e[ATTACK]])));
}

for (const name of new Set([...document.querySelectorAll("table[data-csv]")].map((it) => it.dataset.csv))) {
  const button = made("button", "CSV", "csv");
  button.addEventListener("click", () => save(name, rowsOf(name)));
  document.querySelector('table[data-csv="' + name + '"]').parentElement.before(button);
}
at("csv").addEventListener("click", () => save("vehicles", rowsOfVehicles()));

for (const id of ["search", "filter", "order"]) at(id).addEventListener("input", find);
at("back").addEventListener("click", () => { page -= 1; show(); });
at("next").addEventListener("click", () => { page += 1; show(); });
for (const link of document.querySelectorAll("[data-filter]"))
  link.addEventListener("click", () => { at("filter").value = link.dataset.filter; at("search").value = ""; find(); });
// `fleet.html#vehicles?attack` opens with a filter
const asked = location.hash.split("?")[1];
if (asked in FILTERS) at("filter").value = asked;
find();

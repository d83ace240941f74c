#!/usr/bin/env node
// A small Primary ECU in JavaScript, tried with Node 20; it needs nothing else. docs/integrate/PRIMARY.md and vectors/ say all that it does.
//
//     node primary.mjs vectors FOLDER                 answers the vectors, and names those that it answers otherwise
//     node primary.mjs trust URL VEHICLE              puts the first Root of each repository into VEHICLE, as in the factory
//     node primary.mjs round URL VEHICLE [IMAGES]     one round: a new manifest, the metadata of both repositories, what is to be installed
//     node primary.mjs rounds URL VEHICLE [IMAGES]    rounds without end: one a day, and sooner behind one that failed
//
// VEHICLE is a file of the form of examples/primary/vehicle.json, or of examples/primary/ed25519/vehicle.json. It is for its owner alone: it
// holds the secrets of the ECUs, and under HMAC those of the repositories' roles too.
import { createHash, createHmac, createPrivateKey, createPublicKey, sign, verify } from 'node:crypto';
import { existsSync, readFileSync, renameSync, writeFileSync } from 'node:fs';
import { join } from 'node:path';

class Failed extends Error {} // what ends a round without a verdict
class Stopped extends Error {} // the power is gone, as the vectors have it
class Refused extends Error {}
class Old extends Refused {} // good once: a new manifest brings new metadata

const expect = (holds, words, Kind = Refused) => { if (!holds) throw new Kind(words); };
const digest = (kind, bytes) => createHash(kind).update(bytes).digest('hex');

// ---- canonical texts and signatures

function canonical(value, depth = 0) {
  if (value === null || typeof value === 'boolean') return String(value);
  if (typeof value === 'number') {
    expect(Number.isSafeInteger(value) && value >= 0 && !Object.is(value, -0), 'NotCanonical');
    return String(value);
  }
  if (typeof value === 'string') {
    expect(/^[ -~]*$/.test(value), 'NotCanonical');
    return `"${value.replace(/["\\]/g, '\\$&')}"`;
  }
  expect(depth < 16, 'NotCanonical');
  if (Array.isArray(value)) return `[${value.map((it) => canonical(it, depth + 1)).join(',')}]`;
  return `{${Object.keys(value).sort().map((name) => `${canonical(name)}:${canonical(value[name], depth + 1)}`).join(',')}}`;
}

function json(text) {
  try { return JSON.parse(text); } catch { throw new Refused('NotJson'); }
}

// The value of a text. JSON.parse takes 1.0 for 1: so a fraction or an exponent is looked for in the text itself.
const isWhole = (text) => !/\d[.eE]/.test(text.replace(/"(?:[^"\\]|\\.)*"/gs, ''));
function read(text) {
  const value = json(text);
  expect(isWhole(text), 'NotCanonical');
  return value;
}

// An envelope that has its own text: a Timestamp names the SHA-256 of the Snapshot's text as it was served.
const isObject = (value) => value !== null && typeof value === 'object' && !Array.isArray(value);
const withText = (value, text) => Object.defineProperty(value, 'text', { value: text, configurable: true });
function fileOf(text) {
  const value = json(text);
  return withText(isObject(value) ? value : {}, text);
}

// The text of each member of an object as it stands there; of one that occurs twice, the last.
function memberTexts(text) {
  const texts = Object.create(null);
  let depth = 0, name, from;
  for (const { 0: it, index } of text.matchAll(/"(?:[^"\\]|\\.)*"|[{}[\],:]/gs)) {
    if (it === '}' || it === ']') depth -= 1;
    if (depth === 1 && it === ':') from = index + 1;
    else if (from && (depth === 0 || (depth === 1 && it === ','))) {
      texts[name] = text.slice(from, index).trim();
      from = undefined;
    } else if (depth === 1 && !from && it[0] === '"') name = JSON.parse(it);
    if (it === '{' || it === '[') depth += 1;
  }
  return texts;
}

// A Director's reply, whose files have their own texts.
function replyOf(text) {
  const reply = json(text), texts = memberTexts(text);
  const isReply = isObject(reply) && isName(reply.vehicle) && isCount(reply.root, 1) && isCount(reply.version, 1) && isWhole(texts.root + texts.version);
  expect(isReply && ROLES.every((role) => role in texts), 'that is no reply');
  for (const role of ROLES) reply[role] = fileOf(texts[role]);
  return reply;
}

const bytes = (hex) => Buffer.from(hex, 'hex');
const mac = (secret, data) => createHmac('sha256', secret).update(data).digest();
const keyid = (publicPart) => mac(publicPart, 'uptane-key-id').toString('hex');

// Ed25519 keys as the library reads them: a fixed beginning, and 32 bytes
const der = (type, begins, key) => ({ key: Buffer.concat([bytes(begins), key]), format: 'der', type });
const privateKey = (secret) => createPrivateKey(der('pkcs8', '302e020100300506032b657004220420', secret));
const publicKey = (key) => createPublicKey(der('spki', '302a300506032b6570032100', key));

// Whether 32 bytes are the one encoding of a point by RFC 8032, of which the library takes others too.
function isOneEncoding(point) {
  const p = 2n ** 255n - 19n, number = BigInt(`0x${Buffer.from(point).reverse().toString('hex')}`), y = number % 2n ** 255n;
  return y < p && !(number !== y && (y === 1n || y === p - 1n));
}

const schemes = {
  'hmac-sha256': { publicOf: (secret) => secret, sign: mac, verify: (key, data, sig) => mac(key, data).equals(sig) },
  ed25519: {
    publicOf: (secret) => createPublicKey(privateKey(secret)).export({ format: 'der', type: 'spki' }).subarray(-32),
    sign: (secret, data) => sign(null, Buffer.from(data), privateKey(secret)),
    verify(key, data, sig) {
      if (sig.length !== 64 || !isOneEncoding(key) || !isOneEncoding(sig.subarray(0, 32))) return false;
      try { return verify(null, Buffer.from(data), publicKey(key), sig); } catch { return false; }
    },
  },
};
let method = 'hmac-sha256';

function sealed(secret, signed) {
  const scheme = schemes[method], id = keyid(scheme.publicOf(secret));
  return `{"signatures":[${canonical({ keyid: id, method, sig: scheme.sign(secret, signed).toString('hex') })}],"signed":${signed}}`;
}

// The algorithm is that of the trusted key: a signature's `method` has to name it, and never chooses one.
function isSignedBy(envelope, key) {
  const id = keyid(key), text = canonical(envelope.signed);
  return envelope.signatures.some((it) => it.keyid === id && it.method === method && schemes[method].verify(key, text, bytes(it.sig)));
}

// The keys that a Root shows, by identifier: none under HMAC.
// What isn't a key of that name counts for nothing: the Root of the factory may have such a one.
function shownKeys({ signed }) {
  const shown = Object.entries(method === 'ed25519' ? signed.keys : {}).filter(([, it]) => /^[0-9a-f]{64}$/.test(it.public));
  return Object.fromEntries(shown.map(([id, it]) => [id, bytes(it.public)]).filter(([id, key]) => keyid(key) === id && isPublic(key)));
}

// Whether 32 bytes are a public key: a point of the curve that isn't neutral and whose multiple by the base point's order is. Under any other
// anybody makes signatures, and the library takes it. (Of which sign x is makes no difference here.)
function isPublic(point) {
  if (!isOneEncoding(point)) return false;
  const p = 2n ** 255n - 19n, y = BigInt(`0x${Buffer.from(point).reverse().toString('hex')}`) % 2n ** 255n;
  const power = (base, exponent) => {
    let result = 1n;
    for (let b = base % p, e = exponent; e > 0n; e >>= 1n, b = b * b % p) if (e & 1n) result = result * b % p;
    return result;
  };
  const d = (p - 121665n) * power(121666n, p - 2n) % p;
  const square = (y * y - 1n + p) * power(d * y % p * y + 1n, p - 2n) % p, root = power(square, (p + 3n) / 8n);
  const x = root * root % p === square ? root : root * power(2n, (p - 1n) / 4n) % p;
  if (x * x % p !== square) return false;
  const add = ([x1, y1, z1, t1], [x2, y2, z2, t2]) => {
    const a = (y1 - x1) * (y2 - x2), b = (y1 + x1) * (y2 + x2), c = 2n * d * t1 % p * t2, e = 2n * z1 * z2;
    const [k, l, m, n] = [b - a, e - c, e + c, b + a].map((it) => ((it % p) + p) % p);
    return [k * l % p, m * n % p, l * m % p, k * n % p];
  };
  let total = [0n, 1n, 1n, 0n], doubled = [x, y, 1n, x * y % p];
  for (let rest = 2n ** 252n + 27742317777372353535851937790883648493n; rest > 0n; rest >>= 1n, doubled = add(doubled, doubled)) {
    if (rest & 1n) total = add(total, doubled);
  }
  return y !== 1n && total[0] === 0n && total[1] === total[2];
}

// Whether a Root shows a key as it has to: of this scheme, and under its identifier. Under HMAC it shows nothing, and the vehicle has the key.
function hasForm(id, key, secrets) {
  if (key.method !== method || method !== 'ed25519') return key.method === method && key.public === '' && Object.hasOwn(secrets, id);
  return /^[0-9a-f]{64}$/.test(key.public) && keyid(bytes(key.public)) === id && isPublic(bytes(key.public));
}

// ---- what is sent

const moment = (seconds) => new Date(seconds * 1000).toISOString().replace('.000Z', 'Z');
const hashesOf = ({ sha256, sha512 }) => (sha512 ? { sha256, sha512 } : { sha256 });

// The body of a manifest: the reports that its ECUs sign, signed by the Primary.
function built({ vehicle, primary, key, counter, reports }) {
  const envelopes = reports.map(({ key: own, ecu, counter: count, time, attack, file, length, ...hashes }) => sealed(bytes(own), canonical(
    { type: 'report', ecu, counter: count, time: moment(time), attack: attack ?? '', image: { file, length, hashes: hashesOf(hashes) } })));
  return sealed(bytes(key), canonical({ type: 'manifest', vehicle, primary, counter, reports: envelopes.map(read) }));
}

// A counter that may be signed. The greatest number never is: none would come behind it.
function raised(counter) {
  if (counter >= MOST) throw new Failed('no counter is left');
  return counter;
}

// What an ECU reports next. Where no counter is left, and nothing but the time moved, that is its last report once more.
function report(ecu, now) {
  const { file, length } = ecu.installed, { time, ...last } = ecu.last ?? {};
  const says = { ecu: ecu.ecu, attack: ecu.attack ?? '', file, length, ...hashesOf(ecu.installed) };
  if (ecu.counter + 1 < MOST || canonical(says) !== canonical(last)) {
    Object.assign(ecu, { counter: raised(ecu.counter + 1), last: { ...says, time: now } });
  }
  return { ...ecu.last, key: ecu.secret, counter: ecu.counter };
}

function manifest(vehicle, now) {
  const counter = raised(vehicle.counter + 1), reports = vehicle.ecus.map((ecu) => report(ecu, now));
  vehicle.counter = counter;
  return built({ ...vehicle, key: vehicle.ecus.find((it) => it.ecu === vehicle.primary).secret, reports });
}

// The latest time that the vehicle knows: it never goes back, nor past the year 9999.
function clock(vehicle) {
  vehicle.time = Math.max(vehicle.time ?? 0, Math.min(world.now(), LAST_SECOND));
  return vehicle.time;
}

// ---- forms: what docs/integrate/FORMATS.md says of the files, member by member

const MOST = Number.MAX_SAFE_INTEGER, LARGEST = 4_194_304;
const isLike = (pattern, value) => typeof value === 'string' && pattern.test(value);
const isText = (value, least, most) => isLike(/^[ -~]*$/, value) && value.length >= least && value.length <= most;
const isCount = (value, least = 0) => Number.isSafeInteger(value) && value >= least && !Object.is(value, -0);
const isName = (value) => isLike(/^[A-Za-z0-9._-]{1,64}$/, value);
const isFilename = (value) => isLike(/^[A-Za-z0-9._/-]{1,128}$/, value);
const isSha256 = (value) => isLike(/^[0-9a-f]{64}$/, value);
const isSha512 = (value) => isLike(/^[0-9a-f]{128}$/, value);
const isList = (value, least, most, fits) => (
  Array.isArray(value) && value.length >= least && value.length <= most && value.every(fits) && new Set(value).size === value.length);

function isMoment(value) {
  if (!isLike(/^\d{4}-\d\d-\d\dT\d\d:\d\d:\d\dZ$/, value)) return false;
  const at = Date.parse(value);
  return at >= 0 && moment(at / 1000) === value;
}

function isPlain(value) {
  try { canonical(value); return true; } catch (wrong) { if (wrong instanceof Refused) return false; throw wrong; }
}

const isSignature = (it) => isObject(it) && isText(it.keyid, 1, 128) && isText(it.method, 1, 64) && isLike(/^([0-9A-Fa-f]{2}){1,512}$/, it.sig);
const isEnvelope = (file) => (
  Array.isArray(file.signatures) && file.signatures.length >= 1 && file.signatures.length <= 8 && file.signatures.every(isSignature)
  && isObject(file.signed) && isPlain(file.signed));

function isRoot({ keys, roles }) {
  if (!isObject(keys) || !isObject(roles)) return false;
  const isRole = (it) => (
    isObject(it) && isList(it.keyids, 1, 4, (id) => typeof id === 'string' && Object.hasOwn(keys, id))
    && isCount(it.threshold, 1) && it.threshold <= it.keyids.length);
  if (!['root', ...ROLES].every((role) => isRole(roles[role]))) return false;
  const listed = new Set(['root', ...ROLES].flatMap((role) => roles[role].keyids));
  const isKey = ([id, it]) => isText(id, 1, 128) && isObject(it) && isText(it.method, 1, 64) && isText(it.public, 0, 1024) && listed.has(id);
  return Object.entries(keys).every(isKey);
}

function isTargets({ targets, repository }) {
  const isTarget = (it) => (
    isObject(it) && isFilename(it.file) && (repository !== 'director' || isName(it.ecu)) && isList(it.hardware, 1, 16, isName)
    && isObject(it.hashes) && isSha256(it.hashes.sha256) && isCount(it.length) && isCount(it.release));
  if (!Array.isArray(targets) || !targets.every(isTarget)) return false;
  return repository !== 'director' || new Set(targets.map((it) => it.ecu)).size === targets.length;
}

const named = (signed, name) => (isObject(signed.meta) && isObject(signed.meta[name]) ? signed.meta[name] : {});
const FORMS = {
  root: isRoot,
  targets: isTargets,
  snapshot: (signed) => isCount(named(signed, 'targets.json').version, 1),
  timestamp(signed) {
    const { hashes, version } = named(signed, 'snapshot.json');
    return isObject(hashes) && isSha256(hashes.sha256) && isCount(version, 1);
  },
};

function checkForm(file, role, what) {
  const { signed } = file;
  const fits = file.text.length <= LARGEST && isEnvelope(file) && isWhole(memberTexts(file.text).signed) && signed.type === role
    && (signed.repository === 'director' || signed.repository === 'image') && isCount(signed.version, 1) && isMoment(signed.expires)
    && (signed.repository !== 'director' || role === 'root' || isName(signed.vehicle)) && FORMS[role](signed);
  expect(fits, `${what} isn't of its form`);
}

// ---- what is verified

const ROLES = ['timestamp', 'snapshot', 'targets'];
const expired = (file, now) => Date.parse(file.signed.expires) <= now * 1000;

function checkSigned(file, role, root, secrets, what) {
  const { keyids, threshold } = root.signed.roles[role], keys = { ...secrets, ...shownKeys(root) };
  const signers = new Set(keyids.filter((id) => Object.hasOwn(keys, id) && isSignedBy(file, keys[id])));
  expect(signers.size >= threshold, `${what} isn't signed by enough of its keys`);
}

// The versions that are forgotten with a new Root: those of Timestamp and Snapshot together, that of Targets alone. Whoever had a role's
// old keys may have made them far too great.
function forgotten(before, root) {
  const ids = (it, role) => canonical([...it.signed.roles[role].keyids].sort()), differs = (role) => ids(before, role) !== ids(root, role);
  return { ...(differs('timestamp') || differs('snapshot') ? { timestamp: 0, snapshot: 0 } : {}), ...(differs('targets') ? { targets: 0 } : {}) };
}

// Fetches each newer Root, and trusts it once it is verified. The latest alone must not have expired.
async function follow(trust, fetched, secrets, repository, now) {
  for (let file; (file = await fetched(`${repository}/${trust.root.signed.version + 1}.root.json`));) {
    const { root } = trust, what = `${repository} root ${root.signed.version + 1}`;
    checkForm(file, 'root', what);
    expect(file.signed.repository === repository && file.signed.version === root.signed.version + 1, `${what} is another file`);
    expect(Object.entries(file.signed.keys).every(([id, it]) => hasForm(id, it, secrets)), `${what} shows a key in another form`);
    for (const by of [root, file]) checkSigned(file, 'root', by, secrets, what);
    Object.assign(trust, { root: file, versions: { ...trust.versions, ...forgotten(root, file) } });
  }
  expect(!expired(trust.root, now), `${repository} root has expired`);
}

// That the file before names this one: the Timestamp the Snapshot, by the SHA-256 of its text and its version, and the Snapshot Targets.
function checkNamed(files, role, repository) {
  const { version } = files[role].signed;
  if (role === 'snapshot') {
    const told = named(files.timestamp.signed, 'snapshot.json'), sha256 = digest('sha256', files.snapshot.text);
    expect(told.hashes.sha256 === sha256 && told.version === version, `the ${repository} Timestamp names another Snapshot`);
  }
  const isNamed = role !== 'targets' || named(files.snapshot.signed, 'targets.json').version === version;
  expect(isNamed, `the ${repository} Snapshot names other Targets`);
}

// The versions of a repository's three files, once they are verified. That it has expired is the last that is looked at of a file.
function checkFiles(trust, files, secrets, repository, now, vehicle) {
  for (const role of ROLES) {
    const file = files[role], what = `${repository} ${role}`;
    checkForm(file, role, what);
    checkNamed(files, role, repository);
    checkSigned(file, role, trust.root, secrets, what);
    expect(file.signed.repository === repository && (!vehicle || file.signed.vehicle === vehicle), `${what} is another file`);
    expect(file.signed.version >= (trust.versions[role] ?? 0), `${what} goes back`);
    expect(!expired(file, now), `${what} has expired`, repository === 'director' ? Old : Refused);
  }
  return Object.fromEntries(ROLES.map((role) => [role, files[role].signed.version]));
}

// The targets to install, by ECU. What the vehicle trusts is changed with it: a Root once it is verified, versions once all is.
async function verified(vehicle, reply, fetched, secrets, now) {
  const { director, image } = vehicle;
  await follow(director, fetched, secrets, 'director', now);
  const { version } = director.root.signed;
  expect(reply.vehicle === vehicle.vehicle, 'the reply is for another vehicle');
  expect(reply.root <= version, "the reply's Root isn't served");
  expect(reply.root === version, 'the reply is of an older Root', Old);
  const versions = checkFiles(director, reply, secrets, 'director', now, vehicle.vehicle);
  expect(ROLES.every((role) => versions[role] === reply.version), 'the files are of several versions');
  let due = Object.create(null);
  // (where nothing is assigned the Standard ends here: 5.4.4.2)
  if (reply.targets.signed.targets.length) {
    const { targets, versions: ofImage } = await imageRepository(image, fetched, secrets, now);
    due = checkTargets(reply.targets, targets, vehicle.ecus, vehicle.replaced ?? []);
    image.versions = ofImage;
  }
  director.versions = versions;
  return due;
}

// Files that a change of the repository mixed are fetched once more, from the Root on.
async function imageRepository(trust, fetched, secrets, now, again = true) {
  try {
    await follow(trust, fetched, secrets, 'image', now);
    const files = {};
    for (const role of ROLES) files[role] = await fetched(`image/${role}.json`);
    expect(ROLES.every((role) => files[role]), 'the Image repository lacks a file');
    return { targets: files.targets, versions: checkFiles(trust, files, secrets, 'image', now) };
  } catch (wrong) {
    if (!again || !(wrong instanceof Refused)) throw wrong;
    return imageRepository(trust, fetched, secrets, now, false);
  }
}

// A SHA-512 that isn't of its form counts as none.
const secondOf = ({ hashes }) => (isSha512(hashes.sha512) ? hashes.sha512 : null);

function checkTargets(director, image, ecus, replaced) {
  const due = Object.create(null), parts = (it) => canonical([it.file, it.length, it.hashes.sha256, secondOf(it), it.hardware, it.release]);
  for (const target of director.signed.targets) {
    const ecu = ecus.find((it) => it.ecu === target.ecu);
    expect(ecu || !replaced.includes(target.ecu), `${target.ecu} was replaced`, Old);
    expect(ecu, `${target.ecu} is no ECU of this vehicle`);
    expect(image.signed.targets.some((it) => parts(it) === parts(target)), `the Image repository has no such ${target.file}`);
    expect(target.hardware.includes(ecu.hardware), `${target.file} isn't for ${ecu.ecu}`);
    expect(target.release >= (ecu.installed.release ?? 0), `${target.file} would put ${ecu.ecu} back`);
    due[ecu.ecu] = target;
  }
  return due;
}

function checkImage(target, content) {
  expect(content.length === target.length, `${target.file} has another length`);
  expect(digest('sha256', content) === target.hashes.sha256, `${target.file} has another SHA-256`);
  expect(!secondOf(target) || digest('sha512', content) === secondOf(target), `${target.file} has another SHA-512`);
}

// ---- rounds

const WAITS = [1, 3, 9, 0], PATIENCE = 100_000, INTERVAL = 86_400, SOON = 300, LAST_SECOND = 253_402_300_799;
const between = (least, most) => least + Math.random() * (most - least);

// What the vectors of rounds put others in the place of: one answer, of at most a byte more than a file may have, the clock, and a wait.
const world = {
  async exchanged(url, body) {
    const came = await fetch(url, { method: body ? 'POST' : 'GET', body, redirect: 'manual', signal: AbortSignal.timeout(PATIENCE) }), pieces = [];
    let length = 0;
    for await (const piece of came.body ?? []) {
      pieces.push(piece);
      if ((length += piece.length) > LARGEST) break;
    }
    return { status: came.status, text: Buffer.concat(pieces).toString('utf8') };
  },
  now: () => Math.floor(Date.now() / 1000),
  takes: () => true, // whether an ECU installs an image: here each one does
  sleep: (seconds) => new Promise((done) => setTimeout(done, seconds * 1000)),
};

// What a Primary does after an answer: `read` it; send the same `again`, since the answer is no verdict on it; raise the manifest's
// `counter`, or that of an ECU's `report`; or nothing until somebody has made good what the answer names.
function follows(status, text) {
  let told;
  try { told = JSON.parse(text); } catch { /* somebody else's answer */ }
  if (!isObject(told)) return ['again', null];
  if (status === 200) return ['read', null];
  const { error, text: words } = told;
  if (status >= 500 || !Number.isInteger(error) || error < 1 || [1, 2, 3, 8].includes(error) || typeof words !== 'string') return ['again', null];
  const value = words.slice(words.split(' ')[0].length + 1);
  if (error === 13 && /^\d{1,16}$/.test(value) && Number(value) <= MOST) return ['counter', Number(value)];
  return error === 18 && isName(value) ? ['report', value] : ['mend', error];
}

// What an answer to a GET is: the file, to be `read`; `none`, where the repository has none of this name; the same `again`; or the `end` of
// the round, without a verdict.
function ofGet(status, text) {
  const [what, value] = follows(status, text);
  if (what === 'read' || what === 'again') return what;
  return status === 404 && value === 29 ? 'none' : 'end';
}

async function asked(url, body) {
  for (const wait of WAITS) {
    try {
      const { status, text } = await world.exchanged(url, body);
      expect(Buffer.byteLength(text) <= LARGEST, `${url} has no end`);
      const [what, value] = follows(status, text);
      if (what !== 'again') return { status, text, what, value };
    } catch (wrong) { if (wrong instanceof Refused || wrong instanceof Stopped) throw wrong; /* else there was no answer */ }
    if (wait) await world.sleep(wait * between(1, 1.5));
  }
  throw new Failed(`no answer from ${url}`);
}

// A file that is too large has another form, which is looked at in its turn.
const fetcher = (url) => async (name) => {
  let came;
  try { came = await asked(`${url}/${name}`); } catch (wrong) {
    if (wrong instanceof Refused) return fileOf('{}');
    throw wrong;
  }
  const { status, text } = came, what = ofGet(status, text);
  if (what === 'end') throw new Failed(`${name}: ${status} ${text.slice(0, 200)}`);
  return what === 'read' ? fileOf(text) : null;
};

// What is to be installed by the reply to this round's manifest. A manifest is kept until it was answered; then its bytes aren't sent again,
// since they would only bring the same reply. One new manifest follows at once behind a reply that is old, and one in the next round behind
// a reply that is refused.
async function answered(vehicle, url, save) {
  const secrets = Object.fromEntries((vehicle.role_secrets ?? []).map((it) => [keyid(bytes(it)), bytes(it)]));
  let isSecond = false;
  for (let turn = 0; turn < 2 + 2 * vehicle.ecus.length; turn += 1) {
    const now = clock(vehicle);
    vehicle.pending ??= manifest(vehicle, now);
    save();
    let status, text, what, value;
    try {
      ({ status, text, what, value } = await asked(`${url}/director/manifest`, vehicle.pending));
      if (what === 'read') return await verified(vehicle, replyOf(text), fetcher(url), secrets, clock(vehicle));
    } catch (wrong) {
      if (wrong instanceof Refused) vehicle.pending = null;
      if (!(wrong instanceof Old)) throw wrong;
      expect(!isSecond, `the service's replies stay old, or the clock is wrong: ${wrong.message}`);
      console.log(`again with a new manifest: ${wrong.message}`);
      isSecond = true;
    }
    vehicle.pending = null;
    if (what === 'counter') vehicle.counter = Math.max(vehicle.counter, raised(value + 1) - 1);
    // (no one says what an ECU's last counter was: the next is the time, or twice what was refused, which comes above any other in a few tries;
    // what was refused is never sent again)
    else if (what === 'report') {
      for (const it of vehicle.ecus.filter((one) => one.ecu === value)) {
        it.last = {};
        it.counter = raised(Math.max(2 * it.counter, now, 1)) - 1;
      }
    }
    else if (what === 'mend') throw new Failed(`${status} ${text}`);
  }
  throw new Failed('the service goes on refusing the counters');
}

// A filename is not a path: `/` and a first `.` are written as %2F and %2E.
const pathOf = (images, file) => join(images, encodeURIComponent(file).replace(/^\./, '%2E'));

const imagesIn = (folder) => (file) => (folder && existsSync(pathOf(folder, file)) ? readFileSync(pathOf(folder, file)) : null);

// Whether an ECU has its target's image already. A SHA-512 that only one of them has makes no difference.
function has({ installed: own }, { file, length, hashes, release }) {
  const second = secondOf({ hashes }) ?? own.sha512;
  return own.file === file && own.length === length && own.sha256 === hashes.sha256 && (own.sha512 ?? second) === second && own.release === release;
}

// Installs all that is due and isn't there, in the order of Targets, once each image can be had and is what was meant: one may need another.
// So none follows one that failed. Returns how many were installed, and nothing where one wasn't.
function install(vehicle, due, image) {
  const ecus = Object.keys(due).map((name) => vehicle.ecus.find((it) => it.ecu === name)).filter((it) => !has(it, due[it.ecu]));
  const contents = ecus.map((it) => image(due[it.ecu].file));
  ecus.forEach(({ ecu }, at) => {
    if (contents[at] === null) console.log(`${ecu} is to install ${due[ecu].file}, which isn't here yet`);
    else checkImage(due[ecu], contents[at]);
  });
  if (contents.includes(null)) return null;
  for (const [at, it] of ecus.entries()) {
    const target = due[it.ecu];
    if (!world.takes(it.ecu, contents[at])) {
      console.log(`${it.ecu} failed to install ${target.file}`);
      return null;
    }
    it.installed = { file: target.file, length: target.length, ...hashesOf(target.hashes), release: target.release };
    console.log(`${it.ecu} installed ${target.file}`);
  }
  return ecus.length;
}

function write(path, vehicle) {
  writeFileSync(`${path}.new`, `${JSON.stringify(vehicle, null, 1)}\n`, { mode: 0o600 });
  renameSync(`${path}.new`, path);
}

// A round, and what `install` returns. What is wrong with the metadata or an image is told in the Primary's own report, until metadata is
// accepted again.
async function went(vehicle, url, save, image) {
  const own = vehicle.ecus.find((it) => it.ecu === vehicle.primary);
  try {
    const due = await answered(vehicle, url, save);
    Object.assign(vehicle, { pending: null });
    own.attack = '';
    save();
    const installed = install(vehicle, due, image);
    console.log(`verified: version ${vehicle.director.versions.targets}, targets ${Object.keys(due).length}`);
    return installed;
  } catch (wrong) {
    if (wrong instanceof Refused) own.attack = wrong.message.replace(/[^ -~]/g, '').slice(0, 256);
    throw wrong;
  } finally { save(); }
}

async function round(url, path, images) {
  const vehicle = read(readFileSync(path, 'ascii'));
  method = vehicle.method ?? method;
  return went(vehicle, url, () => write(path, vehicle), imagesIn(images));
}

// The seconds until the next round, behind so many that failed in a row. They differ at random, so that a fleet doesn't come at one moment.
function pause(failed, installed) {
  if (!failed && !installed) return between(0.9, 1.1) * INTERVAL;
  return between(0.5, 1) * Math.min(INTERVAL, SOON * 2 ** Math.max(failed - 1, 0));
}

// Goes a round: how many have failed in a row by then, and the seconds until the next. An image that isn't there is a failure too.
async function behind(go, before) {
  let installed = null;
  try { installed = await go(); } catch (wrong) {
    if (wrong instanceof Stopped) throw wrong;
    console.error(`primary: ${wrong.message}`);
  }
  const failed = installed === null ? before + 1 : 0;
  return [failed, pause(failed, installed)];
}

async function rounds(...words) {
  for (let failed = 0, wait = 0; ;) {
    [failed, wait] = await behind(() => round(...words), failed);
    console.log(`the next round is in ${Math.floor(wait / 60)} minutes`);
    await world.sleep(wait);
  }
}

async function trust(url, path) {
  const vehicle = read(readFileSync(path, 'ascii')), fetched = fetcher(url);
  for (const repository of ['director', 'image']) {
    const root = await fetched(`${repository}/1.root.json`);
    expect(root?.signed, `${repository} has no 1.root.json`);
    vehicle[repository] = { root, versions: {} };
  }
  write(path, vehicle);
  console.log('trusted: root version 1 of both repositories');
}

// ---- vectors

async function vectors(folder) {
  const load = (name) => JSON.parse(readFileSync(join(folder, `${name}.json`), 'ascii'));
  // what a call gives, and nothing where it refuses
  const got = (call) => { try { return call(); } catch (wrong) { if (wrong instanceof Refused) return null; throw wrong; } };
  let tried = 0, other = 0;
  const compare = (name, had, wanted) => {
    tried += 1;
    if (JSON.stringify(had) === JSON.stringify(wanted)) return;
    other += 1;
    console.log(`${name}: ${JSON.stringify(had)}, not ${JSON.stringify(wanted)}`);
  };
  for (const it of load('canonical_texts').cases) compare(it.name, got(() => canonical(read(it.text))), it.canonical ?? null);
  for (const it of load('answers').cases) compare(it.name, follows(it.status, it.body), [it.then, it.value ?? null]);
  for (const it of load('answers').files) compare(it.name, ofGet(it.status, it.body), it.then);
  for (const it of load('key_identifiers').cases) compare(it.name, keyid(bytes(it.public)), it.keyid);
  for (method of Object.keys(schemes)) {
    signatures(load(`${method}/signatures`), compare);
    for (const it of load(`${method}/manifests`).builds) compare(it.name, built(it.build), it.body);
    await chains(load(`${method}/chains`), compare, got);
    await ofRounds(load(`${method}/rounds`), compare);
  }
  console.log(`${tried - other} passed, ${other} failed`);
  return other ? 1 : 0;
}

function signatures(vector, compare) {
  const scheme = schemes[method];
  for (const it of vector.signatures) {
    const [secret, data] = [bytes(it.secret), bytes(it.data)];
    compare(it.name, [scheme.publicOf(secret).toString('hex'), scheme.sign(secret, data).toString('hex')], [it.public, it.sig]);
  }
  for (const it of vector.encodings ?? []) compare(it.name, scheme.verify(bytes(it.public), bytes(it.data), bytes(it.sig)), it.verified);
  for (const it of vector.envelopes.filter((it) => 'signed_by_the_key' in it)) {
    compare(it.name, isSignedBy(read(it.envelope), bytes(vector.key)), it.signed_by_the_key);
  }
}

async function chains(vector, compare, got) {
  const secrets = Object.fromEntries(Object.entries(vector.vehicle.role_keys).map(([id, key]) => [id, bytes(key)]));
  for (const it of vector.cases) {
    const texts = { ...vector[`files of ${it.base}`], ...it.replace };
    const fetched = async (name) => (texts[name] ? fileOf(texts[name]) : null);
    const known = (repository) => ({ root: read(texts[`${repository}/1.root.json`]), versions: { ...it.trusted?.[repository] } });
    const ecus = vector.vehicle.ecus.map((ecu) => (
      { ...ecu, hardware: it.hardware?.[ecu.ecu] ?? ecu.hardware, installed: { ...ecu.installed, ...it.installed?.[ecu.ecu] } }));
    for (const ecu of ecus) ecu.ecu = it.replaced?.[ecu.ecu] ?? ecu.ecu;
    const vehicle = { ...vector.vehicle, ecus, replaced: Object.keys(it.replaced ?? {}), director: known('director'), image: known('image') };
    let verdict;
    try {
      const due = await verified(vehicle, replyOf(texts.reply), fetched, secrets, it.now ?? vector.now);
      verdict = ['accepted', Object.fromEntries(Object.entries(due).map(([ecu, target]) => [ecu, target.file]))];
    } catch (wrong) {
      if (!(wrong instanceof Refused)) throw wrong;
      verdict = [wrong instanceof Old ? 'old' : 'refused'];
    }
    for (const [repository, state] of Object.entries(it.state ?? {})) {
      const { root, versions } = vehicle[repository];
      compare(`${it.attack}: ${it.name}: what is trusted`, { root: root.signed.version, timestamp: 0, snapshot: 0, targets: 0, ...versions }, state);
    }
    compare(`${it.attack}: ${it.name}`, verdict, it.verdict === 'accepted' ? ['accepted', it.installs ?? vector.installs] : [it.verdict]);
  }
  for (const it of vector.contents) compare(it.name, got(() => checkImage(it.target, Buffer.from(it.content))) !== null, it.verdict === 'accepted');
}

// A case of rounds: what is seen of each, in the form in which the case has what is due.
async function ofRounds(told, compare) {
  const own = { ...world }, { log, error } = console;
  for (const it of told.cases) {
    const vehicle = knownAt(told, it), seen = [];
    let failed = it.knows?.failed ?? 0, latest = 0, last = { counter: vehicle.counter, counters: {} }, kept = vehicle;
    for (const ecu of vehicle.ecus) last.counters[ecu.ecu] = ecu.counter;
    // what a report has of an image: of what each ECU has, and of what it is to have
    const shown = ({ file, length, hashes }) => ({ file, length, hashes }), { targets } = JSON.parse(told.texts.update).targets.signed;
    const has = Object.fromEntries(told.vehicle.ecus.map(({ ecu, installed }) => [ecu, shown({ ...installed, ...it.knows?.installed?.[ecu] })]));
    Object.assign(console, { log() {}, error() {} });
    for (const due of it.rounds) {
      const known = structuredClone(kept), line = lineOf(told, due);
      for (const repository of ['director', 'image']) withText(known[repository].root, '');
      for (const ecu of known.ecus.filter((one) => due.replaced?.[one.ecu])) {
        (known.replaced ??= []).push(ecu.ecu);
        has[due.replaced[ecu.ecu]] = has[ecu.ecu];
        delete has[ecu.ecu];
        Object.assign(ecu, { ecu: due.replaced[ecu.ecu], counter: 0 });
      }
      const before = Object.fromEntries(known.ecus.map((one) => [one.ecu, one.installed.file])), images = { ...told.images, ...due.images };
      kept = structuredClone(known);
      const save = () => { if (line.isUp) kept = structuredClone(known); };
      const image = (file) => {
        line.isUp = images[file] !== 'stop';
        if (!line.isUp) throw new Stopped('stop');
        return typeof images[file] === 'string' ? Buffer.from(images[file]) : null;
      };
      let verdict = null, wait = null;
      const now = due.now ?? told.now;
      latest = Math.max(latest, Math.min(now, LAST_SECOND));
      Object.assign(world, { exchanged: line.exchanged, now: () => now, takes: (ecu) => !due.fails?.includes(ecu), sleep: async (seconds) => { line.waits.push(seconds); } });
      const go = async () => {
        try {
          const done = await went(known, 'http://desk', save, image);
          verdict = 'accepted';
          return done;
        } catch (wrong) {
          if (wrong instanceof Refused) verdict = 'refused';
          throw wrong;
        }
      };
      try { [failed, wait] = await behind(go, failed); } catch { [failed, verdict] = [0, 'stopped']; }
      const sent = line.sent.map((body, at) => {
        const [is, next] = sentAs(body, due.sent[at] ?? {}, last, { has, own: vehicle.primary, now, latest });
        last = next;
        return is;
      });
      const isIn = (value, bounds) => (bounds ? value !== null && value >= bounds[0] && value <= bounds[1] : value === null);
      const installed = known.ecus.filter((one) => one.installed.file !== before[one.ecu]).map((one) => [one.ecu, one.installed.file]);
      for (const one of targets.filter((target) => installed.some(([ecu]) => ecu === target.ecu))) has[one.ecu] = shown(one);
      const waits = line.waits.map((value, at) => (isIn(value, [due.waits[at], 1.5 * due.waits[at]]) ? due.waits[at] : value));
      const states = Object.keys(due.trusts ?? {}).map((one) => (
        [one, { root: kept[one].root.signed.version, timestamp: 0, snapshot: 0, targets: 0, ...kept[one].versions }]));
      seen.push([sent, verdict, waits, isIn(wait, due.next) ? due.next : wait, Object.fromEntries(installed),
        due.fetched ? line.fetched : null, Object.fromEntries(states)]);
    }
    Object.assign(console, { log, error });
    compare(`rounds: ${it.name}`, seen, it.rounds.map((due) => (
      [due.sent, due.verdict, due.waits, due.next, due.installs ?? {}, due.fetched ?? null, due.trusts ?? {}])));
  }
  Object.assign(world, own);
}

function knownAt({ vehicle: { role_keys: keys, ...vehicle }, files }, { knows = {} }) {
  const known = (repository) => ({ root: read(files[`${repository}/1.root.json`]), versions: { ...knows.trusted?.[repository] } });
  const ecus = vehicle.ecus.map(({ installed, ...ecu }) => {
    const { hashes, ...own } = { ...installed, ...knows.installed?.[ecu.ecu] };
    return { ...ecu, installed: { ...own, ...hashes }, counter: knows.counters?.[ecu.ecu] ?? ecu.counter };
  });
  const more = { role_secrets: Object.values(keys), director: known('director'), image: known('image') };
  return { ...vehicle, ecus, counter: knows.counter ?? vehicle.counter, ...more };
}

// What answers a round as its vector says, and notes what is sent and fetched.
function lineOf(told, due) {
  const posts = [...due.answers], gets = structuredClone(due.gets ?? {}), line = { isUp: true, sent: [], waits: [], fetched: {} };
  const fileAt = (name) => {
    if (gets[name]) return gets[name].length > 1 ? gets[name].shift() : gets[name][0];
    return name in told.files ? { status: 200, body: told.files[name] } : { status: 404, body: '{"error":29,"text":"UnknownFile"}' };
  };
  line.exchanged = async (url, body) => {
    const name = url.replace('http://desk/', '');
    if (body) line.sent.push(body);
    else line.fetched[name] = (line.fetched[name] ?? 0) + 1;
    const came = body ? posts.shift() ?? null : fileAt(name);
    line.isUp = came !== 'stop';
    if (!line.isUp) throw new Stopped('stop');
    if (came === null) throw new Error('no answer');
    return { status: came.status, text: (came.text === undefined ? came.body : told.texts[came.text]).padEnd(came.bytes ?? 0) };
  };
  return line;
}

// What is due where the body is it, and else the body; and what was sent last from then on.
function sentAs(body, due, last, { has, own, now, latest }) {
  if (!due.new) return [body === last.body ? due : body, { ...last, body }];
  const { signed } = JSON.parse(body), reports = Object.fromEntries(signed.reports.map((it) => [it.signed.ecu, it]));
  const isReport = ([name, it]) => {
    const { counter, attack, image, time } = it.signed, least = last.counters[name] ?? -1;
    const isSame = JSON.stringify(it) === JSON.stringify(last.reports?.[name]) && due.fresh !== name;
    const isCounter = (least < counter && counter < MOST && time === moment(latest)) || isSame;
    const isRaised = (due.raised !== name || counter === Math.max(2 * least, now)) && (due.counters?.[name] ?? counter) === counter;
    return isCounter && isRaised && (attack !== '') === (name === own && due.attack) && canonical(image) === canonical(has[name]);
  };
  const isAll = signed.reports.length === Object.keys(has).length && Object.entries(reports).every(isReport);
  const is = isAll && signed.counter > Math.max(last.counter, due.above ?? 0) && signed.counter < (due.below ?? MOST);
  const counters = Object.fromEntries(Object.entries(reports).map(([name, it]) => [name, it.signed.counter]));
  return [is ? due : body, { body, counter: signed.counter, counters, reports }];
}

// ---- words

const [word, ...given] = process.argv.slice(2);
try {
  if (word === 'vectors' && given.length === 1) process.exitCode = await vectors(given[0]);
  else if (word === 'trust' && given.length === 2) await trust(...given);
  else if (word === 'round' && (given.length === 2 || given.length === 3)) await round(...given);
  else if (word === 'rounds' && (given.length === 2 || given.length === 3)) await rounds(...given);
  else {
    console.error('primary.mjs vectors FOLDER | trust URL VEHICLE | round URL VEHICLE [IMAGES] | rounds URL VEHICLE [IMAGES]');
    process.exitCode = 2;
  }
} catch (wrong) {
  console.error(`primary: ${wrong.message}`);
  process.exitCode = 1;
}

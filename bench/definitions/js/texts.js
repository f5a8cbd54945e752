// The events of a schedule as definitions have them, and the lines of a trace, as texts.py has them for Python.
'use strict';

const PHASE = {
  Booting: 'booting', Probing: 'probing', Synchronizing: 'synchronizing', Electing: 'electing', Collecting: 'collecting', Previous: 'previous',
  Active: 'active', Updating: 'updating', Peon: 'peon',
};
const TIMER = {
  probe: 'Probe', election: 'Election', collect: 'Collect', accept: 'Accept', renew: 'Renew', leaseack: 'LeaseAck', lease: 'Lease', sync: 'Sync',
  step: 'Step', propose: 'Propose', ping: 'Ping',
};
const NAMES = {
  Probe: 'PROBE', ProbeReply: 'PROBE_REPLY', Propose: 'PROPOSE', Ack: 'ACK', Victory: 'VICTORY', Collect: 'COLLECT', Last: 'LAST', Begin: 'BEGIN',
  Accept: 'ACCEPT', Commit: 'COMMIT', Lease: 'LEASE', LeaseAck: 'LEASE_ACK', Forward: 'FORWARD', Route: 'ROUTE', GetCookieFull: 'GET_COOKIE_FULL',
  GetCookieRecent: 'GET_COOKIE_RECENT', Cookie: 'COOKIE', GetChunk: 'GET_CHUNK', Chunk: 'CHUNK', LastChunk: 'LAST_CHUNK', NoCookie: 'NO_COOKIE',
  Ping: 'PING', PingReply: 'PING_REPLY',
};
const RANKS = Array.from({length: 15}, (_, rank) => rank);

// The first words of a text, and the rest of it.
function splitAt(text, count) {
  const words = [];
  while (words.length < count && text.includes(' ')) {
    const at = text.indexOf(' ');
    words.push(text.slice(0, at));
    text = text.slice(at + 1);
  }
  return [...words, text];
}

const serviceOf = name => $single(name === 'kv' ? 'Kv' : 'Log');

function requestOf(kind, rest = '') {
  if (kind === 'set') return $made('Set', splitAt(rest, 1).map($encoded));
  if (kind === 'remove') return $made('Remove', [$encoded(rest)]);
  if (kind === 'log') return $made('Log', [$encoded(rest)]);
  if (kind === 'show') return $made('Show', [serviceOf(rest)]);
  const [service, version] = rest.split(' ');
  return $made('Since', [serviceOf(service), $number(version)]);
}

function ruleOf(text) {
  const ranks = text.includes('=') ? text.split('=')[1].split(',').map(Number) : [], members = RANKS.map(rank => ranks.includes(rank));
  return text === 'classic' ? $single('Classic') : $made(text.startsWith('dis') ? 'Disallow' : 'Connectivity', [members]);
}

function monitorsOf(line) {
  const words = line.split(' ');
  return {count: Number(words[1]), most: $refl, rule: ruleOf(words[2])};
}

function plainOf(line) {
  const words = line.split(' ');
  if (words[0] === 'start') return $made('Start', [Number(words[1]), $number(words[2])]);
  if (words[0] === 'deliver') return $made('Deliver', [$number(words[1]), $number(words[2])]);
  if (words[0] === 'timer') return $made('Timer', [Number(words[1]), $single(TIMER[words[2]]), $number(words[3])]);
  const [, rank, at, client, id, kind, rest] = splitAt(line, 6);
  return $made('Client', [Number(rank), $number(at), {client: $number(client), id: $number(id)}, requestOf(kind, rest)]);
}

function eventOf(line) {
  const [kind, disk, call, image, plain] = splitAt(line, 4);
  if (kind !== 'crash' && kind !== 'fail') return $made('Plain', [plainOf(line)]);
  return $made(kind === 'crash' ? 'Crash' : 'Fail', [$single(disk.toUpperCase()), $number(call), $number(image), plainOf(plain)]);
}

// ---- traces

const ranksText = members => RANKS.filter(rank => members[rank]).join(',') || '-';
const cookieText = cookie => `${cookie.boot}.${cookie.seq}`;
const keyText = key => (key.name === 'Start' || key.name === 'Done' ? key.name.toLowerCase() : `${$octets(key.args[0])}/${$octets(key.args[1])}`);
const bit = value => (typeof value === 'boolean' ? Number(value) : value);

function chunkText(last, [cookie, place, values, entries, end]) {
  const where = `cookie=${cookieText(cookie)} at=${place.version} key=${keyText(place.key)}`;
  return ` ${where} values=${values.length} keys=${entries.length} ${last}=${bit(end)}`;
}

const FIELDS = {
  ProbeReply: ([quorum, first, last]) => ` quorum=${ranksText(quorum)} first=${first} last=${last}`,
  Victory: ([quorum]) => ` quorum=${ranksText(quorum)}`,
  Collect: ([pn, first, last]) => ` pn=${pn} first=${first} last=${last}`,
  Last: ([pn, first, last, whole, , values, pending]) =>
    ` pn=${pn} first=${first} last=${last} whole=${bit(whole)} values=${values.length} pending=${pending.args.length ? pending.args[0].pn : 0}`,
  Begin: ([pn, v]) => ` pn=${pn} v=${v}`,
  Accept: ([pn, v]) => ` pn=${pn} v=${v}`,
  Commit: ([start, values]) => ` v=${start}..${$difference($sum(start, values.length), 1)}`,
  Lease: ([last]) => ` last=${last}`,
  LeaseAck: ([last]) => ` last=${last}`,
  GetCookieRecent: ([last]) => ` last=${last}`,
  Forward: ([seq]) => ` seq=${seq}`,
  Route: ([seq]) => ` seq=${seq}`,
  Cookie: ([full, cookie, last]) => ` full=${bit(full)} cookie=${cookieText(cookie)} last=${last}`,
  GetChunk: ([cookie, place]) => ` cookie=${cookieText(cookie)} at=${place.version} key=${keyText(place.key)}`,
  Chunk: args => chunkText('done', args),
  LastChunk: args => chunkText('last', args),
  NoCookie: ([cookie]) => ` cookie=${cookieText(cookie)}`,
};
const fieldsText = body => (FIELDS[body.name] ? FIELDS[body.name](body.args) : '');

function mapText(shown) {
  const quoted = octets => JSON.stringify($decoded($octets(octets)));
  if (shown.name === 'Kv') return `{${shown.args[0].sorted().map(([key, value]) => `${quoted(key)}:${quoted(value)}`).join(',')}}`;
  return `[${$items(shown.args[0]).map(entry => `[${entry.rank},${quoted(entry.text)}]`).join(',')}]`;
}

const REPLIES = {
  Done: ([version]) => `done ${version}`,
  Shown: ([service, paxos, version, shown]) => `shown ${service.name.toLowerCase()} paxos=${paxos} version=${version} ${mapText(shown)}`,
  Since: ([service, at, changes, more]) =>
    `since ${service.name.toLowerCase()} from=${at} to=${$sum(at, changes.length)} count=${changes.length} more=${bit(more)}`,
  NoSuch: () => 'nosuch',
  TooLong: ([length, most]) => `toolong len=${length} most=${most}`,
  MapFull: ([wouldBe]) => `mapfull would_be=${wouldBe}`,
  Unavailable: () => 'unavailable',
  NotReadable: ([has, lease]) => `notreadable has=${bit(has)} lease=${bit(lease)}`,
  Busy: ([waiting]) => `busy waiting=${waiting}`,
};
const replyText = reply => REPLIES[reply.name](reply.args);

function outcomeLine({name, args}) {
  if (name === 'Crashed' || name === 'Failed') return [`  ${name.toLowerCase()} ${args[0] ? 'kept' : 'lost'}`];
  return name === 'Down' ? ['  down'] : name === 'NoMessage' ? ['  none'] : [];
}

// The lines of a step, as a trace has them.
function linesOf(step) {
  const found = outcomeLine(step.outcome);
  if (step.ops > 0) found.push(`  store ${step.ops}`);
  for (const state of step.state.args) found.push(`  is ${PHASE[state.phase.name]} epoch ${state.epoch} last ${state.last}`);
  for (const {number, to, message} of $items(step.sent)) {
    found.push(`  send ${number} ${message.from}>${to} ${NAMES[message.body.name]} e=${message.epoch}${fieldsText(message.body)}`);
  }
  for (const {rank, session, reply} of $items(step.replies)) found.push(`  reply ${rank} ${session.client}.${session.id} ${replyText(reply)}`);
  return found;
}

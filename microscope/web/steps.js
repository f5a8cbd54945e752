// What an event did: its lines, what it changed in each monitor, and why a row dropped its input. played.py has the same in Python.
'use strict';

const PREFIXES = ['paxos', 'monitor', 'mon_sync', 'kv', 'logm'], LONGEST = 60;

// Bytes as Python shows them.
function quotedBytes(octets) {
  const isQuoted = octets.includes("'") && octets.includes('"');
  return octets.replace(/[^ -~]|['\\]/g, letter => {
    if (letter === "'") return isQuoted ? "\\'" : letter;
    if (letter === '\\') return '\\\\';
    return {'\t': '\\t', '\n': '\\n', '\r': '\\r'}[letter] || `\\x${letter.charCodeAt(0).toString(16).padStart(2, '0')}`;
  });
}

// A value of the definitions as text.
function shownValue(value) {
  if (typeof value === 'boolean') return value ? 'yes' : 'no';
  if ($isNumber(value)) return String(value);
  if (typeof value === 'string') {
    const text = quotedBytes(value);
    return text.length <= LONGEST ? text : `${text.slice(0, LONGEST)}.. (${value.length} bytes)`;
  }
  if (value instanceof $Made) return shownMade(value);
  if (Array.isArray(value) || value instanceof $Long) return shownList($items(value));
  return `{${Object.entries(value).map(([name, part]) => `${name} ${shownValue(part)}`).join(', ')}}`;
}

function shownMade({name, args}) {
  if (name === 'None' || name === 'Some') return args.length ? shownValue(args[0]) : '-';
  return name.toLowerCase() + (args.length ? `(${args.map(shownValue).join(', ')})` : '');
}

function shownList(items) {
  if (items.length === 15 && items.every(item => typeof item === 'boolean')) return `{${RANKS.filter(rank => items[rank]).join(',')}}`;
  return `[${items.map(shownValue).join(', ')}]`;
}

const isRecord = value => typeof value === 'object' && !(value instanceof $Made) && !(value instanceof $Long) && !(value instanceof $Map) && !Array.isArray(value);

// The parts of a monitor's state that aren't in its store, each as text.
function remembered(state) {
  if (state === null) return {up: 'no'};
  const found = {up: 'yes'};
  for (const [part, value] of Object.entries(state)) {
    if (part === 'timers') value.forEach((timer, place) => { found[`timer ${TIMERS[place]}`] = timer.args.length ? `at ${timer.args[0]}` : 'off'; });
    else if (!isRecord(value)) found[part] = shownValue(value);
    else for (const [name, field] of Object.entries(value)) if (name !== 'scores') found[`${part}.${name}`] = shownValue(field);
  }
  return found;
}

// The numbers of a monitor's store.
function numbersOf(store) {
  const found = {};
  for (const [place, value] of store.entries) {
    const [prefix, key] = place.split('\0');
    if (PREFIXES.includes(prefix) && value.length === 8 && !/^[0-9]+$/.test(key)) found[`store ${prefix}/${key}`] = String($little(value));
  }
  return found;
}

// What each monitor remembers and has in its store, as texts by name.
const looksOf = play => Array.from({length: play.n}, (_, rank) => ({...remembered(play.state(rank)), ...numbersOf(play.world.store(rank))}));

// Each change between two looks: [monitor, part, before, after].
function changesBetween(before, after) {
  return after.flatMap((now, rank) => {
    const parts = Object.keys({...before[rank], ...now}).filter(part => before[rank][part] !== now[part]);
    return parts.map(part => [rank, part, before[rank][part] ?? '-', now[part] ?? '-']);
  });
}

// The event of a line after a run, which isn't changed. `before` are the looks of that run, if they are known.
function stepAfter(played, line, before = looksOf(played)) {
  const play = played.copy(), number = play.events + 1;
  $drops.length = 0;
  if (!play.take(line)) throw new Refused(`line ${number + 1}, ${line}: the run stops there, ${shownValue(play.stop)}`);
  const looks = looksOf(play), isCrash = play.trace.some(text => text.startsWith('  crashed ')), seen = new Set(), drops = [];
  for (const drop of $drops) {
    // A kill between two events is written as a crash in a timer that isn't set. That this timer is dropped explains nothing, so it is left out.
    const key = JSON.stringify(drop);
    if (!seen.has(key) && !(isCrash && drop.row === 'take_timer')) drops.push(drop);
    seen.add(key);
  }
  return {number, lines: play.trace, changes: changesBetween(before, looks), drops, looks, play};
}

const isIdle = step => step.changes.length === 0 && step.lines.length === 1;

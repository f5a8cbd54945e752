// A card: a short summary of what a monitor remembers and has in its store. cards.py has the same in Python.
'use strict';

const LEADING = ['Collecting', 'Previous', 'Active', 'Updating'];
const VOTES = {Electing: ['elector', 'acked'], Collecting: ['leader', 'answered'], Previous: ['leader', 'accepted'], Updating: ['leader', 'accepted'],
  Active: ['leader', 'acks']};
const VOTES_OF = {Electing: 'voted for it', Collecting: 'answered', Previous: 'accepted', Updating: 'accepted', Active: 'took the lease'};

const textOfBytes = octets => { try { return $decoded($octets(octets)); } catch (why) { return $octets(octets); } };
const shortText = (text, most = 60) => (text.length <= most ? text : `${text.slice(0, most - 1)}…`);

// The command whose value this is, as a client asks it.
function commandOf(changes) {
  for (const {name, args} of $items(changes)) {
    if (name !== 'Put' || !/^[0-9]+$/.test($octets(args[1]))) continue;
    const decode = {kv: map_kv__Decode__inc_of, logm: map_log__Decode__inc_of}[$octets(args[0])], found = decode && decode(args[2]);
    if (!found || found.name !== 'Ok') continue;
    const change = found.args[0];
    return change instanceof $Made ? [change.name.toLowerCase(), ...change.args.map(textOfBytes)].join(' ') : `log ${textOfBytes(change.text)}`;
  }
  return 'a value';
}

// The card of a monitor. A field that doesn't apply is null.
function cardOf(play, rank, now) {
  const d = play.definitions, store = play.world.store(rank), state = play.state(rank), view = d.readingsOf(store), [pending] = d.pending(view).args;
  return {
    up: state !== null, phase: 'down', epoch: d.epochOf(view), last: view.last, promise: d.promiseOf(view), map: mapOfView(d, view), marked: view.marked,
    pending: pending ? {text: shortText(commandOf(pending.value)), version: pending.version, pn: pending.pn} : null,
    leader: null, quorum: null, votes: null, votes_of: null, lease: null, valid: false, queue: 0, timers: [], leads: false,
    ...(state === null ? {} : memoryOf(state, rank, now)),
  };
}

// The fields of a running monitor's card that aren't in its store.
function memoryOf(state, rank, now) {
  const phase = state.phase.name, leads = LEADING.includes(phase), isPeon = phase === 'Peon', role = leads ? state.leader : state.peon;
  const [lease] = leads || isPeon ? role.lease.args : [];
  const found = {phase: phase.toLowerCase(), leads, leader: leads ? rank : isPeon ? role.leader : null, quorum: leads || isPeon ? ranksText(role.quorum) : null};
  if (VOTES[phase]) Object.assign(found, {votes: ranksText(state[VOTES[phase][0]][VOTES[phase][1]]), votes_of: VOTES_OF[phase]});
  if (phase === 'Electing' && state.elector.deferred.args.length) Object.assign(found, {votes: String(state.elector.deferred.args[0]), votes_of: 'it voted for'});
  if (lease !== undefined) Object.assign(found, {lease, valid: now < lease});
  found.queue = state.clients.queue.length;
  found.timers = TIMERS.map((name, place) => [name, state.timers[place]]).filter(([, timer]) => timer.args.length).map(([name, timer]) => [name, timer.args[0]]);
  return found;
}

// Both maps, in at most 80 letters.
function mapOfView(d, view) {
  const [pairs] = d.readMap(view, $single('Kv')).args, [texts] = d.readMap(view, $single('Log')).args;
  const found = pairs.sorted().map(([key, value]) => `${key}=${textOfBytes(value)}`);
  return shortText([...found, ...$items(texts).map(entry => `"${textOfBytes(entry.text)}"`)].join(', '), 80);
}

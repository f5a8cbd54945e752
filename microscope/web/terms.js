// The terms of the protocol: what each means, and the word of the field for it.
'use strict';

const TERMS = {
  monitor: ['node', 'A process that keeps the log and its maps on two disks.'],
  down: ['down', 'It does not run. What its disks hold stays.'],
  booting: ['starting', 'It has just been started.'],
  probing: ['discovering', 'It asks the other monitors how far they are.'],
  synchronizing: ['catching up', 'It copies the store of another monitor, since its own is too old.'],
  electing: ['candidate or voter', 'It takes part in an election.'],
  collecting: ['preparing', 'A leader that asks its quorum what they accepted, and for their promise.'],
  previous: ['recovering', 'A leader that commits a value that an earlier leader began.'],
  active: ['leader', 'It leads, and takes writes.'],
  updating: ['leader, writing', 'It leads, and a value is under way.'],
  peon: ['follower', 'A member of a quorum that does not lead.'],
  epoch: ['term', 'Counts elections. It is even between elections, and odd within one.'],
  last: ['commit index', 'The last version of the log that the monitor knows to be committed.'],
  promised: ['promised ballot', 'The greatest proposal number that it promised. It refuses values under lower ones.'],
  leader: ['leader', 'The monitor whose values this one accepts.'],
  quorum: ['quorum', 'The monitors that elected the leader. All of them must accept a value, since each of them may answer reads.'],
  votes: ['votes', 'Who answered this candidate or leader so far.'],
  'voted for': ['voted for', 'The candidate to which it gave its vote in this election.'],
  accepted: ['accepted, not committed', 'The value that it accepted last, of which it does not know yet that it is committed.'],
  map: ['state machine', 'What the committed log makes of the two maps that clients read.'],
  lease: ['read lease', 'Until this time it may answer reads by itself. A leader renews it.'],
  queue: ['queue', 'Commands that wait until the value before them is committed.'],
  timers: ['timeouts', 'What it does by itself at a time, unless something else happens before.'],
  PROBE: ['discover', 'Asks another monitor how far it is.'], PROBE_REPLY: ['discovered', 'Says how far a monitor is.'],
  PROPOSE: ['request vote', 'A candidate asks for a vote.'], ACK: ['vote', 'A vote for the candidate.'], VICTORY: ['new leader', 'The candidate has won, with this quorum.'],
  COLLECT: ['prepare', 'Phase 1a of Paxos: asks for a promise, and for what was accepted.'], LAST: ['promise', 'Phase 1b: the promise, with what was accepted and committed.'],
  BEGIN: ['accept', 'Phase 2a: asks to accept a value under a proposal number.'], ACCEPT: ['accepted', 'Phase 2b: the value is accepted, and on disk.'],
  COMMIT: ['commit', 'The value is chosen: all of the quorum accepted it.'], LEASE: ['heartbeat', 'Renews the read lease.'], LEASE_ACK: ['heartbeat ok', 'The lease was taken.'],
  FORWARD: ['forward', 'A command of a client, on its way to the leader.'], ROUTE: ['forwarded reply', 'The answer to a command that was forwarded.'],
  GET_COOKIE_FULL: ['copy all?', 'Asks for a full copy of a store.'], GET_COOKIE_RECENT: ['copy the end?', 'Asks for the versions that it lacks.'],
  COOKIE: ['copy granted', 'The number of a copy.'], GET_CHUNK: ['next part?', 'Asks for the next part of a copy.'], CHUNK: ['part', 'A part of a copy.'],
  LAST_CHUNK: ['last part', 'The last part of a copy.'], NO_COOKIE: ['copy refused', 'The copy ended, or is not possible.'],
  PING: ['ping', 'Measures a connection.'], PING_REPLY: ['pong', 'The answer to a PING.'],
};
let isFieldsWords = false;

// A term as it is shown: Ceph's word, or the field's.
const termOf = name => (isFieldsWords && TERMS[name] ? TERMS[name][0] : name);

// What a term means, with the other word for it.
function meaningOf(name) {
  const found = TERMS[name];
  if (!found) return '';
  const [other, words] = isFieldsWords ? ['in Ceph', name] : ['elsewhere', found[0]];
  return found[0] === name ? found[1] : `${found[1]} (${other}: ${words})`;
}

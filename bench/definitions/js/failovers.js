// Calm quorums that lose a monitor, played by the definitions: how long it takes until the others are led again. failovers.py has the usage.
'use strict';

// Times by what stopped: in milliseconds without messages and late timers, and how often the longest delay and the latest timer count. These are the bounds
// that `law_failover` proves, and the longest times that are known.
const BOUNDS = {leader: [15000, 6, 2], peon: [18000, 7, 3]}, KNOWN = {leader: [15000, 6, 2], peon: [18000, 5, 3]};
const LEAST_SIZE = 3, MOST_SMALL = 7, MOST_SIZE = 15, RENEWS = 3000;
// The longest delay and the latest timer, if the arguments don't have others.
const MOST = {delay: 500, late: 200};
// How many quorums of each size runs go on from, and the most by which the clocks of two monitors differ.
const QUORUMS = 16, MOST_APART = 200000;
// The least time between two arrivals of a call. The first one may come as soon as the call is sent.
const BETWEEN_CALLS = 100;
// How long a quorum that is led again must stay so, and after how long a run ends in which there is none.
const STAYS = 6000, LIMIT = 120000;

// The key of a message: those of one key have the same delay, if delays are fixed.
const ALIKE = {link: (from, to) => `${from}>${to}`, kind: (from, to, kind) => kind, both: (from, to, kind) => `${from}>${to} ${kind}`};
// When a monitor stops: at any time, or just before or after an event. That is the sending of LEASEs, the arrival of one at the monitor that stops (or at
// any other, if that is the leader), or the arrival of an acknowledgement.
const MOMENTS = {
  any: null,
  before: ({timer}) => timer === 'renew',
  sent: ({timer}) => timer === 'renew',
  received: ({to, message}, leader, lost) => message?.body.name === 'Lease' && (leader === lost || to === lost),
  acknowledged: ({message}) => message?.body.name === 'LeaseAck',
};
// Of what comes at the same time, the least of these numbers comes first.
const TURNS = {messages: what => (what === 'message' ? 0 : 1), timers: what => (what === 'message' ? 1 : 0), any: (what, draw) => draw()};

// A run in which calls come again, and a monitor may stop.
class Failover extends Run {
  constructor(first, clocks) {
    super(first, clocks);
    Object.assign(this, {lines: [first], calls: new Map(), again: () => 0, turn: () => 0});
  }

  copy() { return Object.assign(super.copy(), {lines: this.lines.slice(), calls: new Map()}); }

  take(line) {
    this.lines.push(line);
    super.take(line);
  }

  send(number, to, message) {
    if (!this.members.includes(to)) return;
    super.send(number, to, message);
    const link = `${message.from}>${to}`, list = this.links.get(link);
    list[list.length - 1].turn = this.turn('message');
    if (message.body.name === 'Propose') this.calls.set(link, {number, to, message, ...this.comesAgain(0)});
  }

  arm(rank, timer, end) { return {...super.arm(rank, timer, end), turn: this.turn('timer')}; }

  // When a call comes again that was just sent or just arrived.
  comesAgain(least) { return {at: this.now + Math.max(least, this.again()), turn: this.turn('message')}; }

  // Whether a call is still made: its sender is a candidate, without an ACK of the receiver. A later election of the sender has calls of its own.
  isMade({to, message}) {
    const {phase, elector} = this.state(message.from);
    return phase.name === 'Electing' && elector.candidate && !elector.acked[to];
  }

  * comings() {
    yield* super.comings();
    for (const [link, call] of this.calls) {
      if (this.isMade(call)) yield call;
      else this.calls.delete(link);
    }
  }

  isBefore(one, other) { return one.at < other.at || (one.at === other.at && one.turn < other.turn); }

  come(coming) {
    super.come(coming);
    if (coming.message?.body.name !== 'Propose') return;
    const call = this.calls.get(`${coming.message.from}>${coming.to}`);
    if (call) Object.assign(call, this.comesAgain(BETWEEN_CALLS));
  }

  // A monitor stops. Of what it sent to each other one, the first messages still arrive, up to a chosen number.
  stop(lost, arriving) {
    this.members = this.members.filter(rank => rank !== lost);
    for (const [link, list] of this.links) {
      const [from, to] = link.split('>').map(Number);
      const left = to === lost ? 0 : from === lost ? arriving(list.length) : list.length;
      if (left) this.links.set(link, list.slice(0, left));
      else this.links.delete(link);
    }
  }

  epoch(rank) { return TRUE.epochOf(TRUE.readingsOf(this.scene.world.store(rank))); }

  // Who leads all members and nobody else, while all leases stand, or undefined.
  leader() {
    const leader = this.members.find(rank => ['Active', 'Updating'].includes(this.state(rank).phase.name));
    const isSo = leader !== undefined && this.isQuorum(this.state(leader).leader.quorum) && this.members.every(rank => this.follows(rank, leader));
    return isSo ? leader : undefined;
  }

  isQuorum(quorum) { return RANKS.every(rank => quorum[rank] === this.members.includes(rank)); }

  // Whether a monitor is the leader, or its peon in its epoch and quorum, and has a lease that stands.
  follows(rank, leader) {
    const {phase, peon, leader: leading} = this.state(rank);
    const isPeon = phase.name === 'Peon' && peon.leader === leader && this.isQuorum(peon.quorum) && this.epoch(rank) === this.epoch(leader);
    return (rank === leader || isPeon) && TRUE.stands((rank === leader ? leading : peon).lease, this.clock(rank));
  }
}

// A calm quorum of n monitors, some of which may not lead, and of whose clocks each shows another time. At times it has made versions.
function calm(n, draw) {
  const ranks = RANKS.slice(0, n), may = Math.floor(draw() * n), barred = ranks.filter(rank => rank !== may && draw() < 0.4).join(',');
  const rule = draw() < 0.5 || !barred ? 'classic' : `disallow=${barred}`;
  const run = started(new Failover(`monitors ${n} ${rule}`, ranks.map(() => Math.floor(draw() * MOST_APART))));
  run.again = () => CALLS;
  run.until(9000);
  for (let asked = Math.floor(draw() * 3); asked > 0; asked--) {
    run.ask(Math.floor(draw() * n), `set k${asked} v`);
    run.until(run.now + 10);
  }
  return run;
}

// What is drawn: numbers up to a most, items of a list, and names of an object.
function drawing(seed) {
  const draw = draws(seed), upTo = most => Math.floor(draw() * (most + 1)), pick = list => list[upTo(list.length - 1)];
  return {draw, upTo, pick, name: of => pick(Object.keys(of))};
}

// What should make a failover longest. The last LEASE leaves just before its sender stops, or arrives at another monitor just before that stops. All timers
// are late. Each message takes the delay, but those to a monitor that stops and doesn't lead take no time.
function hardest(lost, leader, delay) {
  const moment = lost === leader ? 'sent' : 'received';
  return {delay: (from, to) => (to === lost && lost !== leader ? 0 : delay), late: 'most', moment, arriving: length => length};
}

// Draws how long messages take, how late timers are and when calls come again. Returns the most of the first two, and what is drawn of the stop.
function paced(run, lost, leader, most, {draw, upTo, pick, name}) {
  const delay = pick([1 + upTo(most.delay - 1), 1, Math.min(50, most.delay), most.delay]);
  const left = CALLS - 1 - 4 * delay, late = Math.min(pick([upTo(most.late), 0, most.late]), LEASES - 1 - delay, left - BETWEEN_CALLS), again = left - late;
  const worst = hardest(lost, leader, delay), isHard = draw() < 0.4, hard = (part, other) => (isHard && draw() < 0.8 ? worst[part] : other());
  const turns = TURNS[name(TURNS)], alike = ALIKE[name(ALIKE)], delays = WAYS[name(WAYS)](delay, draw);
  const lates = WAYS[hard('late', () => name(WAYS))](late, draw);
  run.turn = what => turns(what, draw);
  run.again = WAYS[name(WAYS)](pick([again, Math.min(again, 500)]), draw);
  run.delay = hard('delay', () => (...of) => delays(alike(...of)));
  run.lateness = (rank, timer) => lates(`${rank} ${timer}`);
  return {delay, late, hard};
}

// Plays the run of a seed.
function play(seed, quorums, most = MOST) {
  const drawn = drawing(seed), {upTo, pick, name} = drawn;
  const n = LEAST_SIZE + upTo(pick([MOST_SMALL, MOST_SIZE]) - LEAST_SIZE), place = upTo(QUORUMS - 1);
  const run = valueOf(quorums, `${n} ${place}`, () => calm(n, draws(n * QUORUMS + place))).copy();
  const leader = run.leader(), others = run.members.filter(rank => rank !== leader), {rule} = run.monitors;
  const what = others.every(rank => rule.args[0]?.[rank]) ? 'peon' : name(BOUNDS), lost = what === 'leader' ? leader : pick(others);

  const {delay, late, hard} = paced(run, lost, leader, most, drawn);
  run.until(run.now + 2 * RENEWS + upTo(RENEWS));
  waits(run, hard('moment', () => name(MOMENTS)), leader, lost);
  if (run.leader() !== leader) throw new Error(`seed ${seed}: the quorum isn't calm`);
  const shown = `d ${delay}, e ${late}, monitor ${lost} stopped at ${run.now}`, time = ([least, delays, lates]) => least + delays * delay + lates * late;
  run.stop(lost, hard('arriving', () => pick([length => length, () => 0, upTo])));
  return {seed, n, what, took: ledAfter(run), bound: time(BOUNDS[what]), known: time(KNOWN[what]), shown, lines: run.lines};
}

// Lets a run go on until a moment.
function waits(run, moment, leader, lost) {
  const isEvent = MOMENTS[moment];
  if (isEvent === null) return;
  let next = run.next();
  for (; !isEvent(next, leader, lost); next = run.next()) run.come(next);
  if (moment === 'before') run.now = next.at;
  else run.come(next);
}

// The time until the members of a run are led and stay so, or Infinity.
function ledAfter(run) {
  const from = run.now;
  for (let since = null; run.now <= from + LIMIT;) {
    const next = run.next();
    if (since !== null && next.at > since + STAYS) return since - from;
    run.now = next.at;
    if (run.leader() === undefined) since = null;
    run.come(next);
    if (run.leader() === undefined) since = null;
    else since ??= run.now;
  }
  return Infinity;
}

const middle = numbers => numbers.slice().sort((a, b) => a - b)[Math.floor(numbers.length / 2)];

// What is printed of some runs: their number, the median and the longest time, the greatest share of the bound, and how much longer than is known one took.
function columns(runs) {
  const times = runs.map(({took}) => took), greatest = of => Math.max(...runs.map(of));
  return [runs.length, middle(times), Math.max(...times), greatest(({took, bound}) => took / bound).toFixed(3), greatest(({took, known}) => took - known)];
}

function rowsOf(what, runs) {
  if (runs.length === 0) return [];
  const sizes = [...new Set(runs.map(({n}) => n))].sort((a, b) => a - b);
  return [...sizes.map(size => [size, what, ...columns(runs.filter(({n}) => n === size))]), ['all', what, ...columns(runs)]];
}

// Leaves the schedule of a run that took too long.
function report({seed, n, what, took, bound, shown, lines}, share) {
  require('fs').writeFileSync(`failover_${seed}.schedule`, `${lines.join('\n')}\n`);
  const led = took < Infinity ? `led after ${took} ms` : `not led for ${LIMIT} ms`;
  console.log(`seed ${seed}: ${n} monitors, the ${what} lost, ${led}, above ${share} of ${bound}; ${shown}`);
}

function failovers(first, count, share = 1, delay = MOST.delay, late = MOST.late) {
  const quorums = new Map(), runs = [];
  for (let seed = first; seed < first + count; seed++) {
    const run = play(seed, quorums, {delay, late});
    if (run.took > share * run.bound) {
      report(run, share);
      process.exitCode = 1;
    }
    runs.push({...run, lines: []});
  }
  const rows = Object.keys(BOUNDS).flatMap(what => rowsOf(what, runs.filter(run => run.what === what)));
  printTable('monitors   stopped    runs  median ms  longest ms  share of the bound  above known', [8, 10, 8, 11, 12, 20, 13], rows);
}

failovers(...process.argv.slice(2).map(Number));

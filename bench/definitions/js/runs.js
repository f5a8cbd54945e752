// Runs in time: each message arrives and each timer fires when it is drawn to. timed.js and failovers.js play such runs by the definitions.
'use strict';

// A run is quick if its longest delay and its latest timer are below LEASES together, and if the time in which calls come again, four delays and the latest
// timer are below CALLS, all in milliseconds.
const LEASES = 2000, CALLS = 5000;

// Numbers from 0 to below 1, drawn from a seed.
function draws(seed) {
  return () => {
    seed = (seed + 0x6D2B79F5) | 0;
    let x = Math.imul(seed ^ (seed >>> 15), 1 | seed);
    x = (x + Math.imul(x ^ (x >>> 7), 61 | x)) ^ x;
    return ((x ^ (x >>> 14)) >>> 0) / 2 ** 32;
  };
}

// How numbers from 0 to a most are chosen: always the same, any, one of the ends, the ends in turn, or for each key once the least, the middle or the most.
const WAYS = {
  none: () => () => 0,
  most: most => () => most,
  any: (most, draw) => () => Math.floor(draw() * (most + 1)),
  ends: (most, draw) => () => Math.round(draw()) * most,
  turns: (most, draw, last = 0) => () => (last = most - last),
  fixed: (most, draw, chosen = new Map()) => key => valueOf(chosen, key, () => Math.floor(Math.floor(draw() * 3) * most / 2)),
};

// The value of a key, which is made if there is none.
function valueOf(map, key, make) {
  if (!map.has(key)) map.set(key, make());
  return map.get(key);
}

class Run {
  // The clock of monitor i shows clocks[i] more than the time, in milliseconds.
  constructor(first, clocks) {
    this.monitors = monitorsOf(first);
    this.n = this.monitors.count;
    this.scene = TRUE.firstScene();
    Object.assign(this, {clocks, now: 0, ids: 0, members: RANKS.slice(0, this.n), links: new Map(), armed: [], asked: new Map()});
    Object.assign(this, {delay: () => 0, lateness: () => 0, answered: () => {}});
  }

  // Another run that goes on from here. How late its timers fire is chosen anew.
  copy() {
    const links = new Map([...this.links].map(([link, list]) => [link, list.slice()]));
    return Object.assign(Object.create(Object.getPrototypeOf(this)), this, {links, armed: [], asked: new Map()});
  }

  state(rank) { return this.scene.world.state(rank).args[0]; }

  clock(rank) { return this.now + this.clocks[rank]; }

  take(line) {
    const done = TRUE.step(this.monitors, this.scene, eventOf(line));
    if (done.name === 'Err') throw new Error(`the run stops at: ${line}`);
    const [scene, step] = done.args[0];
    this.scene = flat(scene, this.n);
    for (const {number, to, message} of $items(step.sent)) this.send(number, to, message);
    for (const {session, reply} of $items(step.replies)) {
      const asked = this.asked.get(session.id);
      this.asked.delete(session.id);
      if (asked) this.answered(asked, this.now - asked.at, reply.name);
    }
  }

  // A message arrives after the ones that were sent before it.
  send(number, to, message) {
    const link = `${message.from}>${to}`, list = valueOf(this.links, link, () => []), last = list.length ? list[list.length - 1].at : 0;
    list.push({number, to, message, at: Math.max(this.now + this.delay(message.from, to, message.body.name), last)});
  }

  // The timers of a monitor that are armed. How late one fires is chosen when it is armed.
  timers(rank) {
    const state = this.state(rank), old = this.armed[rank];
    if (old?.state === state) return old.timers;
    const timers = Object.keys(TIMER).flatMap((timer, place) => {
      const [end] = state?.timers[place].args ?? [];
      return end === undefined ? [] : [old?.timers.find(it => it.timer === timer && it.end === end) ?? this.arm(rank, timer, end)];
    });
    this.armed[rank] = {state, timers};
    return timers;
  }

  arm(rank, timer, end) { return {rank, timer, end, at: end - this.clocks[rank] + this.lateness(rank, timer)}; }

  // What may come next: the first message of each link, and the timers.
  * comings() {
    for (const [first] of this.links.values()) yield first;
    for (const rank of this.members) yield* this.timers(rank);
  }

  isBefore(one, other) { return one.at < other.at; }

  next() {
    let first = null;
    for (const coming of this.comings()) if (first === null || this.isBefore(coming, first)) first = coming;
    return first;
  }

  come(coming) {
    this.now = coming.at;
    if (coming.timer) {
      this.take(`timer ${coming.rank} ${coming.timer} ${this.clock(coming.rank)}`);
    } else {
      this.arrive(`${coming.message.from}>${coming.to}`, coming);
      this.take(`deliver ${coming.number} ${this.clock(coming.to)}`);
    }
  }

  // A message is no longer under way.
  arrive(link, coming) {
    const list = this.links.get(link);
    if (list?.[0] !== coming) return;
    if (list.length > 1) list.shift();
    else this.links.delete(link);
  }

  until(time) {
    for (let next = this.next(); next && next.at <= time; next = this.next()) this.come(next);
    this.now = time;
  }

  ask(rank, command) {
    this.asked.set(++this.ids, {at: this.now, rank});
    this.take(`client ${rank} ${this.clock(rank)} 1 ${this.ids} ${command}`);
  }
}

// A run whose monitors were all just started.
function started(run) {
  for (let rank = 0; rank < run.n; rank++) run.take(`start ${rank} ${run.clocks[rank]}`);
  return run;
}

// Prints rows beneath a heading, each with columns of these widths.
function printTable(heading, widths, rows) {
  console.log(heading);
  for (const row of rows) console.log(row.map((value, place) => String(value).padStart(widths[place])).join(''));
}

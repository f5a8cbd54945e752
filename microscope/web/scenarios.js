// Reads scenarios and makes their schedules, as simulation.py does it in Python: with the same draws, so with the same schedule. `copies` is left out.
'use strict';

const FORMS = {
  start: 'start R or start all', kill: 'kill R', tear: 'tear R DISK CALL IMAGE', client: 'client R C ID COMMAND', cut: 'cut SIDES, cut A>B,.. or cut -',
  latency: 'latency L [A>B]', loss: 'loss PERCENT [A>B]', repeat: 'repeat PERCENT [A>B]', delay: 'delay PERCENT L [A>B]',
  lose: 'lose KIND [A>B] [COUNT]', twice: 'twice KIND [A>B] [COUNT]', late: 'late KIND L [A>B] [COUNT]',
};
const REQUEST = /^(\s*at\s+\S+\s+client\s+\S+\s+\S+\s+\S+\s+(?:set\s+\S+|log))(?:\s(.*))?$/, MOST_LATENCY = 2 ** 32;

// Random numbers from 0 to 1 as Python draws them from a seed: the Mersenne Twister.
class Twister {
  constructor(seed) {
    const key = [], state = this.state = new Uint32Array(624);
    for (let left = BigInt(seed); left > 0n || key.length === 0; left >>= 32n) key.push(Number(left & 0xffffffffn));
    state[0] = 19650218;
    for (let i = 1; i < 624; i++) state[i] = Math.imul(1812433253, state[i - 1] ^ (state[i - 1] >>> 30)) + i;
    let i = 1, j = 0;
    for (let k = Math.max(624, key.length); k > 0; k--) {
      state[i] = (state[i] ^ Math.imul(state[i - 1] ^ (state[i - 1] >>> 30), 1664525)) + key[j] + j;
      if (++i >= 624) [state[0], i] = [state[623], 1];
      if (++j >= key.length) j = 0;
    }
    for (let k = 623; k > 0; k--) {
      state[i] = (state[i] ^ Math.imul(state[i - 1] ^ (state[i - 1] >>> 30), 1566083941)) - i;
      if (++i >= 624) [state[0], i] = [state[623], 1];
    }
    state[0] = 0x80000000;
    this.at = 624;
  }

  word() {
    const {state} = this;
    if (this.at >= 624) {
      for (let i = 0; i < 624; i++) {
        const y = (state[i] & 0x80000000) | (state[(i + 1) % 624] & 0x7fffffff);
        state[i] = state[(i + 397) % 624] ^ (y >>> 1) ^ (y & 1 ? 0x9908b0df : 0);
      }
      this.at = 0;
    }
    let y = state[this.at++];
    y ^= y >>> 11;
    y ^= (y << 7) & 0x9d2c5680;
    y ^= (y << 15) & 0xefc60000;
    return (y ^ (y >>> 18)) >>> 0;
  }

  random() { return ((this.word() >>> 5) * 67108864 + (this.word() >>> 6)) / 9007199254740992; }
}

// ---- the commands of a scenario

function numberIn(word, most, what, least = 0) {
  if (!/^[0-9]+$/.test(word ?? '') || word.length > 20 || Number(word) < least || Number(word) > most) {
    throw new Refused(`'${word}' is no ${what}: a number from ${least} to ${most}`);
  }
  return Number(word);
}

// The words of a line without its comment. The value or text at the end of a request counts as one word.
function wordsOfLine(line) {
  if (line.trimStart().startsWith('#')) return [];
  const request = REQUEST.exec(line);
  if (request) return [...request[1].trim().split(/\s+/), ...(request[2] === undefined ? [] : [request[2]])];
  return line.replace(/(?:^|\s)#.*/, '').trim().split(/\s+/).filter(Boolean);
}

function linkIn(word, monitors) {
  const found = /^(\d+)>(\d+)$/.exec(word);
  if (!found) throw new Refused(`'${word}' is no link: A>B`);
  const [from, to] = found.slice(1).map(rank => numberIn(rank, monitors - 1, 'rank'));
  if (from === to) throw new Refused(`'${word}' is no link: a monitor sends itself nothing`);
  return `${from}>${to}`;
}

// The links that a cut ends: those that it names, each in one direction, or those between its sides.
function linksCut(word, monitors) {
  if (word === '-') return new Set();
  if (word.includes('>')) return new Set(word.split(',').map(link => linkIn(link, monitors)));
  const side = new Map();
  word.split('|').forEach((ranks, number) => ranks.split(',').forEach(rank => {
    const known = numberIn(rank, monitors - 1, 'rank');
    if (side.has(known)) throw new Refused(`monitor ${known} is on two sides`);
    side.set(known, number);
  }));
  if (side.size < monitors) throw new Refused(`the sides must name all ${monitors} monitors`);
  return new Set([...side].flatMap(([a, of]) => [...side].filter(([, other]) => other !== of).map(([b]) => `${a}>${b}`)));
}

class Scenario {
  constructor(lines) {
    Object.assign(this, {header: null, seed: 0, events: [], until: null});
    lines.forEach((line, place) => {
      const words = wordsOfLine(line);
      if (words.length === 0) return;
      try {
        this.take(words);
      } catch (why) {
        throw why instanceof Refused ? new Refused(`line ${place + 1}: ${why.message}`) : why;
      }
    });
    if (this.until === null) throw new Refused('the last command must be `until TIME`');
  }

  take(words) {
    if (this.header === null) this.begin(words);
    else if (this.until !== null) throw new Refused('nothing comes after `until`');
    else if (words[0] === 'until' && words.length === 2) this.until = this.later(words[1]);
    else if (words[0] === 'seed' && words.length === 2) this.seed = words[1];
    else if (words[0] === 'copies') throw new Refused('`copies` is for microscope/simulate, which makes a schedule of it');
    else if (['latency', 'loss', 'repeat', 'delay'].includes(words[0])) this.action(this.events.length ? this.events[this.events.length - 1][0] : 0, words);
    else if (words[0] === 'at' && words.length > 2) this.action(this.later(words[1]), words.slice(2));
    else throw new Refused(`'${words[0]}' is no command: at, copies, latency, loss, repeat, delay, seed or until`);
  }

  begin(words) {
    const fault = faultOfHeader(words.join(' '));
    if (fault) throw new Refused(`expected ${fault}`);
    this.header = words.join(' ');
    this.monitors = Number(words[1]);
  }

  later(word) {
    const time = numberIn(word, Number.MAX_SAFE_INTEGER, 'time'), last = this.events.length ? this.events[this.events.length - 1][0] : 0;
    if (time < last) throw new Refused(`the time ${time} is before ${last}`);
    return time;
  }

  action(time, [name, ...rest]) {
    if (!FORMS[name]) throw new Refused(`'${[name, ...rest].join(' ')}' is none of ${Object.keys(FORMS).join(', ')}`);
    const read = {start: 'ofStart', kill: 'ofKill', client: 'ofClient', tear: 'ofTear', cut: 'ofCut', lose: 'ofNamed', twice: 'ofNamed', late: 'ofNamed'}[name];
    const given = this[read ?? 'ofNetwork'](rest, name, time);
    if (given === null) throw new Refused(`'${[name, ...rest].join(' ')}' isn't ${FORMS[name]}`);
    this.events.push([time, name, given]);
  }

  rank(word) { return numberIn(word, this.monitors - 1, 'rank'); }

  ofStart(rest) { return rest[0] === 'all' ? RANKS.slice(0, this.monitors) : rest.length === 1 ? [this.rank(rest[0])] : null; }

  ofKill(rest) { return rest.length === 1 ? [this.rank(rest[0])] : null; }

  ofClient(rest, _name, time) {
    if (rest.length < 4) return null;
    const rank = this.rank(rest[0]), request = rest.slice(1).join(' '), fault = faultOfEvent(`client ${rank} ${time} ${request}`, this.monitors);
    if (fault) throw new Refused(`expected ${fault}`);
    return [rank, request];
  }

  ofTear(rest) {
    if (rest.length !== 4 || !['a', 'b'].includes(rest[1])) return null;
    return [this.rank(rest[0]), `crash ${rest[1]} ${numberIn(rest[2], 1000, 'call', 1)} ${numberIn(rest[3], 3, 'image')}`];
  }

  ofCut(rest) { return rest.length === 1 ? [linksCut(rest[0], this.monitors)] : null; }

  // The link of a command, or null for all, and its other words.
  linked(rest) {
    const link = rest.find(word => word.includes('>'));
    return [link === undefined ? null : linkIn(link, this.monitors), rest.filter(word => word !== link)];
  }

  ofNamed(words, name) {
    const [link, rest] = this.linked(words), late = name === 'late' ? 1 : 0;
    if (rest.length < 1 + late || rest.length > 2 + late) return null;
    if (!Object.values(NAMES).includes(rest[0])) throw new Refused(`'${rest[0]}' is no kind of message: ${Object.values(NAMES).sort().join(', ')}`);
    return {what: name, kind: rest[0], link, later: late ? numberIn(rest[1], MOST_LATENCY, 'time') : 0,
      count: rest.length === 2 + late ? numberIn(rest[1 + late], 1000000, 'count', 1) : 1};
  }

  ofNetwork(words, name) {
    const [link, rest] = this.linked(words);
    if (rest.length !== (name === 'delay' ? 2 : 1)) return null;
    const first = name === 'latency' ? numberIn(rest[0], MOST_LATENCY, 'latency') : numberIn(rest[0], 100, 'percentage');
    return [link, name === 'delay' ? [first, numberIn(rest[1], MOST_LATENCY, 'latency')] : first];
  }
}

// ---- its run

class Simulation {
  constructor(definitions, scenario) {
    Object.assign(this, {scenario, play: new Play(definitions, scenario.header), schedule: [scenario.header], now: 0, cut: new Set(), dead: new Set(), tears: {},
      named: [], wire: [], seen: 0, order: 0, chance: new Twister(scenario.seed)});
    // The settings of each link. Those of the name `all` are of all other links.
    this.network = {latency: {all: 1}, loss: {all: 0}, repeat: {all: 0}, delay: {all: [0, 0]}};
  }

  ofLink(what, link) { return this.network[what][link] ?? this.network[what].all; }

  happens(percent) { return percent > 0 && this.chance.random() * 100 < percent; }

  // The command on the next message of this kind and link, if there is one. Its count falls by one.
  nextNamed(kind, link) {
    const found = this.named.find(it => it.kind === kind && (it.link === null || it.link === link));
    if (found && --found.count === 0) this.named = this.named.filter(it => it !== found);
    return found;
  }

  // Puts a message on the wire, once for each time that it will arrive.
  send(number) {
    const {to, message} = $item(this.play.world.messages, number - 1), link = `${message.from}>${to}`;
    const named = this.nextNamed(NAMES[message.body.name], link), isLost = this.happens(this.ofLink('loss', link)) || named?.what === 'lose';
    if (this.cut.has(link) || isLost) return;
    const [percent, longer] = this.ofLink('delay', link);
    const takes = this.ofLink('latency', link) + (this.happens(percent) ? longer : 0) + (named?.later ?? 0);
    const times = 1 + (this.happens(this.ofLink('repeat', link)) || named?.what === 'twice' ? 1 : 0);
    for (let copy = 1; copy <= times; copy++) this.wire.push([this.now + takes * copy, this.order++, number, to]);
    this.wire.sort((a, b) => a[0] - b[0] || a[1] - b[1]);
  }

  // Adds a line to the schedule. If a tear waits for the monitor and the event writes, the event becomes that crash.
  take(line, rank) {
    if (this.schedule.length > MOST_EVENTS) throw new Refused(`the schedule has more than ${MOST_EVENTS} events`);
    const before = rank in this.tears ? this.play.copy() : null, at = this.play.trace.length;
    if (!this.play.take(line)) throw new Refused(`the definitions refuse '${line}'`);
    if (before && this.play.trace.slice(at).some(text => text.startsWith('  store '))) {
      line = `${this.tears[rank]} ${line}`;
      delete this.tears[rank];
      this.play = before;
      this.play.take(line);
      this.dead.add(rank);
    }
    this.schedule.push(line);
    while (this.seen < this.play.world.messages.length) this.send(++this.seen);
  }

  // The timer that fires next: [its time, its monitor, its name].
  nextTimer() {
    const found = RANKS.slice(0, this.play.n).filter(rank => !this.dead.has(rank) && this.play.state(rank) !== null).flatMap(rank =>
      TIMERS.map((name, place) => [this.play.state(rank).timers[place].args[0], rank, name]).filter(([end]) => end !== undefined));
    return found.sort((a, b) => $compared(a[0], b[0]) || a[1] - b[1] || $compared(a[2], b[2]))[0];
  }

  act(name, given) {
    if (name === 'start') {
      for (const rank of given) {
        this.dead.delete(rank);
        this.take(`start ${rank} ${this.now}`, rank);
      }
    } else if (name === 'kill') {
      this.take(`crash a 1 0 timer ${given[0]} step ${this.now}`, -1);
      this.dead.add(given[0]);
    } else if (name === 'tear') this.tears[given[0]] = given[1];
    else if (name === 'cut') [this.cut] = given;
    else if (name in this.network) this.network[name] = given[0] === null ? {all: given[1]} : {...this.network[name], [given[0]]: given[1]};
    else if (given.what) this.named.push({...given});
    else if (!this.dead.has(given[0])) this.take(`client ${given[0]} ${this.now} ${given[1]}`, given[0]);
  }

  // The schedule. What is due first happens first. At the same time, commands come before messages, and messages before timers.
  run() {
    const events = this.scenario.events.slice();
    for (;;) {
      const timer = this.nextTimer(), due = [events[0], this.wire[0], timer].map((it, place) => it && [it[0], place]).filter(Boolean);
      const next = due.reduce((first, it) => ($compared(it[0], first[0]) < 0 ? it : first), due[0]);
      if (!next || $max(this.now, next[0]) > this.scenario.until) return this.schedule;
      this.now = $max(this.now, next[0]);
      if (next[1] === 0) this.act(...events.shift().slice(1));
      else if (next[1] === 1) this.deliver(this.wire.shift());
      else this.take(`timer ${timer[1]} ${timer[2]} ${this.now}`, timer[1]);
    }
  }

  deliver([, , number, to]) {
    if (!this.dead.has(to)) this.take(`deliver ${number} ${this.now}`, to);
  }
}

// The lines of a schedule, or of a scenario's schedule.
function linesOfText(definitions, text) {
  if (!/^until /m.test(text)) return linesOfSchedule(text);
  return new Simulation(definitions, new Scenario(text.split('\n'))).run();
}

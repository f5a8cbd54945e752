// A game with the protocol: a run by the definitions that goes on by single acts, and can go back to any of them at once.
//
// The state before each act is kept, so going back replays nothing. The acts so far are a schedule. To drop or to delay a message and to wait have no line
// there: the message is never delivered, or delivered later, and what follows has later times.
'use strict';

// The most milliseconds of work and the most events of one call while time runs by itself.
const WORK = 60, MOST_AT_ONCE = 40;
// The most milliseconds of one wait: an hour and a half.
const MOST_WAIT = 5400000;
// After this number of events the caches of the definitions are emptied.
const FORGET_AFTER = 300;

const isUnderWayOf = flight => flight.got.length === 0 && !flight.isDropped;

// The number of caches that no definition has.
const OWN_CACHES = $caches.length;

// The definitions under a rule of DATA.rules, or the true ones.
function definitionsUnder(rule) {
  $caches.length = OWN_CACHES;
  VALUES.clear();
  const texts = {...DATA.definitions, ...(rule ? DATA.changed[rule.name] : {})};
  return eval(`(() => { ${Object.values(texts).join('\n')}\nreturn ${DATA.calls}; })()`);
}

class Game {
  constructor(header, rule = null) {
    Object.assign(this, {rule, exercise: null, latency: 10, loss: 0, branch: 0, sinceForgotten: 0});
    this.definitions = definitionsUnder(rule);
    this.begin(header);
  }

  begin(header) {
    linesOfSchedule(`${header}\n`);
    this.header = header;
    this.branch++;
    this.moments = [{play: new Play(this.definitions, header), now: 0, wire: new Map(), tears: {}, step: null, heading: 'nothing has happened yet', broken: {}, line: null}];
    this.at = 0;
  }

  get here() { return this.moments[this.at]; }

  // Goes on from here by an act. Acts that were undone are forgotten.
  nowOn(moment) {
    if (this.at + 1 < this.moments.length) this.branch++;
    this.moments.splice(this.at + 1, Infinity, moment);
    this.at++;
  }

  // ---- events

  // The monitor of an event.
  rankOf(line) {
    const words = line.split(' ');
    if (words[0] !== 'deliver') return Number(words[1]);
    const flight = this.here.wire.get(Number(words[1]));
    return flight ? flight.sent.receiver : null;
  }

  // Goes on by the event of a line. If a tear waits for this monitor and the event writes, the event becomes that crash.
  take(line, isJudged = true) {
    const here = this.here, fault = faultOfEvent(line, here.play.n), looks = here.step ? here.step.looks : undefined;
    if (fault) throw new Refused(`${line}: expected ${fault}`);
    if (here.play.events >= MOST_EVENTS) throw new Refused(`a schedule has at most ${MOST_EVENTS} events`);
    let step = stepAfter(here.play, line, looks), tears = here.tears;
    const rank = UPSETS.test(line) ? null : this.rankOf(line);
    if (rank in tears && step.lines.some(text => text.startsWith('  store '))) {
      line = `${tears[rank]} ${line}`;
      step = stepAfter(here.play, line, looks);
      tears = Object.fromEntries(Object.entries(tears).filter(([other]) => Number(other) !== rank));
    }
    const now = $max(here.now, timeOf(line)), heading = sentenceOf(step, here.wire);
    const broken = isJudged ? brokenAfter(step.play) : {};
    this.nowOn({play: step.play, now, wire: this.wireAfter(step, line, now), tears, step, heading, broken, line});
    if (++this.sinceForgotten > FORGET_AFTER) {
      this.sinceForgotten = 0;
      $forget();
    }
  }

  wireAfter(step, line, now) {
    const wire = new Map(this.here.wire), words = line.replace(UPSETS, '').split(' '), flight = words[0] === 'deliver' ? wire.get(Number(words[1])) : null;
    if (flight) wire.set(flight.sent.number, {...flight, got: [...flight.got, step.number], isDropped: false});
    for (const sent of sendsOf(step)) {
      const isDropped = this.loss > 0 && Math.random() * 100 < this.loss;
      wire.set(sent.number, {sent, due: $sum(now, this.latency), got: [], isDropped});
    }
    return wire;
  }

  // ---- acts by hand, each a millisecond after the one before

  // Does what the page asks. Throws Refused if it can't be done.
  act(asked) {
    const now = $sum(this.here.now, 1), {rank, number} = asked, client = asked.client ?? 1;
    const acts = {
      deliver: () => this.take(`deliver ${number} ${now}`),
      timer: () => this.take(`timer ${rank} ${asked.timer} ${$max(now, Object.fromEntries(this.card(rank).timers)[asked.timer] ?? 0)}`),
      start: () => this.take(`start ${rank} ${now}`),
      kill: () => this.take(`crash a 1 0 timer ${rank} step ${now}`),
      ask: () => this.take(`client ${rank} ${now} ${client} ${Math.max(0, ...this.requests(client).map(([id]) => id)) + 1} ${asked.command}`),
      again: () => this.askAgain(rank, client, now),
      drop: () => this.hold('drop', number, 0), delay: () => this.hold('delay', number, asked.by ?? 0), back: () => this.hold('back', number, 0),
      tear: () => this.tear(rank, asked.tear), wait: () => this.wait(Math.max(0, Math.min(MOST_WAIT, Math.round(asked.milliseconds) || 0))),
      line: () => this.take(asked.line),
      undo: () => { this.at = Math.max(0, this.at - 1); }, redo: () => { this.at = Math.min(this.moments.length - 1, this.at + 1); },
      go: () => this.go(asked.event), next: () => this.next(),
      run: () => this.run(Math.max(0, Math.min(60000, asked.milliseconds)), MOST_AT_ONCE),
    };
    if (!acts[asked.act]) throw new Refused(`${asked.act} is no act`);
    acts[asked.act]();
  }

  askAgain(rank, client, now) {
    const found = this.requests(client);
    if (found.length === 0) throw new Refused(`client ${client} has asked for nothing yet`);
    const [id, command] = found[found.length - 1];
    this.take(`client ${rank} ${now} ${client} ${id} ${command}`);
  }

  // The requests of a client so far: their numbers and commands.
  requests(client) {
    const lines = this.lines().slice(1).map(line => line.replace(UPSETS, '')).filter(line => line.startsWith('client '));
    return lines.map(line => splitAt(line, 5)).filter(words => words[3] === String(client)).map(words => [Number(words[4]), words[5]]);
  }

  // Drops a message, takes back a drop, or delays a message.
  hold(kind, number, by) {
    const flight = this.here.wire.get(number);
    if (!flight) throw new Refused(`message ${number} is not there`);
    const due = $sum($max(flight.due, this.here.now), kind === 'delay' ? by : 0);
    this.nowOn({...this.here, wire: new Map(this.here.wire).set(number, {...flight, isDropped: kind === 'drop', due}), line: null});
  }

  tear(rank, tear) {
    if (tear && !/^(?:crash|fail) [ab] \d+ \d$/.test(tear)) throw new Refused(`${tear} is no tear`);
    const others = Object.fromEntries(Object.entries(this.here.tears).filter(([other]) => Number(other) !== rank));
    this.nowOn({...this.here, tears: tear ? {...others, [rank]: tear} : others, line: null});
  }

  // Lets time pass while nothing happens. What is due then is late.
  wait(milliseconds) { this.nowOn({...this.here, now: $sum(this.here.now, milliseconds), line: null}); }

  // Goes to the state after an event: to the last act before the next event.
  go(event) {
    this.at = this.moments.reduce((found, moment, place) => (moment.play.events <= Math.max(0, event) ? place : found), 0);
  }

  // ---- time by itself

  // What happens next by itself: its time, and its line without the time. Messages come before timers.
  due() {
    const here = this.here, found = [...here.wire.values()].filter(isUnderWayOf).map(it => [it.due, 0, it.sent.number, `deliver ${it.sent.number}`]);
    for (let rank = 0; rank < here.play.n; rank++) found.push(...this.card(rank).timers.map(([name, end]) => [end, 1, rank, `timer ${rank} ${name}`]));
    const order = (a, b) => $compared(a[0], b[0]) || a[1] - b[1] || a[2] - b[2] || $compared(a[3], b[3]);
    return found.length ? found.reduce((first, it) => (order(it, first) < 0 ? it : first)) : null;
  }

  next() {
    if (this.due() === null) throw new Refused('no message is under way, and no timer is set: start a monitor');
    this.run(null, 1);
  }

  // Lets time run for a number of milliseconds, or for null without a limit, and makes at most `most` events.
  run(milliseconds, most) {
    const end = milliseconds === null ? null : $sum(this.here.now, milliseconds), begun = Date.now();
    for (let events = 0; events < most; events++) {
      const due = this.due();
      if (due === null || (end !== null && $max(due[0], this.here.now) > end)) {
        if (end !== null) this.moments[this.at] = {...this.here, now: end};
        return;
      }
      this.take(`${due[3]} ${$max(due[0], this.here.now)}`);
      if (Date.now() - begun > WORK) return;
    }
  }

  // ---- whole schedules

  // The schedule up to here.
  lines() { return [this.header, ...this.moments.slice(1, this.at + 1).filter(it => it.line !== null).map(it => it.line)]; }

  trace() { return [this.header, ...this.moments.slice(1, this.at + 1).filter(it => it.line !== null).flatMap(it => it.step.lines)]; }

  // Begins anew with a schedule. Under the true rules only the last event is judged, since a run that is safe after it is safe after all events.
  load(lines) {
    this.begin(lines[0]);
    lines.slice(1).forEach((line, place) => this.take(line, this.rule !== null || place === lines.length - 2));
  }

  // The same schedule under another rule.
  under(rule) {
    const lines = this.lines();
    this.rule = rule;
    this.definitions = definitionsUnder(rule);
    this.load(lines);
  }

  // ---- what the page shows

  card(rank) { return cardOf(this.here.play, rank, this.here.now); }

  view() {
    const here = this.here, done = this.moments.slice(1).filter(it => it.line !== null), ranks = Array.from({length: here.play.n}, (_, rank) => rank);
    return {
      header: this.header, at: here.play.events, count: done.length, now: here.now, undo: this.at, redo: this.moments.length - 1 - this.at,
      lines: done.map(it => [it.line, it.heading, Object.keys(it.broken).length > 0]),
      monitors: ranks.map(rank => ({...this.card(rank), tear: here.tears[rank] ?? null})),
      wire: [...here.wire.values()].map(flightShown), last: this.last(), log: this.log(),
      clauses: DATA.clauses.map(({name, title, says}) => [name, title, says, here.broken[name] ?? null]),
      rule: this.rule && this.rule.name, exercise: this.judged(), latency: this.latency, loss: this.loss,
    };
  }

  // The event before this point, in words.
  last() {
    const {step, heading, line, wire} = this.here;
    if (step === null) return {heading, lines: [], changes: [], reasons: [], idle: false, from: null, to: []};
    const words = (line ?? '').replace(UPSETS, '').split(' '), source = words[0] === 'deliver' ? wire.get(Number(words[1])) : null;
    return {
      heading, lines: step.lines.slice(1).map(text => text.trim()), idle: isIdle(step), changes: step.changes.filter(it => it[2] !== '-' && it[3] !== '-'),
      reasons: step.drops.map(drop => [whyOf(drop), reasonOf(drop), ...DATA.paragraphs[drop.row]]), from: source ? source.sent.event : null,
      to: [...new Set([...wire.values()].filter(it => it.sent.event === step.number).flatMap(it => it.got))].sort((a, b) => a - b),
    };
  }

  // The entries of the log: the version, the command, whether the leader acknowledged it, and whether a client got its answer.
  log() {
    const {world} = this.here.play, versions = new Set($items(world.acknowledged).map(it => it.what.version));
    const answered = new Set($items(world.replied).filter(it => it.reply.name === 'Done').map(it => it.reply.args[0]));
    return $items(world.log).map((entry, place) => {
      const value = mon_tx__Decode__transaction_of(entry);
      return [place + 1, value.name === 'Ok' ? shortText(commandOf(value.args[0])) : '?', versions.has(place + 1), answered.has(place + 1)];
    });
  }

  judged() {
    const found = DATA.exercises[this.exercise];
    if (!found) return null;
    const demands = judgedBy(found, this.lines(), `${this.trace().join('\n')}\n`);
    return {name: this.exercise, question: found.question, hints: found.hints, answer: found.answer, demands};
  }
}

function flightShown({sent, due, got, isDropped}) {
  return {number: sent.number, from: sent.sender, to: sent.receiver, kind: sent.kind, fields: `e=${sent.epoch} ${sent.fields}`.trim(), event: sent.event,
    time: sent.time, due, got, dropped: isDropped};
}

// The clauses of Safe that don't hold after a run, each with the first thing that is wrong.
function brokenAfter(play) {
  const found = {};
  for (const [part, number] of new Judge(play).faults()) {
    const {name} = DATA.clauses.find(clause => clause.parts.includes(part));
    if (!(name in found)) found[name] = DATA.says[part].replace('{}', String(part === 'asked' ? number + 1 : number));
  }
  return found;
}

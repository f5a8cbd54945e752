// Schedules that are played by definitions, event by event, as plays.py does it in Python.
'use strict';

class Play {
  constructor(definitions, first) {
    this.definitions = definitions;
    this.monitors = monitorsOf(first);
    this.n = this.monitors.count;
    this.scene = definitions.firstScene();
    this.stop = null;
    this.events = 0;
    this.trace = [first];
    // The transactions that each monitor's events wrote. An event to which it didn't react wrote none.
    this.writes = Array.from({length: this.n}, () => []);
  }

  get world() { return this.scene.world; }

  // What a monitor remembers, or null if it is down.
  state(rank) {
    const state = this.world.state(rank);
    return state.args.length ? state.args[0] : null;
  }

  // Another play that goes on from here. Its trace begins here.
  copy() {
    return Object.assign(Object.create(Play.prototype), this, {trace: [], writes: this.writes.map(writes => writes.slice())});
  }

  // Plays an event. Returns whether the run goes on.
  take(line) {
    const d = this.definitions, event = eventOf(line), before = this.scene, done = d.step(this.monitors, before, event);
    if (done.name === 'Err') {
      this.stop = done.args[0];
      return false;
    }
    const scheduled = d.scheduledOf(event), met = d.meets(this.monitors, before.world, scheduled.plain);
    if (met.name === 'Reacts') {
      const happened = d.eventIn(this.monitors, before, scheduled), rank = met.args[0];
      this.writes[rank].push(...$items(d.writesOf(this.monitors, before.world, happened, rank)));
    }
    const [scene, step] = done.args[0];
    this.scene = flat(scene, this.n);
    this.events++;
    this.trace.push(`${this.events} ${line}`, ...linesOf(step));
    return true;
  }

  // The trace.
  ended() {
    const end = this.stop ? [] : [`end events=${this.events} log=${this.world.log.length}`];
    return [...this.trace, ...end].join('\n') + '\n';
  }
}

// A function of ranks whose values are known.
function tabled(f, n) {
  const values = [];
  for (let rank = 0; rank < n; rank++) values.push(f(rank));
  return rank => values[rank];
}

// The same scene, in which the value of each rank is known, so that no chain of updates grows.
function flat(scene, n) {
  const {world, files} = scene;
  const parts = {store: tabled(world.store, n), state: tabled(world.state, n), transactions: tabled(world.transactions, n)};
  return {world: {...world, ...parts}, files: tabled(files, n)};
}

function played(definitions, schedule) {
  const lines = schedule.split('\n').slice(0, -1), play = new Play(definitions, lines[0]);
  for (const line of lines.slice(1)) if (!play.take(line)) break;
  return play;
}

// Timed runs of a quorum that is led, played by the definitions: how long each command waits for its answer. timed.py has the usage.
'use strict';

const CLOCKS = [0, 5003, 77, 123456, 9];
const DELAYS = [0, 10, 50, 300, 900, 1200], LATE = [0, 0.05, 0.5, 1], DRAWN = ['any', 'ends', 'most'];

// A quorum of n monitors that was just led.
function led(n) {
  const run = started(new Run(`monitors ${n} classic`, CLOCKS));
  run.until(6000);
  return run;
}

function isLed(run) {
  const others = RANKS.slice(1, run.n);
  return ['Active', 'Updating'].includes(run.state(0).phase.name) && others.every(rank => run.state(rank).phase.name === 'Peon');
}

// Plays the run of a seed, and adds what was seen to the row of its delay. Returns what is wrong.
function play(seed, quorums, rows) {
  const draw = draws(seed), pick = list => list[Math.floor(draw() * list.length)];
  const run = pick(quorums).copy(), delay = pick(DELAYS);
  const late = Math.floor(pick(LATE) * Math.min(LEASES - 1 - delay, CALLS - 1 - 4 * delay));
  const ways = [pick(DRAWN), pick(DRAWN)], refused = pick([0, 0.5, 0.95, 1]);
  const bound = 2 * delay + 64 * (2 * delay + 2 * late), faults = [], asks = pick([5, 12, 70]);
  const row = rows[delay] ??= {delay, runs: 0, commands: 0, busy: 0, longest: 0, share: 0};
  row.runs++;
  run.delay = WAYS[ways[0]](delay, draw);
  run.lateness = WAYS[ways[1]](late, draw);
  run.answered = ({rank}, took, kind) => {
    const most = rank === 0 ? bound : bound + 2 * delay;
    row.commands++;
    row.busy += kind === 'Busy';
    row.longest = Math.max(row.longest, took);
    row.share = Math.max(row.share, most ? took / most : 0);
    if (took > most) faults.push(`seed ${seed}: an answer of monitor ${rank} took ${took} ms, above ${most}`);
  };
  run.until(run.now + Math.floor(draw() * 3000));
  for (let asked = 0; asked < asks; asked++) {
    run.ask(Math.floor(draw() * run.n), draw() < refused ? 'remove none' : `set k${asked % 7} v`);
    if (asks < 70 || draw() < 0.05) run.until(run.now + Math.floor(draw() * (delay + late + 2)));
  }
  run.until(run.now + bound + 2 * delay + 1);
  if (run.asked.size) faults.push(`seed ${seed}: ${run.asked.size} commands have no answer`);
  if (!isLed(run)) faults.push(`seed ${seed}: the quorum isn't led any more`);
  return faults;
}

function timed(first, count) {
  const quorums = [2, 3, 4, 5].map(led), rows = {}, faults = [];
  for (let seed = first; seed < first + count; seed++) faults.push(...play(seed, quorums, rows));
  const columns = Object.values(rows).map(({delay, runs, commands, busy, longest, share}) => [delay, runs, commands, busy, longest, share.toFixed(3)]);
  printTable('delay     runs  commands      busy  longest ms  share of the bound', [5, 9, 10, 10, 12, 20], columns);
  for (const fault of faults) console.log(fault);
  process.exitCode = faults.length ? 1 : 0;
}

timed(...process.argv.slice(2).map(Number));

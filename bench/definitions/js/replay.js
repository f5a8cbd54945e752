// The program `node FILE replay < SCHEDULE > TRACE`. Its status is that of the program: 10 or 13 if a number runs out.
'use strict';

// How much of a function V8 executes before it compiles it anew: some four times as much as by itself, since this saves a tenth of a run of seconds.
require('v8').setFlagsFromString('--interrupt-budget=600000');

function replay() {
  const fs = require('fs'), play = played(TRUE, fs.readFileSync(0, 'utf8'));
  fs.writeFileSync(1, play.ended());
  process.exitCode = play.stop ? {Spent: 10, Full: 13}[play.stop.name] : 0;
}

if (process.argv[2] === 'replay') {
  replay();
} else {
  console.error('usage: node FILE replay < SCHEDULE > TRACE');
  process.exitCode = 2;
}

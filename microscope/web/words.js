// A run in sentences, as words.py has them in Python. Its tables are in DATA.
'use strict';

const SEND = /^ {2}send (\d+) (\d+)>(\d+) (\S+) e=(\d+) ?(.*)$/, UPSET = /^(crash|fail) ([ab]) (\d+) (\d) (.*)$/, UPSETS = /^(?:crash|fail) [ab] \d+ \d /;
const IMAGES = ['nothing', 'all', 'the first half', 'other bytes'];

// The time of a schedule's line.
function timeOf(line) {
  const words = line.replace(UPSETS, '').split(' ');
  return $number(words[words[0] === 'timer' ? 3 : 2]);
}

const lineOf = step => step.lines[0].slice(step.lines[0].indexOf(' ') + 1);

// The messages that a step sent.
function sendsOf(step) {
  const time = timeOf(lineOf(step));
  return step.lines.map(line => SEND.exec(line)).filter(Boolean).map(([, number, sender, receiver, kind, epoch, fields]) => ({
    number: Number(number), sender: Number(sender), receiver: Number(receiver), kind, epoch, fields, event: step.number, time,
  }));
}

// A sentence on why a row dropped its input.
function whyOf({test, holds}) {
  const known = DATA.tests.find(([begin, itHolds]) => test.replace(/^\(+/, '').startsWith(begin) && itHolds === holds);
  return known ? known[2] : `${test} ${holds ? 'holds' : 'fails'}`;
}

const ENDS = {dropped: 'drops it', nothing_more: 'does no more'};
const reasonOf = ({row, how, test, holds}) => `${row} ${ENDS[how]}, since ${test} ${holds ? 'holds' : 'fails'}`;

// The sentence of an event. `wire` has what was sent and delivered before it.
function sentenceOf(step, wire) {
  const line = lineOf(step), upset = UPSET.exec(line);
  if (!upset) return plainSentence(line, wire) + (step.lines.length === 2 && step.lines[1] === '  down' ? ', and is down: it is lost' : '');
  const [, kind, disk, call, image, plain] = upset, words = plain.split(' ');
  const kept = step.lines.slice(1).filter(text => /^ {2}(crashed|failed)/.test(text)).map(text => text.trim().split(' ')[1]);
  const isDown = step.changes.some(([rank, part, before, after]) => rank === Number(words[1]) && part === 'up' && before === 'yes' && after === 'no');
  const isStored = step.changes.some(([, part]) => part.includes('store'));
  if (words[0] === 'timer' && kind === 'crash' && kept.length && isDown && !isStored) return `monitor ${words[1]} is killed`;
  const what = `disk ${disk} ${kind === 'fail' ? 'fails' : 'is cut off'} at call ${call}, and keeps ${IMAGES[image]} of what was not synced`;
  return `${plainSentence(plain, wire)}, and in that ${what}${kept.length ? `; the transaction is ${kept[0]}, and the monitor is down` : ''}`;
}

function plainSentence(line, wire) {
  const words = line.split(' ');
  if (words[0] === 'start') return `monitor ${words[1]} starts`;
  if (words[0] === 'timer') return `timer ${words[2]} of monitor ${words[1]} fires`;
  if (words[0] === 'client') return `client ${words[3]} asks monitor ${words[1]}: ${words.slice(5).join(' ')}`;
  const flight = wire.get(Number(words[1]));
  if (!flight) return `message ${words[1]} is delivered, which nobody sent`;
  const {receiver, kind, sender, event} = flight.sent;
  return `monitor ${receiver} gets ${kind} of monitor ${sender}${flight.got.length ? ' again' : ''}, sent in event ${event}`;
}

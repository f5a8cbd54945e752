// The form of a schedule, as schedules.py has it in Python: which field of a line is at fault, and what may stand there.
'use strict';

const MOST_EVENTS = 200000, MOST_NUMBER = 2n ** 62n, MOST_MESSAGE = 2n ** 64n - 1n, MOST_CLIENT = 2n ** 32n - 1n;
const TIMERS = Object.keys(TIMER);

class Refused extends Error {}

const isDecimal = text => /^(0|[1-9][0-9]*)$/.test(text);
const isWithin = (text, least, most) => text.length <= 20 && least <= BigInt(text) && BigInt(text) <= most;

function numberField(what, least, most) {
  return {allowed: `${what}, a decimal number from ${least} to ${most} without a leading zero`, takes: text => isDecimal(text) && isWithin(text, least, most)};
}

const wordField = (...words) => ({allowed: words.length > 1 ? `one of ${words.join(', ')}` : words[0], takes: text => words.includes(text)});

function rankField(monitors) {
  const allowed = `the rank of a monitor, ${monitors > 1 ? `0 to ${monitors - 1}` : '0'}`;
  return {allowed, takes: text => isDecimal(text) && isWithin(text, 0n, BigInt(monitors - 1))};
}

const TIME = numberField('a time in milliseconds', 0n, MOST_NUMBER);
const SERVICE = wordField('kv', 'log');
const KEY = {allowed: 'a key, of 1 to 255 bytes without a space', takes: text => text.length >= 1 && text.length <= 255};
const REST = {allowed: 'a space, and then the rest of the line, which may be empty', takes: () => true};
const COMMANDS = {set: [KEY, REST], remove: [KEY], log: [REST], show: [SERVICE], since: [SERVICE, numberField('a version', 0n, MOST_NUMBER)]};
const PLAIN = ['start', 'deliver', 'timer', 'client'];
const INJECTED = [wordField('a', 'b'), numberField('the number of a write or sync', 1n, 1000n), numberField('what is kept of a write', 0n, 3n),
  {...wordField(...PLAIN), decides: true}];

// The fields after a word that decides what follows.
function fieldsAfter(word, monitors) {
  const rank = rankField(monitors);
  return {
    start: [rank, TIME],
    deliver: [numberField('the number of a sent message', 1n, MOST_MESSAGE), TIME],
    timer: [rank, wordField(...TIMERS), TIME],
    client: [rank, TIME, numberField('the number of a client', 0n, MOST_CLIENT), numberField('the ID of a request', 0n, MOST_NUMBER),
      {...wordField(...Object.keys(COMMANDS)), decides: true}],
    crash: INJECTED, fail: INJECTED, ...COMMANDS,
  }[word];
}

// What may stand at the first fault of an event's line, or null if the line has none.
function faultOfEvent(line, monitors) {
  if (!/^[ -~]*$/.test(line)) return 'bytes from 0x20 (space) to 0x7E (~)';
  const due = [{...wordField(...PLAIN, 'crash', 'fail'), decides: true}];
  let at = 0;
  while (due.length > 0) {
    const field = due.shift();
    if (at > line.length) return field.allowed;
    const space = line.indexOf(' ', at), end = field === REST || space < 0 ? line.length : space, text = line.slice(at, end);
    if ((text === '' && field !== REST) || !field.takes(text)) return field.allowed;
    at = end + 1;
    if (field.decides) due.push(...fieldsAfter(text, monitors));
  }
  return at > line.length ? null : 'nothing more: the line ends here';
}

// What may stand at the fault of a schedule's first line, or null.
function faultOfHeader(line) {
  const [monitors, count, ...others] = line.split(' '), [name, ...ranks] = others.join(' ').split('=');
  if (monitors !== 'monitors') return 'monitors N RULE';
  if (!isDecimal(count || '') || !isWithin(count, 1n, 15n)) return 'the number of monitors, 1 to 15, without a leading zero';
  const allowed = `classic, disallow=R,.., connectivity or connectivity=R,.., with ranks below ${count} in ascending order, joined by commas`;
  const isSet = ranks.length > 0, isRule = name === 'classic' ? !isSet : name === 'disallow' ? isSet : name === 'connectivity';
  if (!isRule) return allowed;
  const found = isSet ? ranks.join('=').split(',') : [];
  const isRank = (text, place) => isDecimal(text) && Number(text) < Number(count) && (place === 0 || Number(found[place - 1]) < Number(text));
  return found.every(isRank) ? null : allowed;
}

// The lines of a schedule. Throws Refused at its first fault.
function linesOfSchedule(text) {
  const lines = text.split('\n'), rest = lines.pop(), refuse = (line, allowed) => { throw new Refused(`line ${line}: expected ${allowed}`); };
  if (rest !== '') refuse(lines.length + 1, 'a line feed at the end of the last line');
  const header = faultOfHeader(lines[0] || '');
  if (header) refuse(1, header);
  lines.slice(1).forEach((line, place) => {
    const fault = faultOfEvent(line, Number(lines[0].split(' ')[1]));
    if (fault) refuse(place + 2, fault);
  });
  if (lines.length > MOST_EVENTS + 1) refuse(MOST_EVENTS + 2, `at most ${MOST_EVENTS} events`);
  return lines;
}

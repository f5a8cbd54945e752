// Judges answers to exercises, as exercises.py does it in Python. The exercises are in DATA.
'use strict';

const NAMED = /\{("?)([a-z]+)\1\}/g;

// A pattern, in which the names of groups are replaced by what they matched earlier.
function compiledPattern(pattern, names) {
  const escaped = text => text.replace(/[.*+?^${}()|[\]\\/-]/g, '\\$&');
  return new RegExp(pattern.replace(NAMED, (_, quote, name) => escaped(quote ? JSON.stringify(names[name]) : names[name])), 'gms');
}

// How many of the patterns, from the first on, a trace matches one after the other.
function shownIn(trace, patterns, at = 0, names = {}) {
  let most = 0;
  if (patterns.length === 0) return 0;
  const pattern = compiledPattern(patterns[0], names);
  pattern.lastIndex = at;
  for (let found = pattern.exec(trace); found !== null; found = pattern.exec(trace)) {
    const end = found.index + found[0].length;
    most = Math.max(most, 1 + shownIn(trace, patterns.slice(1), Math.max(0, end - 1), {...names, ...found.groups}));
    if (most === patterns.length) break;
    if (found[0] === '') pattern.lastIndex++;
  }
  return most;
}

// Each demand of an exercise, and whether the answer and its trace meet it.
function judgedBy(exercise, lines, trace) {
  const most = exercise.events === null ? [] : [[lines.length - 1 <= exercise.events, `at most ${exercise.events} events`]];
  const count = shownIn(trace, exercise.needs.map(([, pattern]) => pattern));
  return [
    [lines[0] === exercise.header, `the first line is ${exercise.header}`], ...most,
    ...exercise.needs.map(([text], number) => [number < count, text]),
    ...exercise.never.map(([text, pattern]) => [!compiledPattern(pattern, {}).test(trace), `never: ${text}`]),
  ];
}

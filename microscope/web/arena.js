// The picture: monitors on an oval, and marks of the messages under way. No mark covers a monitor's text or another mark: what has no place is counted at the
// corner of the monitor to which it goes.
'use strict';

// A message that is due for longer than this, in milliseconds, is counted and not drawn: it may never arrive.
const OVERDUE = 1000;
// How far a mark may be moved along its line from where it belongs, nearest first.
const SHIFTS = [0, .08, -.08, .16, -.16, .24, -.24, .32, -.32];
// The sizes of monitors: the width and height of a box, and how many letters of the phase it has.
const SIZES = {plain: {wide: 116, high: 44, letters: 20}, narrow: {wide: 108, high: 40, letters: 20}, crowd: {wide: 84, high: 24, letters: 9}, both: {wide: 46, high: 22, letters: 4}};

function arenaSize() {
  const {width, height} = at('arena').getBoundingClientRect();
  return {width: Math.max(240, Math.min(900, width)), height: height || 250};
}

const isCrowd = () => state.monitors.length > 7;

function sizeOf({width}) {
  const isNarrow = width < 480;
  return isCrowd() ? (isNarrow ? SIZES.both : SIZES.crowd) : isNarrow ? SIZES.narrow : SIZES.plain;
}

function spot(rank, room, size) {
  const count = state.monitors.length, {width, height} = room, angle = 2 * Math.PI * rank / count - Math.PI / 2;
  if (count === 1) return {x: width / 2, y: height / 2};
  return {x: width / 2 + (width / 2 - size.wide / 2 - 16) * Math.cos(angle), y: height / 2 + (height / 2 - size.high / 2 - 14) * Math.sin(angle)};
}

function drawArena() {
  const room = arenaSize(), size = sizeOf(room), arena = at('arena'), lanes = [];
  const spots = state.monitors.map((_, rank) => spot(rank, room, size));
  arena.setAttribute('viewBox', `0 0 ${room.width} ${room.height}`);
  arena.classList.toggle('crowd', isCrowd());
  arena.classList.toggle('narrow', room.width < 480);
  spots.forEach(({x, y}, rank) => {
    for (const other of spots.slice(0, rank)) lanes.push(drawn('line', {class: 'lane', x1: x, y1: y, x2: other.x, y2: other.y}));
  });
  arena.replaceChildren(...lanes, ...state.monitors.map((it, rank) => node(it, rank, spots[rank], size)), ...marksOf(spots, room, size));
}

function node(it, rank, {x, y}, {wide, high, letters}) {
  const phase = termOf(it.phase), texts = [drawn('text', {x, y: isCrowd() ? y + 4 : y - 4}, `${rank}: ${phase.slice(0, letters)}`)];
  if (!isCrowd()) texts.push(drawn('text', {class: 'small', x, y: y + 13}, `${termOf('epoch')} ${it.epoch}, ${isFieldsWords ? 'commit' : 'last'} ${it.last}`));
  return drawn('g', {}, drawn('rect', {class: `node ${kindOf(it)}`, x: x - wide / 2, y: y - high / 2, width: wide, height: high, rx: 9}), ...texts,
    drawn('title', {}, `${phase}: ${meaningOf(it.phase)}`));
}

// ---- marks

const boxAt = ({x, y}, wide, high) => ({left: x - wide / 2, right: x + wide / 2, top: y - high / 2, bottom: y + high / 2});
const overlap = (a, b) => a.left < b.right && b.left < a.right && a.top < b.bottom && b.top < a.bottom;
const widthOf = text => 6.9 * text.length + 14;

// The marks of messages under way: first those that are due first. The others, and those that are long overdue, are counted.
function marksOf(spots, room, size) {
  const badge = rank => ({x: spots[rank].x + size.wide / 2 - 4, y: spots[rank].y - size.high / 2 - 5});
  const taken = spots.flatMap((place, rank) => [boxAt(place, size.wide, size.high), boxAt(badge(rank), 30, 20)]), marks = [], rests = spots.map(() => []);
  for (const it of state.wire.filter(isUnderWay).sort((a, b) => a.due - b.due)) {
    const text = isCrowd() ? termOf(it.kind) : `${termOf(it.kind)} →${it.to}`, wide = widthOf(text);
    const place = it.due + OVERDUE >= state.now && freePlace(it, wide, spots, room, taken);
    if (!place) rests[it.to].push(it);
    else {
      taken.push(boxAt(place, wide, 18));
      marks.push(mark(it, place, text));
    }
  }
  return [...rests.flatMap((found, rank) => (found.length ? [countMark(found, rank, badge(rank))] : [])), ...marks];
}

// A place for a mark beside its line, which is nearer to the receiver the later it is, or null if all are taken.
function freePlace(it, wide, spots, room, taken) {
  const took = it.due - it.time, done = took > 0 ? Math.min(1, Math.max(0, (state.now - it.time) / took)) : 1;
  for (const shift of SHIFTS) {
    const place = placeOf(it, Math.min(.8, Math.max(.2, .36 + .3 * done + shift)), spots), box = boxAt(place, wide, 18);
    if (box.left >= 0 && box.right <= room.width && box.top >= 0 && box.bottom <= room.height && !taken.some(other => overlap(box, other))) return place;
  }
  return null;
}

// A point at a part of the way from one monitor to another, beside the line.
function placeOf(it, part, spots) {
  const from = spots[it.from], to = spots[it.to], length = Math.hypot(to.x - from.x, to.y - from.y) || 1;
  return {x: from.x + (to.x - from.x) * part - (to.y - from.y) / length * 11, y: from.y + (to.y - from.y) * part + (to.x - from.x) / length * 11};
}

function mark(it, place, text) {
  const made = pill(place, text, `message ${it.number}: ${it.kind} ${it.fields}. ${meaningOf(it.kind)}`);
  made.dataset.number = it.number;
  made.addEventListener('click', press => menu(it, press));
  made.addEventListener('keydown', press => { if (press.key === 'Enter') menu(it, press); });
  return made;
}

// How many more messages go to a monitor. A click shows them in the list.
function countMark(found, rank, place) {
  const isLate = found.some(it => it.due + OVERDUE < state.now), made = pill(place, `+${found.length}`,
    `${found.length} more on the way to monitor ${rank}${isLate ? ', of which some are long overdue' : ''}: see Messages`);
  const shows = () => at('wire').querySelector(`.message[data-number="${found[0].number}"]`).scrollIntoView({block: 'center'});
  made.classList.add('folded');
  made.addEventListener('click', shows);
  made.addEventListener('keydown', press => { if (press.key === 'Enter') shows(); });
  return made;
}

function pill({x, y}, text, title) {
  const wide = widthOf(text);
  return drawn('g', {class: 'dot', style: `transform: translate(${x}px, ${y}px)`, tabindex: 0, role: 'button'},
    drawn('rect', {x: -wide / 2, y: -9, width: wide, height: 18, rx: 9}), drawn('text', {y: 4}, text), drawn('title', {}, title));
}

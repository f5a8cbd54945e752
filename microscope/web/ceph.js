'use strict';
// The overview, and the links between it, the chart, the story and the table of events.
const SVG = 'http://www.w3.org/2000/svg', LANE = 26, GAP = 8, LEFT = 92, BARS = 34, AXIS = 18;
const lanes = document.getElementById('lanes'), zoom = document.getElementById('zoom'), picture = document.getElementById('picture');
const chart = picture.querySelector('svg'), here = document.getElementById('here');
let view = [LOG.begin, LOG.end];

function add(parent, name, attributes, text) {
  const made = document.createElementNS(SVG, name);
  for (const [key, value] of Object.entries(attributes)) made.setAttribute(key, value);
  if (text !== undefined) made.textContent = text;
  parent.append(made);
  return made;
}

function clock(ms) {
  return new Date(LOG.zero + ms).toISOString().slice(11, 23);
}

function step(span) {
  return [10, 50, 100, 500, 1000, 2000, 5000, 10000, 30000, 60000, 300000, 600000, 3600000, 21600000, 86400000].find(size => span / size <= 8) || span;
}

function draw() {
  const width = Math.max(300, lanes.clientWidth), height = LOG.lanes.length * (LANE + GAP) + BARS + AXIS, [from, to] = view;
  const x = ms => LEFT + (width - LEFT - 6) * (ms - from) / (to - from);
  lanes.replaceChildren();
  const svg = add(lanes, 'svg', { viewBox: `0 0 ${width} ${height}`, height });
  LOG.lanes.forEach((lane, at) => {
    const y = at * (LANE + GAP);
    add(svg, 'text', { x: 0, y: y + 17 }, lane.name);
    add(svg, 'line', { x1: LEFT, x2: width - 6, y1: y + LANE / 2, y2: y + LANE / 2 });
    for (const [begin, end, state] of lane.states) {
      if (end < from || begin > to || state === 'down') continue;
      const left = x(Math.max(begin, from)), rect = add(svg, 'rect', { x: left, y: y + 4, width: Math.max(1, x(Math.min(end, to)) - left), height: LANE - 8 });
      rect.style.fill = `var(--${state})`;
      if (state === 'still') rect.style.opacity = 0.75;
      add(rect, 'title', {}, `${lane.name} ${state}, ${clock(begin)} to ${clock(end)}`);
    }
    for (const [rank, ms, kind, text, number] of LOG.marks) {
      if (rank !== lane.rank || ms < from || ms > to) continue;
      const mark = add(svg, 'circle', { class: `mark ${kind}`, cx: x(ms), cy: kind === 'lost' || kind === 'calls' ? y + 4 : y + LANE - 4, r: 4 });
      add(mark, 'title', {}, `${clock(ms)} ${text}`);
      if (number) mark.addEventListener('click', () => go(number));
    }
  });
  bars(svg, x, from, to, LOG.lanes.length * (LANE + GAP));
  for (let size = step(to - from), ms = Math.ceil((LOG.zero + from) / size) * size - LOG.zero; ms <= to; ms += size) {
    add(svg, 'line', { x1: x(ms), x2: x(ms), y1: 0, y2: height - AXIS });
    const text = clock(ms);
    if (x(ms) < width - 60) add(svg, 'text', { class: 'soft', x: x(ms) + 2, y: height - 4 }, size < 1000 ? text : text.slice(0, 8));
  }
  drag(svg, width);
  say();
}

function bars(svg, x, from, to, y) {
  const most = Math.max(1, ...LOG.commits.map(([, count]) => count));
  add(svg, 'text', { class: 'soft', x: 0, y: y + 20 }, 'commits per s');
  for (const [second, count] of LOG.commits) {
    const begin = second * 1000;
    if (begin + 1000 < from || begin > to) continue;
    const left = x(Math.max(begin, from)), high = (BARS - 6) * count / most;
    const bar = add(svg, 'rect', { class: 'bar', x: left, y: y + BARS - 4 - high, width: Math.max(1, x(Math.min(begin + 1000, to)) - left - 0.5), height: high });
    add(bar, 'title', {}, `${clock(begin)}: ${count}`);
  }
}

function say() {
  zoom.replaceChildren(`${clock(view[0])} to ${clock(view[1])}`);
  for (const state of ['leader', 'peon', 'electing', 'probing', 'synchronizing', 'still']) {
    const key = document.createElement('span');
    key.className = 'key';
    key.style.setProperty('--of', `var(--${state})`);
    key.append(state);
    zoom.append(key);
  }
  if (view[0] !== LOG.begin || view[1] !== LOG.end) {
    const button = document.createElement('button');
    button.id = 'whole';
    button.append('all');
    button.addEventListener('click', () => look(LOG.begin, LOG.end));
    zoom.append(button);
  } else zoom.append('drag over a part to see only that');
}

function look(from, to) {
  view = [from, to];
  draw();
  const whole = from === LOG.begin && to === LOG.end;
  for (const row of document.querySelectorAll('#table tr[id]')) row.hidden = !whole && (+row.dataset.ms < from || +row.dataset.ms > to);
}

function drag(svg, width) {
  let start = null, box = null;
  const place = event => (event.clientX - svg.getBoundingClientRect().left) * width / svg.getBoundingClientRect().width;
  const time = x => Math.round(view[0] + (view[1] - view[0]) * Math.min(1, Math.max(0, (x - LEFT) / (width - LEFT - 6))));
  svg.addEventListener('pointerdown', event => { start = place(event); });
  svg.addEventListener('pointermove', event => {
    if (start === null) return;
    box = box || add(svg, 'rect', { class: 'drag', y: 0, height: svg.viewBox.baseVal.height });
    box.setAttribute('x', Math.min(start, place(event)));
    box.setAttribute('width', Math.abs(place(event) - start));
  });
  svg.addEventListener('pointerup', event => {
    const ends = start === null ? null : [start, place(event)].map(time).sort((a, b) => a - b);
    start = null;
    if (box) box.remove();
    box = null;
    if (ends && ends[1] - ends[0] > 20) look(...ends);
  });
}

function unfold(part) {
  const button = part.previousElementSibling && part.previousElementSibling.querySelector('button');
  if (part.hidden) part.hidden = false;
  if (button) button.setAttribute('aria-expanded', 'true');
}

// Shows an event in the table and in the chart.
function go(number) {
  const row = document.getElementById(`e${number}`);
  if (!row) return;
  if (row.hidden) look(LOG.begin, LOG.end);
  if (row.parentElement.hidden) unfold(row.parentElement);
  for (const other of document.querySelectorAll('tr.here')) other.classList.remove('here');
  row.classList.add('here');
  row.scrollIntoView({ block: 'center' });
  mark(number);
}

function mark(number) {
  const y = LOG.rows[number];
  if (y === undefined) return;
  here.setAttribute('y', y - 13);
  picture.scrollTop = y * scale() - picture.clientHeight / 2;
}

function scale() {
  return chart.getBoundingClientRect().height / chart.viewBox.baseVal.height || 1;
}

function name() {
  document.querySelectorAll('.names span').forEach((span, at) => { span.style.left = `${LOG.columns[at] * scale()}px`; });
}

document.getElementById('table').addEventListener('click', event => {
  const fold = event.target.closest('.fold'), row = event.target.closest('tr[id]');
  if (fold) {
    const part = fold.nextElementSibling;
    part.hidden = !part.hidden;
    fold.querySelector('button').setAttribute('aria-expanded', String(!part.hidden));
  } else if (row) {
    for (const other of document.querySelectorAll('tr.here')) other.classList.remove('here');
    row.classList.add('here');
    mark(+row.id.slice(1));
  }
});
document.addEventListener('click', event => {
  const link = event.target.closest('a.to');
  if (!link) return;
  event.preventDefault();
  go(+link.getAttribute('href').slice(2));
});
picture.addEventListener('click', event => {
  const y = (event.clientY - chart.getBoundingClientRect().top) / scale();
  const near = Object.entries(LOG.rows).reduce((best, [number, at]) => Math.abs(at - y) < Math.abs(best[1] - y) ? [number, at] : best, [0, -1e9]);
  if (Math.abs(near[1] - y) < 14) go(+near[0]);
});
addEventListener('resize', () => { draw(); name(); });
draw();
name();

const picture = document.querySelector('#picture'), svg = picture.querySelector('svg'), panel = document.querySelector('#event');
const here = svg.querySelector('#here'), names = [...document.querySelectorAll('.names span')];
const wide = svg.viewBox.baseVal.width;
const NOTES = 320;
let now = 0, only = null, zoom = 0;

function element(name, text, kind) {
  const made = document.createElement(name);
  if (text !== undefined) made.textContent = text;
  if (kind) made.className = kind;
  return made;
}

function list(heading, items) {
  const part = element('section'), made = element('ul');
  part.append(element('h3', heading), made);
  made.append(...items);
  return part;
}

function link(event) {
  const made = element('button', `event ${event}`, 'link');
  made.onclick = () => { only = null; show(event - 1); };
  return made;
}

function sentence(text, events) {
  const made = element('p', text, 'quiet');
  events.forEach((event, at) => made.append(at ? ', ' : ' ', link(event)));
  return made;
}

function table(step) {
  const made = element('table'), head = element('thead'), body = element('tbody'), row = element('tr');
  row.append(element('th', 'monitor'), ...step.looks.map((_, rank) => element('th', rank, rank === step.monitor ? 'own' : '')));
  head.append(row);
  for (const [at, heading] of HEADINGS.entries()) {
    const line = element('tr');
    line.append(element('th', heading), ...step.looks.map((look, rank) => element('td', look[at], rank === step.monitor ? 'own' : '')));
    body.append(line);
  }
  made.append(head, body);
  return made;
}

function reason([words, test, section, paragraph]) {
  const made = element('li'), quote = element('blockquote', `${paragraph} `), why = element('p', `It is dropped: ${words}.`, 'why');
  why.title = test;
  quote.append(element('i', `(PROTOCOL, ${section})`));
  made.append(why, quote);
  return made;
}

function parts(step) {
  const found = [element('h2', `${now + 1}. ${step.heading}`)];
  if (step.from) found.push(sentence('Its message was sent in', [step.from]));
  if (step.to.length) found.push(sentence('What it sent arrived in', step.to));
  if (step.broken) found.push(element('p', step.broken, 'unsafe'));
  if (step.reasons.length) found.push(list('Why it is dropped', step.reasons.map(reason)));
  if (step.lines.length > 1) found.push(list('What it did', step.lines.slice(1).map(line => element('li', line.trim(), line.trim().split(' ')[0]))));
  if (step.lines.length === 1 && !step.changes.length) found.push(element('p', 'Nothing is sent, written or changed.'));
  const after = element('section');
  after.append(element('h3', 'Each monitor afterwards'), table(step));
  found.push(after);
  if (step.changes.length) found.push(list('All that changed', step.changes.map(text => element('li', text))));
  return found;
}

function show(at) {
  now = at;
  const step = STEPS[at];
  panel.replaceChildren(...parts(step));
  panel.scrollTop = 0;
  here.setAttribute('y', step.y - 14);
  const scale = svg.clientWidth / wide, x = (COLUMNS[step.monitor] ?? 0) * scale;
  const isSeen = step.monitor === null || (x > picture.scrollLeft + 40 && x < picture.scrollLeft + picture.clientWidth - 40);
  picture.scrollTo({top: step.y * scale - picture.clientHeight / 2, left: isSeen ? picture.scrollLeft : x - picture.clientWidth / 2, behavior: 'instant'});
  document.querySelector('#place').textContent = `event ${at + 1} of ${STEPS.length}` + (only === null ? '' : `, of monitor ${only} alone`);
  history.replaceState(null, '', `#${at + 1}`);
}

// Without zoom the chart, with its notes cut short, is as wide as its place. If its smallest letters, of 10 pixels, would shrink, it is wider, and its place scrolls.
// One step of zoom is a factor of 1.2.
function size() {
  const fit = Math.min(1.35, Math.max(1, (picture.clientWidth - 2) / Math.min(wide, COLUMNS[COLUMNS.length - 1] + NOTES))), scale = fit * 1.2 ** zoom;
  svg.style.width = `${wide * scale}px`;
  names.forEach((name, rank) => { name.style.left = `${COLUMNS[rank] * scale}px`; });
}

function zoomed(by) {
  zoom = by === 0 ? 0 : Math.max(-5, Math.min(8, zoom + by));
  size();
  show(now);
}

function fits(step) { return only === null || step.monitor === only || step.ranks.includes(only); }

function go(count) {
  let at = now;
  for (let left = Math.abs(count), way = Math.sign(count); left > 0; left--) {
    let next = at + way;
    while (STEPS[next] && !fits(STEPS[next])) next += way;
    if (!STEPS[next]) break;
    at = next;
  }
  show(at);
}

const MOVES = {ArrowDown: 1, ArrowRight: 1, j: 1, ' ': 1, ArrowUp: -1, ArrowLeft: -1, k: -1, PageDown: 10, PageUp: -10, Home: -STEPS.length, End: STEPS.length};
const ZOOMS = {'+': 1, '=': 1, '-': -1, f: 0};
document.addEventListener('keydown', press => {
  if (press.ctrlKey || press.metaKey || press.altKey || document.querySelector('dialog').open) return;
  if (press.key === ' ' && press.target.closest('button')) return;
  if (press.key in MOVES) { press.preventDefault(); go(MOVES[press.key]); }
  else if (press.key in ZOOMS) zoomed(ZOOMS[press.key]);
  else if (press.key === '?') document.querySelector('dialog').showModal();
  else if (press.key === 'Escape') { only = null; show(now); }
  else if (/^[0-9]$/.test(press.key) && Number(press.key) < COLUMNS.length) { only = Number(press.key); show(now); }
});
svg.addEventListener('click', press => {
  const y = (press.clientY - svg.getBoundingClientRect().top) * wide / svg.clientWidth;
  let nearest = 0;
  STEPS.forEach((step, at) => { if (Math.abs(step.y - y) < Math.abs(STEPS[nearest].y - y)) nearest = at; });
  show(nearest);
});
document.querySelector('#before').onclick = () => go(-1);
document.querySelector('#after').onclick = () => go(1);
document.querySelector('#smaller').onclick = () => zoomed(-1);
document.querySelector('#fit').onclick = () => zoomed(0);
document.querySelector('#larger').onclick = () => zoomed(1);
document.querySelector('#keys').onclick = () => document.querySelector('dialog').showModal();
document.querySelector('#safety button')?.addEventListener('click', press => show(Number(press.target.dataset.event) - 1));
addEventListener('resize', () => { size(); show(now); });
size();
const asked = Number(location.hash.slice(1));
show(asked >= 1 && asked <= STEPS.length ? asked - 1 : 0);

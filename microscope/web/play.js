'use strict';
const at = id => document.getElementById(id);
const waiting = Promise.resolve();
let state = null, lines = [], running = false, hinted = 0, shownHeader = null;

// ---- elements

function element(name, kind, ...children) {
  const made = document.createElement(name);
  if (kind) made.className = kind;
  made.append(...children);
  return made;
}

function drawn(name, attributes, ...children) {
  const made = document.createElementNS('http://www.w3.org/2000/svg', name);
  for (const [key, value] of Object.entries(attributes)) made.setAttribute(key, value);
  made.append(...children);
  return made;
}

function button(text, title, act) {
  const made = element('button', '', text);
  made.type = 'button';
  made.title = title;
  made.addEventListener('click', act);
  return made;
}

// ---- what is asked of the game

let game = null;

// Does what is asked, and shows what there is then.
function ask(what, body) {
  let said = null;
  try {
    asks[what](body);
  } catch (why) {
    if (!(why instanceof Refused)) throw why;
    said = why.message;
  }
  fault(said);
  if (said && running) toggle();
  state = game.view();
  lines = state.lines;
  draw();
  return waiting;
}

const asks = {
  act: body => game.act(body),
  new: ({header}) => game.begin(header),
  load: ({text}) => game.load(linesOfText(game.definitions, text)),
  set: settings,
  view: () => {},
};

function settings(asked) {
  if ('rule' in asked) game.under(DATA.rules.find(rule => rule.name === asked.rule) || null);
  if ('exercise' in asked) game.exercise = asked.exercise in DATA.exercises ? asked.exercise : null;
  if ('latency' in asked) game.latency = Math.max(0, Math.min(100000, Math.round(asked.latency) || 0));
  if ('loss' in asked) game.loss = Math.max(0, Math.min(100, asked.loss || 0));
}

const act = (name, more = {}) => {
  if (tourAt >= 0 && name !== 'go') leaveTour();
  return ask('act', {act: name, ...more});
};

function fault(text) {
  at('fault').textContent = text || '';
  at('fault').hidden = !text;
}

// ---- time by itself

async function toggle() {
  running = !running;
  at('run').textContent = running ? 'Pause' : 'Run';
  at('run').classList.toggle('on', running);
  let before = performance.now();
  while (running) {
    await new Promise(done => setTimeout(done, 90));
    if (!running) break;
    const now = performance.now(), milliseconds = Math.max(1, Math.round((now - before) / 1000 * Number(at('speed').value)));
    before = now;
    const isQuiet = at('skip').checked && !state.wire.some(isUnderWay);
    await (isQuiet ? act('next') : act('run', {milliseconds}));
  }
}

// ---- what is shown

const isUnderWay = it => !it.got.length && !it.dropped;
const kindOf = it => !it.up ? 'down' : it.leads ? 'leads' : it.phase === 'peon' ? 'peon' : 'votes';

function draw() {
  at('place').textContent = `event ${state.at} of ${state.count}, ${state.now.toLocaleString('en')} ms`;
  at('undo').disabled = !state.undo;
  at('redo').disabled = !state.redo;
  at('timeline').max = state.count;
  at('timeline').value = state.at;
  at('rules').value = state.rule || '';
  const [, count, rule] = state.header.split(' ');
  if (state.header !== shownHeader) [shownHeader, at('monitors').value, at('elections').value] = [state.header, count, rule];
  at('exercise').value = state.exercise ? state.exercise.name : '';
  for (const name of ['latency', 'loss']) if (document.activeElement !== at(name)) at(name).value = state[name];
  at('lights').replaceChildren(...state.clauses.map(light));
  drawHeading();
  drawArena();
  drawCards();
  drawWire();
  drawLast();
  drawLog();
  drawLines();
  drawTask();
}

// What stands below the picture in the window of a phone, where the lights may be out of sight: the last event, or what is wrong.
function drawHeading() {
  const broken = state.clauses.find(([, , , broken]) => broken);
  at('heading').textContent = broken ? `✖ ${broken[1]}: ${broken[3]}` : state.last.heading;
  at('heading').classList.toggle('broken', broken !== undefined);
}

function light([name, title, says, broken]) {
  const made = element('span', broken ? 'light broken' : 'light', broken ? `${title}: ${broken}` : title);
  made.title = `${name} of Safe: ${says}`;
  return made;
}

function actsOf(it) {
  const given = [];
  if (isUnderWay(it)) {
    given.push(button('deliver', 'It arrives now', () => act('deliver', {number: it.number})), button('drop', 'It never arrives', () => act('drop', {number: it.number})),
      button('delay', 'It takes a second longer', () => act('delay', {number: it.number, by: 1000})));
  } else if (it.dropped) given.push(button('take back', 'It is under way after all', () => act('back', {number: it.number})));
  given.push(...(it.got.length || it.dropped ? [button(it.got.length ? 'deliver again' : 'deliver', 'A copy of it arrives now', () => act('deliver', {number: it.number}))] : []));
  return given;
}

function menu(it, press) {
  const box = at('menu'), place = press.target.getBoundingClientRect();
  box.replaceChildren(element('b', '', `${it.kind} ${it.from} → ${it.to}`), element('span', 'fields', `message ${it.number}, ${it.fields}`), ...actsOf(it));
  for (const made of box.querySelectorAll('button')) made.addEventListener('click', () => { box.hidden = true; });
  box.hidden = false;
  box.style.left = `${Math.min(innerWidth - box.offsetWidth - 8, Math.max(8, place.left))}px`;
  box.style.top = `${Math.min(innerHeight - box.offsetHeight - 8, place.bottom + 4)}px`;
  box.querySelector('button').focus();
  press.stopPropagation();
}

// ---- cards

function drawCards() {
  const cards = at('cards');
  while (cards.children.length > state.monitors.length) cards.lastChild.remove();
  state.monitors.forEach((it, rank) => {
    let card = cards.children[rank];
    if (!card) cards.append(card = newCard(rank));
    card.className = `card ${kindOf(it)}`;
    const [name, phase] = card.querySelector('h3').children;
    name.textContent = `monitor ${rank}`;
    phase.textContent = it.marked ? `${termOf(it.phase)}, taking a full copy` : termOf(it.phase);
    phase.title = it.marked ? 'Its own store is of no use until the copy is whole.' : meaningOf(it.phase);
    card.querySelector('dl').replaceChildren(...facts(it, rank).flatMap(([key, value]) => [term(key), element('dd', '', value)]));
    card.querySelector('.start').hidden = it.up;
    for (const name of ['.kill', '.asking', '.tear', '.show', '.again']) card.querySelector(name).hidden = !it.up;
    card.querySelector('.tear').value = it.tear || '';
  });
}

function term(name) {
  const made = element('dt', '', termOf(name));
  made.title = meaningOf(name);
  return made;
}

function facts(it, rank) {
  const found = [['epoch', String(it.epoch)], ['last', String(it.last)], ...(it.promise ? [['promised', String(it.promise)]] : [])];
  if (it.leader !== null) found.push(['leader', it.leader === rank ? 'itself' : `monitor ${it.leader}`], ['quorum', it.quorum]);
  if (it.votes !== null) found.push(it.votes_of === 'it voted for' ? ['voted for', `monitor ${it.votes}`] : ['votes', `${it.votes} ${it.votes_of}`]);
  if (it.pending) found.push(['accepted', `${it.pending.text}, as version ${it.pending.version} under ${it.pending.pn}`]);
  if (it.map) found.push(['map', it.map]);
  if (it.lease !== null) found.push(['lease', element('span', it.valid ? 'fresh' : 'stale', `${it.valid ? 'valid' : 'ended'}, to ${it.lease.toLocaleString('en')} ms`)]);
  if (it.queue) found.push(['queue', `${it.queue} waiting`]);
  if (it.timers.length) {
    found.push(['timers', element('span', 'timers', ...it.timers.flatMap(([name, end]) =>
      [button(name, `Fire it now. It ends at ${end} ms`, () => act('timer', {rank, timer: name})), ` ${end.toLocaleString('en')} `]))]);
  }
  return found;
}

const TEARS = [['', 'write whole'], ['crash a 1 0', 'next write: lost, before it'], ['crash a 2 2', 'next write: half of it on disk'], ['crash a 3 0', 'next write: on disk, commit byte lost'],
  ['crash a 3 1', 'next write: commit byte kept'], ['crash a 5 0', 'next write: kept, nothing sent'], ['fail a 3 0', 'next write: the disk fails']];

function newCard(rank) {
  const command = element('input'), form = element('form', 'asking', command, element('button', '', 'Ask')), tear = element('select', 'tear');
  command.value = 'set color blue';
  command.setAttribute('aria-label', `command for monitor ${rank}`);
  command.setAttribute('list', 'commands');
  form.querySelector('button').title = 'A client asks it: set KEY VALUE, remove KEY, log TEXT, show kv, show log, since kv VERSION';
  form.addEventListener('submit', press => { press.preventDefault(); act('ask', {rank, command: command.value}); });
  tear.append(...TEARS.map(([value, text]) => { const made = element('option', '', text); made.value = value; return made; }));
  tear.title = 'What becomes of the next write of this monitor, which stops in it';
  tear.setAttribute('aria-label', tear.title);
  tear.addEventListener('change', () => act('tear', {rank, tear: tear.value || null}));
  const kill = button('Kill', 'It stops, and forgets all but its store', () => act('kill', {rank}));
  kill.classList.add('kill');
  const start = button('Start', 'It starts from its store', () => act('start', {rank}));
  start.classList.add('start');
  const show = button('Show', 'A client reads the map', () => act('ask', {rank, command: 'show kv', client: 2}));
  show.classList.add('show');
  const again = button('Again', 'The last request of client 1 comes here once more, with the same number', () => act('again', {rank}));
  again.classList.add('again');
  return element('article', 'card', element('h3', '', element('span'), element('span')), element('dl'), form, element('div', 'buttons', start, kill, show, again, tear));
}

// ---- messages, the last event, the log, the schedule, the exercise

function drawWire() {
  const lanes = new Map(), late = state.wire.filter(it => !isUnderWay(it)).slice(-6).reverse();
  for (const it of state.wire.filter(isUnderWay)) lanes.set(`${it.from} → ${it.to}`, [...(lanes.get(`${it.from} → ${it.to}`) || []), it]);
  const parts = [...lanes].map(([lane, found]) => element('div', 'lane', element('b', '', `monitor ${lane}`), ...found.map(message)));
  if (!parts.length) parts.push(element('p', 'quiet', state.monitors.some(it => it.up) ? 'None is under way.' : 'None is under way. Start a monitor, or see Help.'));
  if (late.length) parts.push(element('h2', '', 'Arrived or dropped'), ...late.map(message));
  at('wire').replaceChildren(...parts);
}

function kindText(kind) {
  const made = element('span', 'kind', termOf(kind));
  made.title = meaningOf(kind);
  return made;
}

function message(it) {
  const what = it.dropped ? 'dropped' : it.got.length ? `${it.from} → ${it.to}, in event ${it.got.join(', ')}` : `due at ${it.due.toLocaleString('en')} ms`;
  const made = element('div', isUnderWay(it) ? 'message' : 'message gone', kindText(it.kind), ' ', element('span', 'fields', `${it.fields} · ${what}`), element('div', 'buttons', ...actsOf(it)));
  made.dataset.number = it.number;
  return made;
}

function link(event, text) {
  const made = button(text || `event ${event}`, 'Go to that event', () => act('go', {event}));
  made.className = 'link';
  return made;
}

// A reply that isn't plain, with its meaning.
function inWords(line) {
  const found = /^reply .* notreadable has=(\d+) lease=(\d)$/.exec(line);
  if (!found) return line;
  const [, has, lease] = found, lacks = has === '0' ? 'has no version yet' : `has version ${has}`;
  return `${line}: it answers no read, since it ${lacks}${lease === '0' ? ` ${has === '0' ? 'and' : 'but'} no valid lease` : ''}`;
}

function drawLast() {
  const it = state.last, list = element('ul', '', ...it.lines.map(line => element('li', line.split(' ')[0], inWords(line))));
  const parts = [element('b', '', it.heading), list];
  if (it.from) parts.push(element('p', 'quiet', 'Its message was sent in ', link(it.from), '.'));
  if (it.to.length) parts.push(element('p', 'quiet', 'What it sent arrived in ', ...it.to.flatMap((event, at) => [at ? ', ' : '', link(event)]), '.'));
  for (const [words, test, section, paragraph] of it.reasons) {
    const why = element('p', 'why', `It is dropped: ${words}.`);
    why.title = test;
    parts.push(why, element('blockquote', '', `${paragraph} `, element('i', '', `(PROTOCOL, ${section})`)));
  }
  if (it.changes.length) {
    const all = element('details', '', element('summary', '', `${it.changes.length} change${it.changes.length > 1 ? 's' : ''}`), element('ul', '', ...it.changes.map(([rank, part, before, after]) => element('li', '', `${rank}: ${part} ${before} → ${after}`))));
    all.open = at('last').querySelector('details')?.open ?? false;
    parts.push(all);
  }
  if (it.idle) parts.push(element('p', 'quiet', 'Nothing is sent, written or changed.'));
  at('last').replaceChildren(...parts);
}

function drawLog() {
  const entries = state.log.slice(-8).map(([version, text, isAcknowledged, isAnswered]) => {
    const said = isAnswered ? 'its client is answered' : isAcknowledged ? 'acknowledged by the leader, its client is not answered' : 'not acknowledged';
    return element('li', '', `${version}: ${text} `, element('span', isAnswered ? 'fresh' : 'quiet', said));
  });
  at('log').replaceChildren(entries.length ? element('ul', '', ...entries) : element('p', 'quiet', 'It is empty.'));
}

function drawLines() {
  const list = at('lines');
  while (list.children.length > lines.length) list.lastChild.remove();
  lines.forEach(([text, heading, isBroken], place) => {
    let item = list.children[place];
    if (!item) {
      list.append(item = element('li'));
      item.addEventListener('click', () => act('go', {event: place + 1}));
    }
    if (item.textContent !== text) item.textContent = text;
    item.title = heading;
    item.className = (place + 1 === state.at ? 'here' : place + 1 > state.at ? 'later' : '') + (isBroken ? ' broken' : '');
  });
  const here = list.querySelector('.here');
  if (here) list.scrollTop = here.offsetTop - list.offsetTop - list.clientHeight / 2;
}

function drawTask() {
  const box = at('task'), it = state.exercise;
  box.hidden = !it;
  if (!it) return;
  const isDone = it.demands.every(([isMet]) => isMet);
  const parts = [element('h2', '', isDone ? `${it.name}: solved` : it.name), element('p', '', it.question),
    element('ul', '', ...it.demands.map(([isMet, text]) => element('li', isMet ? 'met' : 'missing', text)))];
  parts.push(...it.hints.slice(0, hinted).map(hint => element('p', '', `Hint: ${hint}`)));
  if (hinted < it.hints.length) parts.push(button('Hint', 'Show what helps', () => { hinted++; drawTask(); }));
  if (it.answer) parts.push(element('details', '', element('summary', '', 'What is the answer?'), element('p', '', it.answer)));
  const open = box.querySelector('details')?.open;
  box.replaceChildren(...parts);
  if (open && box.querySelector('details')) box.querySelector('details').open = true;
}

// ---- buttons and keys

function save(name, text) {
  const made = element('a');
  made.href = URL.createObjectURL(new Blob([text], {type: 'text/plain'}));
  made.download = name;
  made.click();
  URL.revokeObjectURL(made.href);
}

async function startAll() {
  for (let rank = 0; rank < state.monitors.length; rank++) if (!state.monitors[rank].up) await act('start', {rank});
}

const first = name => { const it = state.wire.find(isUnderWay); if (it) act(name, {number: it.number}); };
const KEYS = {
  ' ': toggle, n: () => act('next'), u: () => act('undo'), ArrowLeft: () => act('undo'), r: () => act('redo'), ArrowRight: () => act('redo'), s: startAll,
  d: () => first('deliver'), x: () => first('drop'), Home: () => act('go', {event: 0}), End: () => act('go', {event: state.count}),
  '?': () => at('helping').showModal(), Escape: () => { at('menu').hidden = true; },
};
document.addEventListener('keydown', press => {
  const isTyping = press.target.closest('input:not([type=checkbox]), select') || press.target.closest('button, summary') && [' ', 'Enter'].includes(press.key);
  if (at('helping').open) return;
  if (press.ctrlKey || press.metaKey || press.altKey || (isTyping && press.key !== 'Escape') || !(press.key in KEYS)) return;
  press.preventDefault();
  KEYS[press.key]();
});
document.addEventListener('click', press => { if (!press.target.closest('#menu')) at('menu').hidden = true; });
addEventListener('resize', () => state && drawArena());
at('undo').onclick = () => act('undo');
at('redo').onclick = () => act('redo');
at('next').onclick = () => act('next');
at('run').onclick = toggle;
at('wait').onclick = () => act('wait', {milliseconds: Number(at('pause').value)});
at('startall').onclick = startAll;
at('more').onclick = () => at('new').scrollIntoView({block: 'center'});
at('new').onclick = () => { leaveTour(); ask('new', {header: `monitors ${at('monitors').value} ${at('elections').value}`}); };
at('load').onclick = () => at('file').click();
at('file').onchange = async () => { const file = at('file').files[0]; if (file) await ask('load', {text: await file.text()}); at('file').value = ''; };
at('save').onclick = () => save('played.schedule', [state.header, ...lines.slice(0, state.at).map(([line]) => line), ''].join('\n'));
at('savetrace').onclick = () => save('played.trace', [...game.trace(), ''].join('\n'));
at('help').onclick = () => at('helping').showModal();
at('tourbegin').onclick = beginTour;
at('fieldswords').onchange = () => { isFieldsWords = at('fieldswords').checked; draw(); };
at('timeline').oninput = () => act('go', {event: Number(at('timeline').value)});
at('exercise').onchange = () => { hinted = 0; ask('set', {exercise: at('exercise').value || null}); };
at('scenario').onchange = () => {
  const found = DATA.scenarios[at('scenario').value];
  if (found) ask('load', {text: [...found, ''].join('\n')});
  at('scenario').value = '';
};
at('rules').onchange = () => ask('set', {rule: at('rules').value || null});
for (const name of ['latency', 'loss']) at(name).onchange = () => ask('set', {[name]: Number(at(name).value)});

function begin() {
  const {lines: [header, ...events], rule, exercise, isTour} = DATA.begin;
  at('exercise').append(...Object.keys(DATA.exercises).map(name => new Option(name, name)));
  at('rules').append(...DATA.rules.map(({name, changed}) => new Option(`${name}: ${changed}`, name)));
  at('scenario').append(...Object.keys(DATA.scenarios).map(name => new Option(name.replace(/_/g, ' '), name)));
  game = new Game(header, DATA.rules.find(it => it.name === rule) || null);
  game.exercise = exercise;
  ask('load', {text: [header, ...events, ''].join('\n')});
  if (isTour) beginTour();
}

begin();

// The tour: a run in five steps, which can be left at any point. DATA.tour has its schedule, and the event at which each step ends.
'use strict';

const TOUR = [
  ['Three monitors elect a leader', 'They probe each other, one proposes itself, the others vote, and it wins epoch 2. Then it collects what they accepted before: nothing yet. The green one leads.'],
  ['A client writes', 'The client asks a peon, which forwards the command. The leader sends BEGIN, each member of the quorum writes the value to its disks and sends ACCEPT. Then it is committed, and the client gets its answer.'],
  ['The leader is killed', 'What it remembered is gone. Its disks hold what it accepted. Nobody notices yet: the others still have a lease, and answer reads.'],
  ['The others elect a new leader', 'Their lease ends, they hold an election without monitor 0, and the new leader collects from its quorum. It has the committed value, as each later leader must. A client writes again.'],
  ['The old leader comes back', 'It starts, learns from the others what it missed, and joins a new quorum. Now it is your turn: leave the tour, and deliver, drop, kill and write by hand.'],
];
// The milliseconds between two events that the tour shows.
const PACE = 70;
let tourAt = -1, tourNumber = 0;

function beginTour() {
  game.begin(DATA.tour.lines[0]);
  game.load(DATA.tour.lines);
  game.at = 0;
  ask('view', {});
  toStep(0);
}

// Shows the events up to the end of a step, one after the other.
async function toStep(step) {
  const number = ++tourNumber;
  tourAt = step;
  drawTour();
  const target = DATA.tour.steps[step];
  if (state.at > target) act('go', {event: target});
  while (tourNumber === number && tourAt === step && state.at < target) {
    act('go', {event: state.at + 1});
    await new Promise(done => setTimeout(done, PACE));
  }
}

function leaveTour() {
  tourAt = -1;
  tourNumber++;
  drawTour();
}

function drawTour() {
  const box = at('tour');
  box.hidden = tourAt < 0;
  if (tourAt < 0) return;
  const [title, text] = TOUR[tourAt], isLast = tourAt + 1 === TOUR.length;
  const onward = isLast ? button('Leave the tour', 'Go on by hand from here', leaveTour) : button('Next step', 'Go on', () => toStep(tourAt + 1));
  onward.className = 'main';
  const back = button('Back', 'The step before', () => toStep(tourAt - 1)), leave = button('Leave the tour', 'Go on by hand from here', leaveTour);
  back.disabled = tourAt === 0;
  box.replaceChildren(element('b', '', `${tourAt + 1} of ${TOUR.length}: ${title}`), element('p', '', text), element('div', 'buttons', back, onward, ...(isLast ? [] : [leave])));
}

'use strict';
/* The evening: the trials as the page knows them, changes one after the other, and the film of a change's steps. */

const desk = {
  ground: null, told: null, trials: {}, order: [], current: null, beside: '', season: null,
  view: 0, playing: null, busy: false, inLine: 0, offline: false,
  layer: 'depth', arrowsOn: false, figuresOn: false, arrows: null, cautions: null,
  cursor: null, boards: [], panel: 'boards', said: '',
};

const here = () => desk.trials[desk.current];
const lastOf = trial => trial.frames[trial.frames.length - 1];
const madeOf = trial => trial.frames.length - 1;
const isAtLast = () => here() && desk.view === madeOf(here());

/* ---- all that reads or changes a trial goes in turn, so that no answer is taken for another's and nothing that a hand does is dropped */

let waiting = Promise.resolve();
const MOST_IN_LINE = 12;

function inTurn(what) {
  desk.inLine++;
  waiting = waiting.then(what).catch(fault).finally(() => { desk.inLine--; });
  return waiting;
}

const openTrial = key => inTurn(() => openNow(key));

/* ---- what is known of the trials */

async function loadTrials() {
  desk.told = await (await call('/api/desk')).json();
  desk.order = desk.told.trials.map(trial => trial.key);
  for (const told of desk.told.trials) {
    const known = desk.trials[told.key] || { frames: [], marks: [], rates: [] };
    desk.trials[told.key] = Object.assign(known, { name: told.name, latest: told.serial });
  }
  for (const key of Object.keys(desk.trials)) if (!desk.order.includes(key)) delete desk.trials[key];
}

async function fetchTrial(key) {
  const trial = desk.trials[key];
  const marks = [];
  Object.assign(trial, { frames: [], course: null });
  for await (const part of partsOf(await call(`/api/trial/${key}/frames`))) take(trial, part, marks);
  trial.marks = marks;
}

function take(trial, part, marks) {
  if (part.frame) trial.frames.push(part.frame);
  if (part.now) Object.assign(trial, part.now, { latest: part.now.serial });
  if (part.rates) trial.rates = part.rates;
  if (part.mark) marks.push(part.mark);
}

async function openNow(key) {
  stopFilm();
  desk.said = '';
  if (key !== 'season' && !desk.trials[key]) key = desk.order[0] || 'season';
  if (key === 'season') {
    for await (const part of partsOf(await call('/api/season'))) if (part.frame) desk.season = part.frame;
  } else await fetchTrial(key);
  desk.current = key;
  if (here()) desk.view = madeOf(here());
  if (desk.beside && (!desk.trials[desk.beside] || desk.beside === desk.current)) desk.beside = '';
  if (desk.beside) await fetchTrial(desk.beside);
  desk.panel = panelFor(key);
  await lookCloser();
  draw();
}

/* likely slips are for before the first step */
function panelFor(key) {
  if (key === 'season') return desk.ground.slips.length ? 'slips' : 'trials';
  return desk.ground.slips.length && madeOf(desk.trials[key]) === 0 ? 'slips' : desk.panel === 'slips' ? 'boards' : desk.panel;
}

/* arrows and cautions belong to the state that stands; those of another are not shown */
async function lookCloser() {
  desk.arrows = desk.cautions = null;
  const trial = here();
  if (!trial || !isAtLast()) return;
  const serial = trial.serial, stillThere = () => here() === trial && trial.serial === serial && isAtLast() && !desk.playing;
  call(`/api/trial/${desk.current}/cautions`).then(answer => answer.json()).then(told => {
    if (!stillThere()) return;
    desk.cautions = told;
    draw();
  }).catch(() => {});
  if (!desk.arrowsOn) return;
  const list = [];
  for await (const fields of linesOf(await call(`/api/trial/${desk.current}/arrows`))) {
    if (fields[0] === 'arrow') list.push([+fields[1], +fields[2], realOf(fields[3]), realOf(fields[4])]);
  }
  if (stillThere() && desk.arrowsOn) desk.arrows = list;
}

/* a number from the decimal of its 64 bits */
function realOf(text) {
  const bits = new DataView(new ArrayBuffer(8));
  bits.setBigUint64(0, BigInt(text));
  return bits.getFloat64(0);
}

/* ---- changes */

function change(what, body, film = false) {
  return desk.inLine > MOST_IN_LINE ? waiting : inTurn(() => changeNow(what, body, film));
}

/* one change; frames come as they are made */
async function changeNow(what, body, film) {
  const trial = here();
  if (!trial) return;
  stopFilm();
  if (!desk.offline) $('trouble').hidden = true;
  desk.busy = true;
  trial.same = '-';
  desk.said = '';
  desk.arrows = desk.cautions = null;
  const from = madeOf(trial), marks = [];
  if (what !== 'back') desk.view = from;
  if (what === 'step' && desk.panel === 'slips') desk.panel = 'boards';
  try {
    const answer = await call(`/api/trial/${desk.current}/${what}`, { at: trial.serial, ...body });
    if (film) startFilm(from);
    for await (const part of partsOf(answer)) takeChange(trial, part, from, marks);
    trial.marks = marks;
  } catch (why) {
    fault(why);
  } finally {
    desk.busy = false;
  }
  await loadTrials().catch(() => {});
  if (!desk.playing) {
    desk.view = madeOf(trial);
    await lookCloser();
  }
  draw();
}

function takeChange(trial, part, from, marks) {
  if (part.again) {
    trial.frames.length = from + 1;
    const words = 'The standing steps were worked once more; the state is the same, bit for bit.';
    trouble('The engine did not answer and was started again.', words, { calm: true, lasting: 7000 });
  }
  if (part.refused) {
    const { number, words } = part.refused;
    trouble(`Refused, number ${number}:`, `${words}. What stood before stands.`, { lasting: 12000 });
  }
  take(trial, part, marks);
  if (!part.now) return;
  if (part.now.made < madeOf(trial)) trial.course = null;
  trial.frames.length = Math.min(trial.frames.length, part.now.made + 1);
  if (part.now.same === 'DIFFERS') {
    trouble('The state after this take-back is not the one before the trial.', 'This must never be seen: keep the journal and call the makers.');
  }
}

const makeSteps = count => change('step', { count }, count > 1);

async function takeBack(count) {
  const trial = here();
  count = trial ? Math.min(count, madeOf(trial)) : 0;
  if (count <= 0) return;
  await change('back', { count });
  if (trial.same === 'same') say(`✓ ${plural(count, 'step')} taken back. The water is bit for bit what it was: never made.`);
}

function say(words) {
  desk.said = words;
  draw();
}

/* the next clock that a hatch log can name */
function nextClock() {
  const update = desk.ground.run.update;
  return (Math.floor(lastOf(here()).clock / update) + 1) * update;
}

async function goToNext() {
  const end = nextClock(), trial = here();
  for (;;) {
    const before = madeOf(trial);
    await change('step', { count: 64, end }, true);
    if (here() !== trial || lastOf(trial).clock >= end || madeOf(trial) === before) return;
  }
}

/* ---- the film: only states that the engine told are shown, no state between two */

const movesLittle = () => matchMedia('(prefers-reduced-motion:reduce)').matches;

function startFilm(from) {
  const pace = +$('pace').value;
  if (!pace || movesLittle()) return;
  desk.view = from;
  desk.playing = setInterval(showNext, 1000 / pace);
}

function showNext() {
  if (desk.view < madeOf(here())) {
    desk.view++;
    draw();
  } else if (!desk.busy) {
    stopFilm();
    lookCloser().then(draw).catch(fault);
  }
}

function stopFilm() {
  clearInterval(desk.playing);
  desk.playing = null;
}

function look(step) {
  stopFilm();
  const trial = here();
  if (!trial) return;
  desk.view = Math.max(0, Math.min(madeOf(trial), step));
  desk.said = '';
  lookCloser().then(draw).catch(fault);
  draw();
}

/* of this trial the state in view; of the one beside it its last state that is not later, so that both films run by one clock */
function frameInView(trial) {
  if (trial === here()) return trial.frames[Math.min(desk.view, madeOf(trial))];
  const clock = frameInView(here()).clock;
  let at = madeOf(trial);
  while (at > 0 && trial.frames[at].clock > clock) at--;
  return trial.frames[at];
}

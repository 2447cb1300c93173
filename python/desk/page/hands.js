'use strict';
/* Hands: drawing the whole page, buttons, keys, the map under a pointer, and the look at the server every two seconds. */

/* ---- drawing */

let isQueued = false;

function draw() {
  if (isQueued) return;
  isQueued = true;
  requestAnimationFrame(() => {
    isQueued = false;
    drawNow();
  });
}

function pictureOf(trial, frame, more) {
  const layer = layerNow();
  return { frame, values: layer.values(trial, frame), classes: layer.classes(), ...more };
}

/* of a state in the past, what hatches ran at in the step after it */
const ratesInView = trial => desk.view < madeOf(trial) ? trial.frames[desk.view + 1].rates : trial.rates;

function drawNow() {
  if (!desk.ground || !desk.current) return;
  const trial = here(), frame = trial ? frameInView(trial) : desk.season;
  if (!frame) return;
  const other = trial && desk.beside && desk.trials[desk.beside].frames.length ? desk.trials[desk.beside] : null;
  document.body.classList.toggle('two', !!other);
  $('right').hidden = !other;
  document.body.classList.toggle('boarded', !!trial && desk.panel === 'boards' && desk.boards.length > 0);
  $('maps').className = trial ? 'trial' : 'season';
  $('layer').disabled = !trial;
  const slips = desk.panel === 'slips', picture = pictureOf(trial, frame, { rates: trial ? ratesInView(trial) : frame.rates, main: true, slips });
  drawMap($('left').querySelector('canvas'), picture);
  showCaption(trial, frame, other);
  if (other) drawOther(trial, frame, other);
  showTabs();
  showLegend(picture);
  showHeld(trial);
  showAccount(frame);
  showHatches(trial);
  showPanels(trial, other);
  showTimeline(trial);
  showBanner(trial);
  showKeeper(trial);
  showPaperHead(trial, frame);
  showButtons(trial);
  const wet = frame.depths.filter(depth => depth >= WET).length;
  const words = `Map of the meadow at ${clockText(frame.clock)}: ${plural(wet, 'square')} at least 1 cm deep. Arrow keys move, Enter puts up a board.`;
  $('left').querySelector('canvas').setAttribute('aria-label', words);
}

function showCaption(trial, frame, other) {
  const words = trial && desk.layer !== 'depth' ? layerNow().caption(trial, frame) : '';
  $('left').querySelector('figcaption').textContent = [other ? `${desk.current} at ${clockText(frame.clock)}` : '', words].filter(Boolean).join(': ');
}

function drawOther(trial, frame, other) {
  const its = frameInView(other), endsEarlier = its.clock < frame.clock && its === lastOf(other);
  const isDepth = desk.layer === 'depth';
  drawMap($('right').querySelector('canvas'), pictureOf(other, its, { rates: its.rates, other: endsEarlier || !isDepth ? null : frame }));
  const when = `${desk.beside} at ${clockText(its.clock)}${its.clock === frame.clock || endsEarlier ? '' : ', its state just before'}`;
  const compared = `: + deeper, − shallower than ${desk.current}; bold from 1 cm, thin from 1 mm`;
  const notCompared = `: it ends here, earlier than ${desk.current}, so the two are not compared`;
  $('right').querySelector('figcaption').textContent = when + (endsEarlier ? notCompared : isDepth ? compared : '');
}

function showButtons(trial) {
  const made = trial ? madeOf(trial) : 0;
  for (const id of ['one', 'forty', 'next', 'mark', 'save', 'drop', 'arrows']) $(id).disabled = !trial;
  for (const id of ['all-back', 'back-forty', 'back-one']) $(id).disabled = !made;
  $('to-mark').disabled = !trial || !trial.marks.some(([step]) => step < made);
  $('forty-words').textContent = desk.playing ? '■ Stop' : '40 steps ▶▶';
  if (trial) $('next-clock').textContent = clockText(nextClock());
}

/* ---- the map under a pointer, and by keys */

function tell(square, x, y, trial, frame) {
  const tip = $('tip');
  tip.hidden = square === null || !frame;
  if (tip.hidden) return;
  const hatch = Object.keys(desk.ground.hatches).find(number => {
    const [row, column] = desk.ground.hatches[number].place;
    return row * desk.ground.columns + column === square;
  });
  const course = trial && frame.depths[square] >= 0 ? courseOf(trial, trial.frames.indexOf(frame)) : null;
  const bed = frame.depths[square] < 0 ? '' : `; ground ${(desk.ground.beds[square] / 1e6).toFixed(2)} m`;
  const wet = course && course.wet[square] ? `; 1 cm deep for ${lastingText(course.wet[square])}` : '';
  tip.textContent = `${placeText(square)}: ${squareText(trial, frame, square)}${wet}${bed}${hatch ? `; ${hatchText(hatch)}` : ''}`;
  const box = $('maps').getBoundingClientRect();
  tip.style.left = Math.max(4, Math.min(x - box.left + 14, box.width - 250)) + 'px';
  tip.style.top = Math.max(4, Math.min(y - box.top + 14, box.height - 70)) + 'px';
}

function shownOn(id) {
  if (id === 'left') return here() ? [here(), frameInView(here())] : [null, desk.season];
  const other = desk.trials[desk.beside];
  return other && other.frames.length ? [other, frameInView(other)] : [null, null];
}

function moveCursor(canvas, id, by) {
  const count = desk.ground.rows * desk.ground.columns, paper = canvas.paper, box = canvas.getBoundingClientRect();
  desk.cursor = desk.cursor === null ? Math.floor(count / 2) : Math.max(0, Math.min(count - 1, desk.cursor + by));
  tell(desk.cursor, box.left + paper.x(columnOf(desk.cursor) + 1), box.top + paper.y(rowOf(desk.cursor) + 1), ...shownOn(id));
  draw();
}

function handle(id) {
  const canvas = $(id).querySelector('canvas');
  canvas.onpointermove = event => tell(squareAt(canvas, event), event.clientX, event.clientY, ...shownOn(id));
  canvas.onpointerleave = () => { $('tip').hidden = true; };
  canvas.onclick = event => toggleBoard(squareAt(canvas, event));
  canvas.onblur = () => {
    desk.cursor = null;
    $('tip').hidden = true;
    draw();
  };
  canvas.onkeydown = event => {
    const by = { ArrowUp: -desk.ground.columns, ArrowDown: desk.ground.columns, ArrowLeft: -1, ArrowRight: 1 }[event.key];
    if (by && !event.shiftKey) moveCursor(canvas, id, by);
    else if (event.key === 'Enter' && desk.cursor !== null) toggleBoard(desk.cursor);
    else return;
    event.preventDefault();
    event.stopPropagation();
  };
  new ResizeObserver(draw).observe($(id));
}

/* ---- what buttons and keys do */

function hideTrouble() {
  if (!desk.offline) $('trouble').hidden = true;
}

/* out of a field, away with a message, and back from looking back */
function leave({ target }) {
  target.blur();
  hideTrouble();
  if (here()) look(madeOf(here()));
}

const fortySteps = () => desk.playing ? look(desk.view) : makeSteps(40);
const addMark = () => here() && change('mark', { name: `mark ${here().marks.length + 1}` });
const allBack = () => here() && takeBack(madeOf(here()));

function backToMark() {
  if (!here()) return;
  const made = madeOf(here()), mark = here().marks.filter(([step]) => step < made).pop();
  if (mark) takeBack(made - mark[0]);
}

async function saveLog() {
  if (!here()) return;
  try {
    const text = await (await call(`/api/trial/${desk.current}/log`)).text();
    const link = make('a', { href: URL.createObjectURL(new Blob([text], { type: 'text/plain' })), download: `trial-${desk.current}.log` });
    link.click();
    URL.revokeObjectURL(link.href);
    say(`Saved as trial-${desk.current}.log. The keeper adopts it with bin/season keep, and nobody else.`);
  } catch (why) {
    fault(why);
  }
}

function press(id, isOn) {
  $(id).setAttribute('aria-pressed', isOn);
  return isOn;
}

async function toggleArrows() {
  desk.arrowsOn = press('arrows', !desk.arrowsOn);
  if (desk.arrowsOn) desk.figuresOn = press('figures', false);
  await lookCloser().catch(fault);
  draw();
}

function toggleFigures() {
  desk.figuresOn = press('figures', !desk.figuresOn);
  if (desk.figuresOn && desk.arrowsOn) toggleArrows();
  draw();
}

const toggleGrey = () => document.body.classList.toggle('grey', press('grey', $('grey').getAttribute('aria-pressed') !== 'true'));

function showLayer(name) {
  desk.layer = $('layer').value = name;
  draw();
}

/* what stands beside this trial */
function showBeside(key) {
  return inTurn(async () => {
    desk.beside = key;
    if (key) await fetchTrial(key);
    draw();
  });
}

const nextBeside = () => here() && showBeside(after(['', ...desk.order.filter(key => key !== desk.current)], desk.beside));

const after = (list, one) => list[(list.indexOf(one) + 1) % list.length];
const nextLayer = () => here() && showLayer(after(LAYER_NAMES, desk.layer));

function showPanel(name) {
  desk.panel = name;
  draw();
}

function askForName(title, name, withCopy, then) {
  $('ask-title').textContent = title;
  $('ask').querySelector('button.main').textContent = withCopy ? 'Begin' : 'Name it';
  $('ask').querySelector('fieldset').hidden = !withCopy;
  $('copy-label').hidden = !here();
  $('name').value = name;
  $('ask').onclose = () => { if ($('ask').returnValue === 'yes' && $('name').value) then($('name').value); };
  $('ask').returnValue = '';
  $('ask').showModal();
  $('name').select();
}

function askForTrial() {
  askForName('A new trial', `opening ${desk.order.length + 1}`, true, name => {
    const copy = document.querySelector('input[name=from]:checked').value && here() ? desk.current : null;
    inTurn(async () => {
      const made = await (await call('/api/trials', { name, copy })).json();
      await loadTrials();
      await openNow(made.key);
    });
  });
}

const rename = () => here() && askForName('Another name', here().name, false, name => change('name', { name }));

function askToDrop() {
  const key = desk.current;
  if (!here()) return;
  $('sure').onclose = () => {
    if ($('sure').returnValue !== 'yes') return;
    inTurn(async () => {
      await call(`/api/trial/${key}/drop`, {});
      await loadTrials();
      await openNow(desk.order[0] || 'season');
    });
  };
  $('sure').returnValue = '';
  $('sure').showModal();
}

async function drawAll(litresOf) {
  for (const number of Object.keys(desk.ground.hatches)) {
    if (here().rates[number - 1] !== litresOf(number)) await change('draw', { hatch: +number, litres: litresOf(number) });
  }
}

const CLICKS = {
  new: askForTrial, drop: askToDrop, save: saveLog, print: () => print(), help: () => $('keys').showModal(),
  one: () => makeSteps(1), forty: fortySteps, next: goToNext, 'back-one': () => takeBack(1), 'back-forty': () => takeBack(40), 'all-back': allBack,
  mark: addMark, 'to-mark': backToMark, arrows: toggleArrows, figures: toggleFigures, grey: toggleGrey,
  shut: () => drawAll(() => 0), 'as-season': () => drawAll(number => here().frames[0].rates[number - 1]),
  'tab-boards': () => showPanel('boards'), 'tab-trials': () => showPanel('trials'), 'tab-slips': () => showPanel('slips'),
};
const KEYS = {
  ' ': fortySteps, ArrowRight: () => makeSteps(1), ArrowLeft: event => takeBack(event.shiftKey ? 40 : 1), Home: allBack, u: goToNext,
  m: addMark, b: backToMark, ',': () => look(desk.view - 1), '.': () => look(desk.view + 1), Escape: leave,
  l: nextLayer, a: toggleArrows, f: toggleFigures, g: toggleGrey,
  t: () => showPanel(after(PANELS, desk.panel)), n: askForTrial, r: rename, d: askToDrop, v: nextBeside,
  s: saveLog, p: () => print(), '?': () => $('keys').showModal(),
};
const OF_A_SLIDER = ['ArrowLeft', 'ArrowRight', 'ArrowUp', 'ArrowDown', 'Home', 'End', 'PageUp', 'PageDown'];
const IN_A_TRIAL = [' ', 'u', 'm', 'b', ',', '.', 'a'];

/* a slider's Page keys move by a hundred litres */
function pageSlider(event) {
  const by = { PageUp: 100, PageDown: -100 }[event.key], slider = event.target;
  if (!by || slider.id === 'scrub') return;
  slider.value = +slider.value + by;
  slider.oninput(event);
  slider.onchange(event);
  event.preventDefault();
}

function onKey(event) {
  const { key, target } = event;
  if (event.ctrlKey || event.metaKey || event.altKey || document.querySelector('dialog[open]')) return;
  if (target.matches('input[type=number],select') && key !== 'Escape') return;
  if (target.matches('input[type=range]') && OF_A_SLIDER.includes(key)) return pageSlider(event);
  if (target.matches('button') && key === 'Enter') return;
  const slider = /^[1-9]$/.test(key) && here() && $('slide' + key), does = KEYS[key.length === 1 ? key.toLowerCase() : key];
  if (slider) slider.focus();
  else if (!does || !here() && IN_A_TRIAL.includes(key)) return;
  else {
    if (key === ' ' && target.matches('button')) target.blur();
    does(event);
  }
  event.preventDefault();
}

/* ---- the look at the server, so that two windows show the same */

async function lookAround() {
  const before = JSON.stringify(desk.told);
  await loadTrials();
  const trial = here(), { run } = desk.told.season;
  if (desk.current !== 'season' && !trial) await openNow('season');
  else if (trial && trial.latest !== trial.serial) {
    trouble('This trial was changed in another window.', 'It is shown as it stands now.', { calm: true, lasting: 5000 });
    await openNow(desk.current);
  } else if (!trial && desk.season && run && run.steps !== desk.season.steps) await openNow('season');
  else if (JSON.stringify(desk.told) !== before) draw();
}

async function begin() {
  desk.ground = await (await call('/api/ground')).json();
  document.title = `The hatch desk: ${desk.ground.name}`;
  loadBoards();
  await loadTrials();
  await openNow(desk.order[0] || 'season');
  document.body.dataset.ready = 'yes';
}

for (const [id, does] of Object.entries(CLICKS)) $(id).onclick = does;
for (const id of ['left', 'right']) handle(id);
$('layer').onchange = event => showLayer(event.target.value);
$('beside').onchange = event => showBeside(event.target.value);
$('scrub').oninput = event => look(+event.target.value);
$('trouble').onclick = hideTrouble;
document.onkeydown = onKey;
addEventListener('resize', draw);
setInterval(() => { if (!desk.inLine && !desk.playing && !document.hidden) inTurn(() => lookAround().catch(() => {})); }, 2000);
inTurn(begin);

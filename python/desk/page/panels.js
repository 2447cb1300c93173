'use strict';
/* The panels: tabs, banner, hatches, the table of trials and likely slips. */

const titleOf = key => `${key} · ${desk.trials[key].name}`;
/* so that the banner's sentence is never cut */
const shortName = name => name.length > 24 ? name.slice(0, 23) + '…' : name;
const bold = text => make('b', { textContent: text });

function showTabs() {
  const tab = key => make('button', {
    id: 'tab-of-' + key, role: 'tab', ariaSelected: String(key === desk.current), textContent: key === 'season' ? 'Season' : titleOf(key),
    title: key === 'season' ? 'The season, read only' : desk.trials[key].name, onclick: () => openTrial(key),
  });
  const signature = JSON.stringify([desk.current, desk.order.map(key => desk.trials[key].name)]);
  refill($('tabs'), signature, ...['season', ...desk.order].map(tab));
  const others = desk.order.filter(key => key !== desk.current), select = $('beside');
  const option = key => make('option', { value: key, textContent: titleOf(key) });
  refill(select, signature, make('option', { value: '', textContent: 'nothing' }), ...others.map(option));
  select.value = desk.beside;
  select.disabled = desk.current === 'season' || !others.length;
}

/* ---- the banner: what is shown, and how the season is */

function showBanner(trial) {
  const box = $('what');
  $('banner').setAttribute('aria-busy', !!desk.playing);
  if (trial) showTrialBanner(box, trial);
  else showSeasonBanner(box);
  showSeason();
}

function showTrialBanner(box, trial) {
  const made = madeOf(trial), frame = frameInView(trial), isPast = desk.view < made && !desk.playing;
  box.className = isPast ? 'past' : '';
  const name = make('span', { id: 'trial-name', textContent: `“${shortName(trial.name)}”`, title: trial.name });
  const past = [bold('Looking back'), ` at step ${desk.view}, clock ${longClock(frame.clock)}. The trial still stands at step ${made}.`];
  const steps = [bold(plural(desk.playing ? desk.view : made, 'step')), ', clock ', bold(longClock(frame.clock))];
  const present = [bold(`Trial ${desk.current}`), ', ', name, ': ', ...steps, '. Nothing here is in the season.'];
  const words = desk.said ? [bold(desk.said)] : isPast ? past : present;
  const water = make('code', { id: 'water', textContent: desk.view === made && trial.water ? 'water ' + trial.water.slice(0, 12) : '' });
  water.title = 'The name of this water: a hash of every depth, last leaving, clock, length, and what has left, soaked and was given';
  const ways = isPast ? [
    make('button', { id: 'take-here', textContent: 'Take back to here', onclick: () => takeBack(made - desk.view) }),
    make('button', { id: 'return', textContent: 'Return', onclick: () => look(made) }),
  ] : [make('button', { id: 'rename', textContent: 'Rename', title: 'Give this trial another name, key R', onclick: rename })];
  const said = make('span', {}, ...words);
  refill(box, `${desk.current} ${said.textContent} ${water.textContent} ${made}`, said, make('span', { className: 'grow' }), water, ...ways);
}

function showSeasonBanner(box) {
  box.className = 'season';
  const when = desk.season ? [', clock ', bold(longClock(desk.season.clock)), `, step ${group(desk.season.steps)}`] : [];
  const begin = make('button', { id: 'begin', className: 'main', textContent: 'Begin a trial from here', onclick: askForTrial });
  const said = make('span', {}, bold('The season'), ...when, '. Read only: nothing on this desk writes here.');
  refill(box, said.textContent, said, make('span', { className: 'grow' }), begin);
}

function showSeason() {
  const { same, run, opened, begun } = desk.told.season, isRunning = run && run.how === 'running', box = $('season');
  box.className = same || isRunning ? '' : 'moved';
  const moved = isRunning ? `the keeper’s run, seen ${run.saved.slice(11)}` : 'moved on by the keeper';
  const since = same ? [bold('✓ untouched'), ` since ${opened}`] : [moved];
  const where = run ? ['Season at ', bold(longClock(run.clock)), ' · '] : [begun ? '⚠ The season’s saved state cannot be used · ' : 'The season’s run has not begun · '];
  const said = make('span', {}, ...where, ...since);
  refill(box, said.textContent, said);
}

/* ---- hatches */

function showHatches(trial) {
  $('hatches').hidden = !trial;
  if (!trial) return;
  const box = $('sliders');
  if (box.dataset.of !== desk.current) {
    box.dataset.of = desk.current;
    box.replaceChildren(...Object.keys(desk.ground.hatches).flatMap(hatchRow));
  }
  const base = trial.frames[0].rates, isShut = desk.view < madeOf(trial) && !desk.playing;
  for (const number of Object.keys(desk.ground.hatches)) showRate(number, trial.rates[number - 1], base[number - 1], isShut);
  const last = lastOf(trial);
  $('loggable').textContent = last.clock % desk.ground.run.update
    ? `${clockText(last.clock)} lies between the clocks that a hatch log can name: U goes on to ${clockText(nextClock())}.`
    : `A move now, at ${clockText(last.clock)}, can go into a hatch log.`;
}

function hatchRow(number) {
  const send = text => {
    if (String(text).trim() === '') return draw();
    const litres = Math.max(0, Math.min(100000, Math.round(+text || 0)));
    if (litres !== here().rates[number - 1]) change('draw', { hatch: +number, litres });
    else draw();
  };
  const name = hatchText(number);
  return [
    make('span', { className: 'no', id: 'no' + number, textContent: number, ariaHidden: 'true' }),
    make('span', { className: 'name', textContent: hatchName(number), title: hatchName(number) }),
    make('input', {
      type: 'range', id: 'slide' + number, min: 0, max: 1000, step: 10, ariaLabel: `${name}, litres a second`,
      oninput: event => { $('rate' + number).value = event.target.value; }, onchange: event => send(event.target.value),
    }),
    make('input', {
      type: 'number', id: 'rate' + number, min: 0, max: 100000, ariaLabel: `${name}, exact litres a second`,
      onfocus: event => event.target.select(), onchange: event => send(event.target.value), onkeydown: event => leaveRate(event, number),
    }),
    make('span', { className: 'was', id: 'was' + number }),
  ];
}

/* Enter sends a typed rate and Escape forgets it; both go on to the slider, where Space makes steps */
function leaveRate(event, number) {
  if (event.key === 'Escape') event.target.value = here().rates[number - 1];
  if (event.key !== 'Enter' && event.key !== 'Escape') return;
  event.stopPropagation();
  $('slide' + number).focus();
}

function showRate(number, rate, before, isShut) {
  $('no' + number).className = 'no' + (rate > 0 ? ' drawn' : '');
  const exact = $('rate' + number), slide = $('slide' + number), was = $('was' + number);
  if (document.activeElement !== exact) exact.value = rate;
  slide.value = rate;
  slide.setAttribute('aria-valuetext', `${rate} litres a second`);
  slide.disabled = exact.disabled = isShut;
  was.textContent = rate === before ? `was ${before}` : `◆ was ${before}`;
  was.className = 'was' + (rate === before ? '' : ' changed');
}

/* ---- the lower panel: boards, trials, slips */

const PANELS = ['boards', 'trials', 'slips'];

function showPanels(trial, other) {
  for (const name of PANELS) {
    $(name).hidden = name !== desk.panel;
    $('tab-' + name).setAttribute('aria-selected', name === desk.panel);
  }
  $('tab-trials').textContent = `Trials ${desk.order.length || ''}`;
  $('tab-slips').textContent = desk.ground.slips.length ? `⚠ Likely slips ${desk.ground.slips.length}` : 'Slips';
  if (desk.panel === 'boards') showBoards(trial, other);
  if (desk.panel === 'trials') showTrials();
  if (desk.panel === 'slips') showSlips();
}

function showBoards(trial, other) {
  $('plot').toggleAttribute('hidden', !trial);
  if (!trial) return refill($('board-table'), 'none', make('caption', { textContent: 'Boards are read in a trial.' }));
  showPlot(trial, other);
  showBoardTable(trial);
}

function showTrials() {
  const heads = ['trial', 'clock', 'steps', '1 cm deep', 'gone by exits'].map(headCell);
  const row = told => {
    const name = make('button', { id: 'row-of-' + told.key, className: 'link', textContent: titleOf(told.key), onclick: () => openTrial(told.key) });
    const cells = [name, clockText(told.clock), group(told.made), areaText(told.wet), cubic(told.out) + ' m³'];
    return make('tr', { className: told.key === desk.current ? 'here' : '' }, ...cells.map(inside => make('td', {}, inside)));
  };
  const { trials, aside } = desk.told, rows = trials.map(row), line = words => make('p', { textContent: words });
  const list = rows.length ? make('table', {}, make('tr', {}, ...heads), ...rows) : line('No trial yet: N begins one.');
  refill($('trials'), JSON.stringify([desk.current, trials, aside]), list, ...aside.map(line));
}

function showSlips() {
  const { slips } = desk.ground;
  const title = slips.length ? 'What in this season’s sheet is likely a slip, before the first step:' : 'Nothing in the sheet looks like a slip.';
  refill($('slips'), slips.join(), make('p', { textContent: title }), make('ul', {}, ...slips.map(words => make('li', { textContent: words }))));
}

'use strict';
/* The head of a printed sheet: what it shows, when it was printed, of which sheet and by which settings. */

function settingsText() {
  const { run, side, rows, columns } = desk.ground;
  const said = [
    `${rows} by ${columns} squares of ${side} m`, `slope tolerance ${run.tolerance}`, `steps ${run.shortest} to ${run.longest} ms`,
    `update time ${run.update} ms`, `edge slope ${run.edge}`, `edition ${run.edition}`,
  ];
  return said.join(' · ');
}

function ratesText(rates) {
  const said = Object.keys(desk.ground.hatches).map(number => `${number} ${hatchName(number)} ${rates[number - 1]}`.replace('  ', ' '));
  return said.join(' · ') || 'none';
}

function paperTitle(trial, frame) {
  const { name } = desk.ground;
  const title = trial ? `Trial ${desk.current}, “${trial.name}”, of “${name}”` : `The season “${name}”`;
  return `${title}: clock ${longClock(frame.clock)}, ${trial ? `${plural(desk.view, 'step')} past the season` : `step ${group(frame.steps)}`}`;
}

function showPaperHead(trial, frame) {
  const printed = `Printed ${new Date().toLocaleString('en-GB')}`;
  const lines = [
    trial ? `${printed}. A trial: nothing here is in the season. ${layerNow().title}.` : `${printed}.`,
    `Sheet ${desk.ground.sheet}`, `Settings: ${settingsText()}`, `Hatches, litres a second: ${ratesText(trial ? ratesInView(trial) : frame.rates)}`,
    trial && isAtLast() ? `Water ${trial.water}` : '', trial && heldSteps(trial, desk.view) ? $('held').textContent : '',
  ].filter(Boolean);
  const title = paperTitle(trial, frame);
  refill($('paper-head'), [title, ...lines].join(), make('h1', { textContent: title }), ...lines.map(words => make('p', { textContent: words })));
}

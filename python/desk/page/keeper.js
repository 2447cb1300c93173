'use strict';
/* The keeper's run as the season's own file tells it, and the names of the season's files. */

function showKeeper(trial) {
  const box = $('keeper'), { season } = desk.told;
  box.hidden = !!trial;
  if (!trial) refill(box, JSON.stringify(season), ...(season.run ? runParts(season) : noRunParts(season)));
}

const runCommand = () => make('code', { textContent: `bin/season ${desk.ground.name}` });

function noRunParts({ begun }) {
  const said = begun
    ? ['The file ', make('code', { textContent: 'stand' }), ' in the season’s folder is damaged, or of another sheet. A trial begins at the sheet’s own start. ',
      'Tell the keeper.']
    : ['It has not begun: ', runCommand(), ' starts it.'];
  return [make('h2', { textContent: 'The keeper’s run' }), make('p', {}, ...said)];
}

function runParts({ run, files, same, opened }) {
  const line = (...words) => make('p', {}, ...words);
  const pace = run.pace ? ` · ${run.pace} steps a second when last seen` : '';
  const [least, most] = [run.least, run.most].map(count => bold(group(count || 0)));
  const bounds = ['The whole run needs at least ', least, ' and at most ', most, ' steps: proved before the first is made.'];
  const untouched = `✓ All are as they were when the desk was opened at ${opened}.`;
  const moved = `They changed since ${opened}: the keeper’s own run writes here.`;
  return [
    make('h2', {}, 'The keeper’s run ', make('small', { textContent: run.how })), progressBar(run), ...(run.why ? [line(bold(run.why))] : []),
    line('clock ', bold(clockText(run.clock)), ` of ${longClock(run.end)} · step `, bold(group(run.steps)), pace),
    line(...(run.most === null ? ['How many steps the whole run needs cannot be told before.'] : bounds)),
    make('table', {}, ...Object.entries(files).map(fileRow)),
    line(`${same ? untouched : moved} Saved ${run.saved}.`),
    line('The keeper stops it by a file ', make('code', { textContent: 'stop' }), ' in the folder or by Ctrl-C, and goes on with ', runCommand(), '.'),
  ];
}

function progressBar(run) {
  const share = run.end ? Math.round(100 * run.clock / run.end) : 100, fill = make('i');
  fill.style.width = share + '%';
  const words = { ariaLabel: 'How far the season’s run has come', ariaValueNow: share, ariaValueMin: 0, ariaValueMax: 100 };
  return make('div', { className: 'bar', role: 'progressbar', ...words }, fill);
}

const fileRow = ([name, hash]) => make('tr', {}, make('td', { textContent: name }), make('td', {}, make('code', { textContent: hash })));

'use strict';
/* The timeline of a trial: filled what can go back at once, hatched what must be worked again; moves of hatches and marks above it. And how many
   steps can still go back at once, with a warning before the oldest are forgotten. */

const LINE = { high: 56, inset: 8, top: 26, thick: 13, least: 40 };
const STEP_GAPS = [1, 5, 10, 20, 50, 100, 200, 500, 1000];

function showTimeline(trial) {
  $('line').hidden = !trial;
  if (!trial) return;
  const svg = $('ticks'), width = svg.clientWidth;
  if (width < 40) return;
  const made = madeOf(trial), wide = Math.max(made, LINE.least), kept = Math.min(trial.kept, made);
  const x = step => LINE.inset + (width - 2 * LINE.inset) * step / wide;
  const parts = [...bars(x, made, kept, wide), ...stepTicks(x, trial, wide, width), ...moves(x, trial), ...flags(x, trial, width)];
  parts.push(`<path d="M${x(desk.view)} ${LINE.top - 5}v22" stroke="${FOCUS}" stroke-width="3"/>`);
  parts.push(`<circle cx="${x(desk.view)}" cy="${LINE.top + 6.5}" r="6" fill="#fff" stroke="${FOCUS}" stroke-width="3"/>`);
  svg.setAttribute('viewBox', `0 0 ${width} ${LINE.high}`);
  svg.innerHTML = parts.join('');
  const scrub = $('scrub'), frame = trial.frames[Math.min(desk.view, made)];
  scrub.max = wide;
  scrub.value = desk.view;
  scrub.setAttribute('aria-valuetext', `step ${desk.view} of ${made}, clock ${clockText(frame.clock)}`);
  showStands(trial, made, kept);
}

function* bars(x, made, kept, wide) {
  const bar = (from, to, more) => `<rect x="${x(from)}" y="${LINE.top}" width="${x(to) - x(from)}" height="${LINE.thick}" ${more}/>`;
  yield '<defs><pattern id="old" width="6" height="6" patternUnits="userSpaceOnUse" patternTransform="rotate(45)">'
    + '<rect width="6" height="6" fill="#fff"/><rect width="2" height="6" fill="#777"/></pattern></defs>';
  yield bar(0, wide, 'rx="3" fill="#e6e6e0"');
  if (made > kept) yield bar(0, made - kept, 'fill="url(#old)" stroke="#666"');
  if (kept) yield bar(made - kept, made, 'fill="#8a5a00"');
}

function* stepTicks(x, trial, wide, width) {
  const gap = STEP_GAPS.find(steps => wide / steps <= width / 62) || STEP_GAPS[STEP_GAPS.length - 1];
  for (let step = 0; step <= wide; step += gap) {
    const frame = trial.frames[step], anchor = step === 0 ? 'start' : step === wide ? 'end' : 'middle';
    yield `<path d="M${x(step)} ${LINE.top + LINE.thick}v4" stroke="#555"/>`;
    if (step && step !== wide && x(wide) - x(step) < 80 || step && x(step) - x(0) < 62) continue;
    const words = frame ? `${step} · ${shortClock(frame.clock)}` : step;
    yield `<text x="${x(step)}" y="${LINE.high - 2}" font-size="10" text-anchor="${anchor}" fill="${frame ? '#1c211d' : '#5f5f5f'}">${words}</text>`;
  }
}

/* where a standing step was made at other rates than the one before */
function* moves(x, trial) {
  for (let step = 1; step <= madeOf(trial); step++) {
    const before = trial.frames[step - 1].rates, moved = trial.frames[step].rates.map((rate, at) => rate !== before[at] ? at + 1 : 0).filter(Boolean);
    if (!moved.length) continue;
    yield `<path d="M${x(step - 1)} ${LINE.top - 2}v15" stroke="${HATCH_COLOUR}" stroke-width="2"/>`;
    yield `<text x="${x(step - 1) + 3}" y="${LINE.top - 4}" font-size="10" fill="${HATCH_COLOUR}">hatch ${moved.join(', ')}</text>`;
  }
}

function* flags(x, trial, width) {
  for (const [step, name] of trial.marks) {
    const side = x(step) > width - 330 ? -1 : 1;
    yield `<path d="M${x(step)} ${LINE.top + LINE.thick}V2l${9 * side} 4l${-9 * side} 4" fill="#111" stroke="#111"/>`;
    yield `<text x="${x(step) + 12 * side}" y="10" text-anchor="${side > 0 ? 'start' : 'end'}" font-size="10" font-weight="700">${safe(name)}</text>`;
  }
}

function showStands(trial, made, kept) {
  const room = trial.frames[0].room, left = room - kept, box = $('stands');
  const counts = `<b>${plural(made, 'step')}</b> ${made === 1 ? 'stands' : 'stand'}, <b>${group(kept)}</b> can go back at once`;
  const older = made > kept ? `; ⚠ the ${group(made - kept)} hatched ones were forgotten and are worked again` : '';
  const when = left ? plural(left, 'more step') : 'the next step';
  const soon = made <= kept && left < 40 ? `; ⚠ after ${when} the oldest is forgotten, and can only be worked again` : '';
  box.innerHTML = counts + (older || soon || `; room for ${group(room)}`);
  box.className = older || soon ? 'soon' : '';
}

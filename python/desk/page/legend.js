'use strict';
/* Beside the map: what shades and signs mean, how much water is where now, and the account. */

const boxed = inside => `<svg width="20" height="15" viewBox="0 0 20 15" aria-hidden="true">${inside}</svg>`;
const swatch = (fill, inside = '') => boxed(`<rect x=".5" y=".5" width="19" height="14" fill="${fill}" stroke="#666" stroke-width=".7"/>${inside}`);
const entry = (sign, words, amount = '') => `<div class="e">${sign}<span>${words}</span><em>${amount}</em></div>`;
const PAPER_GROUND = '#fcfaf3';

const SIGNS = {
  wall: boxed('<rect x=".5" y=".5" width="19" height="14" fill="#fff" stroke="#111" stroke-width="1.6"/>'
    + '<path d="M2 14L14 1M8 14L19 2M-2 10L7 1" stroke="#444" stroke-width="1.5"/>'),
  exit: boxed('<path d="M3 5h6V1l9 6.5L9 14v-4H3z" fill="#b35c00"/>'),
  drawn: boxed('<circle cx="10" cy="7.5" r="6.4" fill="#8c2d04"/>'),
  shut: boxed('<circle cx="10" cy="7.5" r="6" fill="#fff" stroke="#8c2d04" stroke-width="2"/>'),
  contour: boxed('<path d="M1 8h18" stroke="#8a6a35" stroke-width="1.4"/>'),
  flow: boxed('<path d="M2 8h14M11 4l5 4l-5 4" stroke="#111" fill="none" stroke-width="1.3"/>'),
  stands: boxed('<path d="M10 1.5l6 6l-6 6l-6-6z" fill="#fff" stroke="#c4001d" stroke-width="1.6"/>'),
  slip: boxed('<path d="M10 1l7 12.5H3z" fill="#fff" stroke="#111" stroke-width="1.4"/>'
    + '<path d="M10 5v4M10 10.5v1.5" stroke="#111" stroke-width="1.6"/>'),
};

function areasOf(frame, values, classes) {
  const counts = classes.map(() => 0);
  let none = 0, film = 0;
  values.forEach((value, square) => {
    if (frame.depths[square] < 0) return;
    const at = classAt(classes, value);
    if (at >= 0) counts[at]++;
    else if (value > 0) film++;
    else none++;
  });
  return { none, film, counts };
}

function showLegend(picture) {
  const layer = layerNow(), { frame, values, classes } = picture, areas = areasOf(frame, values, classes);
  const film = swatch(PAPER_GROUND, '<circle cx="10" cy="7.5" r="1.8" fill="#2c74b3"/>');
  const shades = [
    entry(swatch(PAPER_GROUND), layer.none, areaText(areas.none)),
    entry(film, layer.film(), areaText(areas.film)),
    ...classes.map(([, colour, name], at) => entry(swatch(colour), name, areaText(areas.counts[at]))),
  ];
  const signs = [
    entry(SIGNS.wall, 'wall, never wet'), entry(SIGNS.exit, 'exit'), entry(SIGNS.drawn, 'hatch, drawn'), entry(SIGNS.shut, 'hatch, shut'),
    entry(SIGNS.contour, `contour, ${desk.ground.gap / 10000} cm`),
    desk.figuresOn ? entry('<span>25</span>', desk.layer === 'wet' ? 'minutes' : 'cm; .5 is 5 mm') : '',
    desk.arrows ? entry(SIGNS.flow, 'flow') : '',
    desk.cautions && desk.cautions.standing.length ? entry(SIGNS.stands, 'held by the rule') : '',
    picture.slips && desk.ground.odd.length ? entry(SIGNS.slip, 'likely a slip') : '',
  ];
  $('legend').innerHTML = `<h3>${layer.title}</h3><div class="classes">${shades.join('')}</div>`
    + `<h3>Signs</h3><div class="signs">${signs.join('')}</div><div class="now"><h3>Now</h3>${nowWords(frame)}</div>`;
}

function nowWords(frame) {
  const wet = frame.depths.filter(depth => depth >= WET).length;
  let deepest = 0;
  frame.depths.forEach((depth, square) => { if (depth > frame.depths[deepest]) deepest = square; });
  const said = [`<b>${areaText(wet)}</b> at least 1 cm deep`, `deepest <b>${depthText(frame.depths[deepest])}</b> at ${placeText(deepest)}`];
  if (desk.cautions) said.push(standingWords(desk.cautions.standing));
  return said.map(words => `<p>${words}</p>`).join('');
}

function standingWords(standing) {
  if (!standing.length) return 'no water is held by the rule alone';
  const steep = standing.filter(([, , isSteep]) => isSteep).length;
  return `in <b>${plural(standing.length, 'square')}</b> the rule holds the water, not the ground; ${steep} steep (filled)`;
}

/* too little flows on where steps are held at the shortest, and what is shown misleads */
function showHeld(trial) {
  const held = trial ? heldSteps(trial, desk.view) : 0, box = $('held');
  box.hidden = !held;
  if (!held) return;
  const wanted = desk.cautions && desk.cautions.wanted;
  box.textContent = `⚠ misleads: too little flows, ${group(held)} of ${plural(desk.view, 'step')} held at the shortest, ${group(desk.ground.run.shortest)} ms`
    + `${wanted ? `; the water asks for ${wanted} ms` : ''}`;
  box.title = 'Too little water flows on, and what is shown misleads: the sheet wants a shorter shortest step';
}

function showAccount(frame) {
  const { before, rain, hatches, off } = frame.account, given = rain + hatches;
  const rows = [
    ['on the meadow', frame.on], ['gone by exits', frame.out], ['soaked', frame.soaked], ['there is', frame.on + frame.out + frame.soaked, 't'],
    ['at the season’s start', frame.start], [here() ? 'given before this trial' : 'given', before],
    ...(here() ? [['rain since', rain], ['hatches since', hatches]] : []), ['came', frame.start + before + given, 't'],
  ];
  const cell = (words, kind = '') => `<span class="${kind}">${words}</span>`;
  $('sums').innerHTML = rows.map(([name, amount, kind]) => cell(name, kind) + cell(cubic(amount), kind)).join('');
  const balanced = $('balanced');
  balanced.textContent = off === 0 ? '✓ to the µm' : `OFF BY ${group(off)} µm`;
  balanced.className = off === 0 ? 'ok' : 'bad';
}

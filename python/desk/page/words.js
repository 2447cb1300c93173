'use strict';
/* Words: amounts as people say them, and small helpers. The page draws what the engine told and computes no depth: the greatest of several, sums of
   what is shown, times between two clocks and differences of two shown depths are the only arithmetic here. */

const $ = id => document.getElementById(id);

function make(tag, more = {}, ...inside) {
  const element = Object.assign(document.createElement(tag), more);
  element.append(...inside);
  return element;
}

const headCell = words => make('th', { textContent: words, scope: 'col' });

/* other inside for a box, where it says something else than before; what had the focus has it again, by its id */
function refill(box, signature, ...inside) {
  if (box.dataset.signature === signature) return;
  box.dataset.signature = signature;
  const held = box.contains(document.activeElement) ? document.activeElement.id : '';
  box.replaceChildren(...inside);
  if (held && $(held)) $(held).focus({ preventScroll: true });
}

/* a text that may stand in markup */
const safe = text => String(text).replace(/[&<>"']/g, letter => `&#${letter.charCodeAt(0)};`);

const group = number => number.toLocaleString('en');
const plural = (count, word) => `${group(count)} ${word}${count === 1 ? '' : 's'}`;

/* 1:02:03.5 of milliseconds */
function clockText(ms) {
  const two = number => String(number).padStart(2, '0');
  const hours = Math.floor(ms / 3600000), minutes = Math.floor(ms / 60000) % 60, seconds = Math.floor(ms / 1000) % 60, rest = ms % 1000;
  const decimals = rest ? '.' + String(rest).padStart(3, '0').replace(/0+$/, '') : '';
  return (hours ? `${hours}:${two(minutes)}` : minutes) + ':' + two(seconds) + decimals;
}

/* to the second, as under a plot */
const shortClock = ms => clockText(ms).replace(/\..*/, '');
/* with its units, so that nobody takes it for the time of day */
const longClock = ms => `${clockText(ms)} ${ms < 3600000 ? 'min:s' : 'h:min:s'}`;

function depthText(depth) {
  if (depth < 0) return 'closed';
  if (depth === 0) return 'dry';
  if (depth < 100) return 'under 0.1 mm';
  if (depth < 10000) return (depth / 1000).toFixed(1) + ' mm';
  if (depth < 100000) return (depth / 10000).toFixed(1) + ' cm';
  return depth < 1000000 ? (depth / 10000).toFixed(0) + ' cm' : (depth / 1000000).toFixed(2) + ' m';
}

/* 3 min, 1 h 10 min */
function lastingText(ms) {
  const hours = Math.floor(ms / 3600000), minutes = Math.floor(ms / 60000) % 60, seconds = Math.floor(ms / 1000) % 60;
  const said = [[hours, 'h'], [minutes, 'min'], [hours ? 0 : seconds, 's']].filter(([number]) => number).map(([number, unit]) => `${number} ${unit}`);
  return said.join(' ') || (ms ? 'under 1 s' : 'never');
}

/* µm over one square, in m³ */
const cubic = amount => (amount * desk.ground.side ** 2 / 1e6).toLocaleString('en', { minimumFractionDigits: 3, maximumFractionDigits: 3 });
const areaText = squares => group(squares * desk.ground.side ** 2) + ' m²';
const rowOf = square => Math.floor(square / desk.ground.columns);
const columnOf = square => square % desk.ground.columns;
const placeText = square => `row ${rowOf(square)}, column ${columnOf(square)}`;
const letterOf = at => String.fromCharCode(97 + at);
const hatchName = number => desk.ground.hatches[number].name;
const hatchText = number => `hatch ${number}` + (hatchName(number) ? `, ${hatchName(number)}` : '');

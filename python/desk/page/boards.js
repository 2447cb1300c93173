'use strict';
/* Boards: squares whose depth is plotted over time, with a mark, the highest water and when the mark was first reached, over the standing states up
   to the one in view. They fall back with a take-back, since they are chosen from standing frames. */

const MOST_BOARDS = 16;
const DASHES = ['', '7 3', '2 3', '9 3 2 3', '4 2', '1 3'];
const NO_BOARDS = 'no boards yet: click a square, or Enter on the map';
const PLOT = { left: 40, right: 20, top: 6, foot: 17 };
const boardsKey = () => 'boards of ' + desk.ground.sheet;

const isGround = square => ['o', 'e'].includes(desk.ground.marks[square]);

function loadBoards() {
  try {
    desk.boards = (JSON.parse(localStorage.getItem(boardsKey())) || []).filter(({ square }) => isGround(square));
  } catch (fault) {
    desk.boards = [];
  }
}

function keepBoards() {
  localStorage.setItem(boardsKey(), JSON.stringify(desk.boards));
  draw();
}

function toggleBoard(square) {
  if (square === null || !isGround(square)) return;
  const at = desk.boards.findIndex(board => board.square === square);
  if (at >= 0) desk.boards.splice(at, 1);
  else if (desk.boards.length < MOST_BOARDS) desk.boards.push({ square, mark: 0 });
  desk.panel = 'boards';
  keepBoards();
}

/* round distances for about so many lines */
function roundGap(most, lines, gaps) {
  return gaps.find(gap => gap >= most / lines) || gaps[gaps.length - 1];
}

const DEPTH_GAPS = [1, 10, 100, 1000, 10000].flatMap(power => [1000, 2000, 5000].map(gap => gap * power));
const TIME_GAPS = [15, 30, 60, 120, 300, 600, 1800, 3600, 7200, 21600, 86400].map(seconds => seconds * 1000);

function deepestOnBoards(trials) {
  let deepest = 1000;
  for (const { square, mark } of desk.boards) {
    for (const { frames } of trials) for (const frame of frames) deepest = Math.max(deepest, mark, frame.depths[square]);
  }
  return deepest;
}

function showPlot(trial, other) {
  const svg = $('plot'), wide = svg.clientWidth || 400, high = svg.clientHeight || 118, trials = other ? [trial, other] : [trial];
  const from = trial.frames[0].clock, to = Math.max(from + 60000, ...trials.map(one => lastOf(one).clock));
  const deepest = deepestOnBoards(trials);
  const gap = roundGap(deepest, 4, DEPTH_GAPS), top = gap * Math.ceil(deepest / gap);
  const x = clock => PLOT.left + (wide - PLOT.left - PLOT.right) * (clock - from) / (to - from);
  const y = depth => high - PLOT.foot - (high - PLOT.foot - PLOT.top) * depth / top;
  const lines = desk.boards.flatMap((board, at) => boardLines(x, y, wide, board, at, trials)), view = x(frameInView(trial).clock);
  const cursor = `<path d="M${view} ${PLOT.top}V${high - PLOT.foot}" stroke="${FOCUS}" stroke-width="1.2"/>`;
  const none = `<text x="${(PLOT.left + wide) / 2}" y="${high / 2}" text-anchor="middle" font-size="12" fill="${PALE}">${NO_BOARDS}</text>`;
  const parts = [...plotLines(x, y, { wide, high, top, gap, from, to }), ...lines, desk.boards.length ? cursor : none];
  svg.setAttribute('viewBox', `0 0 ${wide} ${high}`);
  svg.innerHTML = parts.join('');
}

function* plotLines(x, y, { wide, high, top, gap, from, to }) {
  for (let depth = 0; depth <= top; depth += gap) {
    const words = gap >= 10000 ? depth / 10000 + ' cm' : depth / 1000 + ' mm';
    yield `<path d="M${PLOT.left} ${y(depth)}H${wide - PLOT.right}" stroke="#ddd"/>`;
    yield `<text x="${PLOT.left - 4}" y="${y(depth) + 3.5}" text-anchor="end" font-size="10" fill="${PALE}">${words}</text>`;
  }
  const every = roundGap(to - from, 7, TIME_GAPS);
  for (let clock = Math.ceil(from / every) * every; clock <= to; clock += every) {
    yield `<path d="M${x(clock)} ${high - PLOT.foot}v3" stroke="#777"/>`;
    yield `<text x="${x(clock)}" y="${high - 4}" text-anchor="middle" font-size="10" fill="${PALE}">${clockText(clock)}</text>`;
  }
}

/* dashes and letters tell boards apart, not colours; the other trial's lines are thin */
function boardLines(x, y, wide, { square, mark }, at, trials) {
  const lines = trials.map((one, thin) => {
    const points = one.frames.map(frame => `${x(frame.clock).toFixed(1)} ${y(frame.depths[square]).toFixed(1)}`).join('L');
    const pen = thin ? 'stroke="#6e6e6e" stroke-width="1"' : 'stroke="#12406f" stroke-width="1.8"';
    return `<path d="M${points}" fill="none" ${pen} stroke-dasharray="${DASHES[at % DASHES.length]}"/>`;
  });
  const last = lastOf(trials[0]);
  if (mark) lines.push(`<path d="M${PLOT.left} ${y(mark)}H${wide - PLOT.right}" stroke="${HATCH_COLOUR}" stroke-dasharray="1 2"/>`);
  lines.push(`<text x="${x(last.clock) + 3}" y="${y(last.depths[square]) + 3.5}" font-size="11" font-weight="700">${letterOf(at)}</text>`);
  return lines;
}

function showBoardTable(trial) {
  const table = $('board-table');
  if (table.contains(document.activeElement) && document.activeElement.matches('input')) return;
  const rows = desk.boards.map((board, at) => boardRow(trial, board, at));
  const heads = make('tr', {}, ...['board', 'now', 'highest', 'mark, cm', 'first reached', ''].map(headCell));
  const signature = `${desk.current} ${JSON.stringify(desk.boards)} ${rows.map(row => row.textContent).join()}`;
  refill(table, signature, ...(rows.length ? [heads, ...rows] : []));
}

function boardRow(trial, board, at) {
  const upTo = Math.min(desk.view, madeOf(trial)), frame = trial.frames[upTo], course = courseOf(trial, upTo);
  const { square } = board, letter = letterOf(at);
  const reached = board.mark ? trial.frames.slice(0, upTo + 1).find(one => one.depths[square] >= board.mark) : null;
  const highest = `${depthText(course.highest[square])}${course.highest[square] > 0 ? ` at ${shortClock(course.when[square])}` : ''}`;
  const now = frame.depths[square] === 0 && course.highest[square] > 0 ? 'dry now' : depthText(frame.depths[square]);
  const mark = make('input', {
    id: 'mark-of-' + letter, type: 'number', min: 0, max: 10000, step: 0.1, value: board.mark ? board.mark / 10000 : '',
    ariaLabel: `Mark of board ${letter}, centimetres`,
    onchange: event => {
      board.mark = Math.max(0, Math.round((+event.target.value || 0) * 10000));
      event.target.blur();
      keepBoards();
    },
  });
  const away = make('button', {
    id: 'down-' + letter, className: 'x', textContent: '✕', ariaLabel: `Take board ${letter} down`, onclick: () => toggleBoard(square),
  });
  const name = make('td', {}, make('b', { textContent: letter }), ` ${rowOf(square)},${columnOf(square)}`);
  const cells = [now, highest, mark, reached ? shortClock(reached.clock) : '–', away].map(inside => make('td', {}, inside));
  return make('tr', {}, name, ...cells);
}

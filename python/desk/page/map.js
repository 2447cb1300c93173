'use strict';
/* The map: shades, contours and signs of the museum's maps on a canvas. Walls are hatched paper with a thick edge, never a shade. */

const INK = '#111', PALE = '#5c645e', HATCH_COLOUR = '#8c2d04', EXIT_COLOUR = '#b35c00', STANDING_COLOUR = '#c4001d', FOCUS = '#d9480f';
const LETTERS = '"DejaVu Sans",sans-serif';
const MARGIN = { left: 22, top: 15, right: 4, foot: 20 };
/* m/s of the slowest arrow that is drawn, and the least depth under one */
const SLOWEST = 0.002, ARROW_DEPTH = 1000;

function groundColour(bed) {
  const { lowest, highest } = desk.ground;
  const share = highest === lowest ? 0 : (bed - lowest) / (highest - lowest);
  return `rgb(${252 - 5 * share},${250 - 7 * share},${243 - 11 * share})`;
}

function wallPattern(g) {
  const tile = make('canvas', { width: 8, height: 8 }), pen = tile.getContext('2d');
  pen.fillStyle = '#fff';
  pen.fillRect(0, 0, 8, 8);
  pen.strokeStyle = '#444';
  pen.lineWidth = 1.7;
  for (const from of [-8, 0, 8]) {
    pen.beginPath();
    pen.moveTo(from, 8);
    pen.lineTo(from + 8, 0);
    pen.stroke();
  }
  return g.createPattern(tile, 'repeat');
}

/* a canvas as a sheet of paper: its context, the size of a square, and where rows and columns lie */
function paperOf(canvas) {
  const ratio = devicePixelRatio || 1, wide = canvas.clientWidth, high = canvas.clientHeight, { rows, columns } = desk.ground;
  const pixels = [Math.round(wide * ratio), Math.round(high * ratio)];
  if (canvas.width !== pixels[0] || canvas.height !== pixels[1]) [canvas.width, canvas.height] = pixels;
  const across = wide - MARGIN.left - MARGIN.right, size = Math.max(3, Math.min(across / columns, (high - MARGIN.top - MARGIN.foot) / rows));
  const left = MARGIN.left + Math.max(0, (across - size * columns) / 2), top = MARGIN.top, g = canvas.getContext('2d');
  g.setTransform(ratio, 0, 0, ratio, 0, 0);
  g.clearRect(0, 0, wide, high);
  const paper = { g, size, left, top, rows, columns, x: column => left + column * size, y: row => top + row * size };
  canvas.paper = paper;
  return paper;
}

function eachSquare(paper, does) {
  for (let square = 0; square < paper.rows * paper.columns; square++) does(square, Math.floor(square / paper.columns), square % paper.columns);
}

function drawMap(canvas, picture) {
  const paper = paperOf(canvas);
  drawWater(paper, picture);
  drawGrid(paper);
  drawContours(paper);
  drawWalls(paper, picture.frame);
  if (desk.figuresOn) drawFigures(paper, picture);
  if (picture.other) drawDifferences(paper, picture.frame, picture.other);
  if (picture.main && desk.layer === 'depth') {
    drawArrows(paper, picture.frame);
    drawStanding(paper);
  }
  if (picture.slips) drawSlips(paper);
  drawHeights(paper);
  drawExits(paper);
  drawHatches(paper, picture.rates);
  drawBoards(paper);
  drawCursor(paper);
  drawEdge(paper);
}

/* water by its class; less than the first class is a dot on its ground */
function drawWater({ g, x, y, size, ...paper }, { frame, values, classes }) {
  eachSquare(paper, (square, row, column) => {
    if (frame.depths[square] < 0) return;
    const at = classAt(classes, values[square]);
    g.fillStyle = at >= 0 ? classes[at][1] : groundColour(desk.ground.beds[square]);
    g.fillRect(x(column), y(row), size + .5, size + .5);
    if (at < 0 && values[square] > 0) dot(g, x(column + .5), y(row + .5), Math.max(.8, size * .085), '#2c74b3');
  });
}

function dot(g, x, y, radius, colour) {
  g.fillStyle = colour;
  g.beginPath();
  g.arc(x, y, radius, 0, 7);
  g.fill();
}

function strokeLines(g, colour, width, lines) {
  g.strokeStyle = colour;
  g.lineWidth = width;
  g.beginPath();
  for (const [fromX, fromY, toX, toY] of lines) {
    g.moveTo(fromX, fromY);
    g.lineTo(toX, toY);
  }
  g.stroke();
}

function drawGrid({ g, x, y, rows, columns }) {
  const lines = [];
  for (let row = 0; row <= rows; row++) lines.push([x(0), y(row), x(columns), y(row)]);
  for (let column = 0; column <= columns; column++) lines.push([x(column), y(0), x(column), y(rows)]);
  strokeLines(g, '#00000012', 1, lines);
}

/* along the sides between two squares: the second lies to the east or south of the first */
function drawContours({ g, x, y }) {
  const lines = desk.ground.contours.flatMap(([, sides]) => sides.map(([row, , nearRow, nearColumn]) =>
    row === nearRow ? [x(nearColumn), y(nearRow), x(nearColumn), y(nearRow + 1)] : [x(nearColumn), y(nearRow), x(nearColumn + 1), y(nearRow)]));
  strokeLines(g, '#8a6a35', 1.1, lines);
}

function drawWalls({ g, x, y, size, ...paper }, frame) {
  const { rows, columns } = paper, lines = [];
  const shut = (row, column) => row >= 0 && column >= 0 && row < rows && column < columns && frame.depths[row * columns + column] < 0;
  g.fillStyle = wallPattern(g);
  eachSquare(paper, (square, row, column) => {
    if (!shut(row, column)) return;
    g.fillRect(x(column), y(row), size + .5, size + .5);
    if (!shut(row - 1, column)) lines.push([x(column), y(row), x(column + 1), y(row)]);
    if (!shut(row + 1, column)) lines.push([x(column), y(row + 1), x(column + 1), y(row + 1)]);
    if (!shut(row, column - 1)) lines.push([x(column), y(row), x(column), y(row + 1)]);
    if (!shut(row, column + 1)) lines.push([x(column + 1), y(row), x(column + 1), y(row + 1)]);
  });
  strokeLines(g, INK, 2, lines);
  g.strokeStyle = '#333';
  g.lineWidth = 1;
  g.strokeRect(x(0), y(0), columns * size, rows * size);
}

function middled(g, font) {
  g.font = `${font} ${LETTERS}`;
  g.textAlign = 'center';
  g.textBaseline = 'middle';
}

/* centimetres, with a point before millimetres; minutes where times are shown */
function figureOf(value) {
  if (desk.layer === 'wet') return Math.floor(value / 60000);
  return value < 10000 ? '.' + Math.floor(value / 1000) : Math.floor(value / 10000);
}

function drawFigures({ g, x, y, size, ...paper }, { values, classes }) {
  if (size < 13) return;
  middled(g, `${Math.min(10, size * .44)}px`);
  eachSquare(paper, (square, row, column) => {
    const at = classAt(classes, values[square]);
    if (at < 0) return;
    g.fillStyle = at >= 3 ? '#fff' : INK;
    g.fillText(figureOf(values[square]), x(column + .5), y(row + .5));
  });
}

/* deeper or shallower than the other map: bold from 1 cm, thin from 1 mm, so that it reads in grey */
function drawDifferences({ g, x, y, size, ...paper }, frame, other) {
  eachSquare(paper, (square, row, column) => {
    const more = frame.depths[square] - other.depths[square];
    if (frame.depths[square] < 0 || Math.abs(more) < 1000) return;
    const much = Math.abs(more) >= 10000;
    middled(g, much ? `700 ${Math.max(9, size * .95)}px` : `400 ${Math.max(6, size * .55)}px`);
    edgedText(g, more > 0 ? '+' : '−', x(column + .5), y(row + .5), much ? 2.4 : 1.6, INK);
  });
}

function edgedText(g, text, x, y, edge, colour) {
  g.lineWidth = edge;
  g.strokeStyle = '#fff';
  g.strokeText(text, x, y);
  g.fillStyle = colour;
  g.fillText(text, x, y);
}

function drawArrows({ g, x, y, size, columns }, frame) {
  for (const [row, column, east, north] of desk.arrows || []) {
    const speed = Math.hypot(east, north);
    if (speed < SLOWEST || frame.depths[row * columns + column] < ARROW_DEPTH) continue;
    const long = size * Math.min(.95, .3 + .22 * Math.log10(speed / SLOWEST)), angle = Math.atan2(-north, east);
    const dx = Math.cos(angle) * long / 2, dy = Math.sin(angle) * long / 2, tip = [x(column + .5) + dx, y(row + .5) + dy];
    const barbs = [2.6, -2.6].map(turn => [...tip, tip[0] + Math.cos(angle + turn) * size * .26, tip[1] + Math.sin(angle + turn) * size * .26]);
    const lines = [[x(column + .5) - dx, y(row + .5) - dy, ...tip], ...barbs];
    strokeLines(g, '#fff', 2.6, lines);
    strokeLines(g, INK, 1.1, lines);
  }
}

/* squares that the rule holds and not the ground: diamonds, filled where they are steep */
function drawStanding({ g, x, y, size }) {
  const far = Math.max(2.6, Math.min(6, size * .34));
  for (const [row, column, steep] of (desk.cautions && desk.cautions.standing) || []) {
    const [cx, cy] = [x(column + .5), y(row + .5)];
    const corners = [[cx, cy - far], [cx + far, cy], [cx, cy + far], [cx - far, cy]];
    outlined(g, corners, steep ? STANDING_COLOUR : '#fff', STANDING_COLOUR);
  }
}

/* a closed shape on a white edge, so that it shows on deep water */
function outlined(g, corners, fill, colour) {
  g.beginPath();
  corners.forEach(([cx, cy], at) => at ? g.lineTo(cx, cy) : g.moveTo(cx, cy));
  g.closePath();
  g.lineWidth = 3.4;
  g.strokeStyle = '#fff';
  g.stroke();
  g.fillStyle = fill;
  g.fill();
  g.lineWidth = 1.5;
  g.strokeStyle = colour;
  g.stroke();
}

/* squares whose bed or mark is likely a slip: a triangle with a stroke and a dot */
function drawSlips({ g, x, y, size }) {
  const far = Math.max(4, Math.min(8, size * .45));
  for (const [row, column] of desk.ground.odd) {
    const [cx, cy] = [x(column + .5), y(row + .5)];
    outlined(g, [[cx, cy - far], [cx + far, cy + far * .8], [cx - far, cy + far * .8]], '#fff', INK);
    strokeLines(g, INK, 1.4, [[cx, cy - far * .4, cx, cy + far * .25], [cx, cy + far * .45, cx, cy + far * .6]]);
  }
}

function drawHeights({ g, x, y }) {
  const { contours } = desk.ground;
  g.font = `10px ${LETTERS}`;
  g.textAlign = 'left';
  g.textBaseline = 'middle';
  contours.forEach(([bed, sides], at) => {
    if (contours.length > 8 && at % 2 || sides.length < 5) return;
    const west = sides.reduce((found, side) => side[3] < found[3] ? side : found);
    edgedText(g, (bed / 1e6).toFixed(2), x(west[3]) + 2, y(west[2]), 3, '#4d3610');
  });
}

/* an arrow off the grid */
function drawExits({ g, x, y, size, ...paper }) {
  const { rows, columns } = paper, scale = Math.max(.8, size / 18);
  const shape = [[-8, -3], [-1, -3], [-1, -8], [9, 0], [-1, 8], [-1, 3], [-8, 3]];
  eachSquare(paper, (square, row, column) => {
    if (desk.ground.marks[square] !== 'e') return;
    const quarters = column === columns - 1 ? 0 : column === 0 ? 2 : row === rows - 1 ? 1 : 3;
    g.save();
    g.translate(x(column + .5), y(row + .5));
    g.rotate(quarters * Math.PI / 2);
    g.scale(scale, scale);
    outlined(g, shape, EXIT_COLOUR, EXIT_COLOUR);
    g.restore();
  });
}

/* a circle with its number, filled while it gives water */
function drawHatches({ g, x, y, size }, rates) {
  const radius = Math.max(6.5, Math.min(10, size * .62));
  for (const [number, { place: [row, column] }] of Object.entries(desk.ground.hatches)) {
    const drawn = rates[number - 1] > 0, [cx, cy] = [x(column + .5), y(row + .5)];
    dot(g, cx, cy, radius + 1.8, '#fff');
    dot(g, cx, cy, radius, HATCH_COLOUR);
    if (!drawn) dot(g, cx, cy, radius - 2, '#fff');
    middled(g, `700 ${radius * 1.25}px`);
    g.fillStyle = drawn ? '#fff' : HATCH_COLOUR;
    g.fillText(number, cx, cy + .5);
  }
}

function drawBoards({ g, x, y, size }) {
  desk.boards.forEach(({ square }, at) => {
    const [row, column] = [rowOf(square), columnOf(square)], flag = [x(column) + size - 3, y(row) - 9];
    for (const [width, colour] of [[3.6, '#fff'], [1.8, INK]]) {
      g.lineWidth = width;
      g.strokeStyle = colour;
      g.strokeRect(x(column), y(row), size, size);
    }
    g.fillStyle = INK;
    g.fillRect(...flag, 12, 13);
    middled(g, '700 10px');
    g.fillStyle = '#fff';
    g.fillText(letterOf(at), flag[0] + 6, flag[1] + 7);
  });
}

function drawCursor({ g, x, y, size }) {
  if (desk.cursor === null) return;
  g.lineWidth = 3;
  g.strokeStyle = FOCUS;
  g.strokeRect(x(columnOf(desk.cursor)) - 1, y(rowOf(desk.cursor)) - 1, size + 2, size + 2);
}

/* rows, columns, a scale and north */
function drawEdge({ g, x, y, left, top, size, rows, columns }) {
  const every = size < 18 ? 5 : size < 30 ? 2 : 1;
  g.fillStyle = PALE;
  middled(g, '10px');
  for (let column = 0; column < columns; column += every) g.fillText(column, x(column + .5), top - 7);
  g.textAlign = 'right';
  for (let row = 0; row < rows; row += every) g.fillText(row, left - 4, y(row + .5));
  const bars = [1, 2, 5, 10, 20, 50, 100, 200, 500, 1000, 2000].filter(bar => bar <= columns * desk.ground.side / 3), bar = bars.pop() || 1;
  const long = bar / desk.ground.side * size, foot = y(rows) + 12, north = x(columns) - 8;
  strokeLines(g, INK, 1.4, [[x(0), foot - 5, x(0), foot], [x(0), foot, x(0) + long, foot], [x(0) + long, foot, x(0) + long, foot - 5]]);
  strokeLines(g, INK, 1.4, [[north, foot + 5, north, foot - 8], [north - 4, foot - 3, north, foot - 8], [north, foot - 8, north + 4, foot - 3]]);
  g.fillStyle = INK;
  g.textAlign = 'left';
  g.fillText(bar + ' m', x(0) + long + 6, foot - 1);
  g.textAlign = 'right';
  g.fillText('north', north - 8, foot - 1);
}

function squareAt(canvas, event) {
  const paper = canvas.paper, box = canvas.getBoundingClientRect();
  if (!paper) return null;
  const column = Math.floor((event.clientX - box.left - paper.left) / paper.size);
  const row = Math.floor((event.clientY - box.top - paper.top) / paper.size);
  return row >= 0 && column >= 0 && row < paper.rows && column < paper.columns ? row * paper.columns + column : null;
}

// Drawing on canvases. Each function returns what the pointer is told: from a place on the canvas
// to a line of text, or null.

// Colours that people who see fewer colours can tell apart (Okabe and Ito).
const COLOURS =
    ['#0072b2', '#d55e00', '#009e73', '#cc79a7', '#e69f00', '#56b4e9', '#8a7a00', '#777777'];
const LANE_NAMES = ['time', 'samples', 'result', 'output'];
const LANE_COLOURS = [COLOURS[4], COLOURS[3], COLOURS[1], COLOURS[2]];
const LANE_HEIGHT = 7;
const LANES_HEIGHT = 4 * LANE_HEIGHT + 4;
const MARK_COLOUR = COLOURS[0];
const CHART_HEIGHT = 150;
const MARGIN = 6;

// Gives a canvas as many points as the screen has. Returns what draws on it in CSS pixels, and its
// size.
function sizeCanvas(canvas, height) {
  const width = canvas.clientWidth || 960;
  const scale = window.devicePixelRatio || 1;
  canvas.width = Math.round(width * scale);
  canvas.height = Math.round(height * scale);
  canvas.style.height = `${height}px`;
  const paint = canvas.getContext('2d');
  paint.scale(scale, scale);
  return { paint, width, height };
}

function ink(name) {
  return getComputedStyle(document.documentElement).getPropertyValue(name).trim();
}

const dashes = (copy) => (copy ? [2 + 2 * copy, 2 + copy] : []);

function cyclesIn(from, to) {
  return from === to ? `cycle ${from}` : `cycles ${from} to ${to}`;
}

// A stripe of the cycles of a copy: finished, refused, or not there.
function drawStripe(canvas, runs, most) {
  const { paint, width, height } = sizeCanvas(canvas, 18);
  const step = width / Math.max(1, most);
  paint.fillStyle = ink('--none');
  paint.fillRect(0, 0, width, height);
  paint.fillStyle = ink('--fine');
  paint.fillRect(0, 0, runs.count * step, height);
  paint.fillStyle = ink('--bad');
  for (const { cycle } of runs.refusals)
    paint.fillRect((cycle - 1) * step, 0, Math.max(1, step), height);
  return (x) => {
    const from = Math.floor(x / step) + 1, to = Math.max(from, Math.floor((x + 1) / step));
    if (from > runs.count) return from > most ? null : `${cyclesIn(from, to)}: not in this copy`;
    const refused = runs.refusals.filter(({ cycle }) => cycle >= from && cycle <= to);
    if (refused.length) return refused.slice(0, 3).map(refusalLine).join('; ');
    const time =
        runs.is_timed[from - 1] ? `time ${runs.time[from - 1].toLocaleString('en')} ns` : 'no time';
    return `${cyclesIn(from, to)}: finished, ${time}, ${runs.elements[from - 1]} elements, ${
        number(runs.draws[from - 1])} draws`;
  };
}

function refusalLine({ cycle, phase, pass, element, code }) {
  const place = phase === 'pool' ? `pool, pass ${pass}, element ${element}` : phase;
  return `cycle ${cycle}: refused in ${place}, code ${code}`;
}

// Where two copies differ: four lanes, and under them a row for the elements of a mark. A ring is
// around the place of the verdict.
function drawMap(canvas, map, ring) {
  const { paint, width, height } = sizeCanvas(canvas, LANES_HEIGHT + Math.max(40, map.rows * 4));
  const wide = width / map.width;
  const high = (height - LANES_HEIGHT) / map.rows;
  const fill = (column, top, tall) =>
      paint.fillRect(Math.floor(column * wide), top, Math.max(2, Math.ceil(wide)), tall);
  for (let column = 0; column < map.width; column++) {
    for (let lane = 0; lane < 4; lane++) {
      paint.fillStyle = LANE_COLOURS[lane];
      if (map.lanes[column * 4 + lane]) fill(column, lane * LANE_HEIGHT, LANE_HEIGHT - 1);
    }
    paint.fillStyle = MARK_COLOUR;
    for (let row = 0; row < map.rows; row++) {
      if (map.marks[column * 64 + row])
        fill(column, LANES_HEIGHT + Math.floor(row * high), Math.ceil(high));
    }
  }
  paint.strokeStyle = ink('--rule');
  paint.strokeRect(0, LANES_HEIGHT - 2, width, .01);
  if (ring && ring.cycle) drawRing(paint, map, ring, wide, high);
  return (x, y) => mapLine(
             map, Math.floor(x / wide),
             y < LANES_HEIGHT ? -1 : Math.floor((y - LANES_HEIGHT) / high));
}

function drawRing(paint, map, ring, wide, high) {
  paint.strokeStyle = ink('--ink');
  paint.lineWidth = 2;
  paint.beginPath();
  const x = (Math.floor((ring.cycle - 1) / map.per_column) + .5) * wide;
  const lane = Math.max(0, LANE_NAMES.indexOf(ring.kind));
  const y = ring.element === null ?
      (lane + .5) * LANE_HEIGHT :
      LANES_HEIGHT + (Math.floor(ring.element / map.per_mark) + .5) * high;
  paint.arc(Math.max(7, x), Math.max(7, y), 6, 0, 7);
  paint.stroke();
}

function mapLine(map, column, row) {
  if (column < 0 || column >= map.width || row >= map.rows) return null;
  const from = column * map.per_column + 1;
  const cycles = cyclesIn(from, Math.min(map.cycles, from + map.per_column - 1));
  if (row < 0) {
    const lanes = LANE_NAMES.filter((_, lane) => map.lanes[column * 4 + lane]);
    return `${cycles}: ${
        lanes.length ? `${lanes.join(', ')} differ` :
                       'time, samples, result and output are equal'}`;
  }
  const first = row * map.per_mark, last = first + map.per_mark - 1;
  const elements = first === last ? `element ${first}` : `elements ${first} to ${last}`;
  const most = map.elements[column];
  return `${cycles}, ${elements}: ${map.marks[column * 64 + row] ? 'differs' : 'equal'}${
      most ? `; of all elements at most ${most} differ in a cycle` : ''}`;
}

// The least and the greatest of all values that are there.
function rangeOf(lines) {
  let least = Infinity, greatest = -Infinity;
  for (const { values } of lines) {
    for (const v of values) {
      if (v < least) least = v;
      if (v > greatest) greatest = v;
    }
  }
  return least <= greatest ? { least, greatest } : null;
}

// The mean, least and greatest value of a column of cycles. Null if it has no value.
function columnOf(values, from, to) {
  let sum = 0, n = 0, low = Infinity, high = -Infinity;
  for (let c = from; c < to && c < values.length; c++) {
    const v = values[c];
    if (Number.isNaN(v)) continue;
    sum += v;
    n++;
    if (v < low) low = v;
    if (v > high) high = v;
  }
  return n ? { mean: sum / n, low, high } : null;
}

// Lines over cycles. If a pixel has several cycles, a line goes through their mean, over a band
// from the least to the greatest value, so no extreme is lost.
function drawLines(canvas, lines, cycles, range) {
  const { paint, width, height } = sizeCanvas(canvas, CHART_HEIGHT);
  const span = range.greatest - range.least || 1;
  const y = (v) => height - MARGIN - (v - range.least) / span * (height - 2 * MARGIN);
  const columns = Math.min(cycles, Math.floor(width));
  const edge = (column) => Math.floor(column * cycles / columns);
  for (const { values, colour, dash } of lines) {
    paint.strokeStyle = paint.fillStyle = colour;
    paint.setLineDash(dash);
    paint.lineWidth = 1.4;
    paint.beginPath();
    let is_open = false;
    for (let column = 0; column < columns; column++) {
      const found = columnOf(values, edge(column), edge(column + 1));
      const x = (column + .5) * width / columns;
      if (found && is_open) paint.lineTo(x, y(found.mean));
      if (found && !is_open) {
        paint.moveTo(x, y(found.mean));
        paint.fillRect(x - 1.5, y(found.mean) - 1.5, 3, 3);
      }
      is_open = Boolean(found);
      if (found && cycles > columns) {
        paint.globalAlpha = .3;
        paint.fillRect(x - .5, y(found.high), 1, Math.max(1, y(found.low) - y(found.high)));
        paint.globalAlpha = 1;
      }
    }
    paint.stroke();
  }
  paint.setLineDash([]);
  return (x) => chartLine(
             lines, edge(Math.floor(x / width * columns)),
             edge(Math.floor(x / width * columns) + 1));
}

function chartLine(lines, from, to) {
  const words = lines.map(({ values, label }) => {
    const found = columnOf(values, from, Math.max(to, from + 1));
    if (!found) return null;
    return `${label} ${
        found.low === found.high ? number(found.low) :
                                   `${number(found.low)} to ${number(found.high)}`}`;
  });
  return `${cyclesIn(from + 1, Math.max(to, from + 1))}: ${
      words.filter(Boolean).slice(0, 8).join('; ') || 'no value'}`;
}

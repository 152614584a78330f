// The parts of the page except its charts: the table of records, their cycles, maps and texts.

const MOST_LINES = 40;
const $ = (id) => document.getElementById(id);

// A whole number with separators. Beyond 2^53 a chart has it rounded, and only fifteen digits of it
// are shown.
function number(n) {
  if (Number.isSafeInteger(n)) return n.toLocaleString('en');
  return `about ${n.toLocaleString('en', { maximumSignificantDigits: 15 })}`;
}

function make(parent, tag, text, attributes = {}) {
  const it = document.createElement(tag);
  if (text !== undefined) it.textContent = text;
  Object.assign(it, attributes);
  parent.append(it);
  return it;
}

// Shows beside the pointer what a canvas tells of its place.
function follow(canvas, tell) {
  canvas.onmousemove = (event) => {
    const line = tell(event.offsetX, event.offsetY);
    const tip = $('tip');
    tip.textContent = line || '';
    tip.style.display = line ? 'block' : 'none';
    tip.style.left = `${Math.min(event.clientX + 14, window.innerWidth - tip.offsetWidth - 8)}px`;
    tip.style.top = `${event.clientY + 16}px`;
  };
  canvas.onmouseleave = () => {
    $('tip').style.display = 'none';
  };
}

// A legend: for each key a swatch and a word.
function legend(parent, keys) {
  const line = make(parent, 'div', undefined, { className: 'note' });
  for (const { colour, dash, word } of keys) {
    const key = make(line, 'span', undefined, { className: 'key' });
    const canvas = make(key, 'canvas', undefined, { width: 52, height: 24 });
    const paint = canvas.getContext('2d');
    paint.strokeStyle = paint.fillStyle = colour;
    paint.lineWidth = 3;
    if (dash) {
      paint.setLineDash(dash.map((n) => 2 * n));
      paint.beginPath();
      paint.moveTo(0, 12);
      paint.lineTo(52, 12);
      paint.stroke();
    } else
      paint.fillRect(0, 4, 52, 16);
    make(key, 'span', word);
  }
}

function showTable(out) {
  const table = make(out, 'table', undefined, { id: 'copies' });
  const head = make(table, 'tr');
  for (const it of ['copy', 'name', 'bytes', 'cycles', 'refused', 'record']) make(head, 'th', it);
  copies.forEach(({ name, size, runs }, k) => {
    const row = make(table, 'tr');
    const state = runs.fault ? `fault at ${runs.fault.offset}: ${runs.fault.reason}` : 'whole';
    const counts = [size, runs.count, runs.refusals.length].map(number);
    for (const it of [k, name, ...counts, state]) make(row, 'td', String(it));
  });
}

function showCycles(out, most) {
  make(out, 'h2', 'Cycles');
  copies.forEach(({ runs }, k) => {
    const row = make(out, 'div', undefined, { className: 'copy' });
    make(row, 'span', `copy ${k}`, { className: 'note' });
    const canvas = make(row, 'canvas');
    follow(canvas, drawStripe(canvas, runs, most));
  });
  legend(out, [
    { colour: ink('--fine'), word: 'finished' }, { colour: ink('--bad'), word: 'refused' },
    { colour: ink('--none'), word: 'not in this copy' }
  ]);
  const refusals = copies.flatMap(
      ({ runs }, k) =>
          runs.refusals.slice(0, MOST_LINES).map((it) => `copy ${k} ${refusalLine(it)}`));
  if (refusals.length) showNumbers(out, 'Refused cycles', refusals.join('\n'), 'refusals');
}

function showNumbers(out, title, text, id) {
  const details = make(out, 'details');
  make(details, 'summary', title);
  make(details, 'pre', text, { id });
}

async function showMaps(out, elements, place) {
  for (let k = 1; k < copies.length; k++) {
    const cycles = Math.min(copies[0].runs.count, copies[k].runs.count);
    const map = await ask('map', 0, k, cycles, elements);
    if (!map.differing) continue;
    make(out, 'h2', `Where copy ${k} differs from copy 0`);
    const canvas = make(out, 'canvas', undefined, { className: 'map' });
    follow(canvas, drawMap(canvas, map, place && place.copy === k ? place : null));
    canvas.onclick = (event) => {
      $('cycle').value =
          Math.floor(event.offsetX / canvas.clientWidth * map.width) * map.per_column + 1;
      showChosenCycle();
    };
    const rows = map.per_mark === 1 ? 'an element in a row' : `${map.per_mark} elements in a row`;
    make(
        out, 'div',
        `${number(map.differing)} of ${
            number(cycles)} cycles differ. Cycles go from left to right, ${
            map.per_column} in a column; elements downwards, ${
            rows}. A click shows the cycle as text below.`,
        { className: 'note differing' });
    legend(out, [
      ...LANE_NAMES.map((word, lane) => ({ word, colour: LANE_COLOURS[lane] })),
      { word: 'element', colour: MARK_COLOUR }
    ]);
  }
}

function firstLines(lines, most) {
  const more = lines.length > most ? `\n.. ${lines.length - most} more lines` : '';
  return lines.slice(0, most).join('\n') + more;
}

// A cycle by its texts, of which a copy without that cycle has none: the lines that differ, or all
// lines if none does.
function cycleInCopies(texts) {
  const there =
      texts.map((text, k) => ({ k, lines: text.split('\n') })).filter(({ k }) => texts[k]);
  const absent = texts.flatMap((text, k) => (text ? [] : [`copy ${k} has no such cycle`]));
  const longest = Math.max(0, ...there.map(({ lines }) => lines.length));
  const apart = Array.from({ length: longest }, (_, i) => i)
                    .filter((i) => there.some(({ lines }) => lines[i] !== there[0].lines[i]));
  if (apart.length) {
    const differing = ({ k, lines }) =>
        `copy ${k}, the lines that differ\n${firstLines(apart.map((i) => lines[i] ?? ''), 12)}`;
    return [...there.map(differing), ...absent].join('\n\n');
  }
  const names = absent.length ? there.map(({ k }) => `copy ${k}`).join(', ') : 'all copies';
  const title = texts.length > 1 ? `${names}\n` : '';
  const same = there.slice(0, 1).map(({ lines }) => title + firstLines(lines, MOST_LINES));
  return [...same, ...absent].join('\n\n');
}

async function showText(out, cycle) {
  if (!(cycle >= 1)) return;
  const texts = await Promise.all(copies.map((_, k) => ask('text', k, cycle)));
  out.textContent = cycleInCopies(texts);
}

function showChosenCycle() {
  answer($('text'), showText($('text'), Number($('cycle').value)));
}

async function showTexts(out, most, place) {
  make(out, 'h2', 'A cycle as text');
  const label = make(out, 'label', 'cycle ', { className: 'note' });
  const cycle = make(label, 'input', undefined, {
    type: 'number',
    id: 'cycle',
    min: 1,
    max: most,
    value: place && place.cycle ? place.cycle : 1
  });
  cycle.onchange = showChosenCycle;
  const text = make(out, 'pre', '', { id: 'text' });
  await showText(text, Number(cycle.value));
}

function showHeader(out) {
  const copy = headedCopy();
  if (!copies[copy].header) return;
  make(out, 'h2', `Header of copy ${copy}`);
  make(out, 'pre', copies[copy].header, { id: 'header' });
}

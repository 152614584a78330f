// Charts over cycles: elements, outputs, time and random numbers, with the numbers as text.

const MOST_CHOSEN = 8;
const EXACT_CYCLES = 200;

// A chart of lines over cycles with its range. Nothing if no line has a value.
function showChart(out, title, lines, most) {
  const range = rangeOf(lines);
  if (!range) return false;
  make(
      out, 'div', `${title}, from ${number(range.least)} to ${number(range.greatest)}`,
      { className: 'note chart' });
  const canvas = make(out, 'canvas');
  follow(canvas, drawLines(canvas, lines, most, range));
  return true;
}

const copyKeys = () =>
    copies.map((_, k) => ({ word: `copy ${k}`, colour: ink('--ink'), dash: dashes(k) }));

function linesByCopy(column) {
  return copies.map((copy, k) => ({
                      values: column(copy, k),
                      colour: COLOURS[k % COLOURS.length],
                      dash: dashes(k),
                      label: `copy ${k}`
                    }));
}

function showRunCharts(out, most) {
  make(out, 'h2', 'Time and random numbers');
  const steps = linesByCopy(({ runs }) => runs.step);
  const is_drawn = showChart(out, 'step of time to the cycle, in ns', steps, most);
  const draws = linesByCopy(({ runs }) => runs.draws);
  showChart(out, 'random numbers that all elements drew', draws, most);
  if (is_drawn || most)
    legend(out, draws.map(({ colour, dash, label }) => ({ colour, dash, word: label })));
}

async function showOutputs(out, most) {
  const fields = outputFields(headerOf(copies[headedCopy()].header).job);
  const all = await Promise.all(
      copies.map(({ runs }, k) => ask('values', k, runs.count, null, fields, EXACT_CYCLES)));
  make(out, 'h2', 'Outputs');
  fields.forEach((field, f) => {
    if (field.is_drawn) showChart(out, field.name, linesByCopy((_, k) => all[k].columns[f]), most);
  });
  showNumbers(
      out, `Outputs as numbers, of the first ${EXACT_CYCLES} cycles`,
      table(fields, all.map((it, k) => ({ label: `copy ${k}`, texts: it.texts }))), 'outputs');
}

// Columns of exact numbers as text: a line for each cycle, and in front one with their names.
function table(fields, columns) {
  const names = columns.flatMap(({ label }) => fields.map((field) => `${label} ${field.name}`));
  const most =
      Math.max(0, ...columns.map(({ texts }) => Math.max(0, ...texts.map((it) => it.length))));
  const lines = Array.from(
      { length: most },
      (_, c) => [c + 1, ...columns.flatMap(({ texts }) => texts.map((it) => it[c] ?? '-'))].join(
          '\t'));
  return [['cycle', ...names].join('\t'), ...lines].join('\n');
}

async function showValues(out, most, list) {
  const chosen = [
    ...new Set(list.split(',').map((it) => parseInt(it, 10)).filter((n) => n >= 0 && n < 65536))
  ].slice(0, MOST_CHOSEN);
  const { job, events } = headerOf(copies[headedCopy()].header);
  const fields = elementFields(job, events);
  const wanted =
      chosen.flatMap((element, i) => copies.map((copy, k) => ({ element, i, k, runs: copy.runs })));
  const all = await Promise.all(wanted.map(
      ({ element, k, runs }) => ask('values', k, runs.count, element, fields, EXACT_CYCLES)));
  out.textContent = '';
  fields.forEach((field, f) => {
    if (!field.is_drawn) return;
    const lines = wanted.map(({ element, i, k }, w) => ({
                               values: all[w].columns[f],
                               colour: COLOURS[i],
                               dash: dashes(k),
                               label: `element ${element} of copy ${k}:`
                             }));
    showChart(out, field.name, lines, most);
  });
  legend(out, [
    ...chosen.map((element, i) => ({ word: `element ${element}`, colour: COLOURS[i] })),
    ...(copies.length > 1 ? copyKeys() : [])
  ]);
  showNumbers(
      out, `Values as numbers, of the first ${EXACT_CYCLES} cycles`,
      table(
          fields,
          wanted.map(
              ({ element, k }, w) =>
                  ({ label: `copy ${k} element ${element}`, texts: all[w].texts }))),
      'values');
}

async function showElements(out, most, elements, place) {
  make(out, 'h2', 'Elements');
  const few = Math.min(4, elements);
  const spread =
      Array.from({ length: few }, (_, i) => Math.floor(i * (elements - 1) / Math.max(1, few - 1)));
  const label = make(out, 'label', 'numbers of elements ', { className: 'note' });
  const list = make(label, 'input', undefined, { type: 'text', id: 'elements' });
  list.value = place && place.element !== null ? String(place.element) : spread.join(',');
  const charts = make(out, 'div');
  list.onchange = () => answer(charts, showValues(charts, most, list.value));
  await showValues(charts, most, list.value);
}

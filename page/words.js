// What the page says in words: the verdict, and what it means. The records are the global `copies`
// of page.js.

// What the reason of a fault means, as docs/FORMATS.md has it.
const REASON_WORDS = {
  magic: 'It is no record: a record begins with DETREC.',
  version: 'The version of its format is neither 1 nor 2.',
  range: 'The byte there is part of no allowed value.',
  order: 'The frame that begins there may not come next.',
  too_many: 'A record has at most 1,000,000 cycles.',
  truncated: "The file ends there, and the record doesn't: it was cut, or not written to its end.",
  trailing: 'More bytes follow the end of the record.'
};
const WHOLE_WORDS = 'Its form is right from the first byte to the last. ' +
    'The command check finds whether its values are what its inputs give.';
// The frames before the first cycle, by their numbers.
const FRAMES = ['Register', 'Discover', 'Init'];

const faultLine = (fault, copy) =>
    `bad record: copy ${copy} offset ${fault.offset} ${fault.reason}`;

function verdictLine(verdict) {
  if (verdict) return verdict.line || faultLine(verdict.fault, verdict.fault.copy);
  const { fault, count } = copies[0].runs;
  return fault ? faultLine(fault, 0) : `whole, ${count} cycle${count === 1 ? '' : 's'}`;
}

// The place of a verdict: its copy, its kind, its cycle, and its element if it has one. A kind of
// frame counts from Register; cycle 0 is Init.
function placeOf(line) {
  const found = /^differ copy (\d+) (\w+)(?: (\d+))?(?: (\d+))?$/.exec(line || '');
  if (!found) return null;
  const [, copy, kind, first, second] = found;
  const at = first === undefined ? null : Number(first);
  const cycle = at === null ? null : (kind === 'kind' ? Math.max(0, at - 2) : at);
  return {
    copy: Number(copy),
    kind,
    cycle,
    frame: at,
    element: second === undefined ? null : Number(second)
  };
}

// The line of a text that a place is about.
function lineAt(text, place) {
  const lines = text.split('\n');
  if (place.kind === 'element')
    return lines.find((it) => it.startsWith(`element ${place.element} `)) || 'no such element';
  if (place.kind === 'output') return lines.find((it) => it.startsWith('output ')) || 'no output';
  if (place.kind === 'time') return (lines[0] || '').replace(/^run \d+ /, '') || 'no such cycle';
  return lines.find((it) => it.startsWith('refused ') || it.startsWith('finished ')) ||
      'no such cycle';
}

const isSample = (line) => line.startsWith('sample ');

// The first line of a kind in which two texts differ, of each text. One may have fewer.
function firstApart(texts, isOfKind, none) {
  const [ours, theirs] = texts.map((text) => text.split('\n').filter(isOfKind));
  const at = ours.findIndex((line, i) => line !== theirs[i]);
  const k = at < 0 ? ours.length : at;
  return [ours[k] || none, theirs[k] || none];
}

// What both texts have at the place of a difference.
function linesAt(texts, place) {
  if (place.kind === 'header') return firstApart(texts, () => true, 'no further line');
  if (place.kind === 'samples') return firstApart(texts, isSample, 'no further sample');
  return texts.map((it) => lineAt(it, place));
}

// An element's or output's line with its numbers by their names.
function lineInWords(line, header) {
  const element = /^element \d+ ([0-9a-f]*|-)(?: (\d+))?$/.exec(line);
  const output = /^output ([0-9a-f]*|-)$/.exec(line);
  if (element)
    return `${hexInWords(element[1], elementFields(header.job, header.events))}${
        element[2] === undefined ? '' : `, ${element[2]} draws`}`;
  return output ? hexInWords(output[1], outputFields(header.job)) : line;
}

// The place of a fault, in the words of the hint of `det`.
function faultPlace({ reason, items, begins }) {
  const frame = items - 1;
  if (items === 0) return 'in the header';
  if (reason === 'trailing') return `behind frame ${frame}, Terminate`;
  if (begins) return `where frame ${frame} begins: ${FRAMES[frame] || 'a run or Terminate'}`;
  return frame === 2 ? 'in frame 2, Init' : `in frame ${frame}, the run of cycle ${frame - 2}`;
}

// What is shown of a copy with a fault. All copies begin with the frames before the fault that is
// the verdict on them.
function wordsOnRest({ header, runs: { count } }) {
  if (!header) return 'Nothing of the file can be shown.';
  if (!count) return 'No whole cycle comes before the fault.';
  const [cycles, are] =
      count === 1 ? ['The whole cycle', 'is'] : [`The ${number(count)} whole cycles`, 'are'];
  const also = copies.length > 1 ? `, and ${are} the same in all copies` : '';
  return `${cycles} before the fault ${are} shown${also}.`;
}

// The fault of a copy that is the verdict.
function wordsOnFault(k) {
  const { name, size, runs: { fault } } = copies[k];
  const who = copies.length > 1 ? `Copy ${k}, ${name},` : name;
  const meaning = size ? REASON_WORDS[fault.reason] : 'The file is empty.';
  return `${who} has a fault at offset ${fault.offset}, ${faultPlace(fault)}. ${meaning} ${
      wordsOnRest(copies[k])}`;
}

// Which copies have a fault that isn't the verdict.
function wordsOnOthers(verdict) {
  const others =
      [...copies.keys()].filter((k) => copies[k].runs.fault && k !== verdict.fault?.copy);
  if (!others.length) return '';
  const last = others.pop();
  return others.length ? ` The table names the faults of copies ${others.join(', ')} and ${last}.` :
                         ` The table names the fault of copy ${last}.`;
}

// What the verdict means.
async function wordsOnVerdict(verdict) {
  if (!verdict && copies[0].runs.fault) return wordsOnFault(0);
  if (!verdict) return WHOLE_WORDS;
  if (verdict.fault) return wordsOnFault(verdict.fault.copy) + wordsOnOthers(verdict);
  const place = placeOf(verdict.line);
  if (!place) return `The ${copies.length} copies are the same record, byte for byte.`;
  return await wordsOnDifference(place) + wordsOnOthers(verdict);
}

// The difference in words, with what both copies have at its place.
async function wordsOnDifference(place) {
  const { copy, kind, cycle, frame, element } = place;
  const where = cycle === 0 ? 'Init' : `cycle ${cycle}`;
  const what = {
    header: 'the headers differ',
    time: `the times of ${where} differ`,
    samples: `the samples of ${where} differ`,
    result: `the results of ${where} differ`,
    output: `the outputs of ${where} differ`,
    element: `element ${element} of ${where} differs`
  };
  const parts = [`Copy ${copy} differs from copy 0: ${
      what[kind] || `frame ${frame} is of another kind, or only in one of them`}.`];
  if (kind !== 'kind') {
    const texts = kind === 'header' ? [copies[0].header, copies[copy].header] :
                                      [await ask('text', 0, cycle), await ask('text', copy, cycle)];
    linesAt(texts, place)
        .forEach(
            (line, k) => parts.push(`Copy ${k ? copy : 0} has ${
                lineInWords(line, headerOf(copies[k ? copy : 0].header))}.`));
  }
  return parts.join(' ');
}

// The first copy with a whole header, or copy 0.
const headedCopy = () => Math.max(0, copies.findIndex(({ header }) => header));

function headerOf(text) {
  return {
    job: Number((/^job (\d+)$/m.exec(text) || [])[1]),
    events: (text.match(/^event /gm) || []).length
  };
}

// The page: takes records, asks the worker, and has the other scripts show what it answers.

const MOST_RECORDS = 8;

// The records that are shown: of each its name, its size, its header and its cycles.
let copies = [];
// Resolved once all records that were taken so far are shown.
let taken = Promise.resolve();
let worker = null;
const waiting = new Map();

function ask(name, ...words) {
  return new Promise((resolve, reject) => {
    const id = ask.next++;
    waiting.set(id, { resolve, reject });
    worker.postMessage({ number: id, name, words });
  });
}
ask.next = 1;

function startWorker() {
  const url = URL.createObjectURL(new Blob([$('worker').textContent], { type: 'text/javascript' }));
  worker = new Worker(url);
  worker.onmessage = ({ data }) => {
    const { resolve, reject } = waiting.get(data.number);
    waiting.delete(data.number);
    if (data.error === undefined)
      resolve(data.value);
    else
      reject(new Error(data.error));
  };
  worker.onerror = (event) => {
    const error = new Error(`the worker stopped: ${event.message}`);
    fail(error.message);
    waiting.forEach(({ reject }) => reject(error));
    waiting.clear();
  };
}

function fail(line) {
  $('verdict').textContent = line;
  $('verdict').className = 'bad';
}

// Waits for what a choice on a part of the page has shown there. An error is of no use once other
// records are shown.
function answer(part, shown) {
  shown.catch((error) => {
    if (part.isConnected) fail(error.message);
  });
}

// A name as one line, in which no character moves others: `?` is in place of such a one.
const shownName = (name) => name.replace(/[\p{Cc}\p{Bidi_Control}\u2028\u2029]/gu, '?');

async function show(files) {
  const out = $('out');
  out.textContent = $('words').textContent = $('verdict').className = '';
  if (files.length < 1 || files.length > MOST_RECORDS) {
    fail(`${files.length} records: the page takes 1 to ${MOST_RECORDS}`);
    return;
  }
  $('verdict').textContent = 'reading ..';
  const { copies: found, verdict } = await ask('open', files);
  copies = found.map((copy, k) => ({...copy, name: files[k].name, size: files[k].blob.size }));
  $('verdict').textContent = verdictLine(verdict);
  const is_bad = verdict ? verdict.status !== 0 : copies[0].runs.fault;
  $('verdict').className = is_bad ? 'bad' : '';
  const place = verdict ? placeOf(verdict.line) : null;
  const most = Math.max(...copies.map(({ runs }) => runs.count));
  const elements =
      Math.max(...copies.map(({ runs }) => runs.elements.reduce((a, b) => Math.max(a, b), 0)));
  $('words').textContent = await wordsOnVerdict(verdict);
  showTable(out);
  if (most) {
    showCycles(out, most);
    await showMaps(out, elements, place);
    await showElements(out, most, elements, place);
    await showOutputs(out, most);
    showRunCharts(out, most);
    await showTexts(out, most, place);
  }
  showHeader(out);
}

// Shows records once those that were taken before are shown. The document notes when it is done.
function take(files) {
  const named = [...files].map(({ name, blob }) => ({ blob, name: shownName(name) }));
  taken = taken.then(async () => {
    delete document.body.dataset.done;
    await show(named).catch((error) => fail(String(error.message || error)));
    document.body.dataset.done = '1';
  });
  return taken;
}

const bytesOf = (text) => Uint8Array.from(atob(text.trim()), (c) => c.charCodeAt(0));

// A drop may have no files, but a text, say. It changes nothing.
function takeFiles(files) {
  if (files.length) take([...files].map((file) => ({ name: file.name, blob: file })));
}

// Delays the event `load` of the page, for which a browser without a window waits before it makes a
// picture: a document in a frame that is open does that. Returns what ends the delay.
function delayLoad() {
  const frame = make(document.body, 'iframe', undefined, { hidden: true });
  frame.contentDocument?.open();
  return () => {
    frame.contentDocument?.close();
    frame.remove();
  };
}

// From now on takes the files that are chosen or dropped.
function takeChosen() {
  $('files').onchange = () => takeFiles($('files').files);
  document.ondragover = (event) => {
    event.preventDefault();
    $('drop').classList.add('over');
  };
  document.ondragleave = () => $('drop').classList.remove('over');
  document.ondrop = (event) => {
    event.preventDefault();
    $('drop').classList.remove('over');
    takeFiles(event.dataTransfer.files);
  };
}

async function start() {
  const endDelay = delayLoad();
  try {
    startWorker();
    await ask('load', bytesOf($('module').textContent));
    takeChosen();
    const embedded = [...document.querySelectorAll('script.record')];
    if (embedded.length) {
      await take(embedded.map(
          (it) => ({ name: it.dataset.name, blob: new Blob([bytesOf(it.textContent)]) })));
    }
    document.body.dataset.ready = '1';
  } catch (error) {
    fail(`this browser can't run the page: ${error.message}`);
    document.body.dataset.done = '1';
  }
  endDelay();
}

start();

// Runs in a worker, so that a large record doesn't stop the page. A message is a call by its
// number, its name and its arguments; the answer has the same number.

let module = null;
let records = null;

// Drawing and this worker share the fields; a function can't be sent.
function withTests(fields) {
  return fields.map((field) => ({...field, fits: (length) => hasField(field, length) }));
}

const CALLS = {
  async load(bytes) {
    module = await WebAssembly.compile(bytes);
    records = await Records.of(module);
  },

  // Reads the records, and what is shown first of them.
  async open(files) {
    records = await Records.of(module);
    await records.open(files);
    const copies = files.map((_, k) => ({ runs: records.runs(k), header: records.header(k) }));
    return { copies, verdict: files.length > 1 ? records.compare() : null };
  },

  map: (...words) => records.map(...words),

  values: (copy, cycles, element, fields, exact) =>
      records.values(copy, cycles, element, withTests(fields), exact),

  text: (copy, cycle) => (cycle ? records.text(copy, cycle) : records.beginning(copy)),
};

onmessage = async ({ data: { number, name, words } }) => {
  try {
    postMessage({ number, value: await CALLS[name](...words) });
  } catch (error) {
    postMessage({ number, error: String(error.message || error) });
  }
};

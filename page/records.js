// What the module answers, as plain JavaScript values. The module imports nothing. Its memory has
// 64-bit addresses, which are BigInt in a call and numbers here. Memory may move in any call that
// takes some, so a view of it is made anew each time.

const REASONS = ['magic', 'version', 'range', 'order', 'too_many', 'truncated', 'trailing'];
const PHASES = ['', 'prepare', 'pool', 'conclude'];
// The sizes of the structs in crates/page, and how many rows are asked for at first.
const RUN_SIZE = 56;
const CELL_SIZE = 80;
const DIFFERENCE_SIZE = 72;
const MARKS = 64;
const LANES = 4;
const FIRST_ROWS = 4096;
// A front of a record that holds any header, and one that holds its Init frame too.
const HEADER_FRONT = 16384;
const INIT_FRONT = HEADER_FRONT + 65536 * 66;
const TEXT_ROOM = 1 << 25;

const READERS = {
  i64: (view, at) => view.getBigInt64(at, false),
  u64: (view, at) => view.getBigUint64(at, false),
  u32: (view, at) => BigInt(view.getUint32(at, false)),
  u16: (view, at) => BigInt(view.getUint16(at, false)),
};

class Records {
  // An instance with a memory of its own. Memory never shrinks, and after a trap an instance is of
  // no use, so there is a new one for each choice of records.
  static async of(module) {
    const instance = await WebAssembly.instantiate(module, {});
    return new Records(instance.exports);
  }

  constructor(exports) {
    this.exports = exports;
    this.fault_at = this.take(16);
    this.count_at = this.take(8);
    this.all = 0;
    this.lengths = [];
  }

  take(size) {
    const place = Number(this.exports.page_take(BigInt(size)));
    if (place === 0) throw new Error('out of memory');
    return place;
  }

  giveBack(place) {
    this.exports.page_give_back(BigInt(place));
  }

  view() {
    return new DataView(this.exports.memory.buffer);
  }

  bytes(place, length) {
    return new Uint8Array(this.exports.memory.buffer, place, length);
  }

  count() {
    return Number(this.view().getBigUint64(this.count_at, true));
  }

  textAt(place, length) {
    return new TextDecoder('latin1').decode(this.bytes(place, length));
  }

  // Lays records one after another in memory. A folder can't be read, nor a file that has changed.
  async open(files) {
    this.lengths = files.map(({ blob }) => blob.size);
    this.all = this.take(Math.max(1, this.lengths.reduce((sum, n) => sum + n, 0)));
    let at = this.all;
    for (const { name, blob } of files) {
      const reader = blob.stream().getReader();
      for (;;) {
        const { done, value } = await reader.read().catch(() => {
          throw new Error(`can't read ${name}`);
        });
        if (done) break;
        this.bytes(at, value.length).set(value);
        at += value.length;
      }
    }
  }

  start(copy) {
    return this.lengths.slice(0, copy).reduce((sum, n) => sum + n, this.all);
  }

  // A record as two arguments of a call: its address and its length.
  record(copy, most = Infinity) {
    return [BigInt(this.start(copy)), BigInt(Math.min(most, this.lengths[copy]))];
  }

  // The fault that the last call gave out.
  fault() {
    const view = this.view();
    return {
      offset: Number(view.getBigUint64(this.fault_at, true)),
      copy: view.getUint32(this.fault_at + 8, true),
      reason: REASONS[view.getUint32(this.fault_at + 12, true)],
    };
  }

  // The status and the line of `det compare`, or the fault of a copy.
  compare() {
    const lengths = this.take(64);
    const line = this.take(256);
    this.lengths.forEach((n, i) => this.view().setBigUint64(lengths + 8 * i, BigInt(n), true));
    const total = this.lengths.reduce((sum, n) => sum + n, 0);
    const answer = this.exports.page_compare(
        BigInt(this.all), BigInt(total), BigInt(lengths), BigInt(this.lengths.length), BigInt(line),
        256n, BigInt(this.count_at), BigInt(this.fault_at));
    if (answer > 2) throw new Error('out of memory');
    if (answer === 2) return { status: 5, fault: this.fault() };
    return { status: answer, line: this.textAt(line, this.count()).trimEnd() };
  }

  // What `det show` prints of the front of a record, or of one cycle if `cycle` isn't 0.
  text(copy, cycle, most = Infinity) {
    const out = this.take(TEXT_ROOM);
    const answer = this.exports.page_text(
        ...this.record(copy, most), cycle, BigInt(out), BigInt(TEXT_ROOM), BigInt(this.count_at),
        BigInt(this.fault_at));
    const text = answer > 2 ? null : this.textAt(out, this.count());
    this.giveBack(out);
    if (text === null) throw new Error(answer === 4 ? 'too long a text' : 'out of memory');
    return text;
  }

  // The lines of a header: those before the first frame.
  header(copy) {
    const text = this.text(copy, 0, HEADER_FRONT);
    const end = text.indexOf('register\n');
    return end < 0 ? text : text.slice(0, end);
  }

  // The lines before the first cycle.
  beginning(copy) {
    const text = this.text(copy, 0, INIT_FRONT);
    const end = text.indexOf('\nrun 1 ');
    return end < 0 ? text : text.slice(0, end);
  }

  // How many whole items the first bytes of a copy have: its header, and its frames to the last
  // run.
  items(copy, most) {
    const place = BigInt(this.count_at);  // of no row, and of the count
    this.exports.page_runs(...this.record(copy, most), place, 0n, place, BigInt(this.fault_at));
    const runs = this.count();
    if (runs) return 4 + runs;
    const text = this.text(copy, 0, most);
    return [/^format /, /^register$/m, /^discover$/m, /^init /m]
        .filter((it) => it.test(text))
        .length;
  }

  // A fault with the number of whole items before it. `begins` is set if it is at the first byte of
  // the next one: then one byte less has one item less.
  withPlace(copy, fault) {
    const items = this.items(copy, fault.offset);
    const begins = items > 0 && this.items(copy, fault.offset - 1) < items;
    return {...fault, items, begins };
  }

  // The rows of all cycles in memory, their number, and the fault after them.
  runRows(copy) {
    for (let most = FIRST_ROWS;;) {
      const rows = this.take(most * RUN_SIZE);
      const answer = this.exports.page_runs(
          ...this.record(copy), BigInt(rows), BigInt(most), BigInt(this.count_at),
          BigInt(this.fault_at));
      const count = this.count();
      if (count <= most) return { rows, count, fault: answer === 2 ? this.fault() : null };
      this.giveBack(rows);
      most = count;
    }
  }

  // The cycles of a record as columns of numbers. `time` is exact where `is_timed` is 1; `step` is
  // the time to the cycle, NaN where one of its two times isn't known.
  runs(copy) {
    const { rows, count, fault } = this.runRows(copy);
    const columns = ['step', 'draws', 'output', 'samples', 'elements'];
    const runs = { count, refusals: [], fault: fault && this.withPlace(copy, fault) };
    for (const name of columns) runs[name] = new Float64Array(count);
    runs.time = new BigUint64Array(count);
    runs.is_timed = new Uint8Array(count);
    const view = this.view();
    for (let i = 0, at = rows; i < count; i++, at += RUN_SIZE) {
      runs.is_timed[i] = view.getUint32(at + 24, true);
      runs.time[i] = view.getBigUint64(at, true);
      const has_step = i && runs.is_timed[i] && runs.is_timed[i - 1];
      runs.step[i] = has_step ? Number(runs.time[i] - runs.time[i - 1]) : NaN;
      runs.draws[i] = Number(view.getBigUint64(at + 8, true));
      runs.output[i] = Number(view.getBigUint64(at + 16, true));
      runs.samples[i] = view.getUint32(at + 28, true);
      runs.elements[i] = view.getUint32(at + 32, true);
      const outcome = view.getUint32(at + 36, true);
      if (outcome) {
        const [pass, element, code] = [40, 44, 48].map((k) => view.getUint32(at + k, true));
        runs.refusals.push({ cycle: i + 1, phase: PHASES[outcome], pass, element, code });
      }
    }
    this.giveBack(rows);
    return runs;
  }

  // The fields of an element or of the output after each cycle: for each field a column of numbers,
  // NaN where there is none, and for the first cycles the exact numbers as text. `element` is null
  // for the output.
  values(copy, cycles, element, fields, exact) {
    const cells = this.take(Math.max(1, cycles * CELL_SIZE));
    const rest = [BigInt(cells), BigInt(cycles), BigInt(this.fault_at)];
    if (element === null)
      this.exports.page_outputs(...this.record(copy), ...rest);
    else
      this.exports.page_values(...this.record(copy), element, ...rest);
    const view = this.view();
    const columns = fields.map(() => new Float64Array(cycles).fill(NaN));
    const texts = fields.map(() => []);
    for (let c = 0, at = cells; c < cycles; c++, at += CELL_SIZE) {
      const length = view.getUint32(at + 76, true) ? Number(view.getBigUint64(at + 64, true)) : -1;
      fields.forEach((field, f) => {
        const is_there = field.fits(length);
        const number = is_there ? READERS[field.type](view, at + field.at) : null;
        if (is_there) columns[f][c] = Number(number);
        if (c < exact) texts[f].push(is_there ? String(number) : '-');
      });
    }
    this.giveBack(cells);
    return { columns, texts };
  }

  // Where two copies differ: a column for so many cycles, with four lanes (time, samples, result,
  // output) and the marks of so many elements each.
  map(first, other, cycles, elements, most_columns = 512) {
    const per_mark = Math.max(1, Math.ceil(elements / MARKS));
    const per_column = Math.max(1, Math.ceil(cycles / most_columns));
    const width = Math.max(1, Math.ceil(cycles / per_column));
    const rows = this.take(Math.max(1, cycles * DIFFERENCE_SIZE));
    this.exports.page_map(
        ...this.record(first), ...this.record(other), per_mark, BigInt(rows), BigInt(cycles));
    const all = this.bytes(rows, cycles * DIFFERENCE_SIZE);
    const view = this.view();
    const map = { width, per_mark, per_column, cycles, differing: 0 };
    map.lanes = new Uint8Array(width * LANES);
    map.marks = new Uint8Array(width * MARKS);
    map.elements = new Uint32Array(width);
    for (let c = 0, at = 0; c < cycles; c++, at += DIFFERENCE_SIZE) {
      const column = Math.floor(c / per_column);
      const count = view.getUint32(rows + at + 4, true);
      let differs = count;
      for (let k = 0; k < LANES; k++) {
        map.lanes[column * LANES + k] |= all[at + k];
        differs |= all[at + k];
      }
      if (count)
        for (let k = 0; k < MARKS; k++) map.marks[column * MARKS + k] |= all[at + 8 + k];
      map.elements[column] = Math.max(map.elements[column], count);
      if (differs) map.differing++;
    }
    map.rows = Math.min(MARKS, Math.max(1, Math.ceil(elements / per_mark)));
    this.giveBack(rows);
    return map;
  }
}

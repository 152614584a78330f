// The numbers in the elements and outputs of the built-in jobs, as docs/FORMATS.md lays them out.
// Of another job they are the signed words of eight bytes with which they begin.

const BANK = 1;
const CLOUD = 2;
const GUARD = 3;
const WIDTHS = {
  i64: 8,
  u64: 8,
  u32: 4,
  u16: 2
};

// Fields one after another: pairs of a type and a name. Those whose names begin with '.' are in the
// table of numbers and in no chart. `is_open` says that more bytes may follow.
function fieldsInOrder(pairs, is_open = false) {
  const size = pairs.reduce((sum, [type]) => sum + WIDTHS[type], 0);
  let at = 0;
  return pairs.map(([type, name]) => {
    const
        field = { type, at, size, is_open, name: name.replace('.', ''), is_drawn: name[0] !== '.' };
    at += WIDTHS[type];
    return field;
  });
}

// Whether bytes of this length have the field.
function hasField(field, length) {
  if (field.is_word) return field.at + 8 <= length;
  return length === field.size || (field.is_open && length > field.size);
}

function wordFields() {
  return [0, 1, 2, 3].map(
      (n) => ({ type: 'i64', at: 8 * n, is_word: true, name: `word ${n}`, is_drawn: true }));
}

function elementFields(job, events) {
  if (job === BANK && events > 1) return fieldsInOrder([['u16', '.event'], ['i64', 'level']]);
  if (job === BANK) return fieldsInOrder([['i64', 'level']]);
  if (job === CLOUD) return fieldsInOrder([['u32', '.number'], ['i64', 'x'], ['i64', 'y']]);
  if (job === GUARD)
    return fieldsInOrder([['u32', '.number'], ['i64', 'held value'], ['u16', 'streak']]);
  return wordFields();
}

function outputFields(job) {
  if (job === BANK) return fieldsInOrder([['i64', 'sum'], ['i64', 'least'], ['i64', 'greatest']]);
  if (job === CLOUD) {
    return fieldsInOrder([
      ['u32', '.nearest particle'], ['i64', 'x'], ['i64', 'y'], ['u64', 'distance'],
      ['u32', '.finished cycles']
    ]);
  }
  if (job === GUARD)
    return fieldsInOrder([['u64', 'corrections of all cycles'], ['u32', 'corrected']], true);
  return wordFields();
}

// The fields of some bytes in words. The bytes are given as hex digits, or as `-` if there are
// none.
function hexInWords(hex, fields) {
  if (hex === '-') return 'no bytes';
  const bytes = Uint8Array.from(hex.match(/../g) || [], (pair) => parseInt(pair, 16));
  const view = new DataView(bytes.buffer);
  const read = { i64: 'getBigInt64', u64: 'getBigUint64', u32: 'getUint32', u16: 'getUint16' };
  const there = fields.filter((field) => hasField(field, bytes.length));
  const words = there.map((field) => `${field.name} ${view[read[field.type]](field.at, false)}`);
  return words.join(', ') || (hex.length > 64 ? `${hex.slice(0, 64)}..` : hex);
}

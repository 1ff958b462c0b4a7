// Frames: lines that the desk takes, written from numbers, and its answers, read back. docs/FRAMES.md and docs/DESK.md have every op, field by
// field; a counter takes those up to 07.
// A mark is { layout, place, serial }, a part { number, width, height, turn }. Areas are below 2^52, so that a Number holds each of them.

/** What the bytes stand for. */
export const CUTS = ['Horizontal', 'Vertical'];
export const KINDS = ['free', 'part', 'structure', 'several'];
export const ROTATIONS = ['Default', 'Rotated'];
export const SHAPES = [null, 'AlongCurrentCut', 'AcrossCurrentCut', 'AlongThenAcross', 'AcrossThenAlong'];

/** The numbers of them that the page looks for, and the reason that there is an offer. */
export const VERTICAL = 1;
export const FREE = 0;
export const PART = 1;
export const STRUCTURE = 2;
export const OFFERED = 5;

/** The op of the desk's own that changes the sheet. */
export const TIDY = 0x1b;

const hex = (number, bytes) => number.toString(16).padStart(2 * bytes, '0');

/** The most that a field of so many bytes holds. */
export const most = (bytes) => 2 ** (8 * bytes) - 1;

/** A frame: its op, and its fields as pairs of bytes and number. A number that its field can't hold is an error here. */
function frame(op, ...fields) {
  for (const [bytes, number] of fields) {
    if (!Number.isInteger(number) || number < 0 || number > most(bytes)) throw new RangeError(`${number} is no field of ${bytes} bytes`);
  }
  const open = hex(op, 1) + fields.map(([bytes, number]) => hex(number, bytes)).join('');
  return open + hex(check(open), 1);
}

/** The byte that makes those of a text add to 0. */
function check(text) {
  let sum = 0;
  for (let at = 0; at < text.length; at += 2) sum += parseInt(text.slice(at, at + 2), 16);
  return -sum & 0xff;
}

const markFields = ({ layout, place, serial }) => [[2, layout], [1, place], [4, serial]];
const partFields = ({ number, width, height, turn }) => [[2, number], [4, width], [4, height], [1, turn]];

/** A line for each op. */
export const write = {
  open: ({ layout, width, height, cut, stages, blade }) => frame(0x01, [2, layout], [4, width], [4, height], [1, cut], [1, stages], [1, blade]),
  offers: (mark, part) => frame(0x02, ...markFields(mark), ...partFields(part)),
  insert: (mark, part, { rotation, shape }) => frame(0x03, ...markFields(mark), ...partFields(part), [1, rotation], [1, shape]),
  remove: (mark) => frame(0x04, ...markFields(mark)),
  keep: () => frame(0x05),
  restore: () => frame(0x06),
  report: () => frame(0x07),
  whyNot: (mark, part) => frame(0x11, ...markFields(mark), ...partFields(part)),
  light: (part) => frame(0x12, ...partFields(part)),
  freePiece: (position) => frame(0x13, [2, position]),
  removablePiece: (position) => frame(0x14, [2, position]),
  partNumbers: () => frame(0x15),
  figures: () => frame(0x16),
  snapshot: () => frame(0x17),
  cuts: () => frame(0x18),
  eaten: () => frame(0x19),
  amounts: () => frame(0x1a),
  tidy: () => frame(TIDY),
};

/** The fields of an answer, one after the other. */
class Fields {
  #text;
  #at = 0;

  constructor(text) {
    this.#text = text;
  }

  number(bytes) {
    const end = this.#at + 2 * bytes;
    if (end > this.#text.length) throw new Error('the answer is too short');
    const number = Number(BigInt(`0x${this.#text.slice(this.#at, end)}`));
    if (!Number.isSafeInteger(number)) throw new Error('the answer has a number that is too large');
    this.#at = end;
    return number;
  }

  /** A number of 64 bits that is the bits of an f64. */
  float() {
    const view = new DataView(new ArrayBuffer(8));
    view.setUint32(0, this.number(4));
    view.setUint32(4, this.number(4));
    return view.getFloat64(0);
  }

  mark() {
    return { layout: this.number(2), place: this.number(1), serial: this.number(4) };
  }

  list(count, entry) {
    return Array.from({ length: count }, () => entry(this));
  }

  end() {
    if (this.#at !== this.#text.length) throw new Error('the answer is too long');
  }
}

const offer = (fields) => ({ rotation: fields.number(1), shape: fields.number(1) });
const node = (fields) => ({
  level: fields.number(1),
  kind: fields.number(1),
  cut: fields.number(1),
  number: fields.number(2),
  width: fields.number(4),
  height: fields.number(4),
  eaten: fields.number(1),
});
const sawCut = (fields) => ({
  place: fields.number(2),
  way: fields.number(1),
  distance: fields.number(4),
  piece: fields.number(1),
  left: fields.number(1),
});
const markAlone = (fields) => ({ mark: fields.mark() });
const nothing = () => ({});

/** What an answer that is no refusal has behind its op and its 00. */
const READERS = {
  0x01: markAlone,
  0x02: (fields) => ({ offers: fields.list(fields.number(1), offer) }),
  0x03: (fields) => ({ first: fields.mark(), part: fields.mark(), free: fields.list(fields.number(1), () => fields.mark()) }),
  0x04: (fields) => ({ mark: fields.mark(), numbers: fields.list(fields.number(1), () => fields.number(2)) }),
  0x05: nothing,
  0x06: nothing,
  0x07: (fields) => ({ used: fields.number(8), held: fields.number(1), sheetUsage: fields.float() }),
  0x11: (fields) => ({ reasons: [fields.number(1), fields.number(1)] }),
  0x12: (fields) => ({ room: fields.number(1) === 1, mark: fields.mark() }),
  0x13: markAlone,
  0x14: markAlone,
  0x15: (fields) => ({ numbers: fields.list(fields.number(2), () => fields.number(2)) }),
  0x16: (fields) => ({
    used: fields.number(8),
    free: fields.number(8),
    held: fields.number(2),
    empty: fields.number(1) === 1,
    sheetUsage: fields.float(),
    treeUsage: fields.float(),
  }),
  0x17: (fields) => ({ nodes: fields.list(fields.number(2), node) }),
  0x18: (fields) => ({ cuts: fields.list(fields.number(2), sawCut) }),
  0x19: (fields) => ({ eaten: fields.number(8) }),
  0x1a: (fields) => ({ amounts: fields.list(fields.number(2), () => fields.number(1)) }),
  [TIDY]: (fields) => ({ count: fields.number(2) }),
};

/** An answer: its op and the refusal's number, which is 0 where there is none, and then the fields of that op. What is no answer is an error. */
export function read(answer) {
  if (!/^(?:[0-9a-f]{2}){3,}$/.test(answer)) throw new Error(`this is no answer: ${answer}`);
  if (check(answer) !== 0) throw new Error(`the answer's bytes don't add to 0: ${answer}`);
  const fields = new Fields(answer.slice(0, -2));
  const [op, refusal] = [fields.number(1), fields.number(1)];
  if (refusal !== 0) {
    fields.end();
    return { op, refusal };
  }
  if (!(op in READERS)) throw new Error(`an answer of no op: ${answer}`);
  const rest = READERS[op](fields);
  fields.end();
  return { op, refusal, ...rest };
}

/**
 * The saw cuts, of a desk that `ask` sends a line to and reads the answer of: each with what the blade eats behind the piece that it cuts off (`eaten`), which the desk
 * says beside the list. None before a sheet is opened.
 */
export function cutsAsked(ask) {
  const { cuts = [] } = ask(write.cuts());
  const { amounts = [] } = ask(write.amounts());
  if (amounts.length !== cuts.length) throw new Error(`${cuts.length} cuts have ${amounts.length} amounts`);
  return cuts.map((cut, at) => ({ ...cut, eaten: amounts[at] }));
}

/** The op of a line that is a frame. */
export const opOf = (line) => parseInt(line.slice(0, 2), 16);

/** What a line says that opens a sheet or books a part; nothing of other lines. The line is a frame that was answered as one. */
export function readLine(line) {
  const fields = new Fields(line.slice(2, -2));
  const part = () => ({ number: fields.number(2), width: fields.number(4), height: fields.number(4), turn: fields.number(1) });
  switch (opOf(line)) {
    case 0x01:
      return { layout: fields.number(2), width: fields.number(4), height: fields.number(4), cut: fields.number(1), stages: fields.number(1), blade: fields.number(1) };
    case 0x03:
      return { mark: fields.mark(), part: part(), ...offer(fields) };
    default:
      return {};
  }
}

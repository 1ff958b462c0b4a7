// The drill: a sheet from a seed, booked full by the module, and the next cut asked for. What is right is what the module's list of cuts says. Nothing is kept.

const PARTS = 6;
const ENOUGH_CUTS = 5;
const TRIES = 40;

/** Numbers that follow from a seed, each from 0 to below 1 (xorshift of 32 bits). */
function numbersFrom(seed) {
  let state = (Math.imul(seed, 0x9e3779b1) ^ 0x5bd1e995) >>> 0 || 1;
  return () => {
    state ^= state << 13;
    state ^= state >>> 17;
    state ^= state << 5;
    state >>>= 0;
    return state / 2 ** 32;
  };
}

/** Opens a sheet that follows from the seed at a desk, for a blade of this width, and books parts that it offers room for. Its answer is that of the opening. */
export function fill(desk, seed, blade = 0) {
  const next = numbersFrom(seed);
  const among = (from, to) => from + Math.floor(next() * (to - from + 1));
  const [width, height] = [10 * among(80, 280), 10 * among(60, 210)];
  const opened = desk.open({ layout: seed % 65536, width, height, cut: among(0, 1), stages: among(2, 4), blade });
  if (opened.refusal) return opened;
  let booked = 0;
  for (let tries = 0; tries < TRIES && (booked < PARTS || desk.cuts.length < ENOUGH_CUTS); tries += 1) {
    const part = { number: booked + 1, width: 10 * among(8, width / 20), height: 10 * among(8, height / 20), turn: 0 };
    const { room, mark } = desk.light(part);
    if (!room) continue;
    const { offers } = desk.offers(mark, part);
    if (!desk.insert(mark, part, offers[among(0, offers.length - 1)]).refusal) booked += 1;
  }
  return opened;
}

export class Drill {
  /** Which cut is asked for, from 0; the cuts of the sheet; how many were right, of how many that were asked for. */
  at = 0;
  right = 0;
  asked = 0;

  constructor(desk) {
    this.desk = desk;
    this.cuts = desk.cuts;
  }

  /** The width of the saw's blade. */
  get blade() {
    return this.desk.sheet.blade;
  }

  get over() {
    return this.at >= this.cuts.length;
  }

  /** The new hire's cut { place, way, distance, eaten }: what in it is wrong, as words; none if it is right. The next cut is asked for then. */
  answer(said) {
    const cut = this.cuts[this.at];
    const wrong = [
      ...(said.place === cut.place ? [] : ['the board']),
      ...(said.way === cut.way ? [] : ['the way']),
      ...(said.distance === cut.distance ? [] : ['the distance']),
      ...(said.eaten === cut.eaten ? [] : ['what the saw takes']),
    ];
    this.count(wrong.length === 0);
    return wrong;
  }

  /** One that was said aloud, and judged by whoever heard it. */
  count(right) {
    this.asked += 1;
    if (right) this.right += 1;
    this.at += 1;
  }
}

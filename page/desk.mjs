// The desk: a sheet, asked by name. Each question and each change is a line to the module and its answer back; here is what was sent, and nothing of a layout.
// A change is remembered, so that a session can be saved as the lines that were sent: the counter's (ops 01 to 07), and those that tidy (op 1b). The desk's own
// questions (ops 11 to 1a) change nothing.
import { FREE, TIDY, cutsAsked, opOf, read, readLine, write } from './frames.mjs';
import { Counter } from './nickelgrove.mjs';

const LAST_OF_THE_COUNTER = 0x07;
const MALFORMED = 'ff0ef3';
const isOfSession = (line) => opOf(line) <= LAST_OF_THE_COUNTER || opOf(line) === TIDY;
const same = (a, b) => JSON.stringify(a) === JSON.stringify(b);
const areaOf = ({ width, height }) => width * height; // below 2^52

/** What is wrong with a file that is no session, by the number of its line. */
export class NoSession extends Error {}

export class Desk {
  #module;
  #counter;
  #trial;
  #kept = null; // what `sheet` and `bookings` were when the sheet was kept

  /** The lines that were sent. */
  lines = [];
  /** What the sheet was opened with, or null. */
  sheet = null;
  /** Each booking of this sheet: its part, and the marks of the part and of the first node made. */
  bookings = [];

  /** Over a WebAssembly.Module. */
  constructor(module) {
    this.#module = module;
    const counter = () => new Counter(new WebAssembly.Instance(module).exports);
    this.#counter = counter();
    this.#trial = counter();
  }

  /** A new desk that was sent each line of a saved session. A text that is none is refused by NoSession. */
  reopened(text) {
    if (text === '') throw new NoSession('The file is empty: a session has a line at least.');
    if (!text.endsWith('\n')) throw new NoSession('The file ends within a line: a session ends with a newline.');
    const desk = new Desk(this.#module);
    text.slice(0, -1).split('\n').forEach((line, index) => {
      if (desk.#counter.desk(line) === MALFORMED || !isOfSession(line)) {
        throw new NoSession(`Line ${index + 1} of the file is no frame of a session: "${shortened(line)}".${hintFor(line)}`);
      }
    });
    const again = new Desk(this.#module);
    for (const line of text.slice(0, -1).split('\n')) again.send(line);
    return again;
  }

  /** The session, as a file of lines. */
  get saved() {
    return this.lines.map((line) => `${line}\n`).join('');
  }

  open(sheet) {
    return this.send(write.open(sheet));
  }

  offers(mark, part) {
    return this.send(write.offers(mark, part));
  }

  insert(mark, part, offer) {
    return this.send(write.insert(mark, part, offer));
  }

  remove(mark) {
    return this.send(write.remove(mark));
  }

  tidy() {
    return this.send(write.tidy());
  }

  keep() {
    return this.send(write.keep());
  }

  restore() {
    return this.send(write.restore());
  }

  whyNot(mark, part) {
    return this.#ask(write.whyNot(mark, part));
  }

  light(part) {
    return this.#ask(write.light(part));
  }

  /** The nodes of the tree snapshot, the top first; none before a sheet is opened. */
  get nodes() {
    return this.#ask(write.snapshot()).nodes ?? [];
  }

  /** The list of saw cuts, each with what the blade eats; none before a sheet is opened. */
  get cuts() {
    return cutsAsked((line) => this.#ask(line));
  }

  /** The figures, the eaten area among them, or null before a sheet is opened. */
  get figures() {
    const figures = this.#ask(write.figures());
    return figures.refusal ? null : { ...figures, eaten: this.#ask(write.eaten()).eaten };
  }

  /** The marks of the free list, the greatest area first. */
  get freeList() {
    return this.#list(write.freePiece);
  }

  /** The marks of the removable list. */
  get removableList() {
    return this.#list(write.removablePiece);
  }

  /** The bookings whose part is still on the sheet. */
  get held() {
    const marks = this.removableList;
    return this.bookings.filter(({ mark }) => marks.some((held) => same(held, mark)));
  }

  /**
   * What a booking would make of the sheet, tried on a copy of it: the refusal's number, or the snapshot's nodes, the saw cuts, and at which node the free
   * piece stood. That is the first node that is another one.
   */
  tried(mark, part, offer) {
    this.#trial.become(this.#counter);
    const ask = (line) => read(this.#trial.desk(line));
    const { refusal } = ask(write.insert(mark, part, offer));
    if (refusal) return { refusal };
    const before = this.nodes;
    const { nodes } = ask(write.snapshot());
    const cuts = cutsAsked(ask);
    return { refusal, nodes, cuts, at: before.findIndex((node, index) => !same(node, nodes[index])) };
  }

  /**
   * The free pieces that have an area, in the free list's order: each mark, and at which node of the snapshot its piece stands. The list has the greatest area first;
   * which of several pieces of one area it is shows when a part of that piece's sides is booked on a copy of the sheet. Where that can't be tried (a full sheet) it
   * is null.
   */
  get freePieces() {
    const nodes = this.nodes;
    const indices = nodes.flatMap((node, index) => (node.kind === FREE && areaOf(node) > 0 ? [index] : []));
    indices.sort((a, b) => areaOf(nodes[b]) - areaOf(nodes[a]));
    const marks = this.freeList.slice(0, indices.length);
    return marks.map((mark, position) => {
      const candidates = indices.filter((index) => areaOf(nodes[index]) === areaOf(nodes[indices[position]]));
      return { mark, at: candidates.length === 1 ? candidates[0] : this.#whichOf(candidates, nodes, mark) };
    });
  }

  #whichOf(candidates, nodes, mark) {
    for (const index of candidates) {
      const { width, height } = nodes[index];
      const { refusal, at } = this.tried(mark, { number: 0, width, height, turn: 1 }, { rotation: 0, shape: 1 });
      if (!refusal) return at;
    }
    return null;
  }

  #list(question) {
    const marks = [];
    for (;;) {
      const { refusal, mark } = this.#ask(question(marks.length));
      if (refusal) return marks; // past the end, or no sheet
      marks.push(mark);
    }
  }

  #ask(line) {
    return read(this.#counter.desk(line));
  }

  /** Sends a line of a session, and remembers it. */
  send(line) {
    if (!isOfSession(line)) throw new Error(`a session has no such line: ${line}`);
    const answer = this.#ask(line);
    this.lines.push(line);
    if (!answer.refusal) this.#note(readLine(line), answer);
    return answer;
  }

  #note(said, answer) {
    if (answer.op === 0x01) {
      this.sheet = said;
      this.bookings = [];
    } else if (answer.op === 0x03) {
      this.bookings.push({ part: said.part, mark: answer.part, first: answer.first });
    } else if (answer.op === 0x05) {
      this.#kept = { sheet: this.sheet, bookings: [...this.bookings] };
    } else if (answer.op === 0x06) {
      this.sheet = this.#kept.sheet;
      this.bookings = [...this.#kept.bookings];
    }
  }
}

/** A line that opened a sheet before the saw's blade had a width: what to do with it. Of others nothing is said. */
const hintFor = (line) => (/^01[0-9a-f]{26}$/.test(line) ? ' It says nothing of the saw blade: for a blade of 0 put 00 before its last two characters.' : '');

const shortened = (line) => (line.length > 40 ? `${line.slice(0, 40)}...` : line);

// The counter in a page or in node: the calls of the proved crate `kiosk`, over the WebAssembly module that `tools/wasm kiosk` makes. What is answered is the
// module's own; here are its memory and how bytes cross. kiosk/nickelgrove.h says what each call does.
//
//   const counter = await open(bytes);
//   counter.step('010001000000640000003c0103005a'); // '010000010100000002fb'
//   counter.cuts();                                 // []
//   counter.desk('18e8');                           // '18000000e8', the same list as a line of the desk

/** What the bytes of a cut stand for: the way of the saw; what a piece is, once it is cut. */
export const WAYS = ['Horizontal', 'Vertical'];
export const PIECES = ['free', 'part', 'structure', 'several'];

const CUT_BYTES = 9;
const NO_LIST = 65535;
const PAGE = 65536; // in which memory grows

/** A counter with no sheet on it, over the bytes of the module. */
export async function open(bytes) {
  const { instance } = await WebAssembly.instantiate(bytes);
  return new Counter(instance.exports);
}

/**
 * A counter: a sheet and a kept snapshot of it, none of both at the start. It has an instance of the module, and its memory, for itself.
 *
 * Behind the stack and the module's own data, from `__heap_base` on, the memory is ours: it holds the session, which starts with zeros, the room for an answer,
 * that for an answer of the desk, that for a list of saw cuts, and last the line. The module says how long each is.
 */
export class Counter {
  #calls;
  #stopped = false;
  #session;
  #answer;
  #said;
  #list;
  #line;

  constructor(calls) {
    this.#calls = calls;
    this.#session = calls.__heap_base.value; // a multiple of 16
    this.#answer = this.#session + this.#call('nickelgrove_session_bytes');
    this.#said = this.#answer + this.#call('nickelgrove_longest');
    this.#list = this.#said + this.#call('nickelgrove_desk_longest');
    this.#line = this.#list + this.#call('nickelgrove_room');
    this.#reach(this.#line);
  }

  /** The answer to a line, both without their newlines. A line that is no frame is answered as malformed. */
  step(line) {
    return this.#answered('nickelgrove_step', line, this.#answer);
  }

  /** The same at the desk, which also answers the questions of ops 11 to 1a, and tidies (op 1b). */
  desk(line) {
    return this.#answered('nickelgrove_desk', line, this.#said);
  }

  /** Holds from now on what another counter holds, its sheet and its kept one: for trying what a line would do. */
  become(other) {
    const length = this.#answer - this.#session;
    this.#bytes(this.#session, length).set(other.#bytes(other.#session, length));
  }

  /**
   * The saw cuts that make the sheet's parts and free pieces, in the order in which they are made; null before a sheet is opened. Each takes the piece at a
   * place of the pile, cuts it at a distance from its left or upper edge, and puts the piece cut off and what is left of it there. What the blade eats with each cut
   * is no part of it: the desk's op 1a says that.
   */
  cuts() {
    const count = this.#call('nickelgrove_cuts', this.#session, this.#list) & 0xffff; // of a u16 the module says nothing of the bits above
    if (count === NO_LIST) return null;
    const at = (cut) => new DataView(this.#memory.buffer, this.#list + cut * CUT_BYTES, CUT_BYTES);
    return Array.from({ length: count / CUT_BYTES }, (_, cut) => cutOf(at(cut)));
  }

  #answered(call, line, room) {
    const bytes = new TextEncoder().encode(line);
    this.#reach(this.#line + bytes.length);
    this.#bytes(this.#line, bytes.length).set(bytes);
    const count = this.#call(call, this.#session, this.#line, BigInt(bytes.length), room);
    return new TextDecoder().decode(this.#bytes(room, count - 1));
  }

  /** A call of the module. One that the engine stops leaves the module's stack where it was, so that no other may follow. */
  #call(name, ...words) {
    if (this.#stopped) throw new Error('this counter was stopped in a call: open another one');
    this.#stopped = true;
    const result = Number(this.#calls[name](...words)); // a usize crosses as a BigInt
    this.#stopped = false;
    return result;
  }

  get #memory() {
    return this.#calls.memory;
  }

  /** Lets the memory grow to this address, the line's end. */
  #reach(end) {
    const missing = end - this.#memory.buffer.byteLength;
    if (missing <= 0) return;
    try {
      this.#memory.grow(Math.ceil(missing / PAGE));
    } catch {
      throw new RangeError('the line is too long for the memory');
    }
  }

  #bytes(at, length) {
    return new Uint8Array(this.#memory.buffer, at, length);
  }
}

/** From the bytes of one cut: place 2, way 1, distance 4, what is cut off 1 and what is left 1, highest byte first. */
function cutOf(bytes) {
  return {
    place: bytes.getUint16(0),
    way: WAYS[bytes.getUint8(2)],
    distance: bytes.getUint32(3),
    piece: PIECES[bytes.getUint8(7)],
    left: PIECES[bytes.getUint8(8)],
  };
}

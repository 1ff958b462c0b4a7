// What tests/wasm.sh asks of the module, in node: node tests/wasm.mjs QUESTION MODULE [KIB] < LINES
//   answers   to each line, through page/nickelgrove.mjs
//   cuts      the same, each with the list of saw cuts behind it, as `inspect` writes it
//   desk      to each line, at the desk
//   inspect   the same, each with what the desk's own questions are answered behind it, as `inspect` writes it
//   reasons   whether the desk says why not exactly where an offers frame is offered nothing, and refuses both alike
//   odd       to lines that are no frames, one of them too long for the memory, and to a report behind them
//   calls     what the module imports and exports
//   stack     the most KiB of its stack, which has KIB, that a call has written to
//   overflow  whether the first line is stopped on its stack of KIB, with nothing written over
import { readFileSync } from 'node:fs';
import { read, write } from '../page/frames.mjs';
import { Counter, PIECES, WAYS } from '../page/nickelgrove.mjs';

const [question, path, kib] = process.argv.slice(2);
const module = new WebAssembly.Module(readFileSync(path));
const exported = () => new WebAssembly.Instance(module).exports;
const lines = () => readFileSync(0, 'latin1').split('\n').slice(0, -1);
const say = (said) => process.stdout.write(said.map((line) => `${line}\n`).join(''));
const top = kib * 1024;
const PAINT = 0xa5;
const hex = (number, bytes) => number.toString(16).padStart(2 * bytes, '0');

// as `inspect` writes it: `-` where there is no list, or none in it
function written(cuts) {
  const bytes = ({ place, way, distance, piece, left }) =>
    [hex(place, 2), hex(WAYS.indexOf(way), 1), hex(distance, 4), hex(PIECES.indexOf(piece), 1), hex(PIECES.indexOf(left), 1)].join('');
  return (cuts ?? []).map(bytes).join('') || '-';
}

// the answer to a question of the desk: its refusal's number, 0 if there is none, and the bytes of its fields
function asked(counter, line) {
  const answer = counter.desk(line);
  return { refusal: parseInt(answer.slice(2, 4), 16), fields: answer.slice(4, -2) };
}

// the marks of a list, up to the first position that is refused as past its end
function marks(counter, question) {
  for (let list = '', at = 0; ; at += 1) {
    const { refusal, fields } = asked(counter, question(at));
    if (refusal) return refusal === 12 ? list : `refused: ${refusal}`;
    list += fields;
  }
}

// the line's mark and part, if it is a well-formed offers or insert frame
const OFFERS = /^02(.{14})(.{22})..$/;
const INSERT = /^03(.{14})(.{22})......$/;
function numbers(text, ...bytes) {
  let at = 0;
  return bytes.map((count) => parseInt(text.slice(at, (at += 2 * count)), 16));
}
function markOf(text) {
  const [layout, place, serial] = numbers(text, 2, 1, 4);
  return { layout, place, serial };
}
function partOf(text) {
  const [number, width, height, turn] = numbers(text, 2, 4, 4, 1);
  return { number, width, height, turn };
}

// what `inspect` writes behind the answer to a line, asked of the desk
function inspected(counter, line, answer) {
  const [, , part] = (!answer.startsWith('ff') && (line.match(OFFERS) ?? line.match(INSERT))) || [];
  const light = part ? asked(counter, write.light(partOf(part))) : null;
  const lit = light && (light.refusal ? hex(light.refusal, 1) : `00${light.fields}`);
  const figures = asked(counter, write.figures());
  if (figures.refusal) return ['', '', '', '', '', lit, '', ''];
  const [snapshot, parts, cuts, amounts] = [write.snapshot(), write.partNumbers(), write.cuts(), write.amounts()].map((question) => asked(counter, question).fields.slice(4));
  const shown = figures.fields.replace(/^(.{32})......(.{32})$/, '$1$2') + asked(counter, write.eaten()).fields; // without the nodes held and whether it is empty
  return [snapshot, marks(counter, write.freePiece), marks(counter, write.removablePiece), shown, parts, lit, cuts, amounts];
}

// whether the engine stops a call, or the loader refuses it
function stopped(call) {
  try {
    call();
    return 'answered';
  } catch (error) {
    return error instanceof WebAssembly.RuntimeError ? 'stopped' : `refused: ${error.message}`;
  }
}

const questions = {
  answers() {
    const counter = new Counter(exported());
    say(lines().map((line) => counter.step(line)));
  },

  cuts() {
    const counter = new Counter(exported());
    say(lines().map((line) => `${counter.step(line)} ${written(counter.cuts())}`));
  },

  desk() {
    const counter = new Counter(exported());
    say(lines().map((line) => counter.desk(line)));
  },

  inspect() {
    const counter = new Counter(exported());
    const row = (line) => {
      const answer = counter.desk(line);
      return [answer, ...inspected(counter, line, answer).map((field) => field || '-')].join(' ');
    };
    say(lines().map(row));
  },

  reasons() {
    const counter = new Counter(exported());
    const OFFERED = 5;
    const alike = (line, [, mark, part]) => {
      const [offers, why] = [counter.desk(line), counter.desk(write.whyNot(markOf(mark), partOf(part)))].map(read);
      if (offers.refusal || why.refusal) return offers.refusal === why.refusal;
      return why.reasons.every((reason, rotation) => (reason === OFFERED) === offers.offers.some((offer) => offer.rotation === rotation));
    };
    const wrong = lines().filter((line) => {
      const answered = counter.desk(line);
      const asks = !answered.startsWith('ff') && line.match(OFFERS);
      return asks && !alike(line, asks);
    });
    say(wrong.length === 0 ? ['alike'] : wrong);
  },

  odd() {
    const counter = new Counter(exported());
    const LINES = ['', 'zz', '07f9\n', '\u00ff', '\ud800', '0'.repeat(300000)];
    for (const call of ['step', 'desk']) {
      const odd = LINES.map((line) => counter[call](line));
      say([...odd, stopped(() => counter[call]('0'.repeat(16 << 20))), counter[call]('07f9')]);
    }
  },

  calls() {
    const list = (way, of) => of.map(({ kind, name }) => `${way} ${kind} ${name}`).sort();
    say([...list('import', WebAssembly.Module.imports(module)), ...list('export', WebAssembly.Module.exports(module))]);
  },

  // a byte that a call has not written to is what was painted there
  stack() {
    const sent = lines();
    const used = (work) => {
      const calls = exported();
      const counter = new Counter(calls);
      new Uint8Array(calls.memory.buffer, 0, top).fill(PAINT);
      for (const line of sent) work(counter, line);
      const lowest = new Uint8Array(calls.memory.buffer, 0, top).findIndex((byte) => byte !== PAINT);
      return lowest < 0 ? 0 : Math.ceil((top - lowest) / 1024);
    };
    const questions = [write.figures(), write.eaten(), write.snapshot(), write.cuts(), write.amounts(), write.partNumbers(), write.freePiece(0), write.removablePiece(0)];
    const atCounter = used((counter, line) => [counter.step(line), counter.cuts()]);
    const atDesk = used((counter, line) => [line, ...questions].map((asked) => counter.desk(asked)));
    say([Math.max(atCounter, atDesk)]);
  },

  // what stands above the stack: the module's data, and the session and the room for answers and lists, which are painted here; the line is the loader's to write
  overflow() {
    const calls = exported();
    const counter = new Counter(calls);
    const base = calls.__heap_base.value;
    const lent = Number(calls.nickelgrove_session_bytes() + calls.nickelgrove_longest() + calls.nickelgrove_desk_longest() + calls.nickelgrove_room());
    new Uint8Array(calls.memory.buffer, base, lent).fill(PAINT);
    const above = () => Buffer.from(calls.memory.buffer.slice(top, base + lent));
    const before = above();
    const [line] = lines();
    say([stopped(() => counter.step(line)), before.equals(above()) ? 'nothing written over' : 'written over', stopped(() => counter.step(line))]);
  },
};
questions[question]();

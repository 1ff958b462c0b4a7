// What tests/page.sh asks of the page's modules, in node and without a page: node tests/page.mjs QUESTION MODULE [FILE]
//   words     the table of refusals, as docs/REFUSALS.md has it
//   fields    what is said of bad numbers in a field
//   frames    whether the recorded lines and their answers are read and written again alike, and what is no answer is refused (with the lines' file, and their answers')
//   day       a day at the kiosk: offers, why not, a booking, a timeout, a stale offer; FILE is written with the session
//   blade     a day with a saw blade of 3: what it eats, a customer who walks away, panels taken out; FILE is written with the session
//   blades    FILE is written with sessions of blades of many widths, and what the blades do in them is counted
//   tidy      panels taken out, and the sheet tidied: what is joined, an offer that is stale then, a customer who walks away; FILE is written with the session
//   reopen    a session that was saved, opened again; and files that are none (FILE is the saved one)
//   located   whether every free piece of the recorded sessions is found in the diagram, and the sheet is the one that it was opened as
//   picture   the cut diagram and the sentences of FILE's last sheet
//   draw      the cut diagram after each line of FILE that leaves a sheet, as `nickelgrove draw --each` writes it
//   say       the same, in sentences
//   drill     the sheets of 200 seeds, without a blade and with one, answered rightly and wrongly
//   sheet     FILE is written with the session of a drill's sheet, and what the saw's view says of it: the sentences, and the last pile
//   voice     which voice is taken
//   page      what is in the page FILE: its policy, its hashes, the module, and nothing from elsewhere
import { createHash } from 'node:crypto';
import { readFileSync, writeFileSync } from 'node:fs';
import { Desk, NoSession } from '../page/desk.mjs';
import { draw } from '../page/draw.mjs';
import { Drill, fill } from '../page/drill.mjs';
import { SHAPES, cutsAsked, read, readLine, write } from '../page/frames.mjs';
import { Glass } from '../page/glass.mjs';
import { Counter } from '../page/nickelgrove.mjs';
import { piecesOf, treeOf } from '../page/pieces.mjs';
import { sawn } from '../page/saw.mjs';
import { called, say as sentences } from '../page/say.mjs';
import { ownVoice } from '../page/voice.mjs';
import { LIES, REASONS, REFUSALS, figured, marked, numberIn, refused, sized, tidied } from '../page/words.mjs';

const [question, path, file, other] = process.argv.slice(2);
const module = new WebAssembly.Module(readFileSync(path));
const said = [];
const say = (...lines) => said.push(...lines);
const linesOf = (name) => readFileSync(name, 'latin1').split('\n').slice(0, -1);
const recorded = (name) => linesOf(`recorded/${name}`);

// the words of whatever is thrown
function thrown(call) {
  try {
    call();
    return 'nothing is wrong';
  } catch (error) {
    return error.message;
  }
}

// after each line of a file: the answers to the desk's questions of tree and cuts
function* states(lines) {
  const counter = new Counter(new WebAssembly.Instance(module).exports);
  const ask = (line) => read(counter.desk(line));
  for (const [index, line] of lines.entries()) {
    counter.desk(line);
    const { refusal, nodes } = ask(write.snapshot());
    if (!refusal) yield { number: index + 1, nodes, cuts: cutsAsked(ask) };
  }
}

const questions = {
  words() {
    for (const [number, [word, who]] of Object.entries(REFUSALS)) say(`| ${number} | ${word} | ${who} |`);
  },

  fields() {
    for (const text of ['', ' ', 'six', '-1', '1.5', '1e3', '0x10', '4294967296', '9'.repeat(40), '<b>', '1,5', '1,2345', '4,294,967,295', ' 007 ']) {
      const { number, wrong } = numberIn(text, 'The width', 4);
      say(wrong ?? String(number));
    }
    for (const wrong of [{ layout: 65536 }, { blade: 256 }, { blade: undefined }]) say(thrown(() => write.open({ layout: 1, width: 1, height: 1, cut: 0, stages: 1, blade: 0, ...wrong })));
    say(thrown(() => write.freePiece(-1)), thrown(() => write.freePiece(0.5)), thrown(() => write.freePiece(NaN)));
  },

  frames() {
    const [sent, answers] = [linesOf(file), linesOf(other).map((line) => line.split(' ')[0])];
    let written = 0;
    sent.forEach((line, index) => {
      const { op } = read(answers[index]);
      if (op === 0x01) written += write.open(readLine(line)) === line;
      if (op === 0x03) written += (({ mark, part, ...offer }) => write.insert(mark, part, offer))(readLine(line)) === line;
    });
    const such = answers.filter((answer) => answer.startsWith('01') || answer.startsWith('03')).length;
    say(`${answers.length} answers are read, ${written === such ? 'and the lines of openings and bookings written again' : `${such - written} lines are written otherwise`}`);
    const right = '070000000000000012c0063fe999999999999a62';
    const wrong = ['', 'zz', right.slice(1), right.toUpperCase(), right.replace(/62$/, '63'), '0500fb00', '0200fe', '010000010100000002', '0800f8', '0100ff', `${right}\n`, '170000010002010000000000640000003c45'];
    say(`${wrong.filter((answer) => thrown(() => read(answer)) !== 'nothing is wrong').length} of ${wrong.length} that are none are refused`);
    const { used, held, sheetUsage } = read(right);
    say(`${used} ${held} ${sheetUsage}`);
    say(read('0405f7').refusal, read('1900000000000000012cba').eaten, read('1a0000020302df').amounts.join(' '));
    say(write.tidy(), read('1b000102e2').count, read('1b09dc').refusal, thrown(() => read('1b0001e4')), thrown(() => read('1b00000001e4')));
    say(thrown(() => cutsAsked((line) => read(line === write.cuts() ? '18000000e8' : '1a0000020302df'))));
  },

  day() {
    const glass = new Glass(new Desk(module));
    glass.patience = 1000;
    const part = (number, width, height, turn = 0) => ({ number, width, height, turn });
    const told = ({ refusal, ...answer }) => say(refusal ? refused(refusal) : (answer.part && `booked: ${marked(answer.part)}`) || 'yes');
    const ask = (wanted, now) => {
      const { refusal, room } = glass.ask(wanted, now);
      say(refusal ? refused(refusal) : `customer ${glass.customer.number} asks for ${sized(wanted)}: ${room ? 'room' : 'no room'}`);
      if (refusal) return;
      for (const { mark, size, reasons, offers, lit } of glass.shown.pieces) {
        const why = reasons.map((reason, rotation) => `${LIES[rotation]}: ${REASONS[reason]}`).join(', ');
        say(`  ${lit ? '* ' : ''}${marked(mark)}, ${sized(size)}; ${why}; ${offers.map(({ rotation, shape }) => `${LIES[rotation]} ${SHAPES[shape]}`).join(', ') || 'no offer'}`);
      }
    };
    const confirm = (now) => {
      const [piece] = glass.shown.pieces;
      glass.choose({ piece, offer: piece.offers[0] }, now);
      told(glass.confirm(now));
    };
    ask(part(7, 40, 30), 0);
    told(glass.open({ layout: 1, width: 0, height: 60, cut: 1, stages: 3, blade: 0 }));
    told(glass.open({ layout: 1, width: 100, height: 60, cut: 1, stages: 3, blade: 0 }));
    ask(part(7, 0, 30), 0);
    ask(part(7, 40, 30), 0);
    const trial = glass.desk.tried(glass.shown.pieces[0].mark, part(7, 40, 30), glass.shown.pieces[0].offers[0]);
    say(`  it would change node ${trial.at}, and make ${trial.nodes.length} of ${glass.desk.nodes.length}`);
    confirm(500);
    ask(part(8, 61, 60, 1), 600);
    ask(part(8, 60, 60), 700);
    say(String(glass.tick(1699)), `${glass.left(1699)} ms left`);
    told(glass.tick(1700));
    say(`the customer is ${glass.customer ? 'there' : 'gone'}, the offer is ${glass.shown.left ? 'left on the glass' : 'his'}, ${glass.desk.held.length} panels are booked`);
    confirm(2000);
    say(`customer ${glass.customer.number} took it`);
    ask(part(9, 40, 60), 2100);
    confirm(2200);
    glass.done();
    say(String(glass.tick(99999)), `${glass.desk.held.length} panel is booked`);
    told(glass.remove({ layout: 1, place: 2, serial: 4 }, 99999));
    told(glass.remove(glass.desk.held[0].mark, 99999));
    say(`${glass.desk.held.length} panels are booked`);
    writeFileSync(file, glass.desk.saved);
  },

  blade() {
    const glass = new Glass(new Desk(module));
    glass.patience = 1000;
    const sheet = { layout: 1, width: 100, height: 60, cut: 1, stages: 3, blade: 3 };
    const told = (what) => {
      const { nodes, cuts, figures, sheet: opened } = glass.desk;
      say(`${what}: ${figured(figures, opened)}`, ...sentences(nodes, cuts).map((line) => `  ${line}`));
      say(`  boards in the pile: ${sawn(nodes, cuts).piles.map((pile) => pile.length).join(' ')}`);
    };
    const book = (number, width, height, now) => {
      glass.ask({ number, width, height, turn: 1 }, now);
      const piece = glass.shown.pieces.find(({ offers }) => offers.length > 0);
      glass.choose({ piece, offer: piece.offers[0] }, now);
      const { refusal } = glass.confirm(now);
      told(refusal ? refused(refusal) : `panel ${number}, ${width} x ${height}, is booked`);
    };
    const takeOut = (number, now) => {
      const { refusal } = glass.remove(glass.desk.held.find(({ part }) => part.number === number).mark, now);
      told(refusal ? refused(refusal) : `panel ${number} is taken out`);
    };
    say(refused(glass.open({ ...sheet, blade: 101 }).refusal));
    glass.open(sheet);
    told('the sheet is open');
    book(1, 40, 30, 0);
    book(2, 57, 60, 1); // exactly: it is cut off by what is in front of it
    glass.done();
    book(3, 39, 25, 5000); // the blade takes all that is left beside it
    glass.tick(6000);
    told('the time is out');
    takeOut(1, 7000);
    takeOut(2, 7001);
    glass.done();
    // 49 and 51 on a sheet of 100
    glass.open({ ...sheet, layout: 2 });
    book(4, 48, 60, 8000);
    book(5, 49, 60, 8001);
    takeOut(4, 8002);
    book(6, 51, 60, 8003);
    // a sheet of another width under the same number, and then the kept one again
    glass.open({ ...sheet, layout: 2, blade: 0 });
    told('the sheet is opened again');
    glass.desk.restore();
    told('what was kept is back');
    writeFileSync(file, glass.desk.saved);
  },

  blades() {
    const desk = new Desk(module);
    const many = { sheets: 0, cuts: 0, 'cuts that eat less than the blade': 0, 'cuts that eat nothing': 0, 'cuts that leave nothing': 0 };
    const note = () => {
      const { steps } = sawn(desk.nodes, desk.cuts);
      const such = (test) => steps.filter(test).length;
      const { blade } = desk.sheet;
      const counts = [1, steps.length, such(({ eaten }) => eaten > 0 && eaten < blade), blade > 0 ? such(({ eaten }) => eaten === 0) : 0, such(({ rest }) => rest === null)];
      Object.keys(many).forEach((name, at) => (many[name] += counts[at]));
    };
    const BLADES = [3, 4, 1, 100, 10, 40, 0];
    for (let seed = 0; seed < 70; seed += 1) {
      const blade = BLADES[seed % BLADES.length];
      fill(desk, seed, blade);
      note();
      desk.removableList.filter((_, at) => at % 4 === 1 + (seed % 3)).forEach((mark) => desk.remove(mark));
      note();
      for (const { mark, at } of desk.freePieces) {
        const piece = desk.nodes[at];
        if (!piece || piece.width <= blade || piece.height <= blade) continue;
        const part = { number: 100 + at, width: piece.width - (seed % 2) * Math.ceil(blade / 2), height: piece.height - (seed % 5) * Math.floor(blade / 4), turn: 1 };
        const { offers } = desk.offers(mark, part);
        if (offers?.length > 0) desk.insert(mark, part, offers.at(-1));
      }
      note();
    }
    for (const [name, count] of Object.entries(many)) say(`${name}: ${count}`);
    writeFileSync(file, desk.saved);
  },

  tidy() {
    const glass = new Glass(new Desk(module));
    glass.patience = 1000;
    const sheet = { layout: 1, width: 100, height: 60, cut: 1, stages: 2, blade: 0 };
    const state = () => {
      const { nodes, cuts, figures, sheet: opened } = glass.desk;
      say(`  ${nodes.length} nodes. ${figured(figures, opened)} ${sentences(nodes, cuts)[0]}`);
    };
    const tidy = (now) => {
      const { refusal, count } = glass.tidy(now);
      say(refusal ? refused(refusal) : tidied(count));
      if (!refusal) state();
    };
    const ask = (width, height, now) => {
      glass.ask({ number: 9, width, height, turn: 1 }, now);
      say(...glass.shown.pieces.map(({ mark, reasons }) => `for ${width} x ${height}: ${marked(mark)}: ${REASONS[reasons[0]]}`));
    };
    const choose = (now) => {
      const piece = glass.shown.pieces.find(({ offers }) => offers.length > 0);
      glass.choose({ piece, offer: piece.offers.at(-1) }, now);
    };
    const book = (number, width, height, now) => {
      glass.ask({ number, width, height, turn: 1 }, now);
      choose(now);
      const { shape } = glass.shown.choice.offer;
      const { refusal } = glass.confirm(now);
      say(refusal ? refused(refusal) : `panel ${number}, ${width} x ${height}, is booked, ${SHAPES[shape]}`);
    };
    const takeOut = (number, now) => {
      const { refusal } = glass.remove(glass.desk.held.find(({ part }) => part.number === number).mark, now);
      say(refusal ? refused(refusal) : `panel ${number} is taken out`);
      state();
    };
    tidy(0);
    glass.open(sheet);
    tidy(0);
    // the board is whole again, a stage down, until it is tidied
    book(1, 100, 20, 1);
    tidy(2);
    takeOut(1, 3);
    ask(40, 30, 4);
    tidy(5);
    ask(40, 30, 6);
    // an offer that is on the glass when the sheet is tidied
    book(2, 40, 30, 7);
    takeOut(2, 8);
    ask(50, 60, 9);
    choose(10);
    tidy(11);
    const { refusal } = glass.confirm(12);
    say(refused(refusal));
    glass.done();
    // who walks away has tidied nothing
    book(3, 40, 30, 2000);
    takeOut(3, 2001);
    glass.done();
    tidy(5000);
    glass.tick(6000);
    say('the time is out');
    state();
    tidy(7000);
    glass.done();
    // two structures for one panel, with a blade, and beside another panel
    glass.open({ ...sheet, layout: 2, stages: 3, blade: 3 });
    book(4, 30, 60, 8000);
    book(5, 40, 30, 8001);
    takeOut(5, 8002);
    tidy(8003);
    say(`held: ${glass.desk.held.map(({ part }) => part.number).join(' ')}`);
    const { saved, nodes } = glass.desk;
    const again = new Desk(module).reopened(saved);
    const alike = again.saved === saved && JSON.stringify(again.nodes) === JSON.stringify(nodes);
    say(alike ? 'saved and opened again it is the same' : 'opened again it is another one');
    writeFileSync(file, saved);
  },

  reopen() {
    const text = readFileSync(file, 'latin1');
    const desk = new Desk(module);
    const again = desk.reopened(text);
    say(again.saved === text ? 'the same lines' : 'other lines', JSON.stringify(again.sheet), `${again.bookings.length} bookings, ${again.held.length} held`);
    const files = ['', '07f9', '\n', '07f9\n\n', 'hello\n', '07f9\r\n', `${text}17e9\n`, `${'00'.repeat(60)}\n`, '\u00ff\n', '010001000000640000003c01035a\n'];
    files.push('1be5\n1ae6\n', '1be5\n1b00e5\n');
    for (const wrong of files) say(thrown(() => desk.reopened(wrong)));
    say(thrown(() => desk.reopened('')).length > 0 && desk.lines.length === 0 ? 'the desk that was there has what it had' : 'the desk was changed');
    try {
      desk.reopened('');
    } catch (error) {
      say(error instanceof NoSession ? 'each is NoSession' : 'another error');
    }
  },

  // a free piece is found if the module says of its mark that a part of the node's sides is offered, and that a longer one is too wide or too tall
  located() {
    const LARGEST = 67108863;
    let [pieces, lost, wrong] = [0, 0, 0];
    const look = (desk) => {
      const { nodes, freePieces, sheet } = desk;
      if (nodes.length > 0) wrong += sheet.width !== nodes[0].width || sheet.height !== nodes[0].height || sheet.cut !== nodes[0].cut;
      if (nodes.length === 0 || nodes.length === 255) return; // where nothing can be tried a piece may be lost
      const found = freePieces.flatMap(({ at }) => (at === null ? [] : [at]));
      pieces += freePieces.length;
      lost += freePieces.length - found.length;
      wrong += new Set(found).size !== found.length || freePieces.length !== piecesOf(treeOf(nodes)).filter(({ kind }) => kind === 0).length;
      for (const { mark, at } of freePieces.filter((piece) => piece.at !== null)) {
        const { width, height } = nodes[at];
        const reason = (wider, taller) => desk.whyNot(mark, { number: 0, width: width + wider, height: height + taller, turn: 1 }).reasons?.[0];
        wrong += reason(0, 0) !== 5 || reason(1, 0) !== (width < LARGEST ? 1 : undefined) || reason(0, 1) !== (height < LARGEST ? 2 : undefined);
      }
    };
    for (const [name, each] of [['sessions', 1], ['long', 20]]) {
      const desk = new Desk(module);
      const answers = recorded(`${name}.out`);
      recorded(`${name}.in`).forEach((line, index) => {
        if (answers[index].startsWith('ff')) return;
        desk.send(line);
        if (index % each === 0) look(desk);
      });
    }
    say(`${pieces > 5000 ? 'more than 5,000' : pieces} free pieces, ${lost} lost, ${wrong} wrong`);
  },

  picture() {
    const { nodes, cuts } = [...states(linesOf(file))].at(-1);
    process.stdout.write(draw(nodes, cuts).svg);
    say(...sentences(nodes, cuts));
  },

  draw() {
    for (const { number, nodes, cuts } of states(linesOf(file))) process.stdout.write(`<!-- after line ${number} -->\n${draw(nodes, cuts).svg}`);
  },

  say() {
    for (const { number, nodes, cuts } of states(linesOf(file))) process.stdout.write([`After line ${number}:`, ...sentences(nodes, cuts), ''].join('\n'));
  },

  drill() {
    let [fewest, right, wrong] = [Infinity, 0, 0];
    for (let at = 0; at < 400; at += 1) {
      const [seed, blade] = [at % 200, at < 200 ? 0 : 4];
      const desk = new Desk(module);
      fill(desk, seed, blade);
      const same = new Desk(module);
      fill(same, seed, blade);
      if (same.saved !== desk.saved) say(`seed ${seed} gives two sheets`);
      const [good, bad] = [new Drill(desk), new Drill(desk)];
      fewest = Math.min(fewest, good.cuts.length);
      for (const cut of desk.cuts) {
        right += good.answer(cut).length === 0;
        const slips = [{ place: cut.place + 1 }, { way: 1 - cut.way }, { distance: cut.distance + 1 }, { eaten: cut.eaten + 1 }, { place: cut.place + 1, way: 1 - cut.way, distance: 0, eaten: 9 }];
        wrong += bad.answer({ ...cut, ...slips[bad.at % 5] }).length === [1, 1, 1, 1, 4][(bad.at - 1) % 5];
      }
      right -= good.right === good.asked && good.over ? desk.cuts.length : 0;
      wrong -= bad.right === 0 && bad.over ? desk.cuts.length : 0;
    }
    say(`each sheet has ${fewest >= 3 ? 'three cuts at least' : `${fewest} cuts`}, and ${right === 0 && wrong === 0 ? 'each answer was judged' : `${right} and ${wrong} were misjudged`}`);
    say(thrown(() => fill(new Desk(module), 2 ** 32 - 1)), String(fill(new Desk(module), 1, 101).refusal));
  },

  sheet() {
    const desk = new Desk(module);
    fill(desk, 3);
    writeFileSync(file, desk.saved);
    const { nodes, cuts } = desk;
    say(...sentences(nodes, cuts), ...sawn(nodes, cuts).pieces.map(called));
  },

  voice() {
    const voices = [{ lang: 'en-GB', localService: false }, { lang: 'de-DE', localService: true }, { lang: 'en-US', localService: true }];
    for (const there of [voices, voices.slice(0, 2), voices.slice(0, 1), []]) say(ownVoice(there)?.lang ?? 'none');
  },

  page() {
    const html = readFileSync(file, 'utf8');
    const between = (from, to) => html.split(from)[1]?.split(to)[0] ?? '';
    const [style, base64, script] = [between('<style>', '</style>'), between('id="module">', '</script>'), between('<script type="module">', '</script>')];
    const policy = between('http-equiv="Content-Security-Policy" content="', '"');
    const hashed = (text) => `'sha256-${createHash('sha256').update(text).digest('base64')}'`;
    const wanted = `default-src 'none'; script-src ${hashed(script)} 'wasm-unsafe-eval'; style-src ${hashed(style)}; img-src data:; connect-src 'none'; form-action 'none'; base-uri 'none'`;
    say(policy === wanted ? 'the policy is that of this script and this style' : 'the policy is another one');
    say(Buffer.from(base64, 'base64').equals(readFileSync(path)) ? 'the module is in it' : 'another module is in it');
    const rest = html.replace(script, '').replace(style, '').replace(base64, '');
    say(`loads: ${(rest.match(/\b(?:src|href|action|srcset|data|poster)=\S*/g) ?? ['nothing']).join(' ')}`);
    say(`elsewhere: ${(html.replaceAll('http://www.w3.org/2000/svg', '').match(/\b(?:https?|wss?|ftp):|\/\/[a-z]+\.[a-z]/g) ?? ['nothing']).join(' ')}`);
    const words = ['fetch', 'XMLHttpRequest', 'WebSocket', 'EventSource', 'sendBeacon', 'localStorage', 'sessionStorage', 'indexedDB', 'cookie', 'SpeechRecognition', 'innerHTML', 'eval', 'import'];
    say(`sent or kept: ${words.filter((word) => new RegExp(`\\b${word}\\b`).test(script)).join(' ') || 'nothing'}`);
    say(/@[A-Z]+@/.test(rest) ? 'something is left open' : 'nothing is left open');
    new Function(`return async () => {${script}}`); // it can be read
  },
};
questions[question]();
process.stdout.write(said.map((line) => `${line}\n`).join(''));

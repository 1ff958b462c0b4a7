// What tests/page.sh asks of the page in a browser: node tests/page_browser.mjs QUESTION PAGE FOLDER [SESSION]
//   day      a day at the kiosk, with the mouse: a booking, a timeout, the stale offer refused, the next customer; then the session is saved in FOLDER
//   touch    the same with a finger, at 320 pixels: sizes and digits that are tapped, an offer tapped in the diagram
//   keys     the same with keys alone: a sheet, an offer, a booking, the views
//   blade    a day with a saw blade of 3: what it takes on the sheet and cut by cut, a removal put back when the time is out, a panel taken out
//   tidy     panels taken out, and the sheet tidied, with the mouse and with a key: what is said, and what has room then; the session saved in FOLDER and
//            opened again
//   saw      a saved SESSION is opened, and its cuts are stepped through, with keys and buttons: each sentence, and the last pile
//   away     a customer's time runs out while the saw is looked at; a session is opened while an offer is tapped
//   drill    a drill: an answer that is right, one that is wrong, one that was said aloud
//   fields   bad input in every field: what is said, and whether anything is lost
//   sizes    at 320 and at 1,920 pixels: whether something stands out of the page, or is too small for a finger
//   quiet    whether the page can reach anything, if it tries
//   shots    pictures of the views in FOLDER, for somebody to look at
// Each says at its end what the page asked the network for, and what went wrong in it.
import { writeFileSync } from 'node:fs';
import { pathToFileURL } from 'node:url';
import { launch } from './browser.mjs';

const [question, path, folder, session] = process.argv.slice(2);
const address = pathToFileURL(path).href;
const WIDE = { width: 1920, height: 1080 };
const NARROW = { width: 320, height: 640 };
const VIEWS = ['kiosk', 'saw', 'drill', 'session'];
const say = (...lines) => process.stdout.write(lines.map((line) => `${line}\n`).join(''));
const pause = (milliseconds) => new Promise((resolve) => setTimeout(resolve, milliseconds));

const OPEN = '#sheet-form button.main';
const ASK = '#panel-form button.main';

async function openSheet(page, [layout, width, height, stages, blade = 0]) {
  const fields = { '#sheet-layout': layout, '#sheet-width': width, '#sheet-height': height, '#sheet-stages': stages, '#sheet-blade': blade };
  for (const [field, number] of Object.entries(fields)) await page.type(field, String(number));
  await page.press(OPEN);
}

async function askFor(page, width, height) {
  await page.type('#panel-width', String(width));
  await page.type('#panel-height', String(height));
  await page.press(ASK);
}

const glass = async (page) => say(await page.text('#light'), ...(await page.ask('[...document.querySelectorAll(".piece")].map((piece) => [...piece.children].map((line) => line.textContent).filter(Boolean).join("; "))')));
const lit = (page, fill) => page.ask(`document.querySelectorAll('#kiosk-diagram rect[fill="url(#${fill})"]').length`);

/** Gives a field of files this one. */
async function choose(page, file) {
  const { root } = await page.send('DOM.getDocument');
  const { nodeId } = await page.send('DOM.querySelector', { nodeId: root.nodeId, selector: '#open-file' });
  await page.send('DOM.setFileInputFiles', { nodeId, files: [file] });
}

async function opened(page, file) {
  await page.press('#tab-session');
  await page.ask('document.getElementById("session-word").textContent = ""');
  await choose(page, file);
  await page.until('document.getElementById("session-word").textContent');
}

const questions = {
  async day(page) {
    await openSheet(page, [1, 100, 60, 3]);
    say(await page.text('#word'));
    await askFor(page, 40, 30);
    await glass(page);
    say(`${await lit(page, 'offered')} piece lights up`);
    await page.press('.piece.offered button.offer');
    say(`${await lit(page, 'booked')} panel would be booked`);
    await page.press('#confirm');
    say(await page.text('#word'));
    await askFor(page, 61, 60);
    say(await page.text('#word'));
    await glass(page);
    await page.type('#patience', '1');
    await askFor(page, 60, 60);
    await page.press('.piece.offered button.offer');
    await page.until('document.getElementById("clock").textContent === "Nobody is at the glass."');
    say(await page.text('#word'), await page.text('#glass h2'), await page.text('#kiosk-figures'));
    await page.type('#patience', '600');
    await page.press('.piece.offered button.offer');
    await page.press('#confirm');
    say(await page.text('#word'));
    await askFor(page, 40, 60);
    await page.press('.piece.offered button.offer');
    await page.press('#confirm');
    say(await page.text('#word'));
    await page.press('#done');
    say(await page.text('#word'), await page.text('#clock'), await page.text('#kiosk-figures'), await page.text('#bookings'));
    await page.press('#tab-session');
    say(...(await page.ask('document.getElementById("lines").textContent')).split('\n'));
    await page.press('#save');
    say(await page.text('#session-word'));
    await pause(1000);
  },

  async touch(page) {
    await page.send('Emulation.setTouchEmulationEnabled', { enabled: true });
    await page.tap(OPEN);
    await page.tap('#sizes button:nth-child(3)');
    say(await page.text('#word'), `${await lit(page, 'offered')} piece lights up`);
    await page.tap('#kiosk-diagram .tap');
    await page.tap('#confirm');
    say(await page.text('#word'));
    await page.tap('#panel-height');
    for (let times = 0; times < 4; times += 1) await page.tap('#pad button:last-child');
    for (const digit of [7, 7, 7]) await page.tap(`#pad button:nth-child(${digit})`);
    say(`${await page.ask('document.getElementById("panel-height").value')}: ${await page.text('#light')}`);
    await page.tap('#bookings button');
    say(await page.text('#word'));
  },

  async keys(page) {
    const active = () => page.ask('document.activeElement.id || document.activeElement.className?.baseVal || document.activeElement.className');
    const tabTo = async (wanted) => {
      for (let times = 0; times < 80; times += 1) {
        if ((await active()) === wanted) return;
        await page.key('Tab', 9);
      }
      throw new Error(`the Tab key does not come to ${wanted}`);
    };
    await tabTo('sheet-blade');
    await page.key('Enter', 13);
    say(await page.text('#word'));
    await tabTo('panel-width');
    await page.key('Enter', 13);
    say(await page.text('#word'));
    await tabTo('tap'); // the piece in the diagram
    await page.key('Enter', 13);
    say(await active());
    await page.key('Enter', 13);
    say(await page.text('#word'));
    await tabTo('panel-height');
    await page.key('Enter', 13);
    await tabTo('offer');
    await page.key('Enter', 13);
    await page.key('Enter', 13);
    say(await page.text('#word'));
    await tabTo('tab-kiosk');
    for (const view of [...VIEWS.slice(1), VIEWS[0]]) {
      await page.key('ArrowRight', 39);
      say(`${await active()}: ${await page.ask(`!document.getElementById("${view}").hidden`)}`);
    }
  },

  async blade(page) {
    const book = async (width, height) => {
      await askFor(page, width, height);
      await page.press('.piece.offered button.offer');
      await page.press('#confirm');
      say(await page.text('#word'), await page.text('#kiosk-figures'));
    };
    const strips = async () => {
      const drawn = await page.ask(`[...document.querySelectorAll('section:not([hidden]) figure rect > title')].filter((title) => title.textContent.startsWith('saw: ')).map((title) => {
        const { width, height } = title.parentElement.getBoundingClientRect();
        return title.textContent + (Math.min(width, height) > 0.5 ? '' : ', too narrow to be seen');
      })`);
      say(...drawn, `${drawn.length} strips, ${(await page.ask('document.getElementById("kiosk-strips").hidden')) ? 'no word of them' : 'dark is what the saw took'}`);
    };
    await openSheet(page, [1, 100, 60, 3, 101]);
    say(await page.text('#sheet-wrong'));
    await openSheet(page, [1, 100, 60, 3, 3]);
    say(await page.text('#word'), await page.text('#kiosk-figures'));
    await strips();
    await book(40, 30);
    await book(57, 60);
    await book(39, 25); // the saw takes all that is left beside it and below it
    await strips();
    await page.press('#done');
    await page.press('#tab-saw');
    const count = await page.ask('document.querySelectorAll("#all-cuts li").length');
    for (let at = 0; at <= count; at += 1) {
      if (at > 0) await page.press('#saw-next');
      const marked = await page.ask('[...document.querySelectorAll("#pile li")].map((board) => (board.className === "now" ? "* " : "") + board.textContent)');
      const over = await page.ask(`document.querySelectorAll('#saw-diagram rect.strip').length`);
      say(await page.text('#sentence'), (await page.text('#taken')) || 'nothing is taken', `strips shown: ${over}`, `the pile: ${marked.join('; ')}`);
    }
    await strips();
    await page.press('#tab-kiosk');
    await page.type('#patience', '2');
    await page.press('#bookings li:nth-child(3) button');
    say(await page.text('#word'), await page.text('#kiosk-figures'));
    await page.until('document.getElementById("clock").textContent === "Nobody is at the glass."');
    say(await page.text('#word'), await page.text('#kiosk-figures'));
    await page.type('#patience', '600');
    await page.press('#bookings li:nth-child(1) button');
    say(await page.text('#word'), await page.text('#kiosk-figures'));
    await strips();
    await page.size(NARROW.width, NARROW.height);
    await pause(400);
    await strips();
    await page.ask('document.querySelector("#kiosk-diagram summary").click()');
    say(await page.text('#kiosk-diagram .taken'), await page.ask(`document.querySelectorAll('#kiosk-diagram rect[fill="#555"]:not(:has(title))').length === 0 ? 'no legend in the small picture' : 'a legend without words'`));
    await page.press('#tab-session');
    say(...(await page.ask('document.getElementById("lines").textContent')).split('\n'));
  },

  async tidy(page) {
    const offcuts = () => page.ask(`document.querySelectorAll('#kiosk-diagram rect[fill="url(#free)"] > title').length`);
    const told = async () => say(await page.text('#word'), await page.text('#kiosk-figures'), `offcuts drawn: ${await offcuts()}`);
    const book = async (width, height) => {
      await askFor(page, width, height);
      await page.press('.piece.offered button.offer');
      await page.press('#confirm');
      say(await page.text('#word'));
    };
    say((await page.ask('document.getElementById("tidy").disabled')) ? 'nothing to tidy yet' : 'something to tidy before a sheet is open');
    await openSheet(page, [1, 100, 60, 2]);
    await page.press('#tidy');
    await told();
    await book(100, 20);
    await page.press('#bookings li:nth-child(1) button');
    await told();
    await askFor(page, 40, 30);
    await glass(page);
    await page.press('#tidy');
    await told();
    await askFor(page, 40, 30);
    await glass(page);
    await page.press('.piece.offered button.offer');
    await page.press('#confirm');
    say(await page.text('#word'));
    await page.press('#bookings li:nth-child(1) button');
    await told();
    await askFor(page, 50, 60);
    await page.press('.piece.offered button.offer');
    await page.ask('document.getElementById("tidy").focus()');
    await page.key('Enter', 13);
    await told();
    // the offer was for a piece that is joined now
    await page.press('#confirm');
    say(await page.text('#word'));
    await page.press('#done');
    await page.press('#tab-session');
    say(...(await page.ask('document.getElementById("lines").textContent')).split('\n'));
    await page.press('#save');
    say(await page.text('#session-word'));
    await pause(1000);
    await opened(page, `${folder}/nickelgrove-session.txt`);
    say(await page.text('#session-word'));
    await page.press('#tab-kiosk');
    await told();
  },

  async saw(page) {
    await opened(page, session);
    say(await page.text('#session-word'));
    await page.press('#tab-saw');
    say(await page.text('#sentence'));
    await page.ask('document.activeElement.blur()');
    const count = await page.ask('document.querySelectorAll("#all-cuts li").length');
    for (let at = 0; at < count; at += 1) {
      if (at % 2) await page.press('#saw-next');
      else {
        await page.ask('document.activeElement.blur()');
        await page.key('ArrowRight', 39);
      }
      say(await page.text('#sentence'));
    }
    say(...(await page.ask('[...document.querySelectorAll("#pile li")].map((board) => board.textContent)')));
    await page.press('#saw-back');
    say(await page.text('#saw-count'));
    await page.press('#saw-first');
    say(await page.text('#saw-count'));
    await page.press('#speak');
    const why = 'This browser has no voice of its own on this machine: read the sentence to each other.';
    say(['', why].includes(await page.text('#voice')) ? 'it was read aloud, or said why not' : 'neither read aloud nor said why not');
    // the picture is the very one of draw.mjs, but for what is laid over it
    say(await page.ask('document.querySelectorAll("#saw-diagram svg > g").length === document.querySelectorAll("#all-cuts li").length ? "the cuts are numbered" : "other numbers"'));
  },

  async away(page) {
    await openSheet(page, [1, 100, 60, 3]);
    await askFor(page, 40, 30);
    await page.press('.piece.offered button.offer');
    await page.press('#confirm');
    await page.type('#patience', '4');
    await askFor(page, 60, 60);
    await page.press('.piece.offered button.offer');
    await page.press('#tab-saw');
    await page.until('document.getElementById("sentence").textContent.includes("no cut")');
    say(await page.text('#sentence'), await page.text('#pile'), await page.text('#word'));
    await page.press('#tab-kiosk');
    say(await page.text('#glass h2'), await page.text('#choice') || 'no offer is tapped');
    await page.type('#patience', '600');
    await askFor(page, 40, 60);
    await page.press('.piece.offered button.offer');
    await opened(page, session);
    await page.press('#tab-kiosk');
    say(await page.text('#word'), await page.text('#clock'), await page.text('#choice') || 'no offer is tapped', await page.text('#kiosk-figures'));
  },

  async drill(page) {
    await page.press('#tab-drill');
    await page.type('#seed', '7');
    await page.press('#seed-form button');
    say(await page.text('#drill-word'), await page.text('#score'));
    const answer = async (board, way, distance) => {
      await page.type('#drill-board', String(board));
      await page.type('#drill-distance', String(distance));
      await page.press(`input[name="way"][value="${way}"]`);
      await page.press('#drill-form button.main');
      say(await page.text('#drill-word'), await page.text('#score'));
    };
    await answer(9, 0, 5);
    // the right answer to the second cut, read from what is said of it once it was shown and judged as wrong: the same seed asks the same again
    await page.press('#aloud');
    const shown = await page.text('#drill-word');
    say(shown);
    await page.press('#judge-wrong');
    say(await page.text('#score'));
    await page.type('#seed', '7');
    await page.press('#seed-form button');
    await answer(9, 0, 5);
    const [, board, cut, distance] = shown.match(/Take board (\d+),.* Cut (down|across), (\d+) from/);
    await answer(board, cut === 'down' ? 1 : 0, distance);
    say(await page.ask('document.querySelectorAll("#drill-diagram svg > g").length === 0 ? "the cuts have no numbers" : "the cuts are numbered"'));
    say((await page.ask('document.getElementById("drill-eats").hidden')) ? 'what the saw takes is not asked for' : 'what the saw takes is asked for');
    // with a blade: the same seed, the first cut right but for what the saw takes, the second all right
    await page.type('#seed', '7');
    await page.type('#drill-blade', '4');
    await page.press('#seed-form button');
    say((await page.ask('document.getElementById("drill-eats").hidden')) ? 'what the saw takes is not asked for' : 'what the saw takes is asked for');
    for (const slip of [1, 0]) {
      await page.press('#aloud');
      const [, place, way, from, taken] = (await page.text('#drill-word')).match(/Take board (\d+),.* Cut (down|across), (\d+) from the \w+; the saw takes (\d+)/);
      await page.type('#drill-eaten', String(Number(taken) + slip));
      await answer(place, way === 'down' ? 1 : 0, from);
      say(await page.text('#drill-taken'));
    }
  },

  async fields(page) {
    const lines = async () => page.ask('document.getElementById("lines").textContent');
    const sent = async () => {
      await page.press('#tab-session');
      const text = await lines();
      await page.press('#tab-kiosk');
      return text;
    };
    const fieldOf = (id) => page.ask(`document.getElementById("${id}").value`);
    const tries = async (id, press, word, texts) => {
      const before = await fieldOf(id);
      for (const text of texts) {
        await page.type(`#${id}`, text);
        if (press) await page.press(press);
        say(`${id} ${text}: ${await page.text(word)}${(await fieldOf(id)) === text ? '' : ' (what was typed is gone)'}`);
      }
      await page.type(`#${id}`, before);
    };
    for (const id of ['sheet-layout', 'sheet-width', 'sheet-height', 'sheet-stages', 'sheet-blade']) await tries(id, OPEN, '#sheet-wrong', ['', 'six']);
    await tries('sheet-layout', OPEN, '#sheet-wrong', ['65536']);
    await tries('sheet-width', OPEN, '#sheet-wrong', ['0', '67108864', '4294967296', '-5', '1.5']);
    await tries('sheet-stages', OPEN, '#sheet-wrong', ['0', '255', '256']);
    await tries('sheet-blade', OPEN, '#sheet-wrong', ['101', '255', '256', '-3', '3.2']);
    await openSheet(page, [1, 100, 60, 3]);
    const before = await sent();
    for (const id of ['panel-width', 'panel-height', 'panel-number']) await tries(id, ASK, '#light', ['', 'six', '<b>1</b>']);
    await tries('panel-width', ASK, '#light', ['0', '67108864', '99999999999']);
    await tries('panel-number', ASK, '#light', ['65536']);
    await tries('sheet-width', OPEN, '#sheet-wrong', ['0']);
    await tries('patience', null, '#patience-wrong', ['', '0', '3601', 'soon']);
    say((await sent()).startsWith(before) ? 'the session is there' : 'the session is lost', await page.text('#kiosk-figures'));
    await page.press('#tab-drill');
    await tries('seed', '#seed-form button', '#seed-wrong', ['', 'x', '4294967296']);
    await tries('drill-blade', '#seed-form button', '#seed-wrong', ['', 'x', '101', '256']);
    await page.type('#drill-blade', '4');
    await page.press('#seed-form button');
    await page.press('#drill-form button.main');
    say(await page.text('#drill-wrong'));
    await tries('drill-board', '#drill-form button.main', '#drill-wrong', ['one', '70000']);
    await tries('drill-distance', '#drill-form button.main', '#drill-wrong', ['far']);
    await tries('drill-eaten', '#drill-form button.main', '#drill-wrong', ['all', '256']);
    say(await page.text('#score'));
    for (const [name, text] of Object.entries({ empty: '', words: 'hello\n', cut: '07f9', questions: '07f9\n17e9\n' })) {
      writeFileSync(`${folder}/${name}.txt`, text);
      await opened(page, `${folder}/${name}.txt`);
      say(`${name}: ${await page.text('#session-word')}`);
    }
    say((await lines()).startsWith(before) ? 'the session is there' : 'the session is lost');
  },

  async sizes(page) {
    await openSheet(page, [1, 2800, 2070, 3, 4]);
    for (const [width, height] of [[600, 400], [1200, 600], [2000, 300]]) {
      await askFor(page, width, height);
      await page.press('.piece.offered button.offer');
      await page.press('#confirm');
    }
    await askFor(page, 300, 1800);
    await page.press('#tab-drill');
    await page.type('#drill-blade', '4');
    await page.press('#seed-form button');
    for (const { width, height } of [NARROW, { width: 768, height: 1024 }, WIDE]) {
      await page.size(width, height);
      for (const view of VIEWS) {
        await page.press(`#tab-${view}`);
        await pause(250);
        const out = await page.ask('document.documentElement.scrollWidth > innerWidth');
        const small = await page.ask(`[...document.querySelectorAll('button, input, summary')].filter((one) => one.offsetParent && one.getBoundingClientRect().height < (one.matches('summary, [type=radio], [type=checkbox]') ? 20 : 36)).length`);
        const tiny = await page.ask(`[...document.querySelectorAll('main p, main li, main label, main button, main pre')].filter((one) => one.offsetParent && parseFloat(getComputedStyle(one).fontSize) < 13).length`);
        const larger = await page.ask('document.querySelector("section:not([hidden]) button.size") !== null');
        if (larger) {
          await page.press('section:not([hidden]) button.size');
          if (await page.ask('document.documentElement.scrollWidth > innerWidth')) say('something stands out in the larger picture');
          await page.press('section:not([hidden]) button.size');
        }
        say(`${view} at ${width}: ${out ? 'something stands out' : 'nothing stands out'}, ${small} too small for a finger, ${tiny} too small to read${larger ? ', a larger picture' : ''}`);
      }
    }
  },

  async quiet(page) {
    const attempts = [
      'fetch("https://nickelgrove.invalid/").then(() => "sent", () => "refused")',
      'new Promise((done) => { const picture = new Image(); picture.onload = () => done("loaded"); picture.onerror = () => done("refused"); picture.src = "https://nickelgrove.invalid/x.png"; })',
      'new Promise((done) => { const script = document.createElement("script"); script.onload = () => done("ran"); script.onerror = () => done("refused"); script.src = "https://nickelgrove.invalid/x.js"; document.head.append(script); })',
      'new Promise((done) => { const script = document.createElement("script"); script.textContent = "globalThis.slipped = 1"; document.head.append(script); done(globalThis.slipped ? "ran" : "refused"); })',
      'navigator.sendBeacon("https://nickelgrove.invalid/", "x"), "tried"', // what it answers says nothing of what is sent
    ];
    for (const attempt of attempts) say(await page.ask(attempt));
    await pause(500);
    page.errors.length = 0; // each refusal is said on the console
    page.requests = page.requests.filter((url) => !page.blocked.has(url));
  },

  async shots(page) {
    const shoot = async (name, { width }) => {
      await page.size(width, width === NARROW.width ? await page.ask('document.documentElement.scrollHeight') : WIDE.height);
      await pause(400);
      await page.shoot(`${folder}/${name}-${width}.png`, false);
    };
    const both = async (name) => {
      for (const size of [NARROW, WIDE]) {
        await page.size(size.width, size.height);
        await pause(300);
        await shoot(name, size);
      }
    };
    await both('start');
    await openSheet(page, [1, 2800, 2070, 3, 4]);
    for (const [width, height] of [[600, 400], [1200, 600], [2000, 300], [800, 300]]) {
      await askFor(page, width, height);
      await page.press('.piece.offered button.offer');
      if (width === 800) await both('chosen');
      await page.press('#confirm');
    }
    await askFor(page, 300, 1500);
    await both('offers');
    await page.type('#patience', '1');
    await page.press('.piece.offered button.offer');
    await page.until('document.getElementById("clock").textContent === "Nobody is at the glass."');
    await page.type('#patience', '600');
    await page.press('.piece.offered button.offer');
    await page.press('#confirm');
    await both('gone');
    for (const [width, height] of [[600, 400], [1200, 600], [2000, 300], [800, 300]]) {
      await askFor(page, width, height);
      await page.press('.piece.offered button.offer');
      await page.press('#confirm');
    }
    await page.press('#tab-saw');
    for (let times = 0; times < 3; times += 1) await page.press('#saw-next');
    await both('saw');
    await page.press('#tab-drill');
    await page.type('#drill-blade', '4');
    await page.press('#seed-form button');
    await page.type('#drill-board', '1');
    await page.type('#drill-distance', '5');
    await page.type('#drill-eaten', '3');
    await page.press('input[name="way"][value="0"]');
    await page.press('#drill-form button.main');
    await both('drill');
    await page.press('#tab-session');
    await both('session');
  },
};

const browser = await launch(process.env.BROWSER ?? 'chromium', folder);
try {
  const page = await browser.open(address, question === 'touch' ? NARROW : WIDE);
  await page.until('document.getElementById("kiosk-diagram").childElementCount > 0');
  await questions[question](page);
  const fault = await page.text('#fault');
  say(`asked for: ${page.requests.map((url) => (url === address ? 'the page' : url)).join(' ') || 'nothing'}`, `went wrong: ${[...page.errors, fault].filter(Boolean).join(' ') || 'nothing'}`);
} catch (error) {
  say(`stopped: ${error.message}`);
  process.exitCode = 1;
} finally {
  await browser.close();
}

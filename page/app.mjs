// The page: it starts the module that stands in it, and has a view of it under each tab.
import { Desk } from './desk.mjs';
import { find } from './dom.mjs';
import { DrillView } from './drill_view.mjs';
import { Glass } from './glass.mjs';
import { KioskView } from './kiosk_view.mjs';
import { SawView } from './saw_view.mjs';
import { SessionView } from './session_view.mjs';

const NAMES = ['kiosk', 'saw', 'drill', 'session'];
const TICK = 250; // milliseconds

/** The bytes of a text in base64. */
export const bytesOf = (base64) => Uint8Array.from(atob(base64.trim()), (character) => character.charCodeAt(0));

function fault(error) {
  find('fault').hidden = false;
  find('fault').textContent = `The page has a fault, and what it shows may be wrong: ${error.message ?? error}. Save the session, then load the page anew.`;
}

/** One view is seen at a time, and drawn when it is. */
class Tabs {
  #views;
  #name = NAMES[0];

  constructor(views) {
    this.#views = views;
    for (const name of NAMES) {
      find(`tab-${name}`).addEventListener('click', () => this.see(name));
      find(`tab-${name}`).addEventListener('keydown', (event) => this.#key(event, name));
    }
    let waiting = null; // for the end of a change of the window's size
    addEventListener('resize', () => {
      clearTimeout(waiting);
      waiting = setTimeout(() => this.again(), 150);
    });
  }

  #key(event, name) {
    const step = { ArrowLeft: -1, ArrowRight: 1 }[event.key];
    if (!step) return;
    event.preventDefault();
    const next = NAMES[(NAMES.indexOf(name) + step + NAMES.length) % NAMES.length];
    this.see(next);
    find(`tab-${next}`).focus();
  }

  /** What is seen, drawn anew. */
  again() {
    this.see(this.#name);
  }

  see(seen) {
    this.#name = seen;
    document.querySelectorAll('figure').forEach((figure) => figure.replaceChildren()); // one picture at a time: they name their hatching alike
    for (const name of NAMES) {
      find(name).hidden = name !== seen;
      find(`tab-${name}`).setAttribute('aria-selected', name === seen);
      find(`tab-${name}`).tabIndex = name === seen ? 0 : -1;
    }
    this.#views[seen].render();
  }
}

async function start() {
  addEventListener('error', ({ error, message }) => fault(error ?? message));
  addEventListener('unhandledrejection', ({ reason }) => fault(reason));
  try {
    const module = await WebAssembly.compile(bytesOf(find('module').textContent));
    const now = () => performance.now();
    const glass = new Glass(new Desk(module));
    const kiosk = new KioskView(glass, now);
    const views = { kiosk, saw: new SawView(glass), drill: new DrillView(() => new Desk(module)), session: new SessionView(glass) };
    const tabs = new Tabs(views);
    tabs.see('kiosk');
    setInterval(() => kiosk.tick() && tabs.again(), TICK);
  } catch (error) {
    fault(error);
  }
}

if (globalThis.document) start();

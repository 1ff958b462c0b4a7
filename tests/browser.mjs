// A browser for the tests: chromium without a window, driven through the DevTools protocol over two pipes (no port, no library).
//   const browser = await launch('chromium', folder);
//   const page = await browser.open('file:///...', { width: 320, height: 640 });
//   await page.ask('document.title');
//   await browser.close();
import { spawn } from 'node:child_process';
import { writeFileSync } from 'node:fs';

const WORDS = [
  '--headless=new', '--remote-debugging-pipe', '--no-sandbox', '--disable-gpu', '--disable-dev-shm-usage', '--no-first-run', '--no-default-browser-check',
  '--disable-background-networking', '--disable-component-update', '--disable-sync', '--disable-extensions', '--disable-default-apps', '--mute-audio', '--hide-scrollbars',
];
const PATIENCE = 1000 * Number(process.env.PATIENCE ?? 60);
const pause = (milliseconds) => new Promise((resolve) => setTimeout(resolve, milliseconds));

/** Starts a browser whose files are in a folder. */
export async function launch(program, folder) {
  const child = spawn(program, [...WORDS, `--user-data-dir=${folder}/profile`, 'about:blank'], { stdio: ['ignore', 'ignore', 'ignore', 'pipe', 'pipe'] });
  const browser = new Browser(child);
  await browser.send('Browser.setDownloadBehavior', { behavior: 'allow', downloadPath: folder, eventsEnabled: true });
  return browser;
}

class Browser {
  #child;
  #asked = new Map(); // what is not answered yet, by its number
  #number = 0;
  #text = '';
  #pages = new Map(); // by session
  gone = false;

  constructor(child) {
    this.#child = child;
    child.stdio[4].setEncoding('utf8');
    child.stdio[4].on('data', (text) => this.#read(text));
    child.stdio[3].on('error', () => {});
    const end = () => {
      this.gone = true;
      for (const { reject } of this.#asked.values()) reject(new Error('the browser has gone'));
      this.#asked.clear();
    };
    child.on('error', end);
    child.on('exit', end);
  }

  #read(text) {
    const messages = (this.#text + text).split('\0');
    this.#text = messages.pop();
    for (const message of messages) this.#handle(JSON.parse(message));
  }

  #handle({ id, result, error, method, params, sessionId }) {
    if (id === undefined) {
      this.#pages.get(sessionId)?.heard(method, params);
      return;
    }
    const { resolve, reject } = this.#asked.get(id);
    this.#asked.delete(id);
    if (error) reject(new Error(error.message));
    else resolve(result);
  }

  send(method, params = {}, sessionId = undefined) {
    this.#number += 1;
    const id = this.#number;
    return new Promise((resolve, reject) => {
      if (this.gone) throw new Error('the browser has gone');
      const late = setTimeout(() => reject(new Error(`no answer to ${method}`)), PATIENCE);
      const settled = (settle) => (value) => {
        clearTimeout(late);
        settle(value);
      };
      this.#asked.set(id, { resolve: settled(resolve), reject: settled(reject) });
      this.#child.stdio[3].write(`${JSON.stringify({ id, method, params, sessionId })}\0`);
    });
  }

  /** A page of its own, in a window of this size. What it asks the network for, and what is said on its console, is noted. */
  async open(url, { width, height }) {
    const { targetId } = await this.send('Target.createTarget', { url: 'about:blank' });
    const { sessionId } = await this.send('Target.attachToTarget', { targetId, flatten: true });
    const page = new Page(this, sessionId);
    this.#pages.set(sessionId, page);
    for (const domain of ['Page', 'Network', 'Runtime', 'Log']) await page.send(`${domain}.enable`);
    await page.size(width, height);
    await page.send('Page.navigate', { url });
    await page.until('document.readyState === "complete"');
    return page;
  }

  /** Ends the browser, and waits for its end. */
  async close() {
    const ended = new Promise((resolve) => this.#child.on('exit', resolve));
    if (this.gone) return;
    this.send('Browser.close').catch(() => {});
    const late = setTimeout(() => this.#child.kill('SIGKILL'), 10000);
    await ended;
    clearTimeout(late);
  }
}

class Page {
  #browser;
  #session;
  /** The addresses that were asked for, and the errors that were said. */
  requests = [];
  errors = [];
  /** Those of the addresses that the page's own policy stopped before anything was sent. */
  blocked = new Set();
  #addresses = new Map(); // by the request's number

  constructor(browser, session) {
    this.#browser = browser;
    this.#session = session;
  }

  heard(method, params) {
    if (method === 'Network.requestWillBeSent') {
      this.requests.push(params.request.url);
      this.#addresses.set(params.requestId, params.request.url);
    }
    if (method === 'Network.loadingFailed' && params.blockedReason === 'csp') this.blocked.add(this.#addresses.get(params.requestId));
    if (method === 'Network.webSocketCreated') this.requests.push(params.url);
    if (method === 'Runtime.exceptionThrown') this.errors.push(params.exceptionDetails.exception?.description ?? params.exceptionDetails.text);
    if (method === 'Log.entryAdded' && params.entry.level === 'error') this.errors.push(params.entry.text);
  }

  send(method, params) {
    return this.#browser.send(method, params, this.#session);
  }

  size(width, height) {
    return this.send('Emulation.setDeviceMetricsOverride', { width, height, deviceScaleFactor: 1, mobile: false });
  }

  /** What an expression is worth in the page. */
  async ask(expression) {
    const { result, exceptionDetails } = await this.send('Runtime.evaluate', { expression, awaitPromise: true, returnByValue: true });
    if (exceptionDetails) throw new Error(`${expression}: ${exceptionDetails.exception?.description ?? exceptionDetails.text}`);
    return result.value;
  }

  /** Waits until an expression is true. */
  async until(expression) {
    const end = Date.now() + PATIENCE;
    while (!(await this.ask(`Boolean(${expression})`))) {
      if (Date.now() > end) throw new Error(`it was never so: ${expression}`);
      await pause(50);
    }
  }

  /** Presses on an element with the mouse, where it is seen, as a person does. */
  async press(selector) {
    const { x, y } = await this.#middle(selector);
    for (const type of ['mousePressed', 'mouseReleased']) await this.send('Input.dispatchMouseEvent', { type, x, y, button: 'left', clickCount: 1 });
  }

  /** The same with a finger. */
  async tap(selector) {
    const { x, y } = await this.#middle(selector);
    await this.send('Input.dispatchTouchEvent', { type: 'touchStart', touchPoints: [{ x, y }] });
    await this.send('Input.dispatchTouchEvent', { type: 'touchEnd', touchPoints: [] });
  }

  async #middle(selector) {
    const at = await this.ask(`(() => {
      const found = document.querySelector(${JSON.stringify(selector)});
      if (!found || found.disabled) return null;
      found.scrollIntoView({ block: 'center', inline: 'center' });
      const { x, y, width, height } = found.getBoundingClientRect();
      const [left, top] = [x + width / 2, y + height / 2];
      const there = document.elementFromPoint(left, top);
      return width > 0 && (found === there || found.contains(there)) ? { x: left, y: top } : null;
    })()`);
    if (!at) throw new Error(`nobody can press ${selector}`);
    return at;
  }

  /** Types a text into a field, in the place of what is there. */
  async type(selector, text) {
    await this.press(selector);
    await this.ask(`document.querySelector(${JSON.stringify(selector)}).select()`);
    await this.key('Delete', 46);
    if (text !== '') await this.send('Input.insertText', { text });
  }

  async key(key, code) {
    const text = key === 'Enter' ? '\r' : undefined;
    for (const type of ['keyDown', 'keyUp']) await this.send('Input.dispatchKeyEvent', { type, key, windowsVirtualKeyCode: code, text: type === 'keyDown' ? text : undefined });
  }

  /** The text of an element. */
  text(selector) {
    return this.ask(`document.querySelector(${JSON.stringify(selector)}).textContent.replace(/\\s+/g, ' ').trim()`);
  }

  /** A picture of the page, all of it or what is seen. */
  async shoot(file, all = true) {
    const { data } = await this.send('Page.captureScreenshot', { format: 'png', captureBeyondViewport: all });
    writeFileSync(file, Buffer.from(data, 'base64'));
  }
}

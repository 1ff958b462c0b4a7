// The kiosk's view: a sheet, a panel that is tapped, what each free piece says to it, and the customer's time.
import { chosen, element, fill, find, numbersOf, tell } from './dom.mjs';
import { OFFERED, PART, SHAPES } from './frames.mjs';
import { show } from './picture.mjs';
import { LIES, REASONS, capital, figured, grouped, marked, refused, sized, tidied } from './words.mjs';

const SIZES = [[600, 400], [800, 300], [1200, 600], [2000, 500], [2070, 600], [300, 300]];
const SHEET = [
  ['layout', 'sheet-layout', 'The layout number', 2],
  ['width', 'sheet-width', 'The width', 4],
  ['height', 'sheet-height', 'The height', 4],
  ['stages', 'sheet-stages', 'The number of stages', 1],
  ['blade', 'sheet-blade', "The saw blade's width", 1],
];
const PANEL = [
  ['width', 'panel-width', 'The width', 4],
  ['height', 'panel-height', 'The height', 4],
  ['number', 'panel-number', 'The part number', 2],
];
const LONGEST_PATIENCE = 3600;

export class KioskView {
  #glass;
  #now;
  #field = 'panel-width'; // that the digits go to
  #lamp = null; // the mark that the room light names

  constructor(glass, now) {
    this.#glass = glass;
    this.#now = now;
    find('sheet-form').addEventListener('submit', (event) => this.#open(event));
    find('panel-form').addEventListener('submit', (event) => this.#ask(event));
    find('panel-form').addEventListener('input', () => this.#typed());
    find('done').addEventListener('click', () => this.#done());
    find('tidy').addEventListener('click', () => this.#tidy());
    find('patience').addEventListener('input', () => this.#patience());
    for (const [, id] of PANEL) find(id).addEventListener('focus', () => (this.#field = id));
    fill('sizes', ...SIZES.map(([width, height]) => element('button', { type: 'button', onclick: () => this.#tapSize(width, height) }, `${width} x ${height}`)));
    const digits = [...'1234567890'].map((digit) => element('button', { type: 'button', onclick: () => this.#tapDigit(digit) }, digit));
    const wipe = element('button', { type: 'button', 'aria-label': 'Take the last digit back', onclick: () => this.#tapDigit(null) }, 'back');
    fill('pad', ...digits, wipe);
  }

  // What is done here.

  #open(event) {
    event.preventDefault();
    const numbers = numbersOf(SHEET, 'sheet-wrong');
    if (!numbers) return;
    const { refusal } = this.#glass.open({ ...numbers, cut: chosen('cut') });
    if (refusal) {
      find('sheet-wrong').textContent = refused(refusal);
      return;
    }
    const saw = numbers.blade > 0 ? `, for a saw blade of ${numbers.blade}` : '';
    tell('word', `Sheet ${sized(numbers)} is open as layout ${numbers.layout}${saw}.`);
    find('sheet-layout').value = (numbers.layout + 1) % 65536; // a number is for one sheet
    this.render();
  }

  #part(wrongs) {
    const numbers = numbersOf(PANEL, wrongs);
    return numbers && { ...numbers, turn: chosen('turn') };
  }

  /** Something was typed or tapped: who is there has not walked away. */
  #typed() {
    if (this.#glass.customer) this.#glass.touch(this.#now());
    this.#light();
  }

  /** The room light, as the sides are typed. */
  #light() {
    this.#lamp = null;
    const part = this.#part('light');
    find('light').className = part ? '' : 'no';
    if (part && this.#glass.desk.sheet) this.#lightFor(part);
    this.#diagram();
  }

  #lightFor(part) {
    const { refusal, room, mark } = this.#glass.light(part);
    find('light').className = !refusal && room ? 'yes' : 'no';
    if (refusal) find('light').textContent = refused(refusal);
    else if (!room) find('light').textContent = `There is no room on this sheet for ${sized(part)}.`;
    else {
      this.#lamp = JSON.stringify(mark);
      find('light').textContent = `There is room for ${sized(part)}: the diagram shows where.`;
    }
  }

  #tapSize(width, height) {
    find('panel-width').value = width;
    find('panel-height').value = height;
    this.#light();
    if (this.#glass.desk.sheet) this.#ask();
  }

  #tapDigit(digit) {
    const field = find(this.#field);
    field.value = digit === null ? field.value.slice(0, -1) : field.value + digit;
    this.#typed();
  }

  #ask(event) {
    event?.preventDefault();
    const part = this.#part('light');
    if (!part) return;
    const { refusal, room } = this.#glass.ask(part, this.#now());
    if (refusal) tell('word', refused(refusal), true);
    else tell('word', room ? 'Choose an offer.' : `No free piece takes ${sized(part)}. Below is why not.`, !room);
    this.render();
  }

  #choose(choice) {
    this.#glass.choose(choice, this.#now());
    this.render();
    if (!choice) return;
    find('confirm').focus({ preventScroll: true });
    find('choice').scrollIntoView({ block: 'nearest' });
  }

  #confirm() {
    const { part, choice } = this.#glass.shown;
    const answer = this.#glass.confirm(this.#now());
    if (answer.refusal) {
      tell('word', `${refused(answer.refusal)} The offer was for ${marked(choice.piece.mark)}.`, true);
    } else {
      find('panel-number').value = (part.number + 1) % 65536;
      tell('word', `Booked: panel ${part.number}, ${sized(part)}. Its mark is ${marked(answer.part)}.`);
    }
    this.render();
    const next = answer.refusal ? find('confirm') : find('panel-form').querySelector('button.main'); // for who works with keys
    next.focus({ preventScroll: true });
  }

  #takeOut(mark) {
    const { refusal, numbers } = this.#glass.remove(mark, this.#now());
    if (refusal) tell('word', refused(refusal), true);
    else tell('word', numbers.length === 1 ? `Panel ${numbers[0]} was taken out.` : `Panels ${numbers.join(', ')} were taken out.`);
    this.render();
  }

  #tidy() {
    const { refusal, count } = this.#glass.tidy(this.#now());
    if (refusal) tell('word', refused(refusal), true);
    else tell('word', tidied(count));
    this.render();
  }

  #done() {
    this.#glass.done();
    tell('word', 'The customer is done. What was booked stays.');
    this.render();
  }

  #patience() {
    const seconds = numbersOf([['seconds', 'patience', 'The time in seconds', 2]], 'patience-wrong')?.seconds;
    if (seconds === undefined) return;
    const good = seconds >= 1 && seconds <= LONGEST_PATIENCE;
    find('patience').setAttribute('aria-invalid', !good);
    if (good) this.#glass.patience = 1000 * seconds;
    else find('patience-wrong').textContent = `The time has to be 1 to ${grouped(LONGEST_PATIENCE)} seconds. It stays at ${this.#glass.patience / 1000}.`;
  }

  /** Time has passed: whether the sheet was put back, and what is seen has to be drawn anew. */
  tick() {
    const answer = this.#glass.tick(this.#now());
    this.#clock();
    if (answer?.refusal) tell('word', refused(answer.refusal), true);
    else if (answer) tell('word', 'The time is out: the customer has walked away, and the sheet was put back as it was kept.');
    return answer !== null;
  }

  // What is shown.

  render() {
    const { desk } = this.#glass;
    find('kiosk').classList.toggle('opened', desk.sheet !== null);
    for (const button of [...find('panel-form').querySelectorAll('button[type="submit"]'), find('tidy')]) button.disabled = desk.sheet === null;
    this.#clock();
    this.#light();
    this.#figures(desk);
    this.#chosen();
    this.#pieces();
    this.#bookings(desk);
  }

  #clock() {
    const { customer } = this.#glass;
    const left = this.#glass.left(this.#now());
    find('done').disabled = customer === null;
    find('clock').textContent = customer ? `Customer ${customer.number} is at the glass, ${Math.ceil(left / 1000)} s left.` : 'Nobody is at the glass.';
  }

  #figures(desk) {
    const { figures, sheet } = desk;
    find('kiosk-figures').textContent = figures ? figured(figures, sheet) : '';
    find('kiosk-strips').hidden = !figures || figures.eaten === 0;
  }

  #diagram() {
    const { desk, shown } = this.#glass;
    const choice = shown?.choice;
    const trial = choice && desk.tried(choice.piece.mark, shown.part, choice.offer);
    if (trial && !trial.refusal) {
      const grown = trial.nodes.length - desk.nodes.length;
      const isNew = ({ index, kind }) => kind === PART && index >= trial.at && index <= trial.at + grown;
      const word = `panel ${shown.part.number} would lie here`;
      const over = ({ pieces }) => pieces.filter(isNew).map(({ drawn }) => ({ look: 'booked', drawn, word }));
      show(find('kiosk-diagram'), trial.nodes, trial.cuts, { over, words: false });
    } else {
      show(find('kiosk-diagram'), desk.nodes, desk.cuts, { over: ({ pieces }) => this.#lights(pieces), words: false });
    }
  }

  #lights(pieces) {
    const { desk, shown } = this.#glass;
    const drawn = (at) => pieces.find(({ index }) => index === at)?.drawn;
    const offered = shown && !shown.left ? shown.pieces.filter(({ at, offers }) => offers.length > 0 && drawn(at)) : [];
    const lamp = this.#lamp && desk.freePieces.find(({ mark }) => JSON.stringify(mark) === this.#lamp);
    return [
      ...(lamp && drawn(lamp.at) ? [{ look: 'lit', drawn: drawn(lamp.at) }] : []),
      ...offered.map((piece) => ({ look: 'offered', drawn: drawn(piece.at), word: `offers for ${sized(shown.part)}`, tap: () => this.#choose({ piece, offer: piece.offers[0] }) })),
    ];
  }

  /** The offer that was tapped, to be confirmed. */
  #chosen() {
    const { shown } = this.#glass;
    if (!shown?.choice) {
      fill('choice');
      return;
    }
    const confirm = element('button', { type: 'button', id: 'confirm', class: 'main', onclick: () => this.#confirm() }, 'Confirm: book it so');
    const no = element('button', { type: 'button', onclick: () => this.#choose(null) }, 'No');
    fill('choice', confirm, no, element('span', {}, `panel ${shown.part.number}, ${this.#offerWords(shown.choice.offer)}`));
  }

  #offerWords({ rotation, shape }) {
    return `${LIES[rotation]}, ${SHAPES[shape]}`;
  }

  #pieces() {
    const { shown } = this.#glass;
    if (!shown) {
      fill('glass');
      return;
    }
    const { part, pieces, by, left } = shown;
    const whose = left ? `Left on the glass by customer ${by}` : `On the glass for customer ${by}`;
    fill('glass', element('h2', {}, `${whose}: panel ${part.number}, ${sized(part)}`), ...pieces.map((piece) => this.#piece(piece)));
  }

  #piece(piece) {
    const { size, reasons, offers, lit } = piece;
    const name = size ? `Free piece ${sized(size)}` : 'A free piece';
    const why = reasons.map((reason, rotation) => `${capital(LIES[rotation])}: ${REASONS[reason]}.`).join(' ');
    return element(
      'div',
      { class: `piece${reasons.includes(OFFERED) ? ' offered' : ''}${lit ? ' lit' : ''}` },
      element('p', {}, element('b', {}, name), lit ? ': the room light names it' : ''),
      element('p', {}, why),
      element('p', { class: 'row' }, ...offers.map((offer) => this.#offer(piece, offer))),
    );
  }

  #offer(piece, offer) {
    const pressed = this.#glass.shown.choice?.offer === offer;
    return element('button', { type: 'button', class: 'offer', 'aria-pressed': String(pressed), onclick: () => this.#choose({ piece, offer }) }, capital(this.#offerWords(offer)));
  }

  #bookings(desk) {
    const rows = desk.held.map(({ part, mark }) =>
      element('li', {}, `panel ${part.number}, ${sized(part)} `, element('button', { type: 'button', onclick: () => this.#takeOut(mark) }, 'Take it out')),
    );
    fill('bookings', ...(rows.length > 0 ? [element('h2', {}, 'Booked on this sheet'), element('ul', { class: 'bookings' }, ...rows)] : []));
  }
}

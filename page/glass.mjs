// The glass: customers at the kiosk, one after the other, and what stands on the glass. A customer begins with a keep; when the time is out the sheet is put back as
// it was kept. Time is handed in, in milliseconds, so that a test can let it pass.
// What was offered stays on the glass when a customer walks away: who takes it then is told what the module answers.
import { OFFERED } from './frames.mjs';

export class Glass {
  /** How long a customer may do nothing, in milliseconds. */
  patience = 60000;
  /** The customer who is there: { number, until }, or null. */
  customer = null;
  /** What is offered: { part, room, pieces, by, left, choice }, or null. `left` says that the customer has gone, `choice` is the piece and offer that were tapped. */
  shown = null;
  #desk;
  #customers = 0;

  constructor(desk) {
    this.#desk = desk;
  }

  get desk() {
    return this.#desk;
  }

  /** A sheet is opened. Who was there goes; nothing is kept of the sheet before. */
  open(sheet) {
    const answer = this.#desk.open(sheet);
    if (!answer.refusal) this.#cleared();
    return answer;
  }

  /** Another session takes the place of this one. */
  take(desk) {
    this.#desk = desk;
    this.#cleared();
  }

  #cleared() {
    this.customer = null;
    this.shown = null;
  }

  /** Somebody touches the glass: if nobody was there, a new customer, for whom the sheet is kept. The time starts anew. */
  touch(now) {
    if (this.customer === null) {
      const answer = this.#desk.keep();
      if (answer.refusal) return answer;
      this.#customers += 1;
      this.customer = { number: this.#customers, until: 0 };
    }
    this.customer.until = now + this.patience;
    return { refusal: 0 };
  }

  /** The milliseconds that the customer has left; null where there is none. */
  left(now) {
    return this.customer && Math.max(0, this.customer.until - now);
  }

  /** The customer pays and goes: what was booked stays. */
  done() {
    this.customer = null;
    if (this.shown) Object.assign(this.shown, { left: true, choice: null });
  }

  /** If the time is out the customer has walked away, and the sheet is put back: its answer; else null. */
  tick(now) {
    if (this.customer === null || now < this.customer.until) return null;
    const answer = this.#desk.restore();
    this.done();
    return answer;
  }

  /** Whether there is room for a part, and where: at once, as its sides are typed. */
  light(part) {
    return this.#desk.light(part);
  }

  /** Puts on the glass what each free piece says to a part: its offers, or why not in each rotation. */
  ask(part, now) {
    const light = this.light(part);
    if (light.refusal) return light;
    const touched = this.touch(now);
    if (touched.refusal) return touched;
    const lit = light.room ? JSON.stringify(light.mark) : null;
    const pieces = this.#desk.freePieces.map((piece) => this.#said(piece, part, lit));
    this.shown = { part, room: light.room, pieces, by: this.customer.number, left: false, choice: null };
    return light;
  }

  #said({ mark, at }, part, lit) {
    const { reasons } = this.#desk.whyNot(mark, part);
    const offers = reasons.includes(OFFERED) ? this.#desk.offers(mark, part).offers : [];
    const size = at === null ? null : this.#desk.nodes[at];
    return { mark, at, size, reasons, offers, lit: JSON.stringify(mark) === lit };
  }

  /** Taps an offer that is on the glass: { piece, offer }, or null for none. */
  choose(choice, now) {
    this.shown.choice = choice;
    if (this.customer) this.touch(now);
  }

  /** Books the part that is on the glass by the offer that was tapped. What is on the glass goes if it was booked, and stays if it was refused. */
  confirm(now) {
    const touched = this.touch(now);
    if (touched.refusal) return touched;
    const { part, choice } = this.shown;
    const answer = this.#desk.insert(choice.piece.mark, part, choice.offer);
    if (!answer.refusal) this.shown = null;
    return answer;
  }

  /** Takes out what a mark names. */
  remove(mark, now) {
    const touched = this.touch(now);
    return touched.refusal ? touched : this.#desk.remove(mark);
  }

  /** Takes out each structure that holds one free piece and nothing else, until there is none. */
  tidy(now) {
    const touched = this.touch(now);
    return touched.refusal ? touched : this.#desk.tidy();
  }
}

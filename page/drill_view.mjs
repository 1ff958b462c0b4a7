// The drill's view: the next cut is asked for, and the module's list says what it is. It has a desk for itself, and nothing of it is kept.
import { chosen, element, fill, find, numbersOf, tell } from './dom.mjs';
import { Drill, fill as book } from './drill.mjs';
import { show } from './picture.mjs';
import { sawn } from './saw.mjs';
import { say } from './say.mjs';
import { pileOf, takenBy } from './saw_view.mjs';
import { refused } from './words.mjs';

const SEED = [
  ['seed', 'seed', 'The seed', 4],
  ['blade', 'drill-blade', "The saw blade's width", 1],
];
const CUT = [
  ['board', 'drill-board', 'The board', 2],
  ['distance', 'drill-distance', 'The distance', 4],
];
const EATEN = ['eaten', 'drill-eaten', 'What the saw takes', 1]; // asked for where the blade has a width

export class DrillView {
  #desk; // makes a new one
  #drill = null;
  #score = { right: 0, asked: 0 };

  constructor(desk) {
    this.#desk = desk;
    find('seed-form').addEventListener('submit', (event) => this.#begin(event));
    find('drill-form').addEventListener('submit', (event) => this.#answer(event));
    find('aloud').addEventListener('click', () => this.#reveal());
    find('judge-right').addEventListener('click', () => this.#judge(true));
    find('judge-wrong').addEventListener('click', () => this.#judge(false));
  }

  #begin(event) {
    event.preventDefault();
    const numbers = numbersOf(SEED, 'seed-wrong');
    if (!numbers) return;
    const desk = this.#desk();
    const { refusal } = book(desk, numbers.seed, numbers.blade);
    if (refusal) {
      find('seed-wrong').textContent = refused(refusal);
      return;
    }
    this.#drill = new Drill(desk);
    tell('drill-word', `The sheet of seed ${numbers.seed}. What is the first cut?`);
    find('seed').value = (numbers.seed + 1) % 2 ** 32;
    this.#cleared();
    this.render();
  }

  #cleared() {
    for (const [, id] of [...CUT, EATEN]) {
      find(id).value = '';
      find(id).removeAttribute('aria-invalid');
    }
    for (const button of document.querySelectorAll('input[name="way"]')) button.checked = false;
    find('drill-wrong').textContent = '';
    find('judge').hidden = true;
  }

  #answer(event) {
    event.preventDefault();
    if (!this.#drill || this.#drill.over) return;
    const numbers = numbersOf(this.#drill.blade > 0 ? [...CUT, EATEN] : CUT, 'drill-wrong');
    const way = chosen('way');
    if (way === null) find('drill-wrong').textContent += ' Say whether the cut is Horizontal or Vertical.';
    if (!numbers || way === null) return;
    const said = this.#sentence();
    const wrong = this.#drill.answer({ place: numbers.board - 1, way, distance: numbers.distance, eaten: numbers.eaten ?? 0 });
    this.#count(wrong.length === 0);
    tell('drill-word', wrong.length === 0 ? `Right. ${said}` : `Not right: ${wrong.join(' and ')}. The list says: ${said}`, wrong.length > 0);
    this.#cleared();
    this.render();
  }

  /** It was said aloud: the list's cut is shown, and whoever heard it judges. */
  #reveal() {
    if (!this.#drill || this.#drill.over) return;
    tell('drill-word', `The list says: ${this.#sentence()}`);
    find('judge').hidden = false;
    find('judge-right').focus();
  }

  #judge(right) {
    this.#drill.count(right);
    this.#count(right);
    this.#cleared();
    this.render();
  }

  #count(right) {
    this.#score.asked += 1;
    if (right) this.#score.right += 1;
  }

  #sentence() {
    const { desk, cuts, at } = this.#drill;
    return say(desk.nodes, cuts)[at + 1];
  }

  render() {
    const { right, asked } = this.#score;
    find('score').textContent = `Score: ${right} right of ${asked}.`;
    const drill = this.#drill;
    find('drill-form').hidden = !drill || drill.over;
    find('drill-eats').hidden = !drill || drill.blade === 0;
    if (!drill) {
      show(find('drill-diagram'), [], []);
      return;
    }
    const { cuts, at } = drill;
    const { nodes } = drill.desk;
    const { tiles, steps, piles } = sawn(nodes, cuts);
    const step = at > 0 ? steps[at - 1] : null;
    find('drill-taken').textContent = takenBy(step);
    fill('drill-pile', ...pileOf(piles[at], tiles, step ? step.made : []));
    fill('drill-cuts', ...say(nodes, cuts).slice(1, at + 1).map((sentence) => element('li', {}, sentence.replace(/^\d+\. /, ''))));
    if (drill.over) find('score').textContent += ` All ${cuts.length} cuts of this sheet are made: take a new sheet.`;
    show(find('drill-diagram'), nodes, cuts, { plain: true });
  }
}

// The saw's view: the cut diagram, the cuts one by one, and the pile beside it.
import { element, fill, find } from './dom.mjs';
import { VERTICAL } from './frames.mjs';
import { show } from './picture.mjs';
import { sawn } from './saw.mjs';
import { called, say } from './say.mjs';
import { speak, wake } from './voice.mjs';

/** The entries of a pile: each board, those in `marked` marked. */
export function pileOf(boards, tiles, made) {
  return boards.map((board) => {
    const words = board.done ? called(tiles[board.first]) : `${board.width} by ${board.height}, to cut again`;
    return element('li', { class: made.includes(board) ? 'now' : null }, words);
  });
}

/** The drawn rectangle of a board: from its first tile to its last. */
export function drawnBoard({ first, last }, tiles) {
  const [from, to] = [tiles[first].drawn, tiles[last].drawn];
  return { x: from.x, y: from.y, width: to.x + to.width - from.x, height: to.y + to.height - from.y };
}

/** What is laid over a picture to show a board of the pile: the others are veiled, and what the saw took before, and it has an edge. */
export function boardOver(board, others, before, { tiles }) {
  const gone = before.filter(({ strip }) => strip).map((step) => drawnStrip(step, tiles));
  return [...[...others.map((other) => drawnBoard(other, tiles)), ...gone].map((drawn) => ({ look: 'veil', drawn })), { look: 'board', drawn: drawnBoard(board, tiles) }];
}

/** The drawn rectangle of what the saw takes with a step: it is the tile behind what is cut off. */
const drawnStrip = ({ piece }, tiles) => tiles[piece.last + 1].drawn;

/** What the saw takes with a step, in words; nothing where it takes nothing. */
export function takenBy(step) {
  return step?.strip ? `The saw takes a strip of ${step.strip.width} by ${step.strip.height}${step.rest ? '' : ', all that is left'}.` : '';
}

export class SawView {
  #glass;
  #at = 0; // how many cuts are made
  #list = ''; // of the cuts, when they were last shown

  constructor(glass) {
    this.#glass = glass;
    wake();
    const steps = { 'saw-first': () => 0, 'saw-back': (at) => at - 1, 'saw-next': (at) => at + 1, 'saw-last': () => Infinity };
    for (const [id, to] of Object.entries(steps)) find(id).addEventListener('click', () => this.#go(to(this.#at)));
    find('speak').addEventListener('click', () => this.#speak());
    document.addEventListener('keydown', (event) => this.#key(event, steps));
  }

  #key(event, steps) {
    if (find('saw').hidden || event.altKey || event.ctrlKey || event.metaKey || event.target.closest?.('input, [role="tab"], .frame')) return;
    const id = { ArrowLeft: 'saw-back', ArrowRight: 'saw-next', Home: 'saw-first', End: 'saw-last' }[event.key];
    if (id) {
      event.preventDefault();
      this.#go(steps[id](this.#at));
    } else if (event.key === 's') {
      this.#speak();
    }
  }

  #go(at) {
    const { cuts } = this.#glass.desk;
    this.#at = Math.min(Math.max(at, 0), cuts.length);
    this.render();
    if (find('speak-each').checked) this.#speak();
  }

  #speak() {
    const spoken = speak(find('sentence').textContent);
    find('voice').textContent = spoken ? '' : 'This browser has no voice of its own on this machine: read the sentence to each other.';
  }

  render() {
    const { nodes, cuts } = this.#glass.desk;
    const list = JSON.stringify([nodes[0], cuts]);
    if (list !== this.#list) this.#at = 0; // another list: from its start
    this.#list = list;
    const at = this.#at;
    for (const id of ['saw-first', 'saw-back']) find(id).disabled = at === 0;
    for (const id of ['saw-next', 'saw-last']) find(id).disabled = at === cuts.length;
    if (nodes.length === 0) {
      find('saw-count').textContent = '';
      find('sentence').textContent = 'No sheet is open yet: open one in the kiosk, or open a saved session.';
      find('taken').textContent = '';
      fill('pile');
      fill('all-cuts');
      show(find('saw-diagram'), nodes, cuts);
      return;
    }
    const sentences = say(nodes, cuts);
    const { tiles, steps, piles } = sawn(nodes, cuts);
    const step = at > 0 ? steps[at - 1] : null;
    find('saw-count').textContent = at > 0 ? `Cut ${at} of ${cuts.length}` : `The sheet, before its ${cuts.length === 1 ? 'one cut' : `${cuts.length} cuts`}`;
    find('sentence').textContent = sentences[at];
    find('taken').textContent = takenBy(step);
    fill('pile', ...pileOf(piles[at], tiles, step ? step.made : []));
    const row = (sentence, index) => element('li', { class: index + 1 === at ? 'now' : index + 1 < at ? 'past' : null }, sentence.replace(/^\d+\. /, ''));
    fill('all-cuts', ...sentences.slice(1).map(row));
    const over = (drawing) => {
      if (!step) return [];
      const others = piles[at - 1].filter((board) => board !== step.board);
      const side = step.way === VERTICAL ? 'width' : 'height';
      const taken = step.strip ? [{ look: 'taken', drawn: drawnStrip(step, drawing.tiles), side, word: takenBy(step) }] : [];
      return [...boardOver(step.board, others, steps.slice(0, at - 1), drawing), { line: drawing.lines[at - 1], cut: at - 1 }, ...taken];
    };
    show(find('saw-diagram'), nodes, cuts, { over, words: false });
  }
}

// The cut diagram on the page: the picture of draw.mjs, with what is looked at laid over it. Where the picture is too small for its labels, the sheet fills all of it,
// the pieces have their numbers alone, and a list says what they are.
import { draw } from './draw.mjs';
import { element } from './dom.mjs';
import { areasOf, called } from './say.mjs';

const SVG = 'http://www.w3.org/2000/svg';
const READABLE = 0.6; // of its full size
const ALMOST_FULL = 0.8;
const NUMBER_PIXELS = 15;
const TAKEN_PIXELS = 4; // of what the saw takes with the cut that is shown, over half of the cut's line and hardly more
const EDGE = 8; // around a sheet that fills the picture
const NARROW = 480; // pixels of a screen on which the style lets a picture be half as high as the screen; on others it is most of it

function drawnElement(name, attributes, ...inside) {
  const made = document.createElementNS(SVG, name);
  for (const [key, value] of Object.entries(attributes)) made.setAttribute(key, value);
  made.append(...inside);
  return made;
}

/** How what is laid over a piece looks: hatching and edges, not colours alone. What is under the labels leaves them readable. */
const LOOKS = {
  offered: { under: true, fill: 'url(#offered)', stroke: '#1a1a1a', 'stroke-width': 2 },
  lit: { under: true, fill: 'none', stroke: '#00694d', 'stroke-width': 7, 'stroke-dasharray': '16 6', class: 'lamp' },
  booked: { under: true, fill: 'url(#booked)', stroke: '#0072b2', 'stroke-width': 5 },
  board: { fill: 'none', stroke: '#0072b2', 'stroke-width': 5 },
  taken: { fill: '#333333', class: 'strip' },
  veil: { fill: '#ffffff', 'fill-opacity': 0.72 },
};

/** The hatching of what is offered, crossed, and of what would be booked, level; about as wide on each screen. */
function hatches(scale) {
  const lines = (id, colour, path) => {
    const look = { d: path, stroke: colour, 'stroke-width': 2, fill: 'none' };
    const size = { id, width: 14, height: 14, patternUnits: 'userSpaceOnUse', patternTransform: `scale(${Math.max(1, 0.8 / scale)})` };
    return drawnElement('pattern', size, drawnElement('rect', { width: 14, height: 14, fill: '#fff', 'fill-opacity': 0.55 }), drawnElement('path', look));
  };
  return drawnElement('defs', {}, lines('offered', '#e69f00', 'M0 0L14 14M0 14L14 0'), lines('booked', '#56a5d4', 'M0 7H14'));
}

/**
 * Shows a sheet in a figure. `over(drawing)` gives what is laid over it: { look, drawn, word, tap } for a rectangle, with its `side` for one that is to be seen however
 * narrow it is on that; { line, cut } for a cut. `plain` leaves out the cuts' numbers and their sentences, as a drill wants it. `words` says whether the list in words is
 * open where the picture is small.
 */
export function show(figure, nodes, cuts, { over = () => [], plain = false, words = true } = {}) {
  if (nodes.length === 0) {
    figure.replaceChildren(element('p', {}, 'No sheet is open yet.'));
    return;
  }
  const drawing = draw(nodes, cuts);
  const large = figure.dataset.large === 'yes';
  const whole = shownAt(figure, drawing.width, drawing.height);
  const small = !large && whole < READABLE;
  const cropped = () => shownAt(figure, drawing.sheet.width + 2 * EDGE, drawing.sheet.height + 2 * EDGE);
  const scale = large ? 1 : small ? cropped() : whole;
  const svg = document.importNode(new DOMParser().parseFromString(drawing.svg, 'image/svg+xml').documentElement, true);
  svg.setAttribute('role', 'group'); // and not an image, in which nothing could be tapped
  svg.setAttribute('aria-label', svg.querySelector('title').textContent);
  lay(svg, over(drawing), drawing.pieces.length, scale);
  if (plain) svg.querySelectorAll('g').forEach((group) => group.remove());
  if (small) shrink(svg, drawing, scale);
  figure.classList.toggle('small', small);
  figure.classList.toggle('large', large);
  const again = () => show(figure, nodes, cuts, { over, plain, words });
  figure.replaceChildren(
    element('div', { class: 'frame', tabindex: large ? '0' : null }, svg),
    ...sizeButton(figure, large, whole, again),
    inWords(figure, drawing.pieces, areasOf(nodes[0], drawing.tiles), small && words),
  );
}

/** How large a picture of this size is shown, of its full size. */
function shownAt(figure, width, height) {
  const wide = figure.clientWidth || document.documentElement.clientWidth;
  const high = innerHeight * (innerWidth <= NARROW ? 0.5 : 0.72);
  return Math.min(wide / width, high / height);
}

/** Lays things over the pieces: some right above them and under strips and labels, the others above everything, but for the number of the cut that is shown. */
function lay(svg, things, pieces, scale) {
  const tiles = [...svg.children].filter((child) => child.localName === 'rect' && child.firstElementChild?.localName === 'title'); // the pieces first
  const above = tiles[pieces - 1].nextSibling;
  const numbers = svg.querySelectorAll('g');
  svg.insertBefore(hatches(scale), svg.firstChild);
  for (const thing of things) {
    const made = laid(thing, scale);
    if (LOOKS[thing.look]?.under) svg.insertBefore(made, above);
    else svg.append(made);
  }
  svg.append(...things.filter(({ line }) => line).map(({ cut }) => numbers[cut]));
}

function laid({ look, drawn, side, line, word, tap }, scale) {
  if (line) {
    const { vertical, at, from, to } = line;
    const path = vertical ? `M${at} ${from}V${to}` : `M${from} ${at}H${to}`;
    return drawnElement('path', { d: path, stroke: '#b00020', 'stroke-width': 5, fill: 'none', 'vector-effect': 'non-scaling-stroke' });
  }
  const { under, ...looks } = LOOKS[look];
  const rectangle = side ? { ...drawn, [side]: Math.max(drawn[side], TAKEN_PIXELS / scale) } : drawn;
  const made = drawnElement('rect', { ...rectangle, ...looks, 'vector-effect': 'non-scaling-stroke' });
  if (word) made.append(drawnElement('title', {}, word));
  if (tap) tappable(made, word, tap);
  return made;
}

function tappable(made, word, tap) {
  for (const [key, value] of Object.entries({ role: 'button', tabindex: 0, 'aria-label': word, class: 'tap' })) made.setAttribute(key, value);
  made.addEventListener('click', tap);
  made.addEventListener('keydown', (event) => {
    if (event.key !== 'Enter' && event.key !== ' ') return;
    event.preventDefault();
    tap();
  });
}

/** Too small for the labels: the sheet alone, with the numbers of its pieces. (The style hides the labels.) */
function shrink(svg, { sheet, pieces }, scale) {
  svg.setAttribute('viewBox', `${sheet.x - EDGE} ${sheet.y - EDGE} ${sheet.width + 2 * EDGE} ${sheet.height + 2 * EDGE}`);
  svg.querySelectorAll('rect[fill="#555"]').forEach((strip) => strip.firstElementChild ?? strip.remove()); // the legend's
  svg.append(...pieces.flatMap((piece, at) => numberOf(piece, at + 1, scale)));
}

function numberOf({ drawn }, number, scale) {
  const size = NUMBER_PIXELS / scale;
  const text = String(number);
  if (drawn.height < 0.8 * size || drawn.width < 0.65 * size * text.length) return [];
  const [x, y] = [drawn.x + drawn.width / 2, drawn.y + drawn.height / 2 + 0.36 * size];
  return [drawnElement('text', { x, y, 'font-size': size, 'stroke-width': size / 4, class: 'number' }, text)];
}

/** Between the whole picture and its full size, in which it is moved with the finger. */
function sizeButton(figure, large, whole, again) {
  if (!large && whole > ALMOST_FULL) return [];
  const turn = () => {
    figure.dataset.large = large ? 'no' : 'yes';
    again();
  };
  return [element('button', { type: 'button', class: 'size', onclick: turn }, large ? 'Whole picture' : 'Larger picture')];
}

function inWords(figure, pieces, areas, open) {
  const line = (piece) => element('li', {}, `${called(piece)}: ${piece.x} from the left, ${piece.y} from the top`);
  const noted = (event) => (figure.dataset.words = event.target.open ? 'yes' : 'no');
  const isOpen = figure.dataset.words ? figure.dataset.words === 'yes' : open;
  const summary = element('summary', {}, 'The pieces in words');
  const said = areas.length > 0 ? [element('p', { class: 'taken' }, areas.join(' '))] : [];
  return element('details', { open: isOpen, ontoggle: noted }, summary, element('ol', { class: 'pieces' }, ...pieces.map(line)), ...said);
}

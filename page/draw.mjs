// The cut diagram as SVG, the same bytes as the command `nickelgrove draw` writes (docs/DRAWING.md has the rules). All numbers are integers. Small pieces are drawn
// larger where their labels need the room, and the picture says then that it is not to scale.
import { PART, STRUCTURE, VERTICAL } from './frames.mjs';
import { isStrip, nameOf, rowOf, treeOf } from './pieces.mjs';
import { sawn } from './saw.mjs';
import { areasOf, say } from './say.mjs';

const LEFT = 40;
const TOP = 80;
const LONGEST_SIDE = 1000;
const SHORTEST_SIDE = 120;
const FEW_PIECES = 20;
const NARROWEST = 640;
const CUT_COLOUR = '#b00020';
const NUMBER_COLOUR = '#00459e';
const STRIP_COLOUR = '#555';

const whole = (number, divisor) => (number - (number % divisor)) / divisor;
const digits = (number) => String(number).length;
const added = (numbers) => numbers.reduce((sum, number) => sum + number, 0);

/**
 * The picture { svg, pieces, tiles, lines, width, height, sheet }: its text; the pieces and the tiles, each with its drawn rectangle, { x, y, width, height }; of each cut
 * its drawn line; how wide and high it is; and the sheet's own drawn rectangle.
 */
export function draw(nodes, cuts) {
  const made = sawn(nodes, cuts);
  const plan = planOf(nodes, made);
  const tiles = made.tiles.map((tile) => ({ ...tile, drawn: plan.drawn.get(tile.index) }));
  const [pieces, strips] = [tiles.filter((tile) => !isStrip(tile)), tiles.filter(isStrip)];
  const labels = pieces.map((piece, at) => labelled(piece, at + 1, piece.drawn, plan));
  const lines = made.steps.map((step) => lineOf(step, tiles));
  const legend = legendOf(pieces, labels, areasOf(nodes[0], tiles), plan);
  const text = [
    ...headOf(nodes[0], made, plan, legend),
    ...pieces.map((piece, at) => pieceLine(piece, at + 1, piece.drawn)),
    ...strips.map((strip) => stripLine(strip, plan)),
    ...pathOf(lines, plan),
    `<rect x="${LEFT}" y="${TOP}" width="${plan.width}" height="${plan.height}" fill="none" stroke="#000" stroke-width="2"/>`,
    ...labels.flatMap(({ text }) => text),
    ...cutNumbers(lines, say(nodes, cuts).slice(1), plan),
    ...legend.text,
    '</svg>',
  ];
  const sheet = { x: LEFT, y: TOP, width: plan.width, height: plan.height };
  return { svg: text.map((line) => `${line}\n`).join(''), pieces, tiles, lines, width: legend.width, height: legend.height, sheet };
}

// Sizes in the picture.

/** To scale with large labels, if all have room; stretched so that they have, if the pieces are few; else the same with small labels. */
function planOf(nodes, made) {
  const large = planned(nodes, made, 2, false);
  if (!large.tight) return large;
  if (made.pieces.length <= FEW_PIECES) return planned(nodes, made, 2, true);
  const small = planned(nodes, made, 1, false);
  return small.tight ? planned(nodes, made, 1, true) : small;
}

/** Where everything is drawn with a factor of 2 or 1: how large the sheet is, the rectangle of each node and of each strip by its index, and whether it is too tight. */
function planned(nodes, made, k, stretched) {
  const band = k * (9 + Math.max(8, 5 * digits(made.steps.length)));
  const along = 12 * k;
  const across = band + k * (6 * digits(made.pieces.length) + 2) + 5 * k;
  const tree = treeOf(nodes);
  const greater = Math.max(tree.width, tree.height);
  const scaled = (side) => whole(LONGEST_SIDE * side, greater);
  const need = needing(tree, along, across);
  const side = (name) => (stretched ? Math.max(scaled(tree[name]), need[name] + whole(scaled(tree[name]), 2), SHORTEST_SIDE) : scaled(tree[name]));
  const [width, height] = [side('width'), side('height')];
  const plan = { k, band, width, height, stretched, drawn: new Map(), tight: width < Math.max(need.width, SHORTEST_SIDE) || height < Math.max(need.height, SHORTEST_SIDE) };
  if (!plan.tight) spread(tree, { x: LEFT, y: TOP, width, height }, plan);
  return plan;
}

/** The least room in which a node can be drawn, which is noted with it and with all under it. */
function needing(node, along, across) {
  node.need = needOf(node, along, across);
  return node.need;
}

function needOf(node, along, across) {
  if (node.kind !== STRUCTURE) return node.cutOver === VERTICAL ? { width: along, height: across } : { width: across, height: along };
  const needs = rowOf(node).map((tile, at, row) => (isStrip(tile) ? stripNeeding(tile, node.cut, at === row.length - 1 ? along : 0) : needing(tile, along, across)));
  const [widths, heights] = [needs.map(({ width }) => width), needs.map(({ height }) => height)];
  return node.cut === VERTICAL ? { width: added(widths), height: Math.max(...heights) } : { width: Math.max(...widths), height: added(heights) };
}

/** A strip at the end of its row has the number of its cut beside it, and needs room for that; others need none. */
function stripNeeding(strip, cut, room) {
  strip.need = cut === VERTICAL ? { width: room, height: 0 } : { width: 0, height: room };
  return strip.need;
}

/** Gives a node its drawn rectangle, and its children and their strips theirs. */
function spread(node, rectangle, plan) {
  plan.drawn.set(node.index, rectangle);
  const [side, edge] = node.cut === VERTICAL ? ['width', 'x'] : ['height', 'y'];
  const row = rowOf(node);
  const { lengths, fixed } = shared(rectangle[side], row.map((tile) => tile[side]), row.map((tile) => tile.need[side]));
  if (fixed) plan.tight = true;
  let at = rectangle[edge];
  row.forEach((tile, index) => {
    spread(tile, { ...rectangle, [edge]: at, [side]: lengths[index] }, plan);
    at += lengths[index];
  });
}

/** A drawn length among a row, by its true lengths; but each gets what it needs. */
function shared(length, sides, needs) {
  const lengths = sides.map(() => null);
  let [free, total, fixed] = [length, added(sides), false];
  for (;;) {
    const short = sides.flatMap((side, index) => (lengths[index] === null && side * free < needs[index] * total ? [index] : []));
    if (short.length === 0) break;
    fixed = true;
    for (const index of short) {
      lengths[index] = needs[index];
      free -= needs[index];
      total -= sides[index];
    }
  }
  let before = 0;
  sides.forEach((side, index) => {
    if (lengths[index] !== null) return;
    lengths[index] = whole((before + side) * free, total) - whole(before * free, total);
    before += side;
  });
  return { lengths, fixed };
}

// What stands above the pieces, and the pieces themselves.

function headOf(sheet, { pieces, steps }, plan, picture) {
  const { width, height } = plan;
  const cuts = { 0: 'no cut', 1: '1 cut' }[steps.length] ?? `${steps.length} cuts`;
  const head = `Sheet ${sheet.width} x ${sheet.height}: ${pieces.length} ${pieces.length === 1 ? 'piece' : 'pieces'}, ${cuts}`;
  const scale = plan.stretched ? 'Not to scale: narrow pieces are drawn wider.' : 'Drawn to scale.';
  const [cw, ch] = [picture.width, picture.height];
  const middle = TOP + whole(height, 2);
  return [
    `<svg xmlns="http://www.w3.org/2000/svg" width="${cw}" height="${ch}" viewBox="0 0 ${cw} ${ch}" font-family="monospace" font-size="10" text-anchor="middle">`,
    `<title>${head}</title>`,
    '<defs><pattern id="free" width="8" height="8" patternUnits="userSpaceOnUse" patternTransform="rotate(45)"><path d="M4 0V8" stroke="#999"/></pattern></defs>',
    `<rect width="${cw}" height="${ch}" fill="#fff"/>`,
    `<text x="${LEFT}" y="30" font-size="20" text-anchor="start">${head}</text>`,
    `<text x="${LEFT}" y="50" font-size="15" text-anchor="start">${scale}</text>`,
    `<text x="${LEFT + whole(width, 2)}" y="72" font-size="15">${sheet.width}</text>`,
    `<text x="30" y="${middle}" font-size="15" transform="rotate(-90 30 ${middle})">${sheet.height}</text>`,
  ];
}

const sizeOf = ({ width, height }) => `${width} x ${height}`;

function pieceLine(piece, number, { x, y, width, height }) {
  const fill = piece.kind === PART ? '#f6e0b5' : 'url(#free)';
  const words = `${number}: ${nameOf(piece)}, ${sizeOf(piece)}, ${piece.x} from the left, ${piece.y} from the top, level ${piece.level}`;
  return `<rect x="${x}" y="${y}" width="${width}" height="${height}" fill="${fill}"><title>${words}</title></rect>`;
}

/** A strip is seen beside the line of its cut, however narrow it is. */
function stripLine(strip, { k }) {
  const side = strip.cutOver === VERTICAL ? 'width' : 'height';
  const { x, y, width, height } = { ...strip.drawn, [side]: Math.max(strip.drawn[side], 2 * k) };
  const words = `saw: ${sizeOf(strip)}, ${strip.x} from the left, ${strip.y} from the top`;
  return `<rect x="${x}" y="${y}" width="${width}" height="${height}" fill="${STRIP_COLOUR}"><title>${words}</title></rect>`;
}

// The cuts' lines and their numbers.

/** A cut's line, from edge to edge of its board and right behind what is cut off: { vertical, at, from, to }. */
function lineOf({ way, board, piece }, tiles) {
  const [first, last, before] = [board.first, board.last, piece.last].map((at) => tiles[at].drawn);
  return way === VERTICAL
    ? { vertical: true, at: before.x + before.width, from: first.y, to: last.y + last.height }
    : { vertical: false, at: before.y + before.height, from: first.x, to: last.x + last.width };
}

function pathOf(lines, { k }) {
  if (lines.length === 0) return [];
  const path = lines.map(({ vertical, at, from, to }) => (vertical ? `M${at} ${from}V${to}` : `M${from} ${at}H${to}`)).join('');
  return [`<path d="${path}" fill="none" stroke="${CUT_COLOUR}" stroke-width="${k}"/>`];
}

function cutNumbers(lines, sentences, { k }) {
  return lines.map((line, index) => {
    const { x, y, width, height, tx, ty, turn } = numberAt(line, digits(index + 1), k);
    const backdrop = `<rect x="${x}" y="${y}" width="${width}" height="${height}" fill="#fff"/>`;
    const text = `<text x="${tx}" y="${ty}" font-size="${8 * k}" fill="${CUT_COLOUR}"${turn}>${index + 1}</text>`;
    return `<g><title>${sentences[index]}</title>${backdrop}${text}</g>`;
  });
}

/** Where a cut's number stands, near the start of its line, with its backdrop. */
function numberAt({ vertical, at, from }, d, k) {
  const long = 5 * k * d;
  if (!vertical) return { x: from + 8 * k, y: at - 4 * k, width: long, height: 8 * k, tx: from + 8 * k + whole(long, 2), ty: at + 3 * k, turn: '' };
  if (d <= 2) return { x: at - whole(long, 2), y: from + 6 * k, width: long, height: 8 * k, tx: at, ty: from + 13 * k, turn: '' };
  const middle = from + 6 * k + whole(15 * k, 2);
  return { x: at - 4 * k, y: from + 6 * k, width: 8 * k, height: 15 * k, tx: at, ty: middle + 3 * k, turn: turned(at, middle) };
}

const turned = (x, y) => ` transform="rotate(-90 ${x} ${y})"`;

// The labels of the pieces.

/** For a font size: how high two lines are, with a margin, and their baselines below the middle. */
const TWO_LINES = { 20: [52, -5, 19], 15: [40, -4, 14], 10: [28, -2, 9] };
const FONTS = [20, 15, 10];

/** The label of a piece: the lines of its text, and whether it is the number alone. */
function labelled(piece, number, drawn, { k, band }) {
  const [name, size] = [nameOf(piece), sizeOf(piece)];
  const regions = regionsOf(drawn, k, band);
  const both = (font) => {
    const [bh, ...baselines] = TWO_LINES[font];
    return sidesOf({ font, bh, margin: 6, lines: [name, size].map((text, at) => [text, baselines[at]]) });
  };
  const single = sidesOf({ font: 10, bh: 10, margin: 2, lines: [[`${name}, ${size}`, 4]] });
  const alone = sidesOf({ font: 10 * k, bh: 10 * k, margin: 2, lines: [[String(number), 4 * k]], alone: true });
  const tries = [...FONTS.map((font) => [both(font), false]), ...FONTS.map((font) => [both(font), true]), [single, false], [single, true], [alone, false]];
  for (const [label, isTurned] of tries) {
    const region = regions.find((room) => fits(label, room, isTurned));
    if (region) return { alone: label === alone, text: written(piece, label, region, isTurned) };
  }
  return { alone: true, text: written(piece, alone, regions.at(-1), true) };
}

/** Where a label may lie: clear of the cuts' numbers on all sides, or beside or below them. */
function regionsOf({ x, y, width, height }, k, band) {
  const inner = { x: x + band, y: y + band, width: width - 2 * band, height: height - 2 * band };
  const beside = { x: x + band, y: y + k, width: width - band - 5 * k, height: height - 2 * k };
  const below = { x: x + k, y: y + band, width: width - 2 * k, height: height - band - 5 * k };
  return [inner, beside, below];
}

/** A label with its width. */
function sidesOf(label) {
  const longest = Math.max(...label.lines.map(([text]) => text.length));
  return { ...label, bw: longest * whole(6 * label.font, 10) + label.margin };
}

const asItLies = ({ bw, bh }, isTurned) => (isTurned ? [bh, bw] : [bw, bh]);

function fits(label, { width, height }, isTurned) {
  const [wide, high] = asItLies(label, isTurned);
  return wide <= width && high <= height;
}

function written(piece, label, region, isTurned) {
  const [wide, high] = asItLies(label, isTurned);
  const [cx, cy] = [region.x + whole(region.width, 2), region.y + whole(region.height, 2)];
  const backdrop = `<rect x="${cx - whole(wide, 2)}" y="${cy - whole(high, 2)}" width="${wide}" height="${high}" fill="#fff"/>`;
  const style = label.alone ? ` font-style="italic" fill="${NUMBER_COLOUR}"` : '';
  const turn = isTurned ? turned(cx, cy) : '';
  const texts = label.lines.map(([text, baseline]) => `<text x="${cx}" y="${cy + baseline}" font-size="${label.font}"${style}${turn}>${text}</text>`);
  return piece.kind === PART ? texts : [backdrop, ...texts];
}

// The legend, of what the saw takes and of the pieces that have their number alone.

function legendOf(pieces, labels, areas, plan) {
  const width = Math.max(plan.width + 2 * LEFT, NARROWEST);
  const bottom = TOP + plan.height;
  const said = areas.map((line, at) => `<text x="72" y="${bottom + 40 + 24 * at}" font-size="15" text-anchor="start">${line}</text>`);
  const saw = areas.length > 0 ? [`<rect x="${LEFT}" y="${bottom + 28}" width="24" height="12" fill="${STRIP_COLOUR}"/>`, ...said] : [];
  const below = bottom + 24 * areas.length;
  const numbered = pieces.flatMap((piece, at) => (labels[at].alone ? [[at + 1, piece]] : []));
  if (numbered.length === 0) return { width, height: below + 40, text: saw };
  const columns = whole(width - 2 * LEFT, 240);
  const rows = whole(numbered.length + columns - 1, columns);
  const entry = ([number, piece], at) => {
    const [x, y] = [LEFT + 240 * whole(at, rows), below + 64 + 16 * (at % rows)];
    return `<text x="${x}" y="${y}" text-anchor="start"><tspan font-style="italic" fill="${NUMBER_COLOUR}">${number}</tspan> ${nameOf(piece)}, ${sizeOf(piece)}</text>`;
  };
  const head = `<text x="${LEFT}" y="${below + 40}" font-size="15" text-anchor="start">Pieces by their numbers:</text>`;
  return { width, height: below + 40 + 24 + 16 * rows, text: [...saw, head, ...numbered.map(entry)] };
}

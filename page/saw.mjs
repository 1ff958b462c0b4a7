// A simple saw: it runs a list of saw cuts (docs/RULES.md, "Request 3") on a sheet and shows the pile of boards, cut by cut. With each cut it loses what its blade eats.
import { VERTICAL } from './frames.mjs';
import { isStrip, tilesOf, treeOf } from './pieces.mjs';

/**
 * What the cuts make of the sheet. A board is { x, y, width, height, first, last }: it becomes the tiles `first` to `last`, counted from 0, and is done where no cut takes
 * it (`done`); then they are one, its piece. Of each cut there are its board, the one cut off (`piece`) and the one that is left (`rest`), which is null where the blade
 * takes all of that; `strip`, what the blade takes, or null; and the boards that it makes (`made`). `piles` has the pile before each cut and the last one.
 * A list that does not run through, or makes other pieces than the tree's, is an error.
 */
export function sawn(nodes, cuts) {
  const tiles = tilesOf(treeOf(nodes));
  const pieces = tiles.filter((tile) => !isStrip(tile));
  const { width, height } = nodes[0];
  const piles = [[{ x: 0, y: 0, width, height, done: true }]];
  const steps = cuts.map((cut) => {
    const step = cutUp(piles.at(-1), cut);
    piles.push(step.pile);
    return step;
  });
  if (!isMadeOf(piles.at(-1), pieces)) throw new Error('the list of cuts makes other pieces than the tree has');
  numbered(piles.at(-1), steps, tiles);
  return { pieces, tiles, steps, piles };
}

function cutUp(pile, cut) {
  const board = pile[cut.place];
  const [side, edge] = cut.way === VERTICAL ? ['width', 'x'] : ['height', 'y'];
  const left = board ? board[side] - cut.distance - cut.eaten : -1;
  if (cut.distance <= 0 || left < 0 || left + cut.eaten === 0) throw new Error('the list of cuts does not run through');
  board.done = false;
  const slice = (from, length) => ({ ...board, done: true, [edge]: board[edge] + from, [side]: length });
  const piece = slice(0, cut.distance);
  const strip = cut.eaten > 0 ? slice(cut.distance, cut.eaten) : null;
  const rest = left > 0 ? slice(cut.distance + cut.eaten, left) : null;
  const made = rest ? [piece, rest] : [piece];
  return { ...cut, board, piece, strip, rest, made, pile: [...pile.slice(0, cut.place), ...made, ...pile.slice(cut.place + 1)] };
}

/** Gives each board the tiles that it becomes: the last pile's from their places among the pieces, the others from what they were cut into. */
function numbered(last, steps, tiles) {
  const at = tiles.flatMap((tile, index) => (isStrip(tile) ? [] : [index]));
  last.forEach((board, place) => Object.assign(board, { first: at[place], last: at[place] }));
  for (const { board, piece, rest } of [...steps].reverse()) Object.assign(board, { first: piece.first, last: rest ? rest.last : piece.last + 1 });
}

function isMadeOf(pile, pieces) {
  const sides = ['x', 'y', 'width', 'height'];
  return pile.length === pieces.length && pile.every((board, place) => sides.every((side) => board[side] === pieces[place][side]));
}

// The saw cuts in sentences, the same as the command `nickelgrove say` writes them.
import { PART, VERTICAL } from './frames.mjs';
import { isStrip, nameOf } from './pieces.mjs';
import { sawn } from './saw.mjs';

const by = ({ width, height }) => `${width} by ${height}`;

/** The line before the cuts, and one for each cut. */
export function say(nodes, cuts) {
  const made = sawn(nodes, cuts);
  return [headOf(nodes[0], made), ...made.steps.map((step, index) => `${index + 1}. ${sentence(step, made.tiles)}`)];
}

/** A piece, by its name and size. */
export const called = (piece) => (piece.kind === PART ? `${nameOf(piece)}, ${by(piece)}` : `${nameOf(piece)} ${by(piece)}`);

/** Where the area of a sheet goes, in two sentences, if the saw takes some of it; else none. */
export function areasOf(sheet, tiles) {
  const area = (test) => tiles.filter(test).reduce((sum, { width, height }) => sum + width * height, 0);
  const [eaten, used] = [area(isStrip), area(({ kind }) => kind === PART)];
  const whole = sheet.width * sheet.height;
  return eaten > 0 ? [`Of the area ${whole} the saw takes ${eaten}.`, `Panels have ${used} of it, offcuts ${whole - eaten - used}.`] : [];
}

function headOf(sheet, { pieces, tiles, steps }) {
  if (steps.length === 0) return `Sheet ${by(sheet)}: no cut. It is ${called(pieces[0])}.`;
  const cuts = steps.length === 1 ? '1 cut makes' : `${steps.length} cuts make`;
  return [`Sheet ${by(sheet)}: ${cuts} ${pieces.length} ${pieces.length === 1 ? 'piece' : 'pieces'}.`, ...areasOf(sheet, tiles)].join(' ');
}

function sentence({ place, way, distance, eaten, board, piece, rest }, tiles) {
  const told = (made, at) => (made.done ? called(tiles[made.first]) : `board ${at}, ${by(made)}, to cut again`);
  const [cut, from, one, other] = way === VERTICAL ? ['down', 'left', 'Left', 'Right'] : ['across', 'top', 'Above', 'Below'];
  const taken = eaten > 0 ? `; the saw takes ${eaten}` : '';
  const left = rest ? told(rest, place + 2) : 'nothing';
  return `Take board ${place + 1}, ${by(board)}. Cut ${cut}, ${distance} from the ${from}${taken}. ${one}: ${told(piece, place + 1)}. ${other}: ${left}.`;
}

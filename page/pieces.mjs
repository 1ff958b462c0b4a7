// The pieces of a sheet, from the nodes of a tree snapshot: where each lies, and what it is called. A piece is a part or a free piece that has an area. What the saw's
// blade ate lies between them, in strips; pieces and strips are the tiles of the sheet, and fill it.
import { PART, STRUCTURE, VERTICAL } from './frames.mjs';

const STRIP = 'strip'; // the kind of a tile that is none of the snapshot's nodes

/**
 * The tree: each node with x and y, its left and upper edge in the sheet; `cutOver`, the cut that it lies under; `children`, those of it that have an area; and
 * `strip`, what the blade ate behind it, or null. The first child lies where its parent does, and each other one behind the one before and its strip. The index of a
 * strip is that of its node, below 0.
 */
export function treeOf(nodes) {
  const above = []; // for each level, its last node, and where the next child of that lies
  const all = nodes.map((node, index) => {
    const parent = above[node.level - 1];
    const { x, y } = parent ?? { x: 0, y: 0 };
    const here = { ...node, index, x, y, cutOver: parent?.node.cut, children: [], strip: null };
    if (parent) {
      const [side, edge] = parent.node.cut === VERTICAL ? ['width', 'x'] : ['height', 'y'];
      parent[edge] += node[side];
      if (node.eaten > 0) here.strip = { ...here, children: [], kind: STRIP, index: -index, [edge]: parent[edge], [side]: node.eaten };
      parent[edge] += node.eaten;
      if (hasArea(node)) parent.node.children.push(here);
    }
    above[node.level] = { node: here, x, y };
    return here;
  });
  return all[0];
}

const hasArea = ({ width, height }) => width > 0 && height > 0;

/** The children of a node, each with its strip behind it. */
export const rowOf = ({ children }) => children.flatMap((child) => (child.strip ? [child, child.strip] : [child]));

/** The tiles under a node of the tree, in the tree's order. */
export const tilesOf = (node) => (node.kind === STRUCTURE ? rowOf(node).flatMap(tilesOf) : [node]);

export const isStrip = ({ kind }) => kind === STRIP;

/** The pieces under a node of the tree, in the snapshot's order. */
export const piecesOf = (node) => tilesOf(node).filter((tile) => !isStrip(tile));

/** What people call a piece. */
export const nameOf = ({ kind, number }) => (kind === PART ? `panel ${number}` : 'offcut');

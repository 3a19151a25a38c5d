// Where the nodes of a network are: on wide screens in columns from the roots to the right, on narrow ones below one
// another, each further in than what it hangs on. No two of them overlap.

export const HEIGHT = 44;
const ROW = 54;
const BOX = 210;
const COLUMN = 290;
const LEAST_BOX = 150;
const LEAST_GAP = 50;
const LEAST_ROOM = 540;
const INDENT = 22;
const MOST_INDENTS = 6;
const MARGIN = 8;

/** The number of columns of a tree. A node comes after the one that it hangs on. */
function columnsOf(nodes) {
  const layers = new Map();
  for (const node of nodes) layers.set(node.id, (layers.get(node.parent) ?? -1) + 1);
  return 1 + Math.max(0, ...layers.values());
}

/** Gives each node its place and its width. Returns the size of it all. */
export function layOutTree(nodes, room) {
  const below = new Map(nodes.map((node) => [node.id, []]));
  const first = [];
  for (const node of nodes) (below.get(node.parent) ?? first).push(node);
  const columns = columnsOf(nodes);
  const box = Math.min(BOX, (room - 2 * MARGIN - (columns - 1) * LEAST_GAP) / columns);
  const step = Math.min(COLUMN, (room - 2 * MARGIN - box) / Math.max(1, columns - 1));
  const isWide = room >= LEAST_ROOM && box >= LEAST_BOX;
  let row = 0;
  const place = (node, layer) => {
    const own = below.get(node.id);
    node.column = layer;
    if (!isWide || !own.length) {
      node.y = MARGIN + row * ROW;
      row += 1;
    }
    for (const child of own) place(child, layer + 1);
    if (isWide && own.length) node.y = (own[0].y + own.at(-1).y) / 2;
  };
  for (const node of first) place(node, 0);
  for (const node of nodes) {
    node.x = MARGIN + (isWide ? node.column * step : Math.min(node.column, MOST_INDENTS) * INDENT);
    node.width = isWide ? box : room - node.x - MARGIN;
  }
  return {
    isWide, width: isWide ? 2 * MARGIN + (columns - 1) * step + box : room, height: 2 * MARGIN + row * ROW,
  };
}

/** The line between two nodes. Those of one column are joined at their right. */
export function lineBetween(from, to, isWide) {
  const [y0, y1] = [from.y + HEIGHT / 2, to.y + HEIGHT / 2];
  if (!isWide) {
    const x = from.x + INDENT / 2;
    return `M${x} ${from.y + HEIGHT}V${y1}H${to.x}`;
  }
  const x0 = from.x + from.width;
  if (to.column > from.column) {
    const middle = (x0 + to.x) / 2;
    return `M${x0} ${y0}C${middle} ${y0} ${middle} ${y1} ${to.x - 2} ${y1}`;
  }
  const x1 = to.x + to.width;
  const far = Math.max(x0, x1) + 30;
  return `M${x0} ${y0}C${far} ${y0} ${far} ${y1} ${x1 + 2} ${y1}`;
}

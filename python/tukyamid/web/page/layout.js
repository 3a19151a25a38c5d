// Where the keys and the certifications of some paths are in a drawing: rows from the roots down to the target.

export const HEIGHT = 58;
const ROW = HEIGHT + 104;
const MARGIN = 16;
// The widths of boxes, and of what a box and the room beside it take; on a narrow screen they are smaller.
const WIDE = { box: 200, slot: 236, margin: MARGIN };
const NARROW = { box: 120, slot: 146, margin: 18 };
const LEAST_ROOM = 480;

/** Keys with the middle of their tops, certifications with the points of their lines and the middle of their labels. */
export function layOut(paths, room) {
  const { box, slot, margin } = room < LEAST_ROOM ? NARROW : WIDE;
  const target = paths[0].steps.at(-1).target;
  const keys = new Map();
  const edges = gather(paths, keys);
  note(keys, target, 0);
  const rows = [];
  for (const key of keys.values()) (rows[key.far] ??= []).push(key);
  for (const edge of edges) edge.stops = stopsOf(edge, keys, rows);
  order(rows, edges, keys);
  const width = 2 * margin + Math.max(...rows.map((row) => row.length)) * slot - (slot - box);
  rows.forEach((row, far) => row.forEach((one, at) => {
    one.x = width / 2 + (at - (row.length - 1) / 2) * slot;
    one.y = MARGIN + (rows.length - 1 - far) * ROW;
  }));
  for (const edge of edges) trace(edge, edges, keys);
  const height = 2 * MARGIN + (rows.length - 1) * ROW + HEIGHT;
  return { keys: [...keys.values()], edges, target, width, height, box };
}

/** The certifications of all paths, each once, with the amounts of its paths. */
function gather(paths, keys) {
  const edges = new Map();
  for (const [place, path] of paths.entries()) {
    path.steps.forEach((step, at) => {
      note(keys, step.issuer, path.steps.length - at);
      const id = `${step.signature ?? ""} ${step.issuer} ${step.target} ${step.spelled}`;
      const edge = edges.get(id) ?? { step, amounts: [], paths: [] };
      edge.amounts.push(path.amount);
      edge.paths.push(place);
      edges.set(id, edge);
    });
  }
  // A key's own certification of itself would be a line from a box to itself; the list of the paths has it.
  return [...edges.values()].filter((edge) => edge.step.issuer !== edge.step.target);
}

/** A key is as far from the target as its longest way there. */
function note(keys, fpr, far) {
  const known = keys.get(fpr);
  if (!known) keys.set(fpr, { fpr, far });
  else known.far = Math.max(known.far, far);
}

/** A line that passes rows has a place of its own in each, so that it crosses no box. */
function stopsOf(edge, keys, rows) {
  const from = keys.get(edge.step.issuer);
  const to = keys.get(edge.step.target);
  const stops = [];
  for (let far = from.far - 1; far > to.far; far -= 1) {
    const stop = { far };
    stops.push(stop);
    rows[far].push(stop);
  }
  return stops;
}

/** Orders each row by where the lines from it lead, from the target upward. */
function order(rows, edges, keys) {
  const after = new Map();
  for (const edge of edges) {
    const chain = [keys.get(edge.step.issuer), ...edge.stops, keys.get(edge.step.target)];
    chain.slice(0, -1).forEach((one, at) => after.set(one, [...(after.get(one) ?? []), chain[at + 1]]));
  }
  rows.forEach((row, far) => {
    row.forEach((one) => {
      const places = (after.get(one) ?? []).map((next) => next.place ?? 0);
      one.weight = places.reduce((sum, place) => sum + place, 0) / (places.length || 1);
    });
    if (far) row.sort((one, other) => one.weight - other.weight);
    row.forEach((one, at) => { one.place = at - (row.length - 1) / 2; });
  });
}

function trace(edge, edges, keys) {
  const from = keys.get(edge.step.issuer);
  const to = keys.get(edge.step.target);
  const middle = HEIGHT / 2;
  const passed = edge.stops.map((stop) => [stop.x, stop.y + middle]);
  edge.points = [[from.x, from.y + HEIGHT], ...passed, [to.x, to.y - 3]];
  if (edge.stops.length) {
    const stop = edge.stops[Math.floor(edge.stops.length / 2)];
    edge.label = [stop.x, stop.y + middle];
    return;
  }
  // Where several lines end together, labels are near where each begins, and the other way round.
  const meet = edges.filter((one) => one.step.target === edge.step.target).length;
  const part = edges.filter((one) => one.step.issuer === edge.step.issuer).length;
  const [near, far] = meet > 1 ? [0.12, 0.36] : part > 1 ? [0.88, 0.6] : [0.5, 0.48];
  const [begin, end] = [edge.points[0], edge.points.at(-1)];
  edge.label = [begin[0] + (end[0] - begin[0]) * near, begin[1] + (end[1] - begin[1]) * far];
}

// Equal steps of many paths as one: keys that are all between the same two keys are drawn as one box with a count.

const MOST_ALIKE = 5;
const MARK = "fold ";

/** The paths with such keys in the place of one, and which keys that are. */
export function fold(paths) {
  const between = new Map();  // For each key on the way, the keys before and after it.
  for (const { steps } of paths) {
    steps.slice(0, -1).forEach((step, at) => {
      const places = between.get(step.target) ?? new Set();
      between.set(step.target, places.add(`${step.issuer} ${steps[at + 1].target}`));
    });
  }
  const alike = new Map();
  for (const [key, places] of between) {
    if (places.size !== 1 || isRoot(key, paths)) continue;
    const [place] = places;
    alike.set(place, [...(alike.get(place) ?? []), key]);
  }
  const folds = new Map();
  const foldOf = new Map();
  for (const [place, keys] of alike) {
    if (keys.length <= MOST_ALIKE || place.split(" ").some((key) => foldOf.has(key))) continue;
    const id = MARK + keys[0];
    folds.set(id, keys);
    for (const key of keys) foldOf.set(key, id);
  }
  return { paths: folds.size ? paths.map((path) => foldedPath(path, foldOf)) : paths, folds };
}

export const isFold = (id) => id.startsWith(MARK);

const isRoot = (key, paths) => paths.some((path) => path.root === key);

function foldedPath(path, foldOf) {
  return { ...path, steps: path.steps.map((step) => {
    const [issuer, target] = [step.issuer, step.target].map((key) => foldOf.get(key) ?? key);
    return issuer === step.issuer && target === step.target ? step
      : { ...step, issuer, target, signature: MARK, spelled: "", folded: true };
  }) };
}

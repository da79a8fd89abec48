// Lines in pixels. A point is [x, y], with y downwards, and a line is a list of points.

// In pixels: between lines on one street, the least and the most that a street is wide by them, and an arrow.
const GAP = 4, NARROW = 6, WIDE = 30, ARROW = 5;

function distance(a, b) {
  return Math.hypot(b[0] - a[0], b[1] - a[1]);
}

// The straight pieces of a line that have a length.
function pieces(line) {
  return line.slice(1).map((end, at) => [line[at], end]).filter(([a, b]) => distance(a, b) > 0);
}

function reach(line) {
  return pieces(line).reduce((sum, [a, b]) => sum + distance(a, b), 0);
}

// A line moved to its right.
function beside(line, shift) {
  const parts = pieces(line);
  if (shift === 0 || parts.length === 0) return line;
  const sides = parts.map(([a, b]) => [(a[1] - b[1]) / distance(a, b), (b[0] - a[0]) / distance(a, b)]);
  const points = [...parts.map(([a]) => a), parts[parts.length - 1][1]];
  return points.map((point, at) => {
    const before = sides[Math.max(at - 1, 0)], after = sides[Math.min(at, sides.length - 1)];
    // At a bend both pieces move by the shift, but not if it is so sharp that they would meet far away.
    const part = Math.max(1 + before[0] * after[0] + before[1] * after[1], 0.5);
    return [0, 1].map(axis => point[axis] + shift * (before[axis] + after[axis]) / part);
  });
}

// The point after a part of a line, and the direction there as a step of length 1.
function along(line, part) {
  let left = part * reach(line);
  for (const [a, b] of pieces(line)) {
    const step = distance(a, b), direction = [(b[0] - a[0]) / step, (b[1] - a[1]) / step];
    if (left <= step) return {point: [a[0] + left * direction[0], a[1] + left * direction[1]], direction};
    left -= step;
  }
  return {point: line[line.length - 1], direction: [1, 0]};
}

// The corners of an arrow on a line, its tip first. It lies behind the middle, so that those of two directions are apart.
function arrowOn(line) {
  const {point: [x, y], direction: [right, down]} = along(line, 0.6);
  return [[1, 0], [-0.7, 0.8], [-0.7, -0.8]].map(
    ([a, b]) => [x + ARROW * (a * right - b * down), y + ARROW * (a * down + b * right)]
  );
}

// How wide a street is drawn for so many uses, less if it is short.
function widthOf(line, count) {
  return Math.max(NARROW, Math.min(GAP * count + 2.5, reach(line) / 2, WIDE));
}

// The uses of a street, each with its line beside the others, and with its arrow if there is room.
function strokesOf(line, uses) {
  const gap = Math.min(GAP, widthOf(line, uses.length) / Math.max(uses.length, 1));
  return uses.map((use, slot) => {
    const moved = beside(line, gap * (slot - (uses.length - 1) / 2));
    const way = use.forward ? moved : moved.slice().reverse();
    return {use, line: moved, arrow: reach(moved) > 4 * ARROW ? arrowOn(way) : null};
  });
}

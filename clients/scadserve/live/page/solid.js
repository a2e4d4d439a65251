// From a 4OFF text to what the viewer draws and what is said about the solid, exactly.
//
// A plane has the loops around the faces on it, without the ways between these, as `planes` of view/page.py finds them for
// pages of off2html. Numbers are those of JavaScript where all corners are whole, since nothing is rounded then, and otherwise
// BigInts: the same operators work on both, as long as they aren't mixed.

// Decimals of this many places at most are shown as such, and other fractions of this many digits.
const MOST_PLACES = 12;
const MOST_DIGITS = 100;
// A volume with a denominator of more digits is told by a number with a point.
const MOST_DENOMINATOR = 10n ** 1233n;

/** The greatest common divisor of numbers, above 0 where one isn't 0. */
function divisor(...numbers) {
  let found = numbers[0];
  for (let other of numbers.slice(1)) {
    while (other) {
      [found, other] = [other, found % other];
    }
  }
  return found < 0 ? -found : found;
}

/** The determinant of the first three numbers of each. */
function determinant(p, q, r) {
  return p[0] * (q[1] * r[2] - q[2] * r[1]) - p[1] * (q[0] * r[2] - q[2] * r[0]) + p[2] * (q[0] * r[1] - q[1] * r[0]);
}

/** The corners of a 4OFF text, as texts and as numbers, and its faces as numbers of corners. */
function read(text) {
  const lines = text.split("\n");
  const [vertices, faces] = lines[1].split(" ").map(Number);
  const texts = lines.slice(2, 2 + vertices);
  const kind = texts.every((line) => line.endsWith(" 1")) ? Number : BigInt;
  return {
    texts,
    kind,
    corners: texts.map((line) => line.split(" ").map(kind)),
    faces: lines.slice(2 + vertices, 2 + vertices + faces).map((line) => line.split(" ").slice(1).map(Number)),
  };
}

/** The plane of a face through its first three corners: a, b, c and d of ax + by + cz = d, without a common factor. */
function planeOf([first, second, third]) {
  const [x, y, z, w] = first;
  const u = [0, 1, 2].map((axis) => second[axis] * w - first[axis] * second[3]);
  const v = [0, 1, 2].map((axis) => third[axis] * w - first[axis] * third[3]);
  const ahead = [u[1] * v[2] - u[2] * v[1], u[2] * v[0] - u[0] * v[2], u[0] * v[1] - u[1] * v[0]];
  const plane = [...ahead.map((part) => part * w), ahead[0] * x + ahead[1] * y + ahead[2] * z];
  const common = divisor(...plane);
  return plane.map((part) => part / common);
}

/** The ways round the faces on a plane, as pairs of corners, without those that another face there goes the other way. */
function border(faces, count) {
  const ways = new Map();
  for (const face of faces) {
    let from = face[face.length - 1];
    for (const to of face) {
      if (!ways.delete(to * count + from)) {
        ways.set(from * count + to, [from, to]);
      }
      from = to;
    }
  }
  return [...ways.values()];
}

/** The same where a corner of one face may lie inside an edge of another: on each line, what more ways cover the one way. */
function outline(ways, corners, [right, up]) {
  const lines = new Map();
  for (const way of ways) {
    const [p, q] = way.map((corner) => corners[corner]);
    const line = [p[up] * q[3] - p[3] * q[up], p[3] * q[right] - p[right] * q[3], p[right] * q[up] - p[up] * q[right]];
    const common = divisor(...line);
    const sign = (line[0] || line[1]) < 0 ? -common : common;
    const key = line.map((part) => part / sign).join(" ");
    lines.get(key)?.ways.push(way) ?? lines.set(key, { axis: line[1] ? right : up, ways: [way] });
  }
  return [...lines.values()].flatMap((line) => (line.ways.length > 1 ? covered(line, corners) : line.ways));
}

/** What ways on a line leave of one another. */
function covered({ axis, ways }, corners) {
  const ends = [...new Set(ways.flat())].sort((p, q) => {
    const difference = corners[p][axis] * corners[q][3] - corners[q][axis] * corners[p][3];
    return difference < 0 ? -1 : Number(difference > 0);
  });
  const places = new Map(ends.map((corner, at) => [corner, at]));
  const steps = new Int32Array(ends.length);
  for (const [from, to] of ways) {
    const [start, end] = [places.get(from), places.get(to)];
    const by = start < end ? 1 : -1;
    steps[Math.min(start, end)] += by;
    steps[Math.max(start, end)] -= by;
  }
  const left = [];
  let cover = 0;
  for (let at = 0; at + 1 < ends.length; at++) {
    cover += steps[at];
    if (cover) {
      left.push(cover > 0 ? [ends[at], ends[at + 1]] : [ends[at + 1], ends[at]]);
    }
  }
  return left;
}

/** The loops that ways make, each going on where another one ends, without corners at which a loop goes straight on. */
function loopsOf(ways, corners, [right, up]) {
  const onward = new Map();
  for (const [from, to] of ways) {
    onward.get(from)?.push(to) ?? onward.set(from, [to]);
  }
  const loops = [];
  for (const start of onward.keys()) {
    while (onward.get(start).length) {
      const loop = [];
      let corner = start;
      for (let next = onward.get(corner)?.pop(); next !== undefined; next = onward.get(corner)?.pop()) {
        loop.push(corner);
        corner = next;
      }
      loops.push(loop);
    }
  }
  const flat = (corner) => [corners[corner][right], corners[corner][up], corners[corner][3]];
  const isTurn = (loop, at) => {
    const around = [loop.at(at - 1), loop[at], loop[(at + 1) % loop.length]];
    return Boolean(determinant(...around.map(flat)));
  };
  return loops.map((loop) => loop.filter((_, at) => isTurn(loop, at))).filter((loop) => loop.length > 2);
}

/** What the viewer draws of a solid: its planes with loops of corners, and the corners that these have. */
function drawn({ texts, corners, faces }) {
  const groups = new Map();
  for (const face of faces) {
    const plane = planeOf(face.map((corner) => corners[corner]));
    const key = plane.join(" ");
    groups.get(key)?.faces.push(face) ?? groups.set(key, { plane, faces: [face] });
  }
  const numbers = new Map();
  const numbered = (corner) => numbers.get(corner) ?? numbers.set(corner, numbers.size).get(corner);
  const planes = [...groups.values()].map(({ plane, faces: near }) => {
    const axes = plane[2] ? [0, 1] : plane[1] ? [2, 0] : [1, 2];
    const ways = border(near, corners.length);
    const loops = loopsOf(near.length > 1 ? outline(ways, corners, axes) : ways, corners, axes);
    return { ahead: plane.slice(0, 3).join(" "), loops: loops.map((loop) => loop.map(numbered)) };
  });
  return { corners: [...numbers.keys()].map((corner) => texts[corner]), planes };
}

/** over/under, of BigInts, as digits: decimals where they are exact and short, else a fraction or about a number. */
function shown([over, under]) {
  const common = divisor(over, under);
  const [numerator, denominator] = [over / common, under / common];
  for (let places = 0; places <= MOST_PLACES; places++) {
    const scaled = numerator * 10n ** BigInt(places);
    if (scaled % denominator === 0n) {
      const whole = scaled / denominator;
      const digits = `${whole < 0n ? -whole : whole}`.padStart(places + 1, "0");
      const point = places ? `.${digits.slice(-places)}` : "";
      return `${whole < 0n ? "-" : ""}${digits.slice(0, digits.length - places)}${point}`;
    }
  }
  const text = `${numerator}/${denominator}`;
  return text.length <= MOST_DIGITS ? text : `about ${Number((Number(numerator) / Number(denominator)).toPrecision(12))}`;
}

/** The volume as a fraction of BigInts, by tetrahedra from the origin over the faces; a number where that is too long. */
function volume({ corners, faces }) {
  const parts = new Map();
  for (const face of faces) {
    const p = corners[face[0]];
    for (let at = 1; at + 1 < face.length; at++) {
      const [q, r] = [corners[face[at]], corners[face[at + 1]]];
      const under = p[3] * q[3] * r[3];
      parts.set(under, (parts.get(under) ?? under - under) + determinant(p, q, r));
    }
  }
  let [over, under] = [0n, 1n];
  for (const [below, part] of [...parts].map((pair) => pair.map(BigInt))) {
    const common = divisor(under, below);
    over = over * (below / common) + part * (under / common);
    under *= below / common;
    if (under > MOST_DENOMINATOR) {
      return [...parts].reduce((sum, [below, part]) => sum + Number(part) / Number(below), 0) / 6;
    }
  }
  return [over, 6n * under];
}

/** The least and the greatest place along an axis, as fractions of BigInts. */
function range(corners, axis) {
  let [low, high] = [corners[0], corners[0]];
  for (const corner of corners) {
    if (corner[axis] * low[3] < low[axis] * corner[3]) {
      low = corner;
    }
    if (corner[axis] * high[3] > high[axis] * corner[3]) {
      high = corner;
    }
  }
  return [low, high].map((corner) => [BigInt(corner[axis]), BigInt(corner[3])]);
}

/** What is said about a solid of which a unit is this many millimetres: how many faces, how large, and how much is in it. */
function facts(solid, unit) {
  const [over, under = 1n] = unit.split("/").map(BigInt);
  const inMillimetres = ([top, below]) => [top * over, below * under];
  const ranges = [0, 1, 2].map((axis) => range(solid.corners, axis).map(inMillimetres));
  const sides = ranges.map(([[a, b], [c, d]]) => shown([c * b - a * d, b * d])).join(" x ");
  const [low, high] = [0, 1].map((end) => ranges.map((ends) => shown(ends[end])).join(", "));
  const found = volume(solid);
  const isExact = Array.isArray(found);
  const cubed = isExact ? [found[0] * over ** 3n, found[1] * under ** 3n] : found * (Number(over) / Number(under)) ** 3;
  return {
    faces: `${solid.faces.length}`,
    box: sides,
    ends: `(${low}) to (${high})`,
    volume: isExact ? shown(cubed) : `about ${Number(cubed.toPrecision(12))}`,
  };
}

/** A solid by its 4OFF text: what is drawn, as the viewer's `Solid` takes it, and what is told; null where it is empty. */
export function solidOf(text, unit) {
  const solid = read(text);
  return solid.faces.length ? { drawn: { ...drawn(solid), unit }, facts: facts(solid, unit) } : null;
}

// The viewer of off2html and of scadlive: a solid to turn, move and zoom.
//
// It is seen from far away, in parallel, and drawn by a depth buffer of the page's own onto a canvas. So it looks the same in
// each browser, with a graphics card or without, and what is in front is known for each pixel. While it moves, the picture is
// as coarse as is needed to move smoothly; when it rests, it is drawn once more, finely.
//
// Lengths on the screen are in CSS pixels, those of a raster in its own pixels, and all others in units of the solid.

const MOST_MOVING_PIXELS = 1.5e6;
const MOST_RESTING_PIXELS = 6e6;
// A frame of a moving picture is to take this many milliseconds: 50 a second, of which the browser needs some.
const SLOW_FRAME = 20;
const FAST_FRAME = 10;
const COARSEST = 0.35;
// The picture rests when nothing has changed for this many milliseconds.
const REST = 160;
// How near to a corner the pointer takes it.
const REACH = 14;
// What a key turns, in degrees, moves, and zooms.
const TURN = 5;
const STEP = 24;
const ZOOM = 1.25;
// What a pixel of a drag turns, in degrees, and what one of a wheel, or of a pinch on a touchpad, zooms.
const DRAG = 0.4;
const ROLL = 0.0015;
const PINCH = 0.01;
// This many milliseconds are between two looks at the file, and a look is given up after this many.
const WATCH_PAUSE = 1000;
const LONGEST_ANSWER = 10000;
// No corner, and no crossing.
const NOTHING = -1;

// To the left of the viewer and above: right, up and towards the viewer.
const LIGHT = [-0.36, 0.72, 0.59];
const COLOURS = {
  light: { dark: [58, 96, 140], bright: [226, 238, 250], line: [29, 43, 58], marker: "#d9480f" },
  dark: { dark: [38, 62, 92], bright: [166, 196, 228], line: [8, 12, 18], marker: "#ffa94d" },
};
// The degrees of the viewer to the right of the front and above it, by the keys of the standard views.
const VIEWS = { 1: [0, 0], 2: [90, 0], 3: [180, 0], 4: [270, 0], 5: [0, 90], 6: [0, -90] };

/** The number over/under in lowest terms, as text: "7/3", or "2" where it is whole. */
function fraction(over, under) {
  let divisor = over < 0n ? -over : over;
  let rest = under;
  while (rest) {
    [divisor, rest] = [rest, divisor % rest];
  }
  return under === divisor ? `${over / divisor}` : `${over / divisor}/${under / divisor}`;
}

function element(id) {
  return document.getElementById(id);
}

function dot(p, q) {
  return p[0] * q[0] + p[1] * q[1] + p[2] * q[2];
}

/** The direction of three numbers, of any size, with the length 1. */
function direction(numbers) {
  const greatest = Math.max(...numbers.map(Math.abs));
  const scaled = numbers.map((number) => number / greatest);
  const length = Math.hypot(...scaled);
  return scaled.map((number) => number / length);
}

/** How far a depth may be off that a raster keeps, in 24 bits, when it was computed in more of them. */
function rounding(depth) {
  return Math.abs(depth) * 2 ** -22;
}

/** The solid of the page: its exact corners, and its planes with the loops round the faces on them. */
class Solid {
  constructor({ corners, planes, unit }) {
    // Each corner is a text "X Y Z W" of whole numbers, for the point (X/W, Y/W, Z/W). Places are told
    // in millimetres, of which a unit is "N" or "N/D", or in units, and then that is "1".
    this.corners = corners;
    [this.over, this.under = 1n] = unit.split("/").map(BigInt);
    this.points = new Float64Array(3 * corners.length);
    corners.forEach((corner, at) => {
      const [x, y, z, w] = corner.split(" ").map(Number);
      this.points.set([x / w, y / w, z / w], 3 * at);
    });
    this.planes = planes.map(({ ahead, loops }) => ({ ahead: direction(ahead.split(" ").map(Number)), loops }));
    this.edges = this.#edges();
    const { middle, radius } = this.#ball();
    this.middle = middle;
    this.radius = radius;
  }

  /** The middle of the box, and how far a corner is from it at most. */
  #ball() {
    const low = [Infinity, Infinity, Infinity];
    const high = [-Infinity, -Infinity, -Infinity];
    this.points.forEach((place, at) => {
      low[at % 3] = Math.min(low[at % 3], place);
      high[at % 3] = Math.max(high[at % 3], place);
    });
    return {
      middle: low.map((place, axis) => (place + high[axis]) / 2),
      radius: Math.hypot(...low.map((place, axis) => (high[axis] - place) / 2)),
    };
  }

  /**
   * Each edge, as four numbers: its two corners, and the two planes that have it. Where the solid touches itself along an edge,
   * more planes have it, and it comes as often as is needed.
   */
  #edges() {
    const edges = [];
    const open = new Map();
    this.planes.forEach(({ loops }, plane) => {
      for (const loop of loops) {
        let from = loop[loop.length - 1];
        for (const to of loop) {
          const key = Math.min(from, to) * this.corners.length + Math.max(from, to);
          if (open.has(key)) {
            edges[open.get(key)] = plane;
            open.delete(key);
          } else {
            edges.push(from, to, plane, plane);
            open.set(key, edges.length - 1);
          }
          from = to;
        }
      }
    });
    return Int32Array.from(edges);
  }

  /** The place of a corner in words: exactly, and as decimal numbers where fractions are in it. */
  told(corner) {
    const [x, y, z, w] = this.corners[corner].split(" ").map(BigInt);
    const exact = [x, y, z].map((part) => fraction(part * this.over, w * this.under));
    const unit = Number(this.over) / Number(this.under);
    const about = [0, 1, 2].map((axis) => Number((this.points[3 * corner + axis] * unit).toFixed(6)));
    const more = exact.some((part) => part.includes("/")) ? `, about (${about.join(", ")})` : "";
    return `corner (${exact.join(", ")})${more}`;
  }
}

/** Where the viewer is, and what is in the middle of the screen. */
class Camera {
  constructor(solid, [azimuth, elevation]) {
    this.solid = solid;
    this.first = { azimuth, elevation };
    this.reset();
  }

  /** The first view, which shows all of the solid. */
  reset() {
    Object.assign(this, this.first, { centre: [...this.solid.middle], zoom: 1 });
  }

  /** What is kept where the page is loaded again. */
  get state() {
    const { azimuth, elevation, centre, zoom } = this;
    return { azimuth, elevation, centre, zoom };
  }

  set state(state) {
    Object.assign(this, state);
  }

  look(azimuth, elevation) {
    this.azimuth = ((azimuth % 360) + 360) % 360;
    this.elevation = Math.max(-90, Math.min(90, elevation));
  }

  /** The directions to the right, up and towards the viewer. */
  axes() {
    const across = (this.azimuth * Math.PI) / 180;
    const above = (this.elevation * Math.PI) / 180;
    const right = [Math.cos(across), Math.sin(across), 0];
    const towards = [Math.sin(across) * Math.cos(above), -Math.cos(across) * Math.cos(above), Math.sin(above)];
    const up = [-Math.sin(across) * Math.sin(above), Math.cos(across) * Math.sin(above), Math.cos(above)];
    return { right, up, towards };
  }

  /** How many pixels a unit is on a screen of this size. */
  scale({ width, height }) {
    return (this.zoom * 0.46 * Math.min(width, height)) / this.solid.radius;
  }

  /** Moves the solid by this many pixels to the right and down. */
  move(across, down, size) {
    const { right, up } = this.axes();
    const scale = this.scale(size);
    this.centre = this.centre.map((place, axis) => place - (right[axis] * across - up[axis] * down) / scale);
  }

  /** Zooms so that the place this many pixels to the right of the middle and below it stays where it is. */
  magnify(factor, across, down, size) {
    const zoom = Math.max(0.1, Math.min(1e6, this.zoom * factor));
    const rest = 1 - zoom / this.zoom;
    this.zoom = zoom;
    this.move(across * rest, down * rest, size);
  }
}

/** A picture whose pixels know how near they are. */
class Raster {
  width = 0;
  height = 0;
  picture = document.createElement("canvas");
  // The crossings of loops with the lines of pixels, as linked lists: where one is, and the next one of its line.
  #crossings = new Float64Array(1 << 12);
  #next = new Int32Array(1 << 12);
  #count = 0;
  #sorted = new Float64Array(1 << 8);

  /** Makes the picture this large, with nothing in it. */
  clear(width, height) {
    if (width !== this.width || height !== this.height) {
      this.width = this.picture.width = width;
      this.height = this.picture.height = height;
      this.image = new ImageData(width, height);
      this.pixels = new Uint32Array(this.image.data.buffer);
      this.depths = new Float32Array(width * height);
      this.heads = new Int32Array(height).fill(NOTHING);
    }
    this.pixels.fill(0);
    this.depths.fill(-Infinity);
  }

  /** Puts the pixels into the picture. */
  finish() {
    this.picture.getContext("2d").putImageData(this.image, 0, 0);
  }

  /**
   * Paints what the loops of one plane enclose (by the even-odd rule), at the pixels whose middle is inside, unless something
   * nearer is there. `places` has the x, the y and the depth of each corner. By a pixel to the right and down the depth of the
   * plane grows by `across` and `down`.
   */
  fill(loops, places, across, down, colour) {
    const at = 3 * loops[0][0];
    const corner = places[at + 2] - across * (places[at] - 0.5) - down * (places[at + 1] - 0.5);
    this.#count = 0;
    let first = this.height;
    let last = NOTHING;
    for (const loop of loops) {
      let from = 3 * loop[loop.length - 1];
      for (const number of loop) {
        const to = 3 * number;
        const isDown = places[from + 1] < places[to + 1];
        const top = isDown ? from : to;
        const end = isDown ? to : from;
        const begin = Math.max(0, Math.ceil(places[top + 1] - 0.5));
        const stop = Math.min(this.height, Math.ceil(places[end + 1] - 0.5));
        if (begin < stop) {
          first = Math.min(first, begin);
          last = Math.max(last, stop - 1);
          this.#cross(places, top, end, begin, stop);
        }
        from = to;
      }
    }
    for (let y = first; y <= last; y++) {
      const count = this.#sort(y);
      for (let pair = 0; pair + 1 < count; pair += 2) {
        this.#span(y, this.#sorted[pair], this.#sorted[pair + 1], corner + down * y, across, colour);
      }
    }
  }

  /** Notes where the edge between two places crosses the middles of the lines of pixels from `begin` to before `stop`. */
  #cross(places, top, end, begin, stop) {
    const slope = (places[end] - places[top]) / (places[end + 1] - places[top + 1]);
    const start = places[top] + (0.5 - places[top + 1]) * slope;
    if (this.#count + stop - begin > this.#next.length) {
      this.#grow(2 * (this.#count + stop - begin));
    }
    const { heads } = this;
    const crossings = this.#crossings;
    const next = this.#next;
    let count = this.#count;
    for (let y = begin; y < stop; y++) {
      crossings[count] = start + y * slope;
      next[count] = heads[y];
      heads[y] = count++;
    }
    this.#count = count;
  }

  #grow(size) {
    const [crossings, next] = [this.#crossings, this.#next];
    this.#crossings = new Float64Array(size);
    this.#next = new Int32Array(size);
    this.#crossings.set(crossings);
    this.#next.set(next);
  }

  /** Sorts the crossings of a line of pixels, and forgets them: how many there are. */
  #sort(y) {
    let sorted = this.#sorted;
    let count = 0;
    for (let at = this.heads[y]; at !== NOTHING; at = this.#next[at]) {
      if (count === sorted.length) {
        this.#sorted = new Float64Array(2 * count);
        this.#sorted.set(sorted);
        sorted = this.#sorted;
      }
      sorted[count++] = this.#crossings[at];
    }
    this.heads[y] = NOTHING;
    if (count > 24) {
      sorted.subarray(0, count).sort();
      return count;
    }
    for (let at = 1; at < count; at++) {
      const crossing = sorted[at];
      let before = at - 1;
      while (before >= 0 && sorted[before] > crossing) {
        sorted[before + 1] = sorted[before--];
      }
      sorted[before + 1] = crossing;
    }
    return count;
  }

  /** Paints the pixels of a line whose middles are between two places. The depth is given where x is 0. */
  #span(y, left, right, depth, across, colour) {
    const { pixels, depths, width } = this;
    const begin = Math.max(0, Math.ceil(left - 0.5));
    const stop = Math.min(width, Math.ceil(right - 0.5));
    let at = y * width + begin;
    for (let x = begin; x < stop; x++, at++) {
      const here = depth + across * x;
      if (here > depths[at]) {
        depths[at] = here;
        pixels[at] = colour;
      }
    }
  }

  /** Draws a line between two places, this many pixels thick, where nothing is nearer by more than a little. */
  line(places, one, other, thick, colour) {
    const isFlat = Math.abs(places[other] - places[one]) >= Math.abs(places[other + 1] - places[one + 1]);
    const along = isFlat ? 0 : 1;
    const from = places[one + along] <= places[other + along] ? one : other;
    const to = one + other - from;
    const start = places[from + along];
    const length = places[to + along] - start;
    const begin = Math.max(0, Math.floor(start));
    const stop = Math.min(isFlat ? this.width : this.height, Math.ceil(start + length));
    const slope = length > 0 ? (places[to + 1 - along] - places[from + 1 - along]) / length : 0;
    const steep = length > 0 ? (places[to + 2] - places[from + 2]) / length : 0;
    const aside = places[from + 1 - along] - (thick - 1) / 2;
    const nearer = places[from + 2] + thick + 1 + Math.max(rounding(places[from + 2]), rounding(places[to + 2]));
    for (let here = begin; here < stop; here++) {
      const way = here + 0.5 - start;
      const inside = way < 0 ? 0 : way > length ? length : way;
      this.#dot(here, Math.floor(aside + slope * inside), isFlat, nearer + steep * inside, thick, colour);
    }
  }

  /** Paints a bit of a line: this many pixels from one on, downwards where the line is flat, and else to the right. */
  #dot(along, aside, isFlat, depth, thick, colour) {
    const { pixels, depths, width } = this;
    const begin = aside < 0 ? 0 : aside;
    const stop = Math.min(isFlat ? this.height : width, aside + thick);
    for (let side = begin; side < stop; side++) {
      const at = isFlat ? side * width + along : along * width + side;
      if (depth >= depths[at]) {
        pixels[at] = colour;
      }
    }
  }

  /** Whether nothing is nearer than a place by more than a little, in some pixel beside it: whether a corner there is seen. */
  isSeen(x, y, depth) {
    const column = Math.floor(x);
    const row = Math.floor(y);
    // (stays so where no pixel is beside it)
    let farthest = Infinity;
    for (let above = Math.max(0, row - 1); above <= Math.min(this.height - 1, row + 1); above++) {
      for (let left = Math.max(0, column - 1); left <= Math.min(this.width - 1, column + 1); left++) {
        farthest = Math.min(farthest, this.depths[above * this.width + left]);
      }
    }
    return farthest <= depth + 2 + rounding(depth);
  }
}

/** Draws the solid as the camera sees it. */
class Painter {
  #rasters = { moving: new Raster(), resting: new Raster() };
  #nearCorners = null;
  #detail = 1;

  constructor(canvas, solid, camera) {
    this.canvas = canvas;
    this.solid = solid;
    this.camera = camera;
    this.places = new Float64Array(3 * solid.corners.length);
  }

  /** The size of the canvas in CSS pixels. */
  get size() {
    return { width: this.canvas.clientWidth, height: this.canvas.clientHeight };
  }

  /** How many pixels of the screen a CSS pixel is. */
  get ratio() {
    return window.devicePixelRatio || 1;
  }

  /** Draws the solid into a raster: fast where it moves, else fine. */
  draw(isMoving, hasEdges, colours) {
    const began = performance.now();
    const { width, height } = this.size;
    const most = Math.sqrt((isMoving ? MOST_MOVING_PIXELS : MOST_RESTING_PIXELS) / (width * height));
    this.scale = Math.min(most, isMoving ? this.ratio * this.#detail : 2 * this.ratio);
    this.raster = isMoving ? this.#rasters.moving : this.#rasters.resting;
    this.raster.clear(Math.max(1, Math.round(width * this.scale)), Math.max(1, Math.round(height * this.scale)));
    this.#project();
    this.#paint(hasEdges, colours);
    this.raster.finish();
    if (isMoving) {
      this.#adapt(performance.now() - began);
    }
  }

  /** Takes fewer pixels where a frame was slow, and more where it was fast. */
  #adapt(milliseconds) {
    if (milliseconds > SLOW_FRAME) {
      this.#detail = Math.max(COARSEST, this.#detail * 0.85);
    } else if (milliseconds < FAST_FRAME) {
      this.#detail = Math.min(1, this.#detail * 1.05);
    }
  }

  /** Finds the place of each corner in the raster. */
  #project() {
    const { right, up, towards } = this.camera.axes();
    const { centre } = this.camera;
    const scale = this.camera.scale(this.size) * this.scale;
    const { places, raster } = this;
    const { points } = this.solid;
    for (let at = 0; at < points.length; at += 3) {
      const x = scale * (points[at] - centre[0]);
      const y = scale * (points[at + 1] - centre[1]);
      const z = scale * (points[at + 2] - centre[2]);
      places[at] = raster.width / 2 + x * right[0] + y * right[1] + z * right[2];
      places[at + 1] = raster.height / 2 - (x * up[0] + y * up[1] + z * up[2]);
      places[at + 2] = x * towards[0] + y * towards[1] + z * towards[2];
    }
  }

  /** Paints all planes that look to the viewer, and then their edges. */
  #paint(hasEdges, colours) {
    const { right, up, towards } = this.camera.axes();
    const { planes, edges } = this.solid;
    const isNear = Uint8Array.from(planes, ({ ahead }) => dot(ahead, towards) > 1e-7);
    this.near = planes.filter((_, plane) => isNear[plane]);
    this.#nearCorners = null;
    planes.forEach(({ ahead, loops }, plane) => {
      if (isNear[plane]) {
        const seen = [dot(ahead, right), dot(ahead, up), dot(ahead, towards)];
        const shade = Math.max(0, Math.min(1, 0.5 + 0.5 * dot(seen, LIGHT)));
        const colour = colours.dark.map((part, at) => Math.round(part + (colours.bright[at] - part) * shade));
        this.raster.fill(loops, this.places, -seen[0] / seen[2], seen[1] / seen[2], pixel(colour));
      }
    });
    if (hasEdges) {
      const thick = Math.max(1, Math.round(this.scale * 0.9));
      const colour = pixel(colours.line);
      for (let at = 0; at < edges.length; at += 4) {
        if (isNear[edges[at + 2]] || isNear[edges[at + 3]]) {
          this.raster.line(this.places, 3 * edges[at], 3 * edges[at + 1], thick, colour);
        }
      }
    }
  }

  /** Brings the raster onto the canvas, with the axes, and with a ring round a corner that is seen. */
  show(corner, colours) {
    const { canvas, ratio } = this;
    const { width, height } = this.size;
    const [columns, rows] = [Math.round(width * ratio), Math.round(height * ratio)];
    if (canvas.width !== columns || canvas.height !== rows) {
      canvas.width = columns;
      canvas.height = rows;
    }
    const context = canvas.getContext("2d");
    context.setTransform(1, 0, 0, 1, 0, 0);
    context.clearRect(0, 0, columns, rows);
    context.imageSmoothingQuality = this.raster === this.#rasters.moving ? "low" : "high";
    context.drawImage(this.raster.picture, 0, 0, columns, rows);
    context.scale(ratio, ratio);
    this.#drawAxes(context, 44, height - 44, colours.marker);
    if (corner !== NOTHING && this.isSeen(corner)) {
      this.#drawRing(context, corner, colours.marker);
    }
  }

  /** Draws the directions of the axes from a place on. */
  #drawAxes(context, x, y, colour) {
    const { right, up } = this.camera.axes();
    context.lineWidth = 1.5;
    context.strokeStyle = context.fillStyle = colour;
    context.font = "13px system-ui, sans-serif";
    context.textAlign = "center";
    context.textBaseline = "middle";
    ["x", "y", "z"].forEach((name, axis) => {
      context.beginPath();
      context.moveTo(x, y);
      context.lineTo(x + 24 * right[axis], y - 24 * up[axis]);
      context.stroke();
      context.fillText(name, x + 34 * right[axis], y - 34 * up[axis]);
    });
  }

  #drawRing(context, corner, colour) {
    const [x, y] = this.places.subarray(3 * corner);
    context.lineWidth = 2.5;
    context.strokeStyle = colour;
    context.beginPath();
    context.arc(x / this.scale, y / this.scale, 6, 0, 2 * Math.PI);
    context.stroke();
  }

  /** Whether a corner is seen: it has a face that looks to the viewer, and nothing is in front of it. */
  isSeen(corner) {
    this.#nearCorners ??= new Set(this.near.flatMap(({ loops }) => loops.flat()));
    return this.#nearCorners.has(corner) && this.raster.isSeen(...this.places.subarray(3 * corner, 3 * corner + 3));
  }

  /**
   * The corner that is seen nearest to a place on the canvas, within reach; else NOTHING. Of corners that are equally near, up
   * to a pixel, it is the one in front, and of those that are equally far in front the one with the least number.
   */
  cornerAt(x, y) {
    const seen = [];
    for (let corner = 0; corner < this.solid.corners.length; corner++) {
      const [across, down, depth] = this.places.subarray(3 * corner, 3 * corner + 3);
      const distance = Math.hypot(across - x * this.scale, down - y * this.scale);
      if (distance < REACH * this.scale && this.isSeen(corner)) {
        seen.push({ corner, distance, depth });
      }
    }
    const least = Math.min(...seen.map(({ distance }) => distance));
    const near = seen.filter(({ distance }) => distance <= least + 1);
    return near.reduce((one, other) => (other.depth > one.depth + 1 ? other : one), near[0])?.corner ?? NOTHING;
  }
}

/** A colour as a pixel: red, green and blue from the lowest byte on, and nothing to see through. */
function pixel([red, green, blue]) {
  return ((255 << 24) | (blue << 16) | (green << 8) | red) >>> 0;
}

/** The page: what its keys, its buttons and its pointers do. */
class Page {
  #pointers = new Map();
  #isRequested = false;
  #frames = 0;

  /** Shows a solid in this view. Keys are those that are pressed in the `keyed` element. */
  constructor(solid, view, keyed = document) {
    this.solid = solid;
    this.keyed = keyed;
    this.camera = new Camera(solid, view);
    this.canvas = element("view");
    this.painter = new Painter(this.canvas, solid, this.camera);
    this.hasEdges = true;
    this.corner = NOTHING;
    this.isWatching = document.documentElement.dataset.watch === "yes";
    this.prefersDark = window.matchMedia("(prefers-color-scheme: dark)");
    this.isDark = this.prefersDark.matches;
    this.#restore();
    this.#listen();
    this.#showStates();
    this.#draw(false);
    window.setInterval(() => this.isWatching && this.#probe(), WATCH_PAUSE);
  }

  /** Shows another solid in place of this one, from where the viewer is, and as large. */
  replace(solid) {
    this.camera.zoom *= solid.radius / this.solid.radius;
    this.solid = this.camera.solid = solid;
    this.painter = new Painter(this.canvas, solid, this.camera);
    this.corner = NOTHING;
    element("corner").textContent = "";
    this.#draw(false);
  }

  /** Takes the view that the page had before it was loaded again. */
  #restore() {
    const kept = window.history.state;
    if (kept) {
      this.camera.state = kept.view;
      Object.assign(this, kept.switches);
    }
  }

  #keep() {
    const { hasEdges, isDark, isWatching } = this;
    window.history.replaceState({ view: this.camera.state, switches: { hasEdges, isDark, isWatching } }, "");
  }

  #listen() {
    const { canvas } = this;
    this.keyed.addEventListener("keydown", (event) => this.#pressed(event));
    document.querySelectorAll("button[data-key]").forEach((button) => {
      button.addEventListener("click", () => this.#keys[button.dataset.key]());
    });
    canvas.addEventListener("pointerdown", (event) => this.#touched(event));
    canvas.addEventListener("pointermove", (event) => this.#moved(event));
    canvas.addEventListener("pointerup", (event) => this.#left(event));
    canvas.addEventListener("pointercancel", (event) => this.#left(event));
    canvas.addEventListener("pointerleave", (event) => event.pointerType === "mouse" && this.#point(NOTHING));
    canvas.addEventListener("wheel", (event) => this.#rolled(event), { passive: false });
    canvas.addEventListener("dblclick", () => this.#keys.Home());
    canvas.addEventListener("contextmenu", (event) => event.preventDefault());
    new ResizeObserver(() => this.#draw(false)).observe(canvas);
    this.prefersDark.addEventListener("change", ({ matches }) => this.#switch({ isDark: matches }));
    window.addEventListener("message", (event) => this.#answered(event));
    window.addEventListener("beforeunload", () => this.#keep());
  }

  // What each key does, and the button that stands for it.
  #keys = {
    ArrowLeft: () => this.#turn(TURN, 0),
    ArrowRight: () => this.#turn(-TURN, 0),
    ArrowUp: () => this.#turn(0, -TURN),
    ArrowDown: () => this.#turn(0, TURN),
    "Shift+ArrowLeft": () => this.#move(-STEP, 0),
    "Shift+ArrowRight": () => this.#move(STEP, 0),
    "Shift+ArrowUp": () => this.#move(0, -STEP),
    "Shift+ArrowDown": () => this.#move(0, STEP),
    "+": () => this.#magnify(ZOOM, 0, 0),
    "-": () => this.#magnify(1 / ZOOM, 0, 0),
    Home: () => this.#change(() => this.camera.reset()),
    n: () => this.#step(1),
    p: () => this.#step(-1),
    e: () => this.#switch({ hasEdges: !this.hasEdges }),
    d: () => this.#switch({ isDark: !this.isDark }),
    w: () => this.#switch({ isWatching: !this.isWatching }),
    ...Object.fromEntries(
      Object.entries(VIEWS).map(([key, view]) => [key, () => this.#change(() => this.camera.look(...view))]),
    ),
  };

  #pressed(event) {
    if (event.ctrlKey || event.altKey || event.metaKey) {
      return;
    }
    const isArrow = event.key.startsWith("Arrow");
    const key = event.key.length === 1 ? event.key.toLowerCase() : event.key;
    const done = this.#keys[event.shiftKey && isArrow ? `Shift+${key}` : { "=": "+", 0: "Home" }[key] ?? key];
    if (done) {
      event.preventDefault();
      done();
    }
  }

  #turn(across, up) {
    this.#change(() => this.camera.look(this.camera.azimuth + across, this.camera.elevation + up));
  }

  #move(across, down) {
    this.#change(() => this.camera.move(across, down, this.painter.size));
  }

  #magnify(factor, across, down) {
    this.#change(() => this.camera.magnify(factor, across, down, this.painter.size));
  }

  /** Changes what the camera sees: a fast frame follows, and a fine one when nothing changes any more. */
  #change(how) {
    how();
    window.clearTimeout(this.resting);
    this.resting = window.setTimeout(() => this.#draw(false), REST);
    if (!this.#isRequested) {
      this.#isRequested = true;
      window.requestAnimationFrame(() => {
        this.#isRequested = false;
        this.#draw(true);
      });
    }
  }

  /** Draws a frame: a fast one where the solid moves, else a fine one. */
  #draw(isMoving) {
    const { width, height } = this.painter.size;
    if (width && height) {
      this.painter.draw(isMoving, this.hasEdges, this.colours);
      this.painter.show(this.corner, this.colours);
      this.canvas.dataset.frames = ++this.#frames;
      this.canvas.dataset.detail = this.painter.scale.toFixed(2);
    }
  }

  get colours() {
    return COLOURS[this.isDark ? "dark" : "light"];
  }

  /** Switches edges, dark colours or watching on or off. */
  #switch(switches) {
    Object.assign(this, switches);
    this.#showStates();
    this.#draw(false);
  }

  #showStates() {
    document.documentElement.style.colorScheme = this.isDark ? "dark" : "light";
    for (const [key, isOn] of Object.entries({ e: this.hasEdges, d: this.isDark, w: this.isWatching })) {
      document.querySelector(`button[data-key="${key}"]`)?.setAttribute("aria-pressed", isOn);
    }
  }

  /** Tells a corner and marks it; none where it is NOTHING. */
  #point(corner) {
    if (corner !== this.corner) {
      this.corner = corner;
      element("corner").textContent = corner === NOTHING ? "" : this.solid.told(corner);
      this.painter.show(corner, this.colours);
    }
  }

  /** Goes on to the next corner that is seen, or back to the one before. */
  #step(by) {
    const count = this.solid.corners.length;
    const start = this.corner === NOTHING && by < 0 ? 0 : this.corner;
    for (let steps = 1; steps <= count; steps++) {
      const corner = (((start + by * steps) % count) + count) % count;
      if (this.painter.isSeen(corner)) {
        this.#point(corner);
        return;
      }
    }
  }

  #touched(event) {
    this.canvas.setPointerCapture(event.pointerId);
    this.#pointers.set(event.pointerId, { x: event.offsetX, y: event.offsetY });
    this.tapped = this.#pointers.size === 1 ? { x: event.offsetX, y: event.offsetY } : null;
  }

  #moved(event) {
    const [x, y] = [event.offsetX, event.offsetY];
    const before = this.#pointers.get(event.pointerId);
    if (!before) {
      this.#point(this.painter.cornerAt(x, y));
      return;
    }
    if (this.tapped && Math.hypot(x - this.tapped.x, y - this.tapped.y) < 4) {
      return;
    }
    this.tapped = null;
    const other = [...this.#pointers.entries()].find(([id]) => id !== event.pointerId)?.[1];
    if (other) {
      this.#pinched(before, { x, y }, other);
    } else if (event.shiftKey || event.buttons > 1) {
      this.#move(x - before.x, y - before.y);
    } else {
      this.#turn(DRAG * (before.x - x), DRAG * (y - before.y));
    }
    this.#pointers.set(event.pointerId, { x, y });
  }

  /** One of two fingers goes on: the solid moves and grows with them. */
  #pinched(before, now, other) {
    const { width, height } = this.painter.size;
    const [x, y] = [(now.x + other.x) / 2 - width / 2, (now.y + other.y) / 2 - height / 2];
    const grown = Math.hypot(now.x - other.x, now.y - other.y) / Math.hypot(before.x - other.x, before.y - other.y);
    this.#move((now.x - before.x) / 2, (now.y - before.y) / 2);
    if (Number.isFinite(grown) && grown > 0) {
      this.#magnify(grown, x, y);
    }
  }

  #left(event) {
    this.#pointers.delete(event.pointerId);
    if (this.tapped && event.type === "pointerup") {
      this.#point(this.painter.cornerAt(event.offsetX, event.offsetY));
    }
    this.tapped = null;
  }

  #rolled(event) {
    event.preventDefault();
    const { width, height } = this.painter.size;
    const pixels = event.deltaY * [1, 16, height][event.deltaMode];
    // (a pinch on a touchpad comes as a roll with Control, and in smaller steps)
    const grown = Math.exp(-pixels * (event.ctrlKey ? PINCH : ROLL));
    this.#magnify(grown, event.offsetX - width / 2, event.offsetY - height / 2);
  }

  /**
   * Asks for the mark of what the file has now. A page from a file may not read it, but may show it in a frame, where its copy
   * tells the mark.
   */
  #probe() {
    if (document.hidden || (this.frame?.isConnected && Date.now() - this.asked < LONGEST_ANSWER)) {
      return;
    }
    this.frame?.remove();
    this.asked = Date.now();
    this.frame = document.createElement("iframe");
    this.frame.hidden = true;
    this.frame.src = `${window.location.pathname}?mark=${this.asked}`;
    document.body.append(this.frame);
  }

  /** Loads the page again where the file has another mark. */
  #answered({ source, data }) {
    if (this.frame?.isConnected && source === this.frame.contentWindow) {
      this.frame.remove();
      if (data !== document.documentElement.dataset.mark) {
        this.#keep();
        window.location.reload();
      }
    }
  }
}

if (window.parent !== window && window.location.search.startsWith("?mark=")) {
  window.parent.postMessage(document.documentElement.dataset.mark, "*");
} else if (element("solid")) {
  const data = JSON.parse(element("solid").textContent);
  new Page(new Solid(data), data.view);
}

export { Page, Solid };

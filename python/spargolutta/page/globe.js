// The globe in orthographic projection. Floating point here is for drawing alone.
const canvas = document.getElementById("globe"), pen = canvas.getContext("2d");
const RADIAN = Math.PI / 180, CLOSEST = 2e6;
const view = { lon: 0, lat: 0, zoom: 1, x: null, y: null, z: null };
const LINES = [30, 10, 5, 2, 1, 0.5, 0.2, 0.1, 0.05, 0.02, 0.01, 0.005, 0.002, 0.001];

function unit(lon, lat) {
  const a = lon * RADIAN, b = lat * RADIAN;
  return [Math.cos(b) * Math.cos(a), Math.cos(b) * Math.sin(a), Math.sin(b)];
}

const dot = (a, b) => a[0] * b[0] + a[1] * b[1] + a[2] * b[2];
const cross = (a, b) => [a[1] * b[2] - a[2] * b[1], a[2] * b[0] - a[0] * b[2], a[0] * b[1] - a[1] * b[0]];

function normal(a) {
  const size = Math.hypot(...a) || 1;
  return a.map((c) => c / size);
}

// Directions of the view: z towards the eye, x to the right, y up.
function aim() {
  view.z = unit(view.lon, view.lat);
  view.x = unit(view.lon + 90, 0);
  view.y = cross(view.z, view.x);
  view.radius = 0.46 * Math.min(canvas.clientWidth, canvas.clientHeight) * view.zoom;
  view.middle = [canvas.clientWidth / 2, canvas.clientHeight / 2];
}

// Where a direction is on the canvas. What is behind the globe goes to its edge, so that areas close along it.
function project(p) {
  let x = dot(p, view.x), y = dot(p, view.y);
  if (dot(p, view.z) < 0) {
    const size = Math.hypot(x, y) || 1;
    x /= size;
    y /= size;
  }
  return [view.middle[0] + view.radius * x, view.middle[1] - view.radius * y];
}

const isVisible = (p) => dot(p, view.z) >= 0;

// The degrees under a place of the canvas, or null beside the globe.
function degreesAt(px, py) {
  const x = (px - view.middle[0]) / view.radius, y = (view.middle[1] - py) / view.radius;
  const size = x * x + y * y;
  if (size > 1) return null;
  const z = Math.sqrt(1 - size);
  const p = [0, 1, 2].map((k) => x * view.x[k] + y * view.y[k] + z * view.z[k]);
  return { lon: Math.atan2(p[1], p[0]) / RADIAN, lat: Math.atan2(p[2], Math.hypot(p[0], p[1])) / RADIAN };
}

// A side as directions, in pieces short enough to look round.
function arc(a, b) {
  const angle = Math.atan2(Math.hypot(...cross(a, b)), dot(a, b)), pieces = Math.ceil(angle / (3 * RADIAN));
  const found = [];
  for (let k = 1; k <= pieces; k++) {
    const t = k / pieces;
    found.push(normal([0, 1, 2].map((c) => a[c] * Math.sin((1 - t) * angle) + b[c] * Math.sin(t * angle))));
  }
  return found.length ? found : [b];
}

// What is drawn of a zone, worked out once.
function prepare(zone) {
  const points = zone.vertices.map(normal), last = points.length - 1;
  const arcs = points.map((a, i) => [a, ...arc(a, points[i === last ? 0 : i + 1])]);
  const corridors = new Set(zone.corridors), walked = new Map();
  for (const i of corridors) {
    const ends = [points[i], points[i === last ? 0 : i + 1]].map((p) => p.map((c) => c.toFixed(9)).join());
    walked.set(ends.sort().join(" "), arcs[i]); // once, though it is walked out and back: else its dashes fill up
  }
  return { points, known: zone.known.map(normal), all: arcs.flat(),
    border: arcs.filter((_, i) => !corridors.has(i)), corridor: [...walked.values()] };
}

// Whether the place behind the globe is in the zone as drawn: then everything but the path is filled.
function holdsBehind(shape) {
  const from = shape.known[0], to = view.z.map((c) => -c), plane = cross(from, to), last = shape.points.length - 1;
  let inside = true;
  shape.points.forEach((a, i) => {
    const b = shape.points[i === last ? 0 : i + 1], side = cross(a, b);
    const [s1, s2, s3, s4] = [dot(plane, a), dot(plane, b), dot(side, from), dot(side, to)];
    if ((s1 >= 0 && s2 < 0 && s3 < 0 && s4 > 0) || (s1 < 0 && s2 >= 0 && s3 > 0 && s4 < 0)) inside = !inside;
  });
  return inside;
}

function trace(lines, path = new Path2D()) {
  for (const line of lines) {
    let down = false;
    for (const p of line) {
      if (isVisible(p)) {
        const [x, y] = project(p);
        down ? path.lineTo(x, y) : path.moveTo(x, y);
        down = true;
      } else down = false;
    }
  }
  return path;
}

function fill(shape, colour) {
  const path = new Path2D();
  shape.all.forEach((p, i) => {
    const [x, y] = project(p);
    i === 0 ? path.moveTo(x, y) : path.lineTo(x, y);
  });
  path.closePath();
  if (holdsBehind(shape)) path.arc(...view.middle, view.radius, 0, 2 * Math.PI);
  pen.fillStyle = colour;
  pen.fill(path, "evenodd");
}

// Lines of latitude and longitude, finer the nearer.
function graticule() {
  const span = Math.min(90, Math.max(canvas.clientWidth, canvas.clientHeight) / view.radius / 2 / RADIAN * 1.2);
  const wide = span > 45 ? 180 : Math.min(180, span / Math.max(0.02, Math.cos(view.lat * RADIAN))), lines = [];
  const [step, across] = [span, wide].map((size) => LINES.find((line) => 2 * size / line >= 5) || LINES.at(-1));
  const low = Math.max(-90, view.lat - span), high = Math.min(90, view.lat + span);
  for (let lon = Math.ceil((view.lon - wide) / across) * across; lon <= view.lon + wide; lon += across) {
    lines.push(Array.from({ length: 41 }, (_, k) => unit(lon, low + (high - low) * k / 40)));
  }
  for (let lat = Math.ceil(low / step) * step; lat <= high; lat += step) {
    lines.push(Array.from({ length: 81 }, (_, k) => unit(view.lon - wide + 2 * wide * k / 80, lat)));
  }
  return lines;
}

// Stops and their marks: each verdict has a shape and a colour of its own.
const MARKS = {
  inside: { colour: "#00795c", draw: (path, x, y, r) => { path.moveTo(x + r, y); path.arc(x, y, r, 0, 7); } },
  boundary: { colour: "#b26a00", draw: (path, x, y, r) => path.rect(x - r, y - r, 2 * r, 2 * r) },
  outside: { colour: "#5a6b7b", hollow: true,
    draw: (path, x, y, r) => { path.moveTo(x + r, y); path.arc(x, y, r, 0, 7); } },
  refused: { colour: "#b4002f", hollow: true,
    draw: (path, x, y, r) => { path.moveTo(x, y - r); path.lineTo(x + r, y + r); path.lineTo(x - r, y + r);
      path.closePath(); } },
};
const SIZE = 5;

function drawStops() {
  const paths = Object.fromEntries(Object.keys(MARKS).map((kind) => [kind, new Path2D()]));
  const [width, height] = [canvas.clientWidth, canvas.clientHeight];
  for (const stop of stops) {
    if (!stop.shown || !isVisible(stop.at)) continue;
    const [x, y] = project(stop.at);
    if (x < -9 || y < -9 || x > width + 9 || y > height + 9) continue;
    MARKS[stop.kind].draw(paths[stop.kind], x, y, SIZE);
  }
  for (const [kind, mark] of Object.entries(MARKS)) {
    pen.fillStyle = mark.hollow ? "rgba(255,255,255,.75)" : mark.colour;
    pen.strokeStyle = mark.hollow ? mark.colour : "#fff";
    pen.lineWidth = mark.hollow ? 2 : 1;
    pen.fill(paths[kind]);
    pen.stroke(paths[kind]);
  }
}

function drawKnown(shape) {
  pen.strokeStyle = ink;
  pen.lineWidth = 1.5;
  for (const p of shape.known.filter(isVisible)) {
    const [x, y] = project(p);
    pen.beginPath();
    pen.moveTo(x - 6, y); pen.lineTo(x + 6, y); pen.moveTo(x, y - 6); pen.lineTo(x, y + 6);
    pen.stroke();
  }
}

function drawSelected() {
  if (selected === null || !isVisible(selected.at)) return;
  const [x, y] = project(selected.at);
  pen.strokeStyle = ink;
  pen.lineWidth = 2;
  pen.beginPath();
  pen.arc(x, y, 10, 0, 7);
  pen.stroke();
}

// The mark as a small picture for lists.
function markOf(kind) {
  const mark = MARKS[kind], shapes = { boundary: '<rect x="3" y="3" width="8" height="8"',
    refused: '<path d="M7 2 12 12 2 12Z"' };
  const shape = shapes[kind] || '<circle cx="7" cy="7" r="4.5"';
  const paint = mark.hollow ? `fill="none" stroke="${mark.colour}" stroke-width="2"` : `fill="${mark.colour}"`;
  return `<svg class="mark" viewBox="0 0 14 14" aria-hidden="true">${shape} ${paint}/></svg>`;
}

// The stop under a place of the canvas, or null.
function stopAt(x, y) {
  let best = null, least = 12;
  for (const stop of stops) {
    if (!stop.shown || !isVisible(stop.at)) continue;
    const [sx, sy] = project(stop.at), distance = Math.hypot(sx - x, sy - y);
    if (distance < least) [best, least] = [stop, distance];
  }
  return best;
}

// The lists, the answer, and what mouse, finger and keys do.
const COLOURS = ["#0072b2", "#d55e00", "#009e73", "#cc79a7", "#e69f00", "#56b4e9"];
const LISTED = 300;
const style = getComputedStyle(document.documentElement);
const [ink, sea, line] = ["--ink", "--sea", "--line"].map((name) => style.getPropertyValue(name));
const shapes = DATA.zones.map(prepare);
const stops = DATA.stops.map((stop) => ({ ...stop, at: unit(stop.lon / DEGREE, stop.lat / DEGREE), shown: true }));
let selected = null, asked = false;

const text = (value) => String(value).replace(/[&<>"]/g, (c) => `&#${c.charCodeAt(0)};`);
const words = (lon, lat) => `${Math.abs(lon / DEGREE)} ${lon < 0 ? "west" : "east"}, ${Math.abs(lat / DEGREE)} ` +
  (lat < 0 ? "south" : "north");

function draw() {
  asked = false;
  const ratio = window.devicePixelRatio || 1;
  canvas.width = canvas.clientWidth * ratio;
  canvas.height = canvas.clientHeight * ratio;
  pen.setTransform(ratio, 0, 0, ratio, 0, 0);
  aim();
  pen.fillStyle = sea;
  pen.beginPath();
  pen.arc(...view.middle, view.radius, 0, 7);
  pen.fill();
  pen.strokeStyle = line;
  pen.lineWidth = 1;
  pen.stroke();
  pen.stroke(trace(graticule()));
  shapes.forEach((shape, i) => drawZone(shape, COLOURS[i % COLOURS.length]));
  shapes.forEach(drawKnown);
  drawStops();
  drawSelected();
}

function drawZone(shape, colour) {
  fill(shape, colour + "40");
  pen.strokeStyle = colour;
  pen.lineWidth = 2;
  pen.stroke(trace(shape.border));
  pen.lineWidth = 1.2;
  pen.setLineDash([5, 4]);
  pen.stroke(trace(shape.corridor));
  pen.setLineDash([]);
}

function redraw() {
  if (!asked) requestAnimationFrame(draw);
  asked = true;
}

function lineOf(answer) {
  const zone = DATA.zones[answer.zone], what = meaning(answer.number);
  const more = answer.number === 3 ? `, side ${answer.place}` : answer.number < 3 ? `, count ${answer.count}` : "";
  return `<p><b>${answer.number}</b> ${text(what)}${more}: zone ${zone.number}, ${text(zone.name)}</p>`;
}

// Says the answers to a place; those of zones that it is outside of come as one line.
function say(title, lon, lat, answers, known) {
  const held = answers.filter((answer) => answer.number !== 2), out = DATA.zones.length - held.length;
  const rest = out ? `<p>outside of ${held.length ? "the other " : ""}${out} zone${out > 1 ? "s" : ""}</p>` : "";
  document.getElementById("answer").innerHTML = `<p><b>${text(title)}</b><br>${words(lon, lat)}</p>` +
    held.map(lineOf).join("") + (answers.length === 1 && !held.length ? lineOf(answers[0]) : rest) +
    (known ? `<p>${known}</p>` : "");
}

function select(stop, turn) {
  selected = stop;
  if (turn) Object.assign(view, { lon: stop.lon / DEGREE, lat: Math.max(-89, Math.min(89, stop.lat / DEGREE)) });
  say(`${stop.id} ${stop.name}`, stop.lon, stop.lat, stop.answers, stop.moved ? "moved; judged in this page" : "");
  for (const button of document.querySelectorAll("#stops button")) {
    button.setAttribute("aria-current", button.value === String(stop.key));
  }
  redraw();
}

// Asks the library about the place under the mouse or in the middle.
function ask(place) {
  if (place === null) return;
  const lon = Math.round(place.lon * DEGREE), lat = Math.round(place.lat * DEGREE);
  selected = null;
  if (library === null) {
    document.getElementById("answer").innerHTML = `<p>${words(lon, lat)}</p><p>The library is not in this page: only ` +
      "the verdicts on its stops are.</p>";
  } else say("This place", lon, lat, judgeAll(lon, lat), "judged in this page");
  redraw();
}

function move(stop, place) {
  if (place === null || library === null) return;
  stop.lon = Math.round(place.lon * DEGREE);
  stop.lat = Math.round(place.lat * DEGREE);
  stop.at = unit(stop.lon / DEGREE, stop.lat / DEGREE);
  stop.answers = judgeAll(stop.lon, stop.lat).filter((answer) => answer.number !== 2);
  stop.kind = kindOf(stop.answers);
  stop.moved = true;
  select(stop, false);
}

function list() {
  const wanted = document.getElementById("filter").value.toLowerCase(), kind = document.getElementById("kind").value;
  let count = 0;
  const rows = [];
  for (const stop of stops) {
    stop.shown = (!kind || stop.kind === kind) && `${stop.id} ${stop.name}`.toLowerCase().includes(wanted);
    if (stop.shown && count++ < LISTED) {
      rows.push(`<li><button value="${stop.key}">${markOf(stop.kind)}${text(stop.id)} ${text(stop.name)}, ` +
        `${stop.kind}</button></li>`);
    }
  }
  if (count > LISTED) rows.push(`<li><button disabled>and ${count - LISTED} more</button></li>`);
  document.getElementById("stops").innerHTML = rows.join("");
  redraw();
}

function showZone(i) {
  const points = shapes[i].points, middle = normal(points.reduce((sum, p) => sum.map((c, k) => c + p[k]), [0, 0, 0]));
  view.lon = Math.atan2(middle[1], middle[0]) / RADIAN;
  view.lat = Math.asin(Math.max(-1, Math.min(1, middle[2]))) / RADIAN;
  const widest = Math.max(...points.map((p) => Math.hypot(...p.map((c, k) => c - middle[k]))));
  view.zoom = Math.min(CLOSEST, Math.max(1, 0.8 / widest));
  redraw();
}

function listZones() {
  document.getElementById("zones").innerHTML = DATA.zones.map((zone, i) => `<li><button value="${i}">` +
    `<svg class="mark" viewBox="0 0 14 14" aria-hidden="true"><rect x="1" y="3" width="12" height="8" ` +
    `fill="${COLOURS[i % COLOURS.length]}"/></svg>${zone.number} ${text(zone.name)}</button></li>`).join("");
}

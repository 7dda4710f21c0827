// What mouse, finger and keys do, and the start.
const pointers = new Map();
let held = null, travelled = 0, spread = 0;

function turn(dx, dy) {
  view.lon = ((view.lon - dx / view.radius / RADIAN / Math.max(0.1, Math.cos(view.lat * RADIAN)) + 540) % 360) - 180;
  view.lat = Math.max(-89.99, Math.min(89.99, view.lat + dy / view.radius / RADIAN));
  redraw();
}

function zoomBy(factor) {
  view.zoom = Math.max(0.5, Math.min(CLOSEST, view.zoom * factor));
  redraw();
}

canvas.addEventListener("pointerdown", (event) => {
  canvas.focus();
  canvas.setPointerCapture(event.pointerId);
  pointers.set(event.pointerId, [event.offsetX, event.offsetY]);
  held = pointers.size === 1 ? stopAt(event.offsetX, event.offsetY) : null;
  travelled = spread = 0;
});

canvas.addEventListener("pointermove", (event) => {
  const before = pointers.get(event.pointerId);
  if (before === undefined) return;
  const now = [event.offsetX, event.offsetY], dx = now[0] - before[0], dy = now[1] - before[1];
  pointers.set(event.pointerId, now);
  travelled += Math.hypot(dx, dy);
  if (pointers.size === 2) {
    const [a, b] = [...pointers.values()], size = Math.hypot(a[0] - b[0], a[1] - b[1]);
    if (spread > 0) zoomBy(size / spread);
    spread = size;
  } else if (held !== null && library !== null && travelled > 4) move(held, degreesAt(...now));
  else if (held === null) turn(dx, dy);
});

function release(event) {
  if (!pointers.delete(event.pointerId) || event.type !== "pointerup") return;
  if (held !== null) {
    select(held, false);
    if (held.moved) list();
  } else if (travelled <= 4 && pointers.size === 0) ask(degreesAt(event.offsetX, event.offsetY));
  held = null;
}
canvas.addEventListener("pointerup", release);
canvas.addEventListener("pointercancel", release);
canvas.addEventListener("wheel", (event) => {
  event.preventDefault();
  zoomBy(Math.exp(-event.deltaY / 300));
}, { passive: false });

const KEYS = { ArrowLeft: () => turn(40, 0), ArrowRight: () => turn(-40, 0), ArrowUp: () => turn(0, 40),
  ArrowDown: () => turn(0, -40), "+": () => zoomBy(1.5), "=": () => zoomBy(1.5), "-": () => zoomBy(1 / 1.5),
  Enter: () => ask({ lon: view.lon, lat: view.lat }), Home: () => { Object.assign(view, DATA.view); redraw(); } };
canvas.addEventListener("keydown", (event) => {
  if (event.key in KEYS && !event.ctrlKey && !event.metaKey && !event.altKey) {
    event.preventDefault();
    KEYS[event.key]();
  }
});

// Arrow keys go through a list, as in other lists.
for (const id of ["stops", "zones"]) {
  document.getElementById(id).addEventListener("keydown", (event) => {
    const item = event.target.closest("li"), step = { ArrowDown: "next", ArrowUp: "previous" }[event.key];
    if (!item || !step) return;
    event.preventDefault();
    const next = item[step + "ElementSibling"];
    if (next) next.firstElementChild.focus();
  });
}
document.getElementById("stops").addEventListener("click", (event) => {
  const button = event.target.closest("button");
  if (button && !button.disabled) select(stops[Number(button.value)], true);
});
document.getElementById("zones").addEventListener("click", (event) => {
  const button = event.target.closest("button");
  if (button) showZone(Number(button.value));
});
document.getElementById("filter").addEventListener("input", list);
document.getElementById("kind").addEventListener("change", list);
new ResizeObserver(redraw).observe(document.getElementById("room"));

Object.assign(view, DATA.view);
listZones();
list();
loadLibrary().catch(() => { library = null; }).finally(() => {
  document.getElementById("library").textContent = library === null
    ? "Click a stop: its verdict was found when this page was made." : "Click a stop, or any place.";
  document.documentElement.dataset.ready = "yes";
});

// The library as WebAssembly: every verdict on this page is its answer, or one that was written into the page.
const DEGREE = 1e7, REFUSED_POSITION = 31;
const VERDICTS = { 1: "inside", 2: "outside", 3: "boundary" };
let library = null;

function bytesOf(base64) {
  return Uint8Array.from(atob(base64), (c) => c.charCodeAt(0));
}

// Puts the sheets into the library's memory, with room for a position and a point before them.
async function loadLibrary() {
  if (WASM === "") return;
  const { instance } = await WebAssembly.instantiate(bytesOf(WASM), {});
  const calls = instance.exports, room = 256;
  let at = (Number(calls.__heap_base.value) + 15) & ~15;
  const start = at, sheets = DATA.zones.map((zone) => bytesOf(zone.sheet));
  const needed = start + room + sheets.reduce((sum, sheet) => sum + sheet.length, 0);
  calls.memory.grow(Math.max(0, Math.ceil((needed - calls.memory.buffer.byteLength) / 65536)) + 1);
  at += room;
  const placed = sheets.map((sheet) => {
    new Uint8Array(calls.memory.buffer).set(sheet, at);
    at += sheet.length;
    return { at: at - sheet.length, length: sheet.length };
  });
  library = { calls, start, placed };
}

// The point of a position, in ten-millionths of a degree, on a grid: three numbers, or null where it is out of range.
function pointOf(lon, lat, grid) {
  const { calls, start } = library, view = new DataView(calls.memory.buffer);
  view.setInt32(start, lon);
  view.setInt32(start + 4, lat);
  if (calls.spg_points_number(start, 8, grid, start + 16, 12) !== 0) return null;
  const point = [0, 4, 8].map((k) => view.getInt32(start + 16 + k));
  return point.some((c) => c !== 0) ? point : null;
}

// Number, place and count of a position by a zone.
function judge(i, lon, lat) {
  const { calls, placed } = library, point = pointOf(lon, lat, DATA.zones[i].grid);
  if (point === null) return { zone: i, number: REFUSED_POSITION, place: 0, count: 0 };
  const [number, place, count] = ["number", "place", "count"].map(
    (part) => calls["spg_judge_" + part](placed[i].at, placed[i].length, ...point) >>> 0);
  return { zone: i, number, place, count };
}

function meaning(number) {
  if (number in VERDICTS) return VERDICTS[number];
  if (library === null) return "refused";
  const { calls, start } = library, length = calls.spg_meaning_text(number, start, 200);
  return new TextDecoder().decode(new Uint8Array(calls.memory.buffer, start, length));
}

// Answers of all zones to a position.
function judgeAll(lon, lat) {
  return DATA.zones.map((_, i) => judge(i, lon, lat));
}

// The one word for a stop that has these answers: what its mark shows.
function kindOf(answers) {
  for (const [number, kind] of [[3, "boundary"], [1, "inside"]]) {
    if (answers.some((answer) => answer.number === number)) return kind;
  }
  return answers.some((answer) => answer.number > 3) ? "refused" : "outside";
}

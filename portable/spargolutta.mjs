// Spargolutta in JavaScript: an ES module around spargolutta.wasm, which `make wasm` makes of portable/spargolutta.c.
// The types, and what each function is for, stand in spargolutta.d.ts; include/spargolutta.h says what the calls do.
//
//     const library = await load(bytesOrUrl);
//     const sheet = library.open(bytes);
//     sheet.judge(3, 2, 1).verdict;        // 'inside', 'outside' or 'boundary'
//
// Every call puts its arguments into the module's memory from the same place on and keeps nothing there.

const POINT = 12;
const SHEET_MOST = 49319;
const PAGE = 65536;
const VERDICTS = [undefined, 'inside', 'outside', 'boundary'];

/** A refusal: its number and place, and what the number means. */
export class Refusal extends Error {
  constructor(number, place, meaning) {
    super(`${number} at ${place}: ${meaning}`);
    this.name = 'Refusal';
    this.number = number;
    this.place = place;
    this.meaning = meaning;
  }
}

/** Bytes, a module, or where to get it. */
export async function load(source = new URL('spargolutta.wasm', import.meta.url)) {
  let module = source;
  if (source instanceof URL || typeof source === 'string') module = await (await fetch(source)).arrayBuffer();
  if (!(module instanceof WebAssembly.Module)) module = await WebAssembly.compile(module);
  return new Library((await WebAssembly.instantiate(module, {})).exports);
}

// Big-endian numbers, as in sheets, queries and results.
function packed(numbers) {
  const bytes = new Uint8Array(4 * numbers.length);
  const view = new DataView(bytes.buffer);
  numbers.forEach((number, i) => view.setInt32(4 * i, number));
  return bytes;
}

function whole(number, what) {
  if (!Number.isInteger(number) || number < -(2 ** 31) || number >= 2 ** 31) {
    throw new RangeError(`${what} is not a whole number of 32 bits: ${number}`);
  }
  return number;
}

// Ten-millionths of a degree. What is finer is rounded to the nearest.
function tenMillionths(degrees, what) {
  return whole(Math.round(degrees * 1e7), what);
}

export class Library {
  /** The module's exports as they are: spg_judge_number and its likes, with addresses in `memory`. */
  constructor(exports) {
    this.calls = exports;
    this.start = exports.__heap_base.value;
  }

  // Puts byte arrays and free rooms (numbers) one after the other. The addresses.
  lay(...parts) {
    const sizes = parts.map((part) => (typeof part === 'number' ? part : part.length));
    const end = this.start + sizes.reduce((sum, size) => sum + size + 8, 0);
    const { memory } = this.calls;
    if (end > memory.buffer.byteLength) memory.grow(Math.ceil((end - memory.buffer.byteLength) / PAGE));
    const bytes = new Uint8Array(memory.buffer);
    let at = this.start;
    return parts.map((part, i) => {
      const address = at;
      if (typeof part !== 'number') bytes.set(part, address);
      at += sizes[i] + 8;
      return address;
    });
  }

  taken(address, length) {
    return new Uint8Array(this.calls.memory.buffer).slice(address, address + length);
  }

  meaning(number) {
    const [text] = this.lay(100);
    const length = this.calls.spg_meaning_text(number, text, 100) >>> 0;
    return new TextDecoder().decode(this.taken(text, length));
  }

  refuse(number, place) {
    throw new Refusal(number, place >>> 0, this.meaning(number));
  }

  /** A sheet that is good; any other is refused. */
  open(bytes) {
    const [sheet] = this.lay(bytes);
    const { calls } = this;
    const part = (name) => calls['spg_sheet_' + name](sheet, bytes.length);
    const number = part('number') >>> 0;
    if (number !== 0) this.refuse(number, part('place'));
    const point = (name) => ['_x', '_y', '_z'].map((axis) => part(name + axis));
    const second = point('second');
    const at = part('name_place') >>> 0;
    return new Sheet(this, bytes.slice(), {
      zone: part('zone') >>> 0,
      charset: part('charset') >>> 0,
      name: bytes.slice(at, at + (part('name_length') >>> 0)),
      known: point('known'),
      second: second.some((coordinate) => coordinate !== 0) ? second : null,
      grid: part('grid') >>> 0,
      vertices: part('vertices') >>> 0,
    });
  }

  /** The point of a position in degrees, on the coarse grid. */
  point(longitude, latitude) {
    const position = [tenMillionths(longitude, 'longitude'), tenMillionths(latitude, 'latitude')];
    const number = this.calls.spg_point_number(...position) >>> 0;
    if (number !== 0) this.refuse(number, 0);
    return ['x', 'y', 'z'].map((axis) => this.calls['spg_point_' + axis](...position));
  }

  /** Many positions on either grid, by one call; one that is out of range becomes 0, 0, 0. */
  points(positions, grid = 0) {
    const bytes = packed(positions.flatMap(([longitude, latitude]) => [
      tenMillionths(longitude, 'longitude'), tenMillionths(latitude, 'latitude')]));
    const room = POINT * positions.length;
    const [degrees, points] = this.lay(bytes, room);
    const number = this.calls.spg_points_number(degrees, bytes.length, grid, points, room) >>> 0;
    if (number !== 0) this.refuse(number, this.calls.spg_points_place(degrees, bytes.length, grid, room));
    const view = new DataView(this.taken(points, room).buffer);
    return positions.map((_, i) => [0, 4, 8].map((axis) => view.getInt32(POINT * i + axis)));
  }

  /** The sheet of a GeoJSON Polygon, with its parts. */
  import(text, { zone, charset = 1, name, known }) {
    const bytes = [new TextEncoder().encode(text), typeof name === 'string' ? new TextEncoder().encode(name) : name];
    const [from, label, sheet] = this.lay(...bytes, SHEET_MOST);
    const parts = [from, bytes[0].length, whole(zone | 0, 'zone'), charset, label, bytes[1].length,
      ...known.map((coordinate) => whole(coordinate, 'known'))];
    const number = this.calls.spg_import_number(...parts, sheet, SHEET_MOST) >>> 0;
    const place = this.calls.spg_import_place(...parts, SHEET_MOST) >>> 0;
    if (number !== 0) this.refuse(number, place);
    return this.taken(sheet, place);
  }
}

export class Sheet {
  constructor(library, bytes, parts) {
    this.library = library;
    this.bytes = bytes;
    Object.assign(this, parts);
  }

  /** The answer to one query. A query that is refused (17, 18) is thrown. */
  judge(x, y, z) {
    const [answer] = this.feed([[x, y, z]]);
    if (answer.verdict === undefined) this.library.refuse(answer.number, answer.place);
    return answer;
  }

  /** The answers to many queries; one that is refused has no verdict. */
  feed(queries) {
    const bytes = packed(queries.flatMap((query) => query.map((coordinate) => whole(coordinate, 'query'))));
    if (bytes.length !== POINT * queries.length) throw new RangeError('a query is not three numbers');
    const [sheet, from, to] = this.library.lay(this.bytes, bytes, bytes.length);
    const { calls } = this.library;
    const number = calls.spg_feed_number(sheet, this.bytes.length, from, bytes.length, to, bytes.length) >>> 0;
    if (number !== 0) {
      this.library.refuse(number, calls.spg_feed_place(sheet, this.bytes.length, from, bytes.length, bytes.length));
    }
    const view = new DataView(this.library.taken(to, bytes.length).buffer);
    return queries.map((_, i) => {
      const [first, place, count] = [0, 4, 8].map((part) => view.getUint32(POINT * i + part));
      return { number: first, place, count, verdict: VERDICTS[first] };
    });
  }
}

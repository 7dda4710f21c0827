// The ES module under node: `node portable/wasm/test.mjs`, after `make wasm`. Expected values are document 01's octant
// and what the header's table says.
import assert from 'node:assert/strict';
import { readFileSync, statSync } from 'node:fs';
import { load, Refusal } from '../spargolutta.mjs';

const file = (name) => new URL(`../../${name}`, import.meta.url);
const wasm = readFileSync(file('target/wasm/spargolutta.wasm'));
assert.equal(WebAssembly.Module.imports(new WebAssembly.Module(wasm)).length, 0);
assert.ok(statSync(file('target/wasm/spargolutta.wasm')).size < 84000);

const library = await load(wasm);
const octant = new Uint8Array(readFileSync(file('sample/octant/zone.sheet')));
const sheet = library.open(octant);
assert.deepEqual([sheet.grid, sheet.vertices, sheet.known, sheet.second], [0, 3, [1, 1, 1], null]);

// The octant's four queries and lines.
const queries = [[3, 2, 1], [1, 1, 0], [1, 1, -1], [-1, -1, -1]];
const lines = ['1 0 0', '3 0 0', '2 0 1', '18 0 0'];
const answers = sheet.feed(queries);
assert.deepEqual(answers.map((a) => `${a.number} ${a.place} ${a.count}`), lines);
assert.equal(sheet.judge(3, 2, 1).verdict, 'inside');
assert.deepEqual(sheet.judge(1, 1, 0), answers[1]);
assert.equal(sheet.judge(1, 1, -1).verdict, 'outside');

// Refusals say number, place and meaning.
const refused = (action, number, place, meaning) => assert.throws(action, (error) => error instanceof Refusal
  && error.number === number && error.place === place && error.meaning === meaning);
refused(() => sheet.judge(-1, -1, -1), 18, 0, 'query opposite the known point');
refused(() => sheet.judge(0, 0, 0), 17, 0, 'query beyond the grid or all zero');
refused(() => library.open(new Uint8Array(0)), 20, 0, 'sheet cut short');
refused(() => library.open(octant.with(0, 9)), 21, 0, 'wrong tag in the sheet');
refused(() => library.point(181, 0), 31, 0, 'latitude past 90 or longitude past 180 degrees');
assert.throws(() => sheet.judge(0.5, 1, 1), RangeError);
assert.throws(() => sheet.feed([[1, 2]]), RangeError);

// Degrees: multiples of 90 degrees are exact.
assert.deepEqual(library.point(0, 0), [1048576, 0, 0]);
assert.deepEqual(library.point(90, 0), [0, 1048576, 0]);
assert.deepEqual(library.point(0, -90), [0, 0, -1048576]);
if ('spg_points_number' in library.calls) {
  const positions = [[12.5, 41.25], [0, 90], [200, 0], [-180, 0]];
  assert.deepEqual(library.points(positions).map((point, i) => (i === 2 ? point : library.point(...positions[i]))),
    library.points(positions));
  assert.deepEqual(library.points(positions)[2], [0, 0, 0]);
  assert.deepEqual(library.points(positions, 1)[1], [0, 0, 67108864]);
  refused(() => library.points(positions, 2), 28, 0, 'grid mixed or unknown');
}

// An import: a degree's square, judged from its middle; more queries than a short feed has.
const ring = [[3, 50], [4, 50], [4, 51], [3, 51], [3, 50]];
const text = JSON.stringify({ type: 'Polygon', coordinates: [ring] });
const known = library.point(3.51, 50.49);
const square = library.open(library.import(text, { zone: 7, name: 'Øst', known }));
assert.deepEqual([square.zone, square.vertices, new TextDecoder().decode(square.name)], [7, 4, 'Øst']);
const stops = Array.from({ length: 300 }, (_, i) => library.point(2.5 + i / 150, 50.3));
const inside = square.feed(stops).map((answer) => answer.verdict === 'inside');
inside.forEach((is, i) => assert.equal(is, i > 75 && i < 225, `stop ${i}`));
refused(() => library.import(text.replace('Polygon', 'Point'), { zone: 7, name: 'A', known }), 30, 11,
  'not one GeoJSON Polygon of the kind that is read');
console.log(`wasm: ${wasm.length} bytes, the ES module's tests passed under node`);

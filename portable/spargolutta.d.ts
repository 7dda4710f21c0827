// Types of spargolutta.mjs. Points are whole numbers on the sheet's grid; include/spargolutta.h has the numbers' table.

export type Point = [x: number, y: number, z: number];
export type Verdict = 'inside' | 'outside' | 'boundary';

/** What a call refuses with: a number of the header's table, its place, and what the number means. */
export class Refusal extends Error {
  readonly number: number;
  readonly place: number;
  readonly meaning: string;
}

export interface Answer {
  readonly number: number;
  readonly place: number;
  readonly count: number;
  /** undefined where the query was refused (17, 18) */
  readonly verdict: Verdict | undefined;
}

export interface Parts {
  zone: number;
  /** 1 UTF-8, 2 ISO 8859-7, 3 windows-1253 */
  charset?: number;
  /** a text is written as UTF-8 */
  name: string | Uint8Array;
  /** a point inside, on the coarse grid */
  known: Point;
}

/** A sheet that was read and is good. It needs no closing. */
export class Sheet {
  readonly bytes: Uint8Array;
  readonly zone: number;
  readonly charset: number;
  readonly name: Uint8Array;
  readonly known: Point;
  readonly second: Point | null;
  /** 0 coarse, 1 fine */
  readonly grid: 0 | 1;
  /** how many there are */
  readonly vertices: number;
  /** Throws a Refusal where the query is refused. */
  judge(x: number, y: number, z: number): Answer & { readonly verdict: Verdict };
  /** One answer for each query; one that is refused has no verdict and spoils no other. */
  feed(queries: readonly Point[]): Answer[];
}

export class Library {
  /** The calls of the header, by their names; pointers are addresses in calls.memory, 64-bit results are bigint. */
  readonly calls: WebAssembly.Exports;
  /** Throws a Refusal where the sheet is refused. */
  open(bytes: Uint8Array): Sheet;
  /** The point of a position in degrees, on the coarse grid; degrees are rounded to ten-millionths. Throws 31. */
  point(longitude: number, latitude: number): Point;
  /** Many at once, on either grid; a position that is out of range becomes [0, 0, 0]. */
  points(positions: readonly (readonly [longitude: number, latitude: number])[], grid?: 0 | 1): Point[];
  /** A sheet from a GeoJSON Polygon, on the coarse grid. Throws a Refusal. */
  import(text: string, parts: Parts): Uint8Array;
  /** A short English text for a number of the header's table. */
  meaning(number: number): string;
}

/** From the bytes of spargolutta.wasm, a compiled module, or where it is; without any, from beside this file. */
export function load(source?: BufferSource | WebAssembly.Module | URL | string): Promise<Library>;

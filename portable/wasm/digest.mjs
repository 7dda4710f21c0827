// digest.mjs SEED ROUNDS: the digest, in WebAssembly. The library is spargolutta.wasm as users get it; the digest is a
// module of its own above it in the same memory, and calls it as its imports. In a browser the page gives both modules.

export async function digest(library, above, seed, rounds) {
  const { exports: calls } = await WebAssembly.instantiate(library, {});
  const wanted = WebAssembly.Module.imports(above).find((one) => one.kind === 'memory');
  if (wanted === undefined || WebAssembly.Module.imports(library).length !== 0) throw new Error('modules');
  calls.memory.grow(256);
  const { exports } = await WebAssembly.instantiate(above, { env: calls });
  const bytes = new Uint8Array(calls.memory.buffer);
  const start = exports.digest_text(seed, rounds);
  return new TextDecoder().decode(bytes.slice(start, bytes.indexOf(0, start)));
}

if (typeof process !== 'undefined' && process.argv[1]?.endsWith('digest.mjs')) {
  const { readFileSync } = await import('node:fs');
  const file = (name) => new WebAssembly.Module(readFileSync(new URL(`../../target/wasm/${name}`, import.meta.url)));
  const [seed, rounds] = process.argv.slice(2).map(Number);
  process.stdout.write(await digest(file('spargolutta.wasm'), file('digest.wasm'), seed, rounds));
}

import { Reactive, engine, notCompiled } from './core.js';
export { CODES, LIMITS, LINE_WORDS, MOST_LINES, NONE, ROW_WORDS, Reactive, Refusal, instantiate } from './core.js';

export async function load(source = new URL('./reactive.wasm', import.meta.url)) {
  const { WebAssembly, fetch, Response } = engine();
  source = await source;
  if (source instanceof URL || typeof source === 'string') {
    const from = String(source);
    if (typeof fetch !== 'function') throw new Error(`this engine has no fetch to load ${from}: hand over the bytes of the module`);
    try { source = await fetch(source); } catch (cause) { throw new Error(`${from} cannot be loaded: ${cause?.message}`, { cause }); }
  }
  if (typeof Response === 'function' && source instanceof Response) {
    if (!source.ok) throw new Error(`${source.url} cannot be loaded: status ${source.status}`);
    source = await source.arrayBuffer();
  }
  if (source instanceof WebAssembly.Module) return new Reactive(source);
  if (!ArrayBuffer.isView(source) && !/^\[object (Shared)?ArrayBuffer\]$/.test(Object.prototype.toString.call(source))) {
    throw new TypeError('load: the address of the module, a Response, its bytes, or a WebAssembly.Module');
  }
  try { return new Reactive(await WebAssembly.compile(source)); } catch (cause) { throw notCompiled(cause); }
}

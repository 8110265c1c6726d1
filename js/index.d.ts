import { Reactive } from './core.js';
export * from './core.js';
/** Without an argument: the module `reactive.wasm` beside this file. Else its address, a response with it, its bytes, or the module
 * compiled. */
export function load(source?: URL | string | Response | PromiseLike<Response> | BufferSource | WebAssembly.Module): Promise<Reactive>;

import { Reactive } from './core.js';
export * from './core.js';
/** Ready without `await`: the module is in this file, and is compiled at the first call. */
declare const reactive: Reactive;
export default reactive;

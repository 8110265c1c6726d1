// Why there is no answer: a code and a place of the proved functions, and the sentences of docs/FORMAT.md for them.
import { CODES } from './codes.js';
export { CODES };

export class Refusal extends Error {
  constructor(code, at) {
    const { constant = 'UNKNOWN', counts = null, sentence = 'No code of this library.', advice = '' } = CODES[code] ?? {};
    super(counts === null ? `${code}: ${sentence}` : `${code} at ${counts} ${at}: ${sentence}`);
    this.name = 'Refusal';
    this.code = code;
    this.at = at;
    this.unit = counts;
    this.constant = constant;
    this.sentence = sentence;
    this.advice = advice;
  }
}

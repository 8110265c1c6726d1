/** A value as the text of a script element that is not run: nothing in it ends the element. */
export const data = value => JSON.stringify(value).replace(/</g, '\\u003c');

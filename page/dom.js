// Elements without markup: a text is a text, whatever stands in it. The page's policy allows no innerHTML.
const SVG = new Set(['svg', 'g', 'path', 'rect', 'text']);

/** An element: attributes (`class`, `data-r`, a listener `onclick`; one that is null or false is left out), then children and texts. */
export function el(name, attributes = {}, ...children) {
  const element = SVG.has(name) ? document.createElementNS('http://www.w3.org/2000/svg', name) : document.createElement(name);
  for (const [key, value] of Object.entries(attributes)) if (value !== null && value !== undefined
    && value !== false) element.setAttribute(key, value === true ? '' : value);
  element.append(...children.flat(Infinity).filter(child => child !== null && child !== undefined));
  return element;
}
/** A title within an SVG element, which a pointer shows. */
export function title(text) {
  const element = document.createElementNS('http://www.w3.org/2000/svg', 'title');
  element.textContent = text;
  return element;
}
export const one = (selector, within = document) => within.querySelector(selector);
export const all = (selector, within = document) => [...within.querySelectorAll(selector)];

// Elements of the document, and numbers as text.

const NS = 'http://www.w3.org/2000/svg';

/* Gives an element its attributes, its listeners and its content. Every string goes in as a text node, so that no input is ever
   read as markup. What is null, undefined, false or 0 is left out. */
function filled(element, attributes, content) {
  for (const [name, value] of Object.entries(attributes || {})) {
    if (typeof value === 'function') element.addEventListener(name, value);
    else if (value !== null && value !== undefined && value !== false) element.setAttribute(name, value);
  }
  element.append(...content.flat(9).filter(one => one !== null && one !== undefined && one !== false && one !== 0));
  return element;
}
export const html = (tag, attributes, ...content) => filled(document.createElement(tag), attributes, content);
export const svg = (tag, attributes, ...content) => filled(document.createElementNS(NS, tag), attributes, content);
/** @type {(id: string) => any} */
export const byId = id => document.getElementById(id);

export const seconds = microseconds => (microseconds / 1e6).toFixed(6);
export function duration(microseconds) {
  if (microseconds >= 1e6) return `${Math.round(microseconds / 1e3) / 1e3} s`;
  return microseconds >= 1e4 ? `${Math.round(microseconds / 100) / 10} ms` : `${microseconds} µs`;
}
export const counted = (count, what, several = `${what}s`) => `${count} ${count === 1 ? what : several}`;
export const shortened = (text, most) => (text.length > most ? `${text.slice(0, Math.max(most - 1, 0))}…` : text);

/* A table: with a head, or with the first cell of each row as its head. */
export function table(rows, head) {
  const cell = (value, index) => {
    if (index === 0 && !head) return html('th', { scope: 'row' }, value);
    const content = value instanceof Node || Array.isArray(value) ? value : String(value ?? '');
    return html('td', typeof value === 'number' ? { class: 'number' } : {}, content);
  };
  return html(
    'table', {},
    head && html('tr', {}, head.map(name => html('th', { scope: 'col' }, name))),
    rows.map(row => html('tr', {}, row.map(cell))),
  );
}
export const link = (text, act) => html('button', { class: 'link', click: act }, text);

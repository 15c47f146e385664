// Making elements, and bringing what is shown to what is to be shown.

/** @typedef {Record<string, string | number | null>} Attributes */

/**
 * @template {Element} T
 * @param {T} node @param {Attributes} attributes @param {(Node | string)[]} children @returns {T}
 */
function filled(node, attributes, children) {
  for (const [key, value] of Object.entries(attributes)) if (value !== null) node.setAttribute(key, String(value));
  node.append(...children);
  return node;
}

/**
 * An element of SVG.
 * @type {(name: string, attributes?: Attributes, children?: (Node | string)[]) => SVGElement}
 */
export const make = (name, attributes = {}, children = []) =>
  filled(/** @type {SVGElement} */ (document.createElementNS("http://www.w3.org/2000/svg", name)), attributes, children);

/**
 * An element of HTML, with a text or other nodes in it.
 * @type {(name: string, text: string | null, attributes?: Attributes, children?: (Node | string)[]) => HTMLElement}
 */
export const element = (name, text, attributes = {}, children = []) =>
  filled(document.createElement(name), attributes, text === null ? children : [text, ...children]);

/**
 * Makes the children of a node the given ones, and leaves those alone that are so already: a step moves few tiles.
 * @param {Element} parent @param {Node[]} wanted
 */
export function showIn(parent, wanted) {
  const shown = [...parent.childNodes];
  wanted.forEach((node, place) => {
    if (place < shown.length) become(shown[place], node);
    else parent.append(node);
  });
  for (const node of shown.slice(wanted.length)) node.remove();
}

/** @param {ChildNode} shown @param {Node} wanted */
function become(shown, wanted) {
  if (shown.isEqualNode(wanted)) return;
  const isGroup = shown instanceof Element && wanted instanceof Element && shown.nodeName === wanted.nodeName && wanted.children.length > 0;
  if (!isGroup || !shown.children.length || shown.hasAttribute("data-tile")) {
    shown.replaceWith(wanted);
    return;
  }
  for (const {name} of [...shown.attributes]) if (!wanted.hasAttribute(name)) shown.removeAttribute(name);
  for (const {name, value} of [...wanted.attributes]) if (shown.getAttribute(name) !== value) shown.setAttribute(name, value);
  showIn(shown, [...wanted.childNodes]);
}

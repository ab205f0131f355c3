// Elements, and how what is shown becomes what is to be shown. Every text goes into the page as a text node: nothing is read as HTML.

const SVG = "http://www.w3.org/2000/svg";

function put(node, children) {
  for (const child of children.flat(Infinity)) {
    if (child !== null && child !== undefined && child !== false) node.append(child);
  }
  return node;
}

function dress(node, attributes) {
  for (const [name, value] of Object.entries(attributes)) {
    if (value === null || value === undefined || value === false) continue;
    if (name === "style") Object.assign(node.style, value);
    else node.setAttribute(name, value === true ? "" : String(value));
  }
  return node;
}

/** An element of HTML: attributes that are null, undefined or false are left out. */
export function el(name, attributes = {}, ...children) {
  return put(dress(document.createElement(name), attributes), children);
}

/** An element of SVG. */
export function svg(name, attributes = {}, ...children) {
  return put(dress(document.createElementNS(SVG, name), attributes), children);
}

const keyOf = (node) => (node.nodeType === Node.ELEMENT_NODE ? node.getAttribute("data-key") : null);
const alike = (one, other) => one.nodeName === other.nodeName && keyOf(one) === keyOf(other);

function patchAttributes(old, fresh) {
  for (const { name } of [...old.attributes]) {
    if (!fresh.hasAttribute(name)) old.removeAttribute(name);
  }
  for (const { name, value } of fresh.attributes) {
    if (old.getAttribute(name) === value) continue;
    // The policy of the page forbids the attribute `style` as a text, and not what a script says of it.
    if (name === "style") old.style.cssText = fresh.style.cssText;
    else old.setAttribute(name, value);
  }
}

function patchNode(old, fresh) {
  if (old.nodeType !== Node.ELEMENT_NODE) {
    if (old.nodeValue !== fresh.nodeValue) old.nodeValue = fresh.nodeValue;
    return;
  }
  if (old.hasAttribute("data-keep") || old.isEqualNode(fresh)) return;
  patchAttributes(old, fresh);
  patch(old, fresh);
}

/** Makes the children of `old` those of `fresh`. Nodes that stay the same stay in their place, with focus, selection and scrolling. */
export function patch(old, fresh) {
  const keyed = new Map(), stay = new Set([...fresh.childNodes].map(keyOf));
  for (const child of [...old.childNodes]) {
    if (keyOf(child) === null) continue;
    // What goes makes room first, so that what stays needn't be moved: a node that is moved loses the focus.
    if (stay.has(keyOf(child))) keyed.set(keyOf(child), child);
    else child.remove();
  }
  let at = old.firstChild;
  for (const child of [...fresh.childNodes]) {
    const key = keyOf(child);
    let same = null;
    if (key !== null) {
      const found = keyed.get(key);
      if (found && alike(found, child)) same = found;
    } else if (at && alike(at, child)) {
      same = at;
    }
    if (!same) {
      old.insertBefore(child, at);
      continue;
    }
    if (same === at) at = at.nextSibling;
    else old.insertBefore(same, at);
    patchNode(same, child);
  }
  while (at) {
    const next = at.nextSibling;
    at.remove();
    at = next;
  }
}

/** Shows these nodes in a place. */
export function show(place, ...nodes) {
  const fresh = put(document.createElement(place.nodeName), nodes);
  patch(place, fresh);
}

// The colours of a terminal (SGR), as classes of the page's own style; every other sequence is left out.

// eslint-disable-next-line no-control-regex
const SEQUENCE = /\x1b\[([0-?]*)([ -/]*)([@-~]|$)|\x1b\][^\x07\x1b]*(?:\x07|\x1b\\)|\x1b[PX^_][^\x1b]*\x1b\\|\x1b[ -/]*[0-~]|[\x00-\x08\x0b\x0c\x0e-\x1a\x1c-\x1f\x7f]/g;

/** A text without colours and commands. */
export const bare = (text) => text.replace(SEQUENCE, "");

export const plain = () => ({ fore: null, back: null, bold: false, dim: false, italic: false, under: false, strike: false, turned: false });

const STEPS = [0, 95, 135, 175, 215, 255];

/** A colour of the table of 256: a name of the first sixteen, else its red, green and blue. */
function ofTable(index) {
  if (!(index >= 0 && index <= 255)) return null;
  if (index < 16) return index;
  if (index >= 232) return `rgb(${Array(3).fill(8 + (index - 232) * 10).join(" ")})`;
  const at = index - 16;
  return `rgb(${STEPS[Math.floor(at / 36)]} ${STEPS[Math.floor(at / 6) % 6]} ${STEPS[at % 6]})`;
}

/** The colour behind 38 or 48, and how many codes it takes. */
function further(codes, at) {
  if (codes[at + 1] === 5) return [ofTable(codes[at + 2]), 2];
  if (codes[at + 1] !== 2) return [null, 0];
  const parts = codes.slice(at + 2, at + 5);
  const isColour = parts.length === 3 && parts.every((part) => part >= 0 && part <= 255);
  return [isColour ? `rgb(${parts.join(" ")})` : null, 4];
}

const SWITCHES = {
  1: { bold: true }, 2: { dim: true }, 3: { italic: true }, 4: { under: true }, 7: { turned: true }, 9: { strike: true },
  22: { bold: false, dim: false }, 23: { italic: false }, 24: { under: false }, 27: { turned: false }, 29: { strike: false }, 39: { fore: null }, 49: { back: null },
};

// 58 is the colour of what underlines, which isn't shown.
const PAINTED = { 38: "fore", 48: "back", 58: "line" };

function paint(style, codes, at) {
  const [colour, taken] = further(codes, at), place = PAINTED[codes[at]];
  if (place in style) style[place] = colour;
  return taken;
}

/** A code with parts of its own, behind colons: `4:3`, `38:5:208`, `38:2::1:2:3`. */
function turnByParts(style, codes) {
  if (codes[0] === 4) style.under = codes[1] !== 0;
  else if (PAINTED[codes[0]]) paint(style, codes[1] === 2 && codes.length > 5 ? [codes[0], 2, ...codes.slice(3)] : codes, 0);
}

function turn(style, text) {
  const codes = text.split(";").map((code) => (code.includes(":") ? code.split(":").map(Number) : Number(code)));
  for (let at = 0; at < codes.length; at += 1) {
    const code = codes[at];
    if (Array.isArray(code)) turnByParts(style, code);
    else if (code === 0) Object.assign(style, plain());
    else if (SWITCHES[code]) Object.assign(style, SWITCHES[code]);
    else if (code >= 30 && code <= 37) style.fore = code - 30;
    else if (code >= 90 && code <= 97) style.fore = code - 82;
    else if (code >= 40 && code <= 47) style.back = code - 40;
    else if (code >= 100 && code <= 107) style.back = code - 92;
    else if (PAINTED[code]) at += paint(style, codes, at);
  }
}

/** A line's parts, each with the style that it is written in; the style goes on from line to line. */
export function parts(line, style) {
  const found = [];
  let from = 0;
  const take = (to) => {
    if (to > from) found.push({ text: line.slice(from, to), style: { ...style } });
  };
  for (const match of line.matchAll(SEQUENCE)) {
    take(match.index);
    from = match.index + match[0].length;
    if (match[3] === "m" && !match[2] && !/[<-?]/.test(match[1])) turn(style, match[1]);
  }
  take(line.length);
  return found;
}

/** The class of a style, and the colours that have none. */
export function dress(style) {
  const [fore, back] = style.turned ? [style.back ?? "turned", style.fore ?? "turned"] : [style.fore, style.back];
  const names = ["bold", "dim", "italic", "under", "strike"].filter((name) => style[name]);
  const own = {};
  for (const [colour, kind, property] of [[fore, "fg", "color"], [back, "bg", "backgroundColor"]]) {
    if (colour === null) continue;
    const isOwn = typeof colour === "string" && colour !== "turned";
    if (isOwn) own[property] = colour;
    if (isOwn && kind === "bg") names.push("bg-own");
    if (!isOwn) names.push(`${kind}-${colour}`);
  }
  return { names: names.join(" "), own };
}

// A trace as lines: numbers, colours, sections that can be shut. What comes is put behind what is there; nothing is written twice.
import { bare, dress, parts, plain } from "./ansi.js";
import { el } from "./dom.js";
import { lasting } from "./times.js";

// So many lines are shown, and sections in one another: with many more a browser doesn't answer for long, or ends.
const MOST = 100_000, DEEPEST = 30;
const CHUNK = 250, HIGH = 20;
// eslint-disable-next-line no-control-regex
const MARK = /section_(start|end):(\d+):([\w.-]+)(?:\[([^\]\r\n]*)\])?\r(?:\x1b\[0K)?/;
// eslint-disable-next-line no-control-regex
const BEGUN = /(?:^|\r|K)section_(?:start|end):[^\r]*$/;

// eslint-disable-next-line no-control-regex
const ERASES = /\x1b\[[0-9]*K/;

/** What is seen of a line in which the writer went back to its begin, between what stands before and behind it. */
function seenOf(text) {
  if (!text.includes("\r")) return ["", text, ""];
  const all = text.split("\r"), at = Math.max(0, all.findLastIndex((part) => bare(part) !== "" || ERASES.test(part)));
  return [all.slice(0, at).join(""), all[at], all.slice(at + 1).join("")];
}

const isSeen = (text) => bare(text).replaceAll("\r", "") !== "";

export class Log {
  /** `linkTo(number)` is the address of a line. */
  constructor(linkTo) {
    this.linkTo = linkTo;
    this.root = el("div", { class: "lines-of" });
    this.open = [{ name: null, place: this.root, chunk: null, count: 0 }];
    this.style = plain();
    this.decoder = new TextDecoder();
    this.rest = "";
    this.lines = 0;
    this.tail = null;
    this.bytes = 0;
    this.raw = [];
    this.chunks = [];
    [this.skip, this.leftOut] = [0, 0];
  }

  /** Puts bytes behind those that are there. */
  write(bytes) {
    if (!bytes.length) return;
    this.bytes += bytes.length;
    this.raw.push(bytes);
    this.take(this.rest + this.decoder.decode(bytes, { stream: true }));
  }

  take(text) {
    this.dropTail();
    const lines = text.split("\n");
    this.rest = lines.pop();
    this.skip = this.lines + lines.length - MOST;
    for (const line of lines) this.line(line);
    this.dropFirst();
    this.putTail();
  }

  /** Nothing comes any more: what has no end of line is a line too. */
  end() {
    const rest = this.rest + this.decoder.decode();
    this.dropTail();
    this.rest = "";
    if (rest) this.line(rest);
  }

  /** Of a trace with more lines than are shown the first are left out, which is said in their place. */
  dropFirst() {
    while (this.chunks.length > 1 && this.lines - this.chunks[0].dataset.last > MOST) this.takeAway(this.chunks.shift());
    if (!this.leftOut) return;
    this.told ??= this.root.insertBefore(el("p", { class: "left-out" }), this.root.firstChild);
    this.told.textContent = `The first ${this.leftOut} lines aren't shown here. “Raw” and “Save” have them.`;
  }

  /** Takes a chunk away, and the sections around it of which nothing is left. */
  takeAway(chunk) {
    let place = chunk.parentElement;
    this.leftOut = Number(chunk.dataset.last);
    chunk.remove();
    while (!place.childElementCount && !this.open.some((section) => section.place === place)) {
      const section = place.parentElement;
      place = section.parentElement;
      section.remove();
    }
  }

  /** What has no end of line yet is shown too, and taken back when more comes. */
  putTail() {
    if (!this.rest || BEGUN.test(this.rest) || MARK.test(this.rest)) return;
    this.tail = this.made(this.rest, this.lines + 1, { ...this.style });
    this.innermost().append(this.tail);
  }

  dropTail() {
    this.tail?.remove();
    this.tail = null;
  }

  innermost() {
    const top = this.open.at(-1);
    if (!top.chunk || top.count >= CHUNK) {
      // What is out of sight isn't laid out: about so high it is.
      if (top.chunk) Object.assign(top.chunk.style, { contentVisibility: "auto", containIntrinsicBlockSize: `auto ${top.count * HIGH}px` });
      top.chunk = el("div", { class: "chunk" });
      top.count = 0;
      top.place.append(top.chunk);
      this.chunks.push(top.chunk);
    }
    return top.chunk;
  }

  line(text) {
    let left = text, marked = false;
    for (let found = MARK.exec(left); found; found = MARK.exec(left)) {
      const before = left.slice(0, found.index);
      left = left.slice(found.index + found[0].length);
      if (isSeen(before)) this.put(before);
      else parts(before, this.style);
      marked = true;
      if (found[1] === "end") this.endSection(found[3], Number(found[2]));
      else left = this.beginSection(found, left);
    }
    if (!marked || isSeen(left)) this.put(left);
    else parts(left, this.style);
  }

  put(text) {
    this.lines += 1;
    if (this.lines <= this.skip) {
      parts(text, this.style);
      this.leftOut = this.lines;
      return;
    }
    const chunk = this.innermost();
    chunk.append(this.made(text, this.lines, this.style));
    chunk.dataset.last = this.lines;
    this.open.at(-1).count += 1;
  }

  /** A line. What isn't seen of it changes the colours of what comes. */
  made(text, number, style) {
    const [over, seen, behind] = seenOf(text);
    parts(over, style);
    const spans = parts(seen, style).map((part) => {
      const { names, own } = dress(part.style);
      return names || Object.keys(own).length ? el("span", { class: names || null, style: own }, part.text) : part.text;
    });
    parts(behind, style);
    return el("div", { class: "line", "data-line": number }, el("a", { class: "no", href: this.linkTo(number), tabindex: -1 }, String(number)), el("span", { class: "text" }, spans));
  }

  /** A section has a line of its own, that of its mark; answers what follows behind it. */
  beginSection([, , begun, name, options], left) {
    const next = MARK.exec(left), header = next ? left.slice(0, next.index) : left;
    const rest = next ? left.slice(next.index) : "", title = isSeen(header) ? header : `${header}${name}`;
    if (this.open.length > DEEPEST || this.lines < this.skip) {
      this.put(title);
      return rest;
    }
    this.lines += 1;
    const line = this.made(title, this.lines, this.style);
    const body = el("div", { class: "inner" });
    const isShut = /(^|,)collapsed=true(,|$)/.test(options ?? "");
    const place = el("details", { class: "section", open: !isShut, "data-section": name }, el("summary", {}, line), body);
    const top = this.open.at(-1);
    top.place.append(place);
    top.chunk = null;
    this.open.push({ name, place: body, chunk: null, count: 0, begun: Number(begun), summary: line });
    return rest;
  }

  endSection(name, ended) {
    const at = this.open.findLastIndex((section) => section.name === name);
    if (at < 1) return;
    const { begun, summary } = this.open[at];
    if (ended >= begun) summary.append(el("span", { class: "took" }, lasting(ended - begun)));
    this.open.length = at;
  }

  /** The element of a line, with the sections around it opened. */
  find(number) {
    const line = this.root.querySelector(`[data-line="${Number(number)}"]`);
    for (let around = line?.parentElement; around && around !== this.root; around = around.parentElement) {
      if (around.nodeName === "DETAILS" && !(line.parentElement.nodeName === "SUMMARY" && line.parentElement.parentElement === around)) around.open = true;
    }
    return line;
  }

  /** All bytes, as they came. */
  blob() {
    return new Blob(this.raw, { type: "text/plain;charset=utf-8" });
  }
}

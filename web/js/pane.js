// The pane of a trace: its log, and the bar above it. It is kept as it stands while the page around it is drawn anew.
import { el } from "./dom.js";
import { Log } from "./log.js";
import { now } from "./times.js";

const NEAR = 40;

const counted = (count, word) => `${count} ${word}${count === 1 ? "" : "s"}`;
const size = (bytes) => (bytes < 1024 ? counted(bytes, "byte") : bytes < 1048576 ? `${(bytes / 1024).toFixed(1)} KiB` : `${(bytes / 1048576).toFixed(1)} MiB`);

function control(kind, text, more = {}) {
  return el("button", { type: "button", class: "button small-text", "data-pane": kind, ...more }, text);
}

export class Pane {
  /** `linkTo(line)` is the address of a line; `stays()` is told where a line is gone to, so that this attempt stays the one that is shown. */
  constructor(attempt, linkTo, line, stays) {
    Object.assign(this, { attempt, linkTo, line, stays, isGone: false, asked: 0, heard: null, since: 0, isWhole: false, follows: !line, isRaw: false });
    this.log = new Log(linkTo);
    this.bar = el("div", { class: "bar" });
    this.words = el("span", { class: "soft" });
    this.bar.append(this.words, el("span", { class: "acts" }, this.follow = control("follow", "Follow", { "aria-pressed": String(this.follows) }), this.raw = control("raw", "Raw", { "aria-pressed": "false" }), control("save", "Save")));
    this.box = el("div", { class: "log", tabindex: 0, role: "region", "aria-label": `Trace of attempt ${attempt}` }, this.log.root);
    this.place = el("section", { class: "pane", "data-key": `pane-${attempt}`, "data-keep": true }, this.bar, this.box);
    this.place.addEventListener("click", (event) => this.pressed(event));
    this.box.addEventListener("scroll", () => this.scrolled(), { passive: true });
    this.box.addEventListener("keydown", (event) => this.key(event));
  }

  /** A trace grows only where its runner is heard of, which is told in whole seconds. */
  mayHaveGrown(attempt) {
    if (this.isWhole) return false;
    if (!this.asked || attempt.status !== "running") return true;
    return attempt.heard_at !== this.heard || this.since < Date.parse(attempt.heard_at) + 2000;
  }

  write(bytes, isLast) {
    this.log.write(bytes);
    if (isLast) this.log.end();
    if (bytes.length && this.isRaw) this.rawText();
    if (this.line && this.log.lines >= this.line) this.goTo(this.line);
    else if (this.follows) this.toEnd();
  }

  /** Scrolls to the end; again in the next frames, for the same cause as `centre` does. */
  toEnd(times = 3) {
    this.box.scrollTop = this.box.scrollHeight;
    if (times > 0) requestAnimationFrame(() => this.follows && this.toEnd(times - 1));
  }

  scrolled() {
    const isNear = this.box.scrollHeight - this.box.scrollTop - this.box.clientHeight < NEAR;
    if (isNear !== this.follows && (isNear || this.isMoved())) this.setFollows(isNear);
    this.top = this.box.scrollTop;
  }

  isMoved() {
    return this.box.scrollTop < (this.top ?? 0);
  }

  setFollows(follows) {
    this.follows = follows;
    this.follow.setAttribute("aria-pressed", String(follows));
  }

  /** Marks a line and shows it. */
  goTo(number) {
    const line = this.log.find(number);
    if (!line) {
      this.line = number;
      return;
    }
    this.line = null;
    this.setFollows(false);
    this.log.root.querySelector(".line.here")?.classList.remove("here");
    line.classList.add("here");
    this.centre(line, 3);
  }

  /** Scrolls to a line; again in the next frames, since what comes into sight on the way gets its true height only then. */
  centre(line, times) {
    const [own, box] = [line.getBoundingClientRect(), this.box.getBoundingClientRect()];
    this.box.scrollTop += own.top - box.top - (box.height - own.height) / 2;
    if (times > 0) requestAnimationFrame(() => this.centre(line, times - 1));
  }

  key(event) {
    if (event.ctrlKey || event.metaKey || event.altKey || !["j", "k"].includes(event.key)) return;
    const here = Number(this.log.root.querySelector(".line.here")?.dataset.line ?? 0);
    const next = event.key === "j" ? here + 1 : here - 1;
    if (next < 1 || next > this.log.lines) return;
    history.replaceState(null, "", this.linkTo(next));
    this.stays();
    this.goTo(next);
  }

  async rawText() {
    const place = this.box.querySelector("pre.raw") ?? this.box.appendChild(el("pre", { class: "raw" }));
    place.textContent = await this.log.blob().text();
    if (this.follows) this.toEnd();
  }

  setRaw(isRaw) {
    this.isRaw = isRaw;
    this.raw.setAttribute("aria-pressed", String(isRaw));
    this.log.root.hidden = isRaw;
    if (isRaw) this.rawText();
    else this.box.querySelector("pre.raw")?.remove();
  }

  save() {
    const href = URL.createObjectURL(this.log.blob());
    el("a", { href, download: `trace-${this.attempt}.txt` }).click();
    setTimeout(() => URL.revokeObjectURL(href), 10_000);
  }

  pressed(event) {
    const kind = event.target.closest("[data-pane]")?.dataset.pane;
    if (kind === "follow") {
      this.setFollows(!this.follows);
      if (this.follows) this.toEnd();
    } else if (kind === "raw") this.setRaw(!this.isRaw);
    else if (kind === "save") this.save();
  }

  /** The pane's element, with what is told above the log. */
  shown(attempt) {
    const lines = counted(this.log.lines + (this.log.tail ? 1 : 0), "line");
    const told = this.isGone ? "the trace has been pruned" : !this.asked ? "asking for the trace …" : this.log.bytes ? `${lines}, ${size(this.log.bytes)}` : "no trace";
    const silent = (now() - Date.parse(attempt.heard_at)) / 1000;
    const text = attempt.status === "running" ? `${told}, and it runs${silent > 30 ? `; its runner was last heard of ${Math.floor(silent)} s ago` : ""}` : told;
    this.follow.hidden = attempt.status !== "running";
    if (this.words.textContent !== text) this.words.textContent = text;
    // While it is in the page something stands in for it, so that it isn't moved.
    return this.place.isConnected ? el("section", { "data-key": `pane-${this.attempt}` }) : this.place;
  }
}

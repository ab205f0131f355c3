// Who asks when. One request at a time; while a view stands, no two within two seconds, and none while the tab is hidden. A view that is opened, and what
// a user does, asks at once for what is to be shown.
import { Refused, token, Unreachable } from "./api.js";
import { askFor, askedAt, doubt } from "./known.js";

const GAP = 2000, CALM = 5000, MOST = 16_000, AT_ONCE = 8;
// The dearest of a view is asked for again after so long, however much else of it is to be asked for.
const DEAREST = 10_000;

let view = null, hooks = null;
let since = 0, burst = 0, last = 0, failures = 0, lostAt = 0;
let timer = null, busy = false;

// Spans are measured by a clock that no one sets.
const tick = () => performance.now();

/** Tells what is to be done where the server answers or doesn't (`state`), and where it refuses the token (`refused`). */
export function begin(given) {
  hooks = given;
  document.addEventListener("visibilitychange", () => {
    if (document.hidden) return;
    doubt();
    plan(0);
  });
  window.addEventListener("online", () => plan(0));
}

/** Follows a view: `keys()` are what it shows, the dearest first; `draw()` shows it; `moves()` says whether something may change soon. */
export function follow(next) {
  view = next;
  fresh();
}

/** All that the view shows is asked for again. */
export function fresh() {
  [since, burst] = [tick(), AT_ONCE];
  if (view) view.draw();
  plan(0, true);
}

export function stop() {
  view = null;
  failures = 0;
  clearTimeout(timer);
}

function plan(wait, atOnce = false) {
  clearTimeout(timer);
  if (!view || busy || document.hidden) return;
  const due = atOnce ? 0 : Math.max(wait, last + GAP - tick());
  timer = setTimeout(turn, Math.max(0, due));
}

const lacks = (key) => (view.askedAt ?? askedAt)(key) < since;

function nextKey() {
  const keys = view.keys(), at = view.askedAt ?? askedAt;
  if (keys.length && tick() - at(keys[0]) > DEAREST) return keys[0];
  const missing = keys.find(lacks);
  if (missing) return missing;
  return keys.reduce((least, key) => (least === null || at(key) < at(least) ? key : least), null);
}

async function turn() {
  if (busy || !view || document.hidden) return;
  const asking = view, key = nextKey(), own = token();
  if (key === null) return plan(GAP);
  busy = true;
  burst -= 1;
  try {
    last = tick();
    await (asking.askFor ?? askFor)(key);
    answered();
  } catch (fault) {
    // What became of another token's request is nobody's concern.
    if (view && own === token()) failed(fault);
  } finally {
    busy = false;
  }
  if (!view) return;
  if (view === asking) view.draw();
  if (failures) plan(Math.min(GAP * 2 ** (failures - 1), MOST));
  else if (burst > 0 && view.keys().some(lacks)) plan(0, true);
  else plan(view.moves() ? GAP : CALM);
}

function answered() {
  if (failures) {
    failures = 0;
    hooks.state(0);
  }
}

function failed(fault) {
  if (!(fault instanceof Refused || fault instanceof Unreachable)) throw fault;
  if (fault.code === "M1" || fault.code === "M2" || fault.status === 401) return hooks.refused(fault);
  if (!failures) lostAt = Date.now();
  failures += 1;
  // What a view shows is there to be had: where it is refused otherwise, something between refuses it.
  return hooks.state(lostAt, fault instanceof Refused ? fault.code ?? `status ${fault.status}` : fault.message);
}

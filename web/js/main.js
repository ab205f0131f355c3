// The page: which view stands, and what is done with clicks and changes in it.
import { dropToken, token } from "./api.js";
import { act } from "./buttons.js";
import { show } from "./dom.js";
import { Groups } from "./groups.js";
import { JobView } from "./job.js";
import { askedAt, forgetAll, known } from "./known.js";
import { route } from "./links.js";
import { List } from "./list.js";
import { markLines } from "./picture.js";
import { PipelineView } from "./pipeline.js";
import { begin, follow, stop } from "./polls.js";
import { runDialog } from "./run.js";
import { askForToken, head, hush, state } from "./shell.js";
import { Waiting } from "./waiting.js";

const VIEWS = { pipelines: List, pipeline: PipelineView, job: JobView, waiting: Waiting, groups: Groups };
const main = document.getElementById("main");
let view = null, at = null;

function titled() {
  const project = known.project ? ` · ${known.project.name}` : "";
  const title = `${view.title}${project}`;
  if (document.title !== title) document.title = title;
}

/** A view as the polls follow it: its keys with the project's, which is asked for once. */
function followed(made) {
  return {
    keys: () => (askedAt("project") ? made.keys() : ["project", ...made.keys()]),
    moves: () => made.moves(),
    askFor: made.askFor ? (key) => made.askFor(key) : undefined,
    askedAt: made.askedAt ? (key) => made.askedAt(key) : undefined,
    draw: () => {
      if (view !== made) return;
      head(at.name, true);
      titled();
      show(main, ...made.nodes());
      made.drawn?.(main);
    },
  };
}

function isSame(one, other) {
  return one && one.name === other.name && one.pipeline === other.pipeline && one.job === other.job;
}

function go() {
  if (!token()) return ask();
  const next = route();
  if (view?.moved && isSame(at, next)) {
    at = next;
    view.moved(next);
    follow(followed(view));
    return undefined;
  }
  at = next;
  if (next.lost) location.replace("#/pipelines");
  view = new VIEWS[next.name](next);
  main.replaceChildren();
  main.className = next.name;
  window.scrollTo(0, 0);
  follow(followed(view));
  return undefined;
}

function ask(fault) {
  view = null;
  stop();
  hush();
  forgetAll();
  dropToken();
  head(null, false);
  document.title = "ciserver";
  main.className = "asks";
  askForToken(go, fault);
}

function refused(fault) {
  ask(`${fault.message} Is it whole?`);
}

const PRESSED = {
  skip: () => main.focus(),
  out: () => ask(),
  run: (pressed) => runDialog(pressed.dataset.ref, Boolean(pressed.dataset.tag)),
  more: () => {
    view.more();
    follow(followed(view));
  },
};

document.addEventListener("click", async (event) => {
  const pressed = event.target.closest("[data-act]");
  if (!pressed) return;
  const kind = pressed.dataset.act;
  if (PRESSED[kind]) {
    event.preventDefault();
    PRESSED[kind](pressed);
  } else if (event.detail < 2) {
    // The second click of two may meet a button that stands where the first one's was: it isn't meant.
    await act(kind, pressed.dataset.id, pressed);
  }
});

function filtered(event) {
  const form = event.target.closest?.("form.filters");
  if (form && view?.filtered) {
    view.filtered(form);
    show(main, ...view.nodes());
  }
}

main.addEventListener("input", filtered);
main.addEventListener("change", (event) => {
  if (event.target.matches("select[data-mode]")) view?.changed?.(event.target);
});
main.addEventListener("submit", (event) => {
  if (event.target.matches("form.filters")) event.preventDefault();
});
main.addEventListener("pointerover", (event) => markLines(event.target));
main.addEventListener("focusin", (event) => markLines(event.target));
window.addEventListener("hashchange", go);
begin({ state, refused });
go();

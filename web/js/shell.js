// What stands around the views: the head, the word on the server, and the question for a token.
import { keepToken, projectOf } from "./api.js";
import { el, show } from "./dom.js";
import { known } from "./known.js";
import { name } from "./links.js";
import { clock } from "./times.js";

const PLACES = [["#/pipelines", "Pipelines", ["pipelines", "pipeline", "job"]], ["#/waiting", "Waiting", ["waiting"]], ["#/groups", "Resource groups", ["groups"]]];

/** The head: which project, which views there are, and the way out. */
export function head(at, isIn) {
  const brand = el("a", { class: "brand", href: "#/pipelines" }, el("img", { src: "icon.svg", alt: "", width: 26, height: 26 }), el("span", {}, known.project ? name(known.project.name) : "ciserver"));
  const nav = el("nav", { "aria-label": "Views" }, PLACES.map(([href, text, names]) => el("a", { href, "aria-current": names.includes(at) ? "page" : null }, text)));
  const out = el("button", { type: "button", class: "plain", "data-act": "out", title: "Forget the token" }, "Sign out");
  show(document.getElementById("head"), brand, isIn ? nav : null, isIn ? out : null);
}

/** Says nothing of the server any more. */
export function hush() {
  const place = document.getElementById("state");
  delete place.dataset.lost;
  place.replaceChildren();
}

/** Says that the server doesn't answer; with no moment, that it does again. */
export function state(lostAt, why) {
  const place = document.getElementById("state");
  const was = place.dataset.lost;
  if (lostAt) {
    place.dataset.lost = "1";
    place.className = "lost";
    show(place, el("p", {}, el("strong", {}, "The server doesn't answer"), ` (${why}), since ${clock(lostAt)}. What is shown is as it was then. It is asked again by itself.`));
  } else if (was) {
    delete place.dataset.lost;
    place.className = "found";
    show(place, el("p", {}, "The server answers again."));
    setTimeout(() => { if (!place.dataset.lost) place.replaceChildren(); }, 4000);
  }
}

/** Asks for a token; `then` is done with one that could be a project's. */
export function askForToken(then, fault) {
  const input = el("input", { type: "password", name: "token", required: true, autocomplete: "off", spellcheck: "false", placeholder: "p1-…", "aria-describedby": "token-note" });
  const told = el("p", { class: "fault", role: "alert", hidden: !fault }, fault ?? "");
  const form = el(
    "form",
    { class: "card" },
    el("h1", {}, "Token of the project"),
    el("label", { class: "field" }, "Token", input),
    told,
    el("p", { class: "soft", id: "token-note" }, "It is the one that “ciserver project-add” printed. It is kept for this tab alone, and is gone when the tab is closed."),
    el("button", { type: "submit", class: "button main" }, "Look at the project"),
  );
  form.addEventListener("submit", (event) => {
    event.preventDefault();
    const text = input.value.trim();
    if (projectOf(text) === null) {
      told.textContent = "That is no project's token: it begins with p, a number and a dash.";
      told.hidden = false;
      return;
    }
    keepToken(text);
    then();
  });
  document.getElementById("main").replaceChildren(form);
  input.focus();
}

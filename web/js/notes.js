// What came of an act, told for some seconds at the foot of the page.
import { el } from "./dom.js";

/** Tells something; what went wrong stays longer. */
export function note(text, isFault = false) {
  const line = el("div", { class: `note ${isFault ? "fault" : ""}` }, el("span", {}, text), el("button", { type: "button", class: "plain", "aria-label": "Put away" }, "×"));
  line.lastChild.addEventListener("click", () => line.remove());
  const place = document.getElementById("notes");
  place.append(line);
  while (place.childElementCount > 3) place.firstElementChild.remove();
  setTimeout(() => line.remove(), isFault ? 20_000 : 5000);
}

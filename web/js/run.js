// The dialog that runs a pipeline: a ref, whether it is a tag, and variables.
import { ask, Refused } from "./api.js";
import { picture } from "./buttons.js";
import { el } from "./dom.js";
import { known } from "./known.js";
import { toPipeline } from "./links.js";
import { refsOf } from "./list.js";
import { note } from "./notes.js";
import { fresh } from "./polls.js";

function variable() {
  const row = el(
    "div",
    { class: "variable" },
    el("input", { name: "key", placeholder: "NAME", "aria-label": "Name of a variable", autocomplete: "off", spellcheck: "false", pattern: "[A-Za-z_][A-Za-z0-9_]*" }),
    el("input", { name: "value", placeholder: "value", "aria-label": "Value of the variable", autocomplete: "off", spellcheck: "false" }),
    el("button", { type: "button", class: "button small", "aria-label": "Take the variable away" }, picture("cancel")),
  );
  row.lastChild.addEventListener("click", () => row.remove());
  return row;
}

function fields(ref, isTag) {
  return [
    el("label", { class: "field" }, "Branch or tag", el("input", { name: "ref", required: true, maxlength: 255, list: "known-refs", value: ref, autocomplete: "off", spellcheck: "false" })),
    el("datalist", { id: "known-refs" }, refsOf(known.pipelines).map((it) => el("option", { value: it }))),
    el("label", { class: "check" }, el("input", { type: "checkbox", name: "tag", checked: isTag }), "it is a tag"),
  ];
}

async function sent(form, fault) {
  const rows = [...form.querySelectorAll(".variable")].map((row) => ({ key: row.querySelector("[name=key]").value, value: row.querySelector("[name=value]").value }));
  const order = { ref: form.elements.ref.value, tag: form.elements.tag.checked, source: "web", variables: rows.filter((row) => row.key || row.value) };
  try {
    return await ask("POST", "/pipeline", order);
  } catch (refused) {
    fault.textContent = refused instanceof Refused ? refused.message : `Not known whether it was made: ${refused.message}. Look at the list first.`;
    fault.hidden = false;
    return null;
  }
}

/** Opens the dialog. */
export function runDialog(ref = "", isTag = false) {
  const variables = el("div", { class: "variables" }), fault = el("p", { class: "fault", role: "alert", hidden: true });
  const add = el("button", { type: "button", class: "button" }, picture("plus"), el("span", {}, "Variable"));
  add.addEventListener("click", () => variables.appendChild(variable()).querySelector("input").focus());
  const shut = el("button", { type: "button", class: "button" }, "Close");
  const run = el("button", { type: "submit", class: "button main" }, "Run pipeline");
  const form = el("form", {}, el("h2", {}, "Run a pipeline"), fields(ref || known.pipelines?.[0]?.ref || "main", isTag), variables, add, fault, el("div", { class: "ends" }, shut, run));
  const dialog = el("dialog", { "aria-label": "Run a pipeline" }, form);
  shut.addEventListener("click", () => dialog.close());
  dialog.addEventListener("close", () => dialog.remove());
  form.addEventListener("submit", async (event) => {
    event.preventDefault();
    [run.disabled, fault.hidden] = [true, true];
    const made = await sent(form, fault);
    run.disabled = false;
    if (!made) return;
    dialog.close();
    note(`Pipeline ${made.id} is made.`);
    location.hash = toPipeline(made.id);
    fresh();
  });
  document.body.append(dialog);
  dialog.showModal();
}

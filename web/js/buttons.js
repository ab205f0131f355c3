// The buttons of jobs and pipelines, and what they do.
import { ask, Refused, Unreachable } from "./api.js";
import { el, svg } from "./dom.js";
import { jobsOf } from "./known.js";
import { note } from "./notes.js";
import { fresh } from "./polls.js";
import { CANCELLABLE, RETRIABLE } from "./statuses.js";

const PICTURES = {
  play: "M8 5.5v13l11-6.5z",
  retry: "M5.5 12a6.5 6.5 0 1 0 2-4.7M5.2 4.6v3.6h3.6",
  cancel: "M7 7l10 10M17 7L7 17",
  plus: "M12 5v14M5 12h14",
};

export function picture(kind) {
  return svg("svg", { class: `picture-${kind}`, viewBox: "0 0 24 24", width: 16, height: 16, "aria-hidden": "true" }, svg("path", { d: PICTURES[kind] }));
}

// What is being done: its button can't be pressed again meanwhile, also where the page is drawn anew.
const doing = new Set();

/** A button that does an act to a number; with `small` it is its picture alone. */
export function button(act, id, kind, text, { small = false, tone = "", of = "" } = {}) {
  const label = of ? `${text} ${of}` : text;
  return el(
    "button",
    { type: "button", class: `button ${small ? "small" : ""} ${tone}`, "data-act": act, "data-id": id, "data-key": `${act}-${id}`, title: small ? label : null, "aria-label": label, disabled: doing.has(`${act}-${id}`) },
    picture(kind),
    small ? null : el("span", {}, text),
  );
}

/** The buttons that a job's status permits. */
export function jobButtons(job, small = true) {
  const more = { small, of: job.name };
  return [
    job.status === "manual" && button("play", job.id, "play", "Play", { ...more, tone: small ? "" : "good" }),
    RETRIABLE.has(job.status) && button("retry", job.id, "retry", "Retry", more),
    CANCELLABLE.has(job.status) && job.status !== "manual" && button("cancel", job.id, "cancel", "Cancel", more),
    !small && job.status === "manual" && button("cancel", job.id, "cancel", "Cancel", more),
  ].filter(Boolean);
}

export const failedOf = (jobs) => (jobs ?? []).filter((job) => job.status === "failed" || job.status === "canceled");

const ACTS = {
  play: async (id) => told(await ask("POST", `/jobs/${id}/play`), "plays"),
  retry: async (id) => told(await ask("POST", `/jobs/${id}/retry`), "is tried again"),
  cancel: async (id) => told(await ask("POST", `/jobs/${id}/cancel`), "is cancelled"),
  "cancel-pipeline": async (id) => {
    const pipeline = await ask("POST", `/pipelines/${id}/cancel`);
    return `Pipeline ${pipeline.id} is cancelled.`;
  },
  "retry-failed": async (id) => {
    let count = 0, quicker = null;
    for (const job of failedOf(jobsOf(Number(id)))) {
      try {
        await ask("POST", `/jobs/${job.id}/retry`);
        count += 1;
      } catch (fault) {
        // Somebody had it tried again just before: the others are to be, all the same.
        if (fault.code !== "M11") throw fault;
        quicker = fault;
      }
    }
    if (!count && quicker) throw quicker;
    return `${count} ${count === 1 ? "job is" : "jobs are"} tried again.`;
  },
};

const told = (job, what) => `${job.name} ${what}.`;

/** Does what a button says. What came of it is told, and all that is shown is asked for again. */
export async function act(kind, id, pressed) {
  if (!ACTS[kind] || doing.has(`${kind}-${id}`)) return false;
  pressed.disabled = true;
  doing.add(`${kind}-${id}`);
  try {
    await attempt(() => ACTS[kind](id));
  } finally {
    doing.delete(`${kind}-${id}`);
    pressed.disabled = false;
  }
  fresh();
  return true;
}

/** Has something done, and tells what came of it; answers whether it was done. */
export async function attempt(does) {
  try {
    note(await does());
    return true;
  } catch (fault) {
    if (!(fault instanceof Refused || fault instanceof Unreachable)) throw fault;
    note(fault instanceof Refused ? fault.message : `Not known whether it was done: ${fault.message}.`, true);
    return false;
  }
}

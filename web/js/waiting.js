// What waits, and why: the jobs of all pipelines that haven't ended.
import { jobButtons } from "./buttons.js";
import { el } from "./dom.js";
import { jobsOf, known, openPipelines } from "./known.js";
import { name, toJob, toPipeline } from "./links.js";
import { origin } from "./list.js";
import { reason } from "./reasons.js";
import { chip, OPEN } from "./statuses.js";

const KINDS = [
  ["pending", "For a runner"],
  ["waiting_for_resource", "For a resource group"],
  ["manual", "For somebody"],
  ["created", "For other jobs"],
];

/** Behind them the five newest that have ended, for what their runners have shown. */
const endedToo = () => (known.pipelines ?? []).filter((pipeline) => !OPEN.has(pipeline.status)).slice(0, 5).filter((pipeline) => !jobsOf(pipeline.id));

/** The view of what waits. */
export class Waiting {
  title = "Waiting";

  keys() {
    return ["pipelines", "groups", ...openPipelines().map((it) => `jobs/${it.id}`), ...endedToo().map((it) => `jobs/${it.id}`)];
  }

  moves() {
    return openPipelines().length > 0;
  }

  row(pipeline, job) {
    return el(
      "li",
      { class: "row wait", "data-key": `wait-${job.id}`, "data-job": job.id },
      el("span", { class: "cell status" }, chip(job.status)),
      el("span", { class: "cell" }, el("a", { href: toJob(pipeline.id, job.id), class: "number" }, name(job.name)), el("span", { class: "origin soft" }, el("a", { href: toPipeline(pipeline.id) }, `#${pipeline.id}`), origin(pipeline)[0])),
      el("span", { class: "cell reason" }, reason(job, pipeline.id)),
      el("span", { class: "cell acts" }, jobButtons(job)),
    );
  }

  part([status, title]) {
    const rows = openPipelines().flatMap((pipeline) => (jobsOf(pipeline.id) ?? []).filter((job) => job.status === status).map((job) => [pipeline, job]));
    rows.sort(([, one], [, other]) => one.id - other.id);
    if (!rows.length) return null;
    return el("section", { "data-key": `part-${status}` }, el("h2", {}, title, el("span", { class: "count" }, rows.length)), el("ul", { class: "rows" }, rows.map(([pipeline, job]) => this.row(pipeline, job))));
  }

  nodes() {
    const head = el("div", { class: "top", "data-key": "top" }, el("h1", {}, "What waits, and why"));
    if (!known.pipelines) return [head, el("p", { class: "empty" }, "Asking the server …")];
    const open = openPipelines(), read = open.filter((it) => jobsOf(it.id)).length;
    const parts = KINDS.map((kind) => this.part(kind)).filter(Boolean);
    return [
      head,
      read < open.length ? el("p", { class: "soft", "data-key": "read" }, `${read} of ${open.length} open pipelines are read.`) : null,
      parts.length ? parts : read === open.length ? el("p", { class: "empty", "data-key": "none" }, "Nothing waits.") : null,
      el("p", { class: "soft", "data-key": "known" }, "The server doesn't tell its runners. What is said of them here is what they have shown: which tags the jobs had that they took, in the pipelines that this page has read."),
    ];
  }
}

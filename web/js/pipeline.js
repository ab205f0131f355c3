// One pipeline: where it is from, its picture, and its jobs one by one.
import { button, jobButtons, picture as drawing } from "./buttons.js";
import { el } from "./dom.js";
import { faultOf, jobsOf, pipelineOf } from "./known.js";
import { name, toJob } from "./links.js";
import { origin, pipelineButtons, pipelineChip } from "./list.js";
import { markLines, picture } from "./picture.js";
import { chip, OPEN, said, toneOf, why } from "./statuses.js";
import { lasting, moment, ranFor, spanOf } from "./times.js";

function jobRow(pipeline, job) {
  const last = job.attempts.at(-1);
  return el(
    "li",
    { class: "row job", "data-key": `job-${job.id}`, "data-job": job.id },
    el("span", { class: "cell status" }, chip(toneOf(job), said(job))),
    el("span", { class: "cell" }, el("a", { href: toJob(pipeline, job.id), class: "number" }, name(job.name)), el("span", { class: "soft" }, name(job.stage))),
    el(
      "span",
      { class: "cell soft facts" },
      last ? el("span", { title: `since ${moment(last.started_at)}` }, lasting(ranFor(last))) : null,
      last?.runner ? el("span", {}, "on ", name(last.runner.name)) : null,
      job.attempts.length > 1 ? el("span", {}, `${job.attempts.length} attempts`) : null,
      last && job.status === "failed" ? el("span", {}, why(last)) : null,
      job.tag_list.map((tag) => el("span", { class: "plate" }, name(tag))),
    ),
    el("span", { class: "cell acts" }, jobButtons(job)),
  );
}

/** The view of a pipeline. */
export class PipelineView {
  constructor(route) {
    this.id = route.pipeline;
    this.title = `Pipeline #${this.id}`;
  }

  keys() {
    const isListed = pipelineOf(this.id)?.created_at !== undefined;
    return [`jobs/${this.id}`, "pipelines", isListed ? null : `pipeline/${this.id}`].filter(Boolean);
  }

  moves() {
    return (jobsOf(this.id) ?? []).some((job) => OPEN.has(job.status));
  }

  drawn() {
    markLines(null);
  }

  head(pipeline, jobs) {
    const span = jobs && spanOf(jobs), done = jobs?.filter((job) => !OPEN.has(job.status)).length;
    return el(
      "div",
      { class: "top", "data-key": "top" },
      el("h1", {}, `Pipeline #${this.id}`),
      pipeline ? pipelineChip(pipeline) : null,
      el("div", { class: "acts" }, pipeline ? [pipelineButtons(pipeline, false), el("button", { type: "button", class: "button", "data-act": "run", "data-ref": pipeline.ref, "data-tag": pipeline.tag ? "1" : null }, drawing("plus"), el("span", {}, "Run again"))] : null),
      el("p", { class: "origin" }, pipeline ? origin(pipeline) : null, jobs ? el("span", {}, `${done} of ${jobs.length} jobs at their end`) : null, span === null || !jobs ? null : el("span", {}, `${OPEN.has(pipeline?.status) ? "runs for" : "took"} ${lasting(span)}`)),
    );
  }

  nodes() {
    const pipeline = pipelineOf(this.id), jobs = jobsOf(this.id), fault = faultOf(`jobs/${this.id}`);
    if (fault && !jobs) return [this.head(null, null), el("p", { class: "empty" }, "There is no such pipeline. It may have been pruned.")];
    if (!jobs) return [this.head(pipeline, null), el("p", { class: "empty" }, "Asking the server …")];
    return [
      this.head(pipeline, jobs),
      fault ? el("p", { class: "empty" }, "The pipeline has been pruned since.") : null,
      picture(this.id, jobs),
      el("h2", { "data-key": "jobs" }, "Jobs"),
      el("ul", { class: "rows", "data-key": "rows", "aria-label": "Jobs" }, jobs.map((job) => jobRow(this.id, job))),
    ];
  }
}

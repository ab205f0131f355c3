// The pipelines of the project, the newest first, by ref and status.
import { button, failedOf, picture as drawing } from "./buttons.js";
import { el } from "./dom.js";
import { jobsOf, known } from "./known.js";
import { name, toPipeline } from "./links.js";
import { stageSigns } from "./picture.js";
import { chip, OPEN, PIPELINE_STATUSES, words } from "./statuses.js";
import { ago, lasting, moment, spanOf } from "./times.js";

const MOST = 20;

export const commitOf = (ref) => (/^[0-9a-f]{40}$/.test(ref) ? ref.slice(0, 8) : null);

/** The words of where a pipeline is from: its ref, what made it, when. */
export function origin(pipeline) {
  return [
    el("span", { class: `ref ${pipeline.tag ? "tag" : "branch"}`, title: pipeline.tag ? "tag" : "branch" }, name(commitOf(pipeline.ref) ?? pipeline.ref)),
    el("span", { class: "source" }, pipeline.source),
    pipeline.created_at ? el("time", { datetime: pipeline.created_at, title: moment(pipeline.created_at) }, ago(pipeline.created_at)) : null,
  ];
}

/** How a pipeline is called: one that went well though a job failed is told apart, where its jobs are known. */
export function pipelineChip(pipeline) {
  const jobs = jobsOf(pipeline.id) ?? [];
  const warned = pipeline.status === "success" && jobs.some((job) => job.status === "failed");
  return warned ? chip("warning", "with warnings") : chip(pipeline.status);
}

export function pipelineButtons(pipeline, small) {
  const jobs = jobsOf(pipeline.id), failed = failedOf(jobs);
  const isOpen = jobs ? jobs.some((job) => OPEN.has(job.status)) : OPEN.has(pipeline.status);
  const of = `pipeline ${pipeline.id}`;
  return [
    failed.length ? button("retry-failed", pipeline.id, "retry", "Retry failed", { small, of: small ? `jobs of ${of}` : "" }) : null,
    isOpen ? button("cancel-pipeline", pipeline.id, "cancel", "Cancel", { small, of: small ? of : "" }) : null,
  ];
}

function row(pipeline) {
  const jobs = jobsOf(pipeline.id), span = jobs ? spanOf(jobs) : null;
  return el(
    "li",
    { class: "row pipeline-row", "data-key": `row-${pipeline.id}`, "data-pipeline": pipeline.id },
    el("span", { class: "cell status" }, el("a", { href: toPipeline(pipeline.id), class: "bare", tabindex: -1 }, pipelineChip(pipeline))),
    el("span", { class: "cell origin" }, el("a", { href: toPipeline(pipeline.id), class: "number" }, `#${pipeline.id}`), origin(pipeline)),
    el("span", { class: "cell" }, jobs ? stageSigns(pipeline.id, jobs) : null),
    el("span", { class: "cell soft took" }, span === null ? null : lasting(span)),
    el("span", { class: "cell acts" }, pipelineButtons(pipeline, true)),
  );
}

function options(filter) {
  const all = el("option", { value: "" }, "any status");
  return [all, ...PIPELINE_STATUSES.map((status) => el("option", { value: status, selected: filter.status === status }, words(status)))];
}

function filters(filter) {
  return el(
    "form",
    { class: "filters", role: "search", "data-key": "filters", "data-keep": true },
    el("label", {}, el("span", { class: "unseen" }, "Ref"), el("input", { type: "search", name: "ref", placeholder: "Filter by ref", value: filter.ref ?? "", list: "refs", autocomplete: "off", spellcheck: "false" })),
    el("label", {}, el("span", { class: "unseen" }, "Status"), el("select", { name: "status" }, options(filter))),
  );
}

export const refsOf = (pipelines) => [...new Set((pipelines ?? []).map((pipeline) => pipeline.ref))];

function passes(pipeline, filter) {
  return (!filter.ref || pipeline.ref.toLowerCase().includes(filter.ref.toLowerCase())) && (!filter.status || pipeline.status === filter.status);
}

function none(filter) {
  if (known.pipelines.length) return el("p", { class: "empty" }, "No pipeline of the newest hundred is so. ", el("a", { href: "#/pipelines" }, "Show all"));
  return el("p", { class: "empty" }, "There is no pipeline yet.");
}

/** The view of all pipelines. */
export class List {
  title = "Pipelines";
  count = MOST;

  constructor(route) {
    this.filter = route.filter;
  }

  shown() {
    return (known.pipelines ?? []).filter((pipeline) => passes(pipeline, this.filter));
  }

  /** The list itself, and in turn the jobs of those pipelines that aren't known or may change. */
  keys() {
    const rows = this.shown().slice(0, this.count);
    const wanted = rows.filter((it) => OPEN.has(it.status) || known.readAs.get(it.id) !== it.status);
    return ["pipelines", ...wanted.map((it) => `jobs/${it.id}`)];
  }

  moves() {
    return this.shown().some((it) => OPEN.has(it.status) || !jobsOf(it.id));
  }

  filtered(form) {
    this.filter = Object.fromEntries([...new FormData(form)].filter(([, value]) => value));
    const query = new URLSearchParams(this.filter).toString();
    history.replaceState(null, "", `#/pipelines${query ? `?${query}` : ""}`);
  }

  more() {
    this.count += MOST;
  }

  nodes() {
    const head = el(
      "div",
      { class: "top", "data-key": "top" },
      el("h1", {}, "Pipelines"),
      filters(this.filter),
      el("datalist", { id: "refs" }, refsOf(known.pipelines).map((ref) => el("option", { value: ref }))),
      el("button", { type: "button", class: "button main", "data-act": "run" }, drawing("plus"), el("span", {}, "Run pipeline")),
    );
    if (!known.pipelines) return [head, el("p", { class: "empty" }, "Asking the server …")];
    const found = this.shown(), rows = found.slice(0, this.count);
    return [
      head,
      rows.length ? el("ul", { class: "rows", "data-key": "rows", "aria-label": "Pipelines" }, rows.map(row)) : none(this.filter),
      found.length > rows.length ? el("button", { type: "button", class: "button", "data-act": "more", "data-key": "more" }, `Show more (${found.length - rows.length})`) : null,
      known.pipelines.length >= 100 ? el("p", { class: "soft", "data-key": "newest" }, "The server tells the newest hundred.") : null,
    ];
  }
}

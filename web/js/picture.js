// A pipeline as a picture: stages as columns, jobs as boxes, lines from what is waited for to what waits.
import { jobButtons } from "./buttons.js";
import { el, svg } from "./dom.js";
import { HIGH, layout, WIDE, ACROSS } from "./graph.js";
import { name, toJob } from "./links.js";
import { said, sign, toneOf } from "./statuses.js";
import { lasting, ranFor } from "./times.js";

function below(job) {
  const last = job.attempts.at(-1);
  const shows = last && ["running", "success", "failed", "canceled"].includes(job.status);
  const took = shows && (ranFor(last) >= 1 || job.status === "running") ? ` · ${lasting(ranFor(last))}` : "";
  return `${said(job)}${took}${job.attempts.length > 1 ? ` · try ${job.attempts.length}` : ""}`;
}

function box(job, spot, pipeline, byId) {
  const tone = toneOf(job), own = job.needs.map((id) => byId.get(id)?.name).filter(Boolean);
  const title = `${job.name}: ${said(job)}${own.length ? `; waits for ${own.join(", ")}` : ""}`;
  return el(
    "div",
    { class: `box ${tone}`, "data-key": `box-${job.id}`, "data-box": job.id, style: { left: `${spot.left}px`, top: `${spot.top}px`, width: `${WIDE}px`, height: `${HIGH}px` } },
    el("a", { href: toJob(pipeline, job.id), title }, sign(tone, 22), el("span", { class: "texts" }, name(job.name, { class: "name" }), el("span", { class: "below" }, below(job)))),
    jobButtons(job).slice(0, 1),
  );
}

function stageHead(stage) {
  const left = stage.first * (WIDE + ACROSS), width = stage.width * (WIDE + ACROSS) - ACROSS;
  return el("h3", { class: "stage", "data-key": `stage-${stage.first}`, style: { left: `${left}px`, width: `${width}px` } }, name(stage.stage));
}

/** The picture of a pipeline with these jobs. */
export function picture(pipeline, jobs) {
  const { stages, spots, lines, dots, width, height } = layout(jobs);
  const byId = new Map(jobs.map((job) => [job.id, job]));
  const drawn = [
    ...lines.map((line) => svg("path", { d: line.path, "data-ids": line.ids.join(" ") })),
    ...dots.map((dot) => svg("circle", { cx: dot.across, cy: dot.down, r: 3, "data-ids": dot.ids.join(" ") })),
  ];
  return el(
    "div",
    { class: "wide", role: "group", "aria-label": "Jobs by stage", "data-key": "picture" },
    el(
      "div",
      { class: "picture", style: { width: `${width}px`, height: `${height}px` } },
      svg("svg", { class: "lines", width, height, "aria-hidden": "true" }, drawn),
      stages.map((stage) => [stageHead(stage), stage.jobs.map((job) => box(job, spots.get(job.id), pipeline, byId))]),
    ),
  );
}

let marked = null;

/** While a box is pointed at or has the focus, its lines stand out; without a target those of the last one, where the page was drawn anew. */
export function markLines(target) {
  if (target) marked = target.closest?.(".box")?.dataset.box ?? null;
  const id = marked;
  for (const line of document.querySelectorAll(".lines [data-ids]")) {
    const [first, ...others] = line.dataset.ids.split(" ");
    line.classList.toggle("marked", id !== null && (first === id || others.includes(id)));
  }
}

/** The stages of a pipeline as a row of small signs, each of the worst of its jobs. */
export function stageSigns(pipeline, jobs) {
  const ORDER = ["failed", "canceled", "running", "waiting_for_resource", "pending", "warning", "manual", "created", "success", "skipped"];
  const stages = new Map();
  for (const job of jobs) stages.set(job.stage, [...(stages.get(job.stage) ?? []), job]);
  return el(
    "span",
    { class: "stages" },
    [...stages].map(([stage, own]) => {
      const tone = ORDER.find((it) => own.some((job) => toneOf(job) === it)) ?? "created";
      const text = `${stage}: ${own.map((job) => `${job.name} ${said(job)}`).join(", ")}`;
      return el("a", { href: own.length === 1 ? toJob(pipeline, own[0].id) : `#/pipelines/${pipeline}`, title: text, "aria-label": text }, sign(tone, 22));
    }),
  );
}

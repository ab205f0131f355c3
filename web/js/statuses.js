// Statuses: their words, colours and signs.
import { el, svg } from "./dom.js";

export const OPEN = new Set(["created", "pending", "waiting_for_resource", "running", "manual"]);
export const PIPELINE_STATUSES = ["running", "pending", "manual", "failed", "canceled", "skipped", "success"];
export const CANCELLABLE = new Set(["created", "pending", "waiting_for_resource", "running", "manual"]);
export const RETRIABLE = new Set(["success", "failed", "canceled"]);

export const words = (status) => status.replaceAll("_", " ");

/** The colour of a job: a failure that is allowed has one of its own. */
export const toneOf = (job) => (job.status === "failed" && job.allow_failure ? "warning" : job.status);

export function said(job) {
  return job.status === "failed" && job.allow_failure ? "failed, allowed" : words(job.status);
}

// Signs within a circle of 24 by 24.
const SIGNS = {
  success: ["M7.2 12.4l3.2 3.2 6.4-6.8"],
  failed: ["M8.2 8.2l7.6 7.6M15.8 8.2l-7.6 7.6"],
  warning: ["M12 6.6v6.2M12 16.6v.2"],
  running: ["M12 6.4a5.6 5.6 0 1 1-5.6 5.6"],
  pending: ["M9.6 8v8M14.4 8v8"],
  waiting_for_resource: ["M12 7v5.2l3.2 2.2"],
  created: ["M12 11.9v.2"],
  manual: ["M9.4 7.6v8.8l7-4.4z"],
  canceled: ["M7 17L17 7"],
  skipped: ["M7.6 8l4 4-4 4M12.6 8l4 4-4 4"],
};

/** The sign of a status, as a picture without words. */
export function sign(tone, size = 20) {
  const full = tone === "manual" ? "full" : null;
  return svg(
    "svg",
    { class: `sign ${tone}`, viewBox: "0 0 24 24", width: size, height: size, "aria-hidden": "true" },
    svg("circle", { cx: 12, cy: 12, r: 10.4 }),
    (SIGNS[tone] ?? SIGNS.created).map((d) => svg("path", { d, class: full })),
  );
}

/** A status as a small coloured plate. */
export function chip(tone, text = words(tone)) {
  return el("span", { class: `chip ${tone}` }, sign(tone, 16), el("span", {}, text));
}

const CAUSES = {
  script_failure: "its script failed",
  api_failure: "the runner's call failed",
  stuck_or_timeout_failure: "its runner wasn't heard of for two minutes",
  runner_system_failure: "the runner's own system failed",
  job_execution_timeout: "its time was over",
  unknown_failure: "for a cause that wasn't told",
};

/** Why an attempt ended as it did, in words; empty where nothing is to be said. */
export function why(attempt) {
  const exit = attempt.exit_code === null || attempt.exit_code === undefined ? "" : `exit code ${attempt.exit_code}`;
  const cause = attempt.failure_reason ? CAUSES[attempt.failure_reason] ?? words(attempt.failure_reason) : "";
  return [cause, attempt.status === "success" && attempt.exit_code === 0 ? "" : exit].filter(Boolean).join(", ");
}

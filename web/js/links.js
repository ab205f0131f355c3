// Where a view stands: what is behind the # of the address.
import { el } from "./dom.js";

export const toPipeline = (id) => `#/pipelines/${id}`;
export const toJob = (pipeline, job) => `#/pipelines/${pipeline}/jobs/${job}`;
export const toAttempt = (pipeline, job, attempt) => `${toJob(pipeline, job)}/attempts/${attempt}`;
export const toLine = (pipeline, job, attempt, line) => `${toAttempt(pipeline, job, attempt)}/lines/${line}`;

const NUMBER = "([1-9][0-9]{0,15})";
const ROUTES = [
  ["pipelines", /^\/pipelines$/, []],
  ["pipeline", RegExp(`^/pipelines/${NUMBER}$`), ["pipeline"]],
  ["job", RegExp(`^/pipelines/${NUMBER}/jobs/${NUMBER}(?:/attempts/${NUMBER}(?:/lines/${NUMBER})?)?$`), ["pipeline", "job", "attempt", "line"]],
  ["waiting", /^\/waiting$/, []],
  ["groups", /^\/groups$/, []],
];

/** What the address asks for: a view's name, its numbers, and what the list is filtered by. */
export function route() {
  const [path, query = ""] = location.hash.slice(1).split("?");
  for (const [name, form, parts] of ROUTES) {
    const found = form.exec(path);
    // A number past the greatest would become another one.
    if (found && found.slice(1).every((part) => Number.isSafeInteger(Number(part ?? 0)))) {
      const numbers = Object.fromEntries(parts.map((part, at) => [part, found[at + 1] ? Number(found[at + 1]) : null]));
      return { name, ...numbers, filter: Object.fromEntries(new URLSearchParams(query)) };
    }
  }
  return { name: "pipelines", filter: {}, lost: path !== "" && path !== "/" };
}

/** A link with text that keeps its own direction of writing. */
export const link = (href, attributes, ...children) => el("a", { href, ...attributes }, ...children);

export const name = (text, attributes = {}) => el("bdi", attributes, text);

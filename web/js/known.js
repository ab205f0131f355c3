// What is known of the project. A key says what is asked for: `project`, `pipelines`, `groups`, `pipeline/7`, `jobs/7`.
import { ask, Unreachable } from "./api.js";
import { OPEN } from "./statuses.js";

export const known = { project: null, pipelines: null, groups: null, jobs: new Map(), readAs: new Map(), shown: new Map() };
const asked = new Map();
const faults = new Map();

// So many milliseconds the jobs of a pipeline are kept that isn't listed any more, since they were asked for.
const KEPT = 600_000;
let life = 0;

export function forgetAll() {
  life += 1;
  Object.assign(known, { project: null, pipelines: null, groups: null });
  for (const map of [known.jobs, known.readAs, known.shown, asked, faults]) map.clear();
}

/** The jobs that were read may have changed, and their pipelines have ended again, unseen. */
export function doubt() {
  known.readAs.clear();
}

/** What old pipelines had isn't kept for ever. */
function dropOld() {
  const listed = new Set(known.pipelines.map((pipeline) => pipeline.id));
  for (const id of known.jobs.keys()) {
    if (!listed.has(id) && performance.now() - askedAt(`jobs/${id}`) > KEPT) known.jobs.delete(id);
  }
}

const PATHS = {
  project: () => "",
  pipelines: () => "/pipelines",
  groups: () => "/resource_groups",
  pipeline: (id) => `/pipelines/${id}`,
  jobs: (id) => `/pipelines/${id}/jobs`,
};

const LISTS = new Set(["pipelines", "groups", "jobs"]);

function keep(kind, id, value, status) {
  if (kind === "pipeline") known.shown.set(id, value);
  else if (kind === "jobs") {
    known.jobs.set(id, value);
    known.readAs.set(id, status);
  } else known[kind] = value;
  if (kind === "pipelines") dropOld();
}

/** When that was asked for whose answer came last, by the browser's clock that no one sets; or 0. */
export const askedAt = (key) => asked.get(key) ?? 0;
export const faultOf = (key) => faults.get(key) ?? null;

/** Asks for what a key names. A refusal is kept with the key. What comes after all was forgotten isn't kept. */
export async function askFor(key) {
  const [kind, number] = key.split("/"), id = Number(number), begun = performance.now(), own = life;
  const status = pipelineOf(id)?.status;
  let fault = null;
  try {
    const value = await ask("GET", PATHS[kind](id));
    if (!value || Array.isArray(value) !== LISTS.has(kind)) throw new Unreachable("the answer isn't the server's");
    if (own === life) keep(kind, id, value, status);
  } catch (refused) {
    if (refused.code !== "M3") throw refused;
    fault = refused;
  }
  if (own !== life) return;
  if (fault) faults.set(key, fault);
  else faults.delete(key);
  asked.set(key, begun);
}

/** A pipeline by its number: of the list, else as it was shown. */
export function pipelineOf(id) {
  return known.pipelines?.find((pipeline) => pipeline.id === id) ?? known.shown.get(id) ?? null;
}

export const openPipelines = () => (known.pipelines ?? []).filter((pipeline) => OPEN.has(pipeline.status));

export const jobsOf = (id) => known.jobs.get(id) ?? null;

/** A job by its number, with its pipeline's, among those that are known. */
export function jobAnywhere(number) {
  for (const [pipeline, jobs] of known.jobs) {
    const job = jobs.find((it) => it.id === number);
    if (job) return { job, pipeline };
  }
  return null;
}

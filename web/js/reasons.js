// Why a job doesn't run, by what is known of pipelines, groups and runners.
import { el } from "./dom.js";
import { jobAnywhere, jobsOf, known, openPipelines } from "./known.js";
import { name, toJob } from "./links.js";
import { words } from "./statuses.js";

const jobLink = (pipeline, job) => el("a", { href: toJob(pipeline, job.id) }, name(job.name), ` #${job.id}`);

function list(parts) {
  return parts.flatMap((part, at) => (at ? [at === parts.length - 1 ? " and " : ", ", part] : [part]));
}

/** What each runner has shown that it takes: the tags of the jobs that it ran, and whether it ran one without tags. */
function runnersSeen() {
  // The jobs of a pipeline that has ended may have been read before it did: nothing of it runs.
  const seen = new Map(), open = new Set(openPipelines().map((it) => it.id));
  for (const [pipeline, jobs] of known.jobs) {
    for (const job of jobs) {
      for (const attempt of job.attempts) {
        if (!attempt.runner) continue;
        const runner = seen.get(attempt.runner.id) ?? { ...attempt.runner, tags: new Set(), untagged: false, runs: [], heard: "" };
        job.tag_list.forEach((tag) => runner.tags.add(tag));
        if (!job.tag_list.length) runner.untagged = true;
        if (attempt.status === "running" && open.has(pipeline)) runner.runs.push({ pipeline, job });
        if (attempt.heard_at > runner.heard) runner.heard = attempt.heard_at;
        seen.set(runner.id, runner);
      }
    }
  }
  return [...seen.values()];
}

const tagsOf = (tags) => list(tags.map((tag) => el("span", { class: "plate" }, name(tag))));

function pending(job) {
  const runners = runnersSeen();
  const fits = runners.filter((it) => (job.tag_list.length ? job.tag_list.every((tag) => it.tags.has(tag)) : it.untagged));
  if (!fits.length) {
    if (!job.tag_list.length) return ["Waits for a runner. None was seen here yet that runs jobs without tags."];
    const unseen = job.tag_list.filter((tag) => !runners.some((it) => it.tags.has(tag)));
    if (unseen.length === job.tag_list.length) return ["Waits for a runner with ", tagsOf(job.tag_list), `. None was seen here yet that has ${unseen.length === 1 ? "it" : "any of them"}.`];
    if (unseen.length) return ["Waits for a runner with ", tagsOf(job.tag_list), ". None was seen here yet that has ", tagsOf(unseen), "."];
    return ["Waits for a runner with ", tagsOf(job.tag_list), ". None was seen here yet that has them all."];
  }
  const busy = fits.filter((it) => it.runs.length), free = fits.filter((it) => !it.runs.length);
  const told = busy.length ? [list(busy.map((it) => [name(it.name), " runs ", list(it.runs.map((run) => jobLink(run.pipeline, run.job)))]).map((part) => el("span", {}, part))), "."] : [];
  const idle = free.length ? [" ", list(free.map((it) => name(it.name))), free.length === 1 ? " would fit, and runs none of the jobs here." : " would fit, and run none of the jobs here."] : [];
  return ["Waits for a runner", job.tag_list.length ? [" with ", tagsOf(job.tag_list)] : null, ": ", told, idle];
}

function groupFirst(job, pipeline, mode) {
  const isOldest = mode === "oldest_first", goes = isOldest ? ["created", "pending", "waiting_for_resource"] : ["pending", "waiting_for_resource"];
  const others = openPipelines().map((it) => it.id).filter((id) => (isOldest ? id < pipeline : id > pipeline)).sort((one, other) => (isOldest ? one - other : other - one));
  for (const id of others) {
    const other = jobsOf(id)?.find((it) => it.resource_group === job.resource_group && goes.includes(it.status));
    if (other) return jobLink(id, other);
  }
  return isOldest ? "an older pipeline's job" : "a newer pipeline's job";
}

function resource(job, pipeline) {
  const group = known.groups?.find((it) => it.key === job.resource_group);
  const head = ["The resource group ", el("a", { href: "#/groups" }, name(job.resource_group))];
  if (group?.holder) {
    const found = jobAnywhere(group.holder);
    return [head, " is held by ", found ? jobLink(found.pipeline, found.job) : `job #${group.holder}`, "."];
  }
  if (group && group.process_mode !== "unordered") return [head, ` is in ${words(group.process_mode)}: `, groupFirst(job, pipeline, group.process_mode), " goes before it."];
  return [head, " isn't free."];
}

function created(job, pipeline) {
  const jobs = jobsOf(pipeline) ?? [], open = job.needs.map((id) => jobs.find((it) => it.id === id)).filter((it) => it && ["created", "pending", "waiting_for_resource", "running", "manual"].includes(it.status));
  const near = open.filter((it) => !open.some((other) => other.needs.includes(it.id)));
  if (!near.length) return ["Waits for jobs before it."];
  return ["Waits for ", list(near.map((it) => el("span", {}, jobLink(pipeline, it), ` (${words(it.status)})`))), "."];
}

/** Why a job of a pipeline waits, as nodes. */
export function reason(job, pipeline) {
  if (job.status === "manual") return ["Waits for somebody to play it."];
  if (job.status === "waiting_for_resource") return resource(job, pipeline);
  return job.status === "pending" ? pending(job) : created(job, pipeline);
}

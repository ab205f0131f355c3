// One job: what the file says of it, its attempts, and the trace of one of them.
import { traceBehind } from "./api.js";
import { jobButtons } from "./buttons.js";
import { el } from "./dom.js";
import { askedAt, askFor, faultOf, jobsOf, known, pipelineOf } from "./known.js";
import { name, toAttempt, toJob, toLine, toPipeline } from "./links.js";
import { origin } from "./list.js";
import { Pane } from "./pane.js";
import { chip, OPEN, said, sign, toneOf, why, words } from "./statuses.js";
import { ago, lasting, moment, now, ranFor } from "./times.js";

const time = (iso) => el("time", { datetime: iso, title: moment(iso) }, ago(iso));

function fact(title, ...value) {
  return el("div", { class: "fact" }, el("dt", {}, title), el("dd", {}, value));
}

/** The view of a job. */
export class JobView {
  constructor(route) {
    [this.pipeline, this.id] = [route.pipeline, route.job];
    this.title = `Job #${this.id}`;
    this.moved(route);
  }

  /** Another attempt or line of the same job. */
  moved(route) {
    this.wanted = route.attempt;
    this.line = route.line;
    if (route.line) this.pane?.goTo(route.line);
  }

  job() {
    return jobsOf(this.pipeline)?.find((job) => job.id === this.id) ?? null;
  }

  attempt() {
    const attempts = this.job()?.attempts ?? [];
    return this.wanted ? attempts.find((it) => it.id === this.wanted) ?? null : attempts.at(-1) ?? null;
  }

  /** The pane of the attempt that is shown. */
  paneOf(attempt) {
    if (this.pane?.attempt !== attempt.id) {
      this.pane = new Pane(attempt.id, (line) => toLine(this.pipeline, this.id, attempt.id, line), this.line, () => { this.wanted = attempt.id; });
    }
    return this.pane;
  }

  keys() {
    const attempt = this.attempt();
    const keys = [`jobs/${this.pipeline}`];
    if (attempt && this.paneOf(attempt).mayHaveGrown(attempt)) keys.push("trace");
    if (!pipelineOf(this.pipeline)) keys.push("pipelines");
    if (this.job()?.resource_group) keys.push("groups");
    return keys;
  }

  askedAt(key) {
    return key === "trace" ? this.pane?.asked ?? 0 : askedAt(key);
  }

  async askFor(key) {
    if (key !== "trace") return askFor(key);
    const attempt = this.attempt(), pane = this.paneOf(attempt);
    const begun = performance.now(), heard = attempt.heard_at, ended = attempt.status !== "running";
    try {
      pane.write(await traceBehind(`/jobs/${this.id}/attempts/${attempt.id}/trace`, pane.log.bytes), ended);
      Object.assign(pane, { asked: begun, heard, isWhole: ended, since: now() });
    } catch (fault) {
      if (fault.code !== "M3") throw fault;
      Object.assign(pane, { asked: begun, isWhole: true, isGone: true });
    }
    return undefined;
  }

  moves() {
    return (jobsOf(this.pipeline) ?? []).some((job) => OPEN.has(job.status));
  }

  attempts(job) {
    return el(
      "ul",
      { class: "attempts", "aria-label": "Attempts" },
      [...job.attempts].reverse().map((it) => {
        const said = why(it), isShown = it.id === this.attempt()?.id;
        const end = it.status === "running" ? "" : `, last heard of ${ago(it.heard_at)}`;
        return el(
          "li",
          { "data-key": `attempt-${it.id}`, class: isShown ? "shown" : null },
          el(
            "a",
            { href: toAttempt(this.pipeline, job.id, it.id), "aria-current": isShown ? "true" : null },
            sign(it.status, 18),
            el("span", { class: "texts" },
              el("span", { class: "first" }, `Attempt ${it.id}: ${words(it.status)}`, el("span", { class: "took" }, lasting(ranFor(it)))),
              said ? el("span", { class: "why" }, said) : null,
              el("span", { class: "soft", title: `${moment(it.started_at)} to ${moment(it.heard_at)}` }, it.runner ? [name(it.runner.name), " · "] : null, `began ${ago(it.started_at)}${end}`)),
          ),
        );
      }),
    );
  }

  group(job) {
    const group = known.groups?.find((it) => it.key === job.resource_group);
    const holder = group?.holder && group.holder !== job.id ? ` · held by job ${group.holder}` : "";
    return [el("a", { href: "#/groups" }, name(job.resource_group)), group ? ` · ${words(group.process_mode)}${holder}` : null];
  }

  facts(job) {
    const jobs = jobsOf(this.pipeline), needs = job.needs.map((id) => jobs.find((it) => it.id === id)).filter(Boolean);
    return el(
      "dl",
      { class: "facts-of" },
      fact("Stage", name(job.stage)),
      job.when === "on_success" ? null : fact("When", words(job.when)),
      job.allow_failure ? fact("May fail", "yes") : null,
      job.tag_list.length ? fact("Tags", job.tag_list.map((tag) => el("span", { class: "plate" }, name(tag)))) : null,
      job.resource_group ? fact("Resource group", this.group(job)) : null,
      needs.length ? fact("Waits for", el("span", { class: "needs" }, needs.map((it) => el("a", { href: toJob(this.pipeline, it.id) }, sign(toneOf(it), 14), name(it.name))))) : null,
    );
  }

  side(job) {
    return el(
      "aside",
      { "data-key": "side" },
      this.facts(job),
      job.attempts.length ? [el("h2", {}, job.attempts.length === 1 ? "Attempt" : `${job.attempts.length} attempts`), this.attempts(job)] : null,
    );
  }

  head(job) {
    const pipeline = pipelineOf(this.pipeline);
    return el(
      "div",
      { class: "top", "data-key": "top" },
      el("p", { class: "crumbs" }, el("a", { href: toPipeline(this.pipeline) }, `Pipeline #${this.pipeline}`), pipeline ? el("span", { class: "origin" }, origin(pipeline)) : null),
      el("h1", {}, job ? name(job.name) : `Job #${this.id}`, el("span", { class: "soft" }, job ? ` #${job.id}` : "")),
      job ? chip(toneOf(job), said(job)) : null,
      el("div", { class: "acts" }, job ? jobButtons(job, false) : null),
    );
  }

  trace(job) {
    const attempt = this.attempt();
    if (!attempt && this.wanted) return el("p", { class: "empty", "data-key": "none" }, "The job has no such attempt.");
    if (!attempt && !OPEN.has(job.status)) return el("p", { class: "empty", "data-key": "none" }, "No runner took the job.");
    if (!attempt) return el("p", { class: "empty", "data-key": "none" }, "No runner has taken the job yet. ", job.status === "manual" ? "It waits to be played." : el("a", { href: "#/waiting" }, "What waits, and why"));
    return this.paneOf(attempt).shown(attempt);
  }

  nodes() {
    const job = this.job(), fault = faultOf(`jobs/${this.pipeline}`);
    if (!job) return [this.head(null), el("p", { class: "empty" }, fault || jobsOf(this.pipeline) ? "There is no such job. Its pipeline may have been pruned." : "Asking the server …")];
    const gone = fault ? el("p", { class: "empty" }, "The pipeline has been pruned since.") : null;
    return [this.head(job), gone, el("div", { class: "job-of", "data-key": "job" }, this.side(job), this.trace(job))];
  }
}

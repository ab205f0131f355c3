// The resource groups of the project: who holds each, who waits for it, and its process mode.
import { ask } from "./api.js";
import { attempt } from "./buttons.js";
import { el } from "./dom.js";
import { jobAnywhere, jobsOf, known, openPipelines } from "./known.js";
import { name, toJob } from "./links.js";
import { fresh } from "./polls.js";
import { sign, words } from "./statuses.js";

const MODES = [
  ["unordered", "whichever job a runner asks for first"],
  ["oldest_first", "the oldest pipeline's job, also while it is only created"],
  ["newest_ready_first", "the newest pipeline's job that is ready"],
];

/** Whether a group's name can stand in a path: the server decodes nothing, and a browser writes many a letter in another way. */
const canBeAsked = (key) => key.length <= 255 && !key.includes("%") && new URL(`/to/${key}`, location).pathname === `/to/${key}`;

/** The groups that the server tells, and those that jobs here have besides. */
function groups() {
  const found = new Map((known.groups ?? []).map((group) => [group.key, group]));
  for (const jobs of known.jobs.values()) {
    for (const { resource_group: key } of jobs) {
      if (key !== null && !found.has(key)) found.set(key, { key, holder: null, process_mode: "unordered" });
    }
  }
  return [...found.values()].sort((one, other) => (one.key < other.key ? -1 : 1));
}

const jobLink = ({ pipeline, job }) => el("a", { href: toJob(pipeline, job.id) }, sign(job.status, 14), el("span", {}, name(job.name), ` #${job.id}`));

/** The view of the resource groups. */
export class Groups {
  title = "Resource groups";
  setting = new Set();

  keys() {
    return ["groups", "pipelines", ...openPipelines().map((it) => `jobs/${it.id}`)];
  }

  moves() {
    return openPipelines().length > 0;
  }

  waiting(key) {
    return openPipelines().flatMap(({ id }) => (jobsOf(id) ?? []).filter((job) => job.resource_group === key && job.status === "waiting_for_resource").map((job) => ({ pipeline: id, job })));
  }

  holder(group) {
    if (!group.holder) return el("span", { class: "soft" }, "free");
    const found = jobAnywhere(group.holder);
    return ["held by ", found ? jobLink(found) : `job #${group.holder}`];
  }

  mode(group) {
    if (!canBeAsked(group.key)) return el("span", { class: "soft", title: "A name with a blank, a slash, an accent or such can't be written in an address as it stands." }, words(group.process_mode));
    const at = `mode-${group.key}`;
    return el(
      "select",
      { "data-mode": group.key, "data-key": at, "aria-label": `Process mode of ${group.key}` },
      MODES.map(([mode, what]) => el("option", { value: mode, selected: mode === group.process_mode, title: what }, words(mode))),
    );
  }

  row(group) {
    const waiting = this.waiting(group.key);
    return el(
      "li",
      { class: "row group", "data-key": `group-${group.key}`, "data-group": group.key },
      el("span", { class: "cell" }, name(group.key, { class: "number" })),
      el("span", { class: "cell" }, this.holder(group)),
      el("span", { class: "cell needs" }, waiting.length ? [el("span", { class: "soft" }, `${waiting.length} ${waiting.length === 1 ? "waits" : "wait"}: `), waiting.slice(0, 5).map(jobLink), waiting.length > 5 ? "…" : null] : el("span", { class: "soft" }, "none waits")),
      el("span", { class: "cell acts" }, this.mode(group)),
    );
  }

  /** Sets a group's process mode. */
  async changed(select) {
    const [key, mode] = [select.dataset.mode, select.value];
    this.setting.add(key);
    await attempt(async () => {
      const group = await ask("PUT", `/resource_groups/${key}`, { process_mode: mode });
      const listed = known.groups?.find((it) => it.key === key);
      if (listed) listed.process_mode = group.process_mode;
      else known.groups?.push({ holder: null, ...group });
      return `${group.key} is ${words(group.process_mode)} from now on.`;
    });
    this.setting.delete(key);
    fresh();
  }

  /** A select says what the server told last, but while it is being set. */
  drawn(place) {
    for (const select of place.querySelectorAll("select[data-mode]")) {
      const key = select.dataset.mode, told = known.groups?.find((it) => it.key === key)?.process_mode ?? "unordered";
      if (!this.setting.has(key) && select.value !== told) select.value = told;
    }
  }

  nodes() {
    const head = el("div", { class: "top", "data-key": "top" }, el("h1", {}, "Resource groups"));
    if (!known.groups) return [head, el("p", { class: "empty" }, "Asking the server …")];
    const found = groups();
    return [
      head,
      found.length ? el("ul", { class: "rows", "data-key": "rows", "aria-label": "Resource groups" }, found.map((group) => this.row(group))) : el("p", { class: "empty", "data-key": "none" }, "No group is held or has a mode of its own."),
      el("dl", { class: "modes soft", "data-key": "modes" }, MODES.map(([mode, what]) => [el("dt", {}, words(mode)), el("dd", {}, `next is ${what}`)])),
    ];
  }
}

// Moments and spans in words. The server's clock counts: the page knows by how much its own is off.

let skew = 0;

/** Tells the server's moment, by the field `Date` of a reply, where there is one. */
export function heard(date) {
  const moment = Date.parse(date ?? "");
  if (!Number.isNaN(moment) && Math.abs(moment - Date.now() - skew) > 1500) skew = moment - Date.now();
}

export const now = () => Date.now() + skew;

/** A span in words: `42 s`, `3 min 5 s`, `2 h 10 min`, `3 d 4 h`. */
export function lasting(seconds) {
  const all = Math.max(0, Math.round(seconds));
  const [days, hours, minutes] = [Math.floor(all / 86400), Math.floor(all / 3600) % 24, Math.floor(all / 60) % 60];
  if (days) return hours ? `${days} d ${hours} h` : `${days} d`;
  if (hours) return minutes ? `${hours} h ${minutes} min` : `${hours} h`;
  if (minutes) return all % 60 ? `${minutes} min ${all % 60} s` : `${minutes} min`;
  return `${all} s`;
}

const STEPS = [[60, 1, "second"], [3600, 60, "minute"], [86400, 3600, "hour"], [86400 * 30, 86400, "day"], [86400 * 365, 86400 * 30, "month"], [Infinity, 86400 * 365, "year"]];

/** How long ago a moment was: `just now`, `5 minutes ago`. */
export function ago(iso) {
  const seconds = (now() - Date.parse(iso)) / 1000;
  if (Number.isNaN(seconds)) return "";
  if (seconds < 10) return "just now";
  const [, unit, word] = STEPS.find(([most]) => seconds < most);
  const count = Math.floor(seconds / unit);
  return `${count} ${word}${count === 1 ? "" : "s"} ago`;
}

/** A moment in the reader's own time. */
export function moment(iso) {
  const date = new Date(iso);
  if (Number.isNaN(date.getTime())) return "";
  return date.toLocaleString(undefined, { dateStyle: "medium", timeStyle: "medium" });
}

/** The time of day of a moment. */
export const clock = (time) => new Date(time).toLocaleTimeString(undefined, { timeStyle: "medium" });

/** How many seconds an attempt has run: until it was last heard of, or until now while it runs. */
export function ranFor(attempt) {
  const end = attempt.status === "running" ? now() : Date.parse(attempt.heard_at);
  return Math.max(0, (end - Date.parse(attempt.started_at)) / 1000);
}

/** From the first attempt's grant to the last moment that any was heard of; null before the first. */
export function spanOf(jobs) {
  const attempts = jobs.flatMap((job) => job.attempts);
  if (!attempts.length) return null;
  const first = Math.min(...attempts.map((it) => Date.parse(it.started_at)));
  return Math.max(...attempts.map((it) => Date.parse(it.started_at) + ranFor(it) * 1000 - first)) / 1000;
}

// Requests to the server that the page came from, and to no other.
import { heard } from "./times.js";

// Pages of several servers may stand side by side below one name: each has its own.
const PLACE = `token ${new URL(".", location).pathname}`;
const MOST_WAITING = 30_000;

/** What the server refused, with its code. */
export class Refused extends Error {
  constructor(status, code, detail) {
    super(words(code, status, detail));
    Object.assign(this, { status, code });
  }
}

/** No answer of the server's came. */
export class Unreachable extends Error {}

const WORDS = {
  M1: "No project has this token.",
  M2: "This token is another project's.",
  M3: "There is no such thing in this project. Finished pipelines may have been pruned.",
  M10: "The job doesn't wait to be played any more.",
  M11: "Only a job that has ended can be tried again.",
  M12: "There is nothing left to cancel.",
  M13: "The project has no CI file yet.",
  M15: "The server has no numbers left.",
  H4: "That is more than a request may hold.",
  H7: "The server doesn't take this.",
};

// Of what is asked of a pipeline: its ref and its variables.
const OF_ORDER = {
  K11: "A pipeline has a hundred variables at most.",
  K12: "A variable's name has letters, digits and _ alone, begins with no digit, and stands once.",
  K16: "A ref has 1 to 255 bytes, and no control characters.",
};

function words(code, status, detail) {
  if (code === "M14" && OF_ORDER[detail]) return OF_ORDER[detail];
  if (code === "M14") return `Refused: ${detail}. “ciserver explain” tells more of the file.`;
  return WORDS[code] ?? `Refused: ${code ?? `status ${status}`}.`;
}

export const token = () => sessionStorage.getItem(PLACE) ?? "";
export const keepToken = (text) => sessionStorage.setItem(PLACE, text);
export const dropToken = () => sessionStorage.removeItem(PLACE);

/** The number of the project that a token is of, which the token begins with; null where it is none. */
export function projectOf(text) {
  const found = /^p([1-9][0-9]{0,15})-[0-9a-f]{32}$/.exec(text);
  return found ? found[1] : null;
}

async function refusal(reply) {
  let told = {};
  try {
    told = (await reply.json()) ?? {};
  } catch {
    // A proxy's own words.
  }
  if (told.code === "M16") return new Unreachable("the server lacks memory");
  if (told.code === "M17") return new Unreachable("the server's store has failed");
  if (reply.status >= 500 || reply.status === 429 || reply.status === 408) return new Unreachable(`status ${reply.status}`);
  return new Refused(reply.status, told.code, told.detail);
}

/** The bytes of a reply; `comes()` is done with each part of them. */
async function bytesOf(reply, comes) {
  const parts = [], reader = reply.body?.getReader();
  for (let part = await reader?.read(); part && !part.done; part = await reader.read()) {
    comes();
    parts.push(part.value);
  }
  return new Uint8Array(await new Blob(parts).arrayBuffer());
}

async function send(method, path, { body, from } = {}) {
  const headers = { "PRIVATE-TOKEN": token() };
  if (from) headers.Range = `bytes=${from}-`;
  const stop = new AbortController();
  let timer = null;
  const wait = () => {
    clearTimeout(timer);
    timer = setTimeout(() => stop.abort(), MOST_WAITING);
  };
  wait();
  try {
    const url = `api/v4/projects/${projectOf(token())}${path}`;
    const reply = await fetch(url, { method, body, headers, signal: stop.signal, cache: "no-store", credentials: "same-origin", redirect: "error" });
    heard(reply.headers.get("Date"));
    if (from && reply.status === 416) return { reply, bytes: new Uint8Array(0) };
    if (!reply.ok) throw await refusal(reply);
    return { reply, bytes: await bytesOf(reply, wait) };
  } catch (fault) {
    if (fault instanceof Refused || fault instanceof Unreachable) throw fault;
    throw new Unreachable(stop.signal.aborted ? "nothing came for half a minute" : "no connection");
  } finally {
    clearTimeout(timer);
  }
}

/** Asks for something of the project, and answers what the JSON of the reply holds. */
export async function ask(method, path, value) {
  const body = value === undefined ? (method === "GET" ? undefined : "") : JSON.stringify(value);
  const { bytes } = await send(method, path, { body });
  if (!bytes.length) return null;
  try {
    return JSON.parse(new TextDecoder().decode(bytes));
  } catch {
    throw new Unreachable("the answer isn't the server's");
  }
}

/** The bytes of a trace behind its first `from`: a part of it where the proxy gives one, else what follows in the whole. */
export async function traceBehind(path, from) {
  const { reply, bytes } = await send("GET", path, { from });
  if (bytes.length && !/^text\/plain\b/.test(reply.headers.get("Content-Type") ?? "")) throw new Unreachable("the answer isn't the server's");
  if (reply.status !== 206) return bytes.subarray(reply.status === 416 ? 0 : from);
  const begins = /^bytes (\d+)-/.exec(reply.headers.get("Content-Range") ?? "");
  return begins && Number(begins[1]) === from ? bytes : new Uint8Array(0);
}

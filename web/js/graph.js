// Where the boxes of a pipeline's picture stand, and how lines run between them. Stages are columns; jobs of a stage that wait for one another have columns
// of their own within it. What is waited for by way of another job has no line, and jobs that wait for the same ones share a knot.

export const WIDE = 182, HIGH = 54, ACROSS = 38, DOWN = 14, HEAD = 40;

/** All that each job waits for, by way of others too. */
function ancestors(jobs, byId) {
  const found = new Map();
  for (const job of jobs) {
    const reached = new Set(), ahead = [...job.needs];
    while (ahead.length) {
      const id = ahead.pop();
      if (reached.has(id) || !byId.has(id)) continue;
      reached.add(id);
      ahead.push(...byId.get(id).needs);
    }
    found.set(job.id, reached);
  }
  return found;
}

function depths(own) {
  const depth = new Map(own.map((job) => [job.id, 0]));
  for (let round = 0; round < own.length; round += 1) {
    let still = true;
    for (const job of own) {
      const below = job.needs.filter((id) => depth.has(id)).map((id) => depth.get(id) + 1);
      const deep = Math.min(Math.max(0, ...below), own.length);
      if (deep !== depth.get(job.id)) still = false;
      depth.set(job.id, deep);
    }
    if (still) break;
  }
  return depth;
}

/** The jobs' columns and rows, and the stages with their first column and how many they have. */
function place(jobs) {
  const spots = new Map(), stages = [];
  let first = 0;
  for (const stage of new Set(jobs.map((job) => job.stage))) {
    const own = jobs.filter((job) => job.stage === stage), depth = depths(own), used = new Map();
    for (const job of own) {
      const column = first + depth.get(job.id), row = used.get(column) ?? 0;
      used.set(column, row + 1);
      spots.set(job.id, { column, row, left: column * (WIDE + ACROSS), top: HEAD + row * (HIGH + DOWN), middle: HEAD + row * (HIGH + DOWN) + HIGH / 2 });
    }
    const width = Math.max(...used.keys()) - first + 1;
    stages.push({ stage, first, width, jobs: own });
    first += width;
  }
  return { spots, stages, columns: first };
}

function curve(left, top, right, bottom) {
  const half = (left + right) / 2;
  return `C${half} ${top} ${half} ${bottom} ${right} ${bottom}`;
}

/** How high a line runs past the columns between: straight where no box is in its way, else between two rows. */
function height(rows, from, column, row) {
  let filled = 0;
  for (let at = from.column + 1; at < column; at += 1) filled = Math.max(filled, rows.get(at) ?? 0);
  if (from.row >= filled) return from.middle;
  if (row >= filled) return HEAD + row * (HIGH + DOWN) + HIGH / 2;
  const beside = row < from.row ? from.top - DOWN / 2 : from.top + HIGH + DOWN / 2;
  return beside + ((from.column % 3) - 1) * 3;
}

function lineTo(rows, from, column, row, right, bottom) {
  const left = from.left + WIDE, before = column * (WIDE + ACROSS) - ACROSS;
  if (before <= left) return `M${left} ${from.middle}${curve(left, from.middle, right, bottom)}`;
  const run = height(rows, from, column, row);
  return `M${left} ${from.middle}${curve(left, from.middle, left + ACROSS, run)}H${before}${curve(before, run, right, bottom)}`;
}

function knot(rows, from, waiting, aside) {
  const { column, left } = waiting[0].spot, across = left - ACROSS / 2 + aside;
  const inRows = waiting.map((it) => it.spot.row).sort((a, b) => a - b);
  const down = waiting.reduce((sum, it) => sum + it.spot.middle, 0) / waiting.length;
  const ids = [...from.map((it) => it.id), ...waiting.map((it) => it.id)];
  const into = from.map((it) => ({ path: lineTo(rows, it.spot, column, inRows[Math.floor(inRows.length / 2)], across, down), ids: [it.id, ...waiting.map((w) => w.id)] }));
  const out = waiting.map((it) => ({ path: `M${across} ${down}${curve(across, down, left, it.spot.middle)}`, ids: [it.id, ...from.map((f) => f.id)] }));
  return { lines: [...into, ...out], dot: { across, down, ids } };
}

function linesOf(jobs, byId, spots) {
  const above = ancestors(jobs, byId), rows = new Map(), groups = new Map(), lines = [], dots = [];
  for (const { column, row } of spots.values()) rows.set(column, Math.max(rows.get(column) ?? 0, row + 1));
  for (const job of jobs) {
    const needs = job.needs.filter((id) => byId.has(id));
    const near = needs.filter((id) => !needs.some((other) => other !== id && above.get(other).has(id)));
    if (!near.length) continue;
    const key = `${near.join(" ")}/${spots.get(job.id).column}`;
    if (!groups.has(key)) groups.set(key, { near, waiting: [] });
    groups.get(key).waiting.push({ id: job.id, spot: spots.get(job.id) });
  }
  [...groups.values()].forEach(({ near, waiting }, at) => {
    const from = near.map((id) => ({ id, spot: spots.get(id) }));
    if (from.length > 1 && from.length + waiting.length > 3) {
      const made = knot(rows, from, waiting, ((at % 3) - 1) * 4);
      lines.push(...made.lines);
      dots.push(made.dot);
      return;
    }
    for (const to of waiting) {
      for (const it of from) lines.push({ path: lineTo(rows, it.spot, to.spot.column, to.spot.row, to.spot.left, to.spot.middle), ids: [it.id, to.id] });
    }
  });
  return { lines, dots };
}

/** The picture of these jobs: stages, the spots of boxes by the jobs' numbers, lines, and how large it is. */
export function layout(jobs) {
  const byId = new Map(jobs.map((job) => [job.id, job]));
  const { spots, stages, columns } = place(jobs);
  const width = Math.max(0, columns * (WIDE + ACROSS) - ACROSS);
  const height = Math.max(HEAD, ...[...spots.values()].map((spot) => spot.top + HIGH)) + 8;
  return { stages, spots, width, height, ...linesOf(jobs, byId, spots) };
}

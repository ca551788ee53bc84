// What the page shows: its traces as rows of marks, how marks are found by time, and what is said of each.

export const state = {
  data: {}, sheets: [], active: 0, chosen: null, focus: null, from: 0, to: 1, ticks: 1, cursor: 0, frame: 0, later: 0,
  hidden: false, dragged: false, letters: true,
};

/** Finds the first place in a sorted list, from a start on, whose key is at least a value. */
export function lower(list, key, value, start = 0) {
  let low = start, high = list.length;
  while (low < high) {
    const middle = (low + high) >> 1;
    if (key(list[middle]) < value) low = middle + 1;
    else high = middle;
  }
  return low;
}

/** Gives the items that end after a time and begin before another; without those nearer than a gap to the last. */
export function* within(list, [begin, end], from, to, gap) {
  for (let place = lower(list, end, from); place < list.length && begin(list[place]) <= to;) {
    yield list[place];
    place = gap ? Math.max(place + 1, lower(list, end, end(list[place]) + gap, place)) : place + 1;
  }
}

// Times by which marks are sorted: where each begins and ends
export const RUNS = [(run) => run.begin, (run) => run.end];
export const RELEASES = [(job) => job.release, (job) => job.release];
export const DEADLINES = [(job) => job.due, (job) => job.due];
export const COMPLETIONS = [(job) => job.done, (job) => job.done];
export const DECISIONS = [(decision) => decision.tick, (decision) => decision.until];

// Reading

/** Unpacks a text: base64 of what zlib made. */
export async function unpack(packed) {
  const letters = atob(packed), bytes = new Uint8Array(letters.length);
  for (let place = 0; place < letters.length; place++) bytes[place] = letters.charCodeAt(place);
  return new Response(new Blob([bytes]).stream().pipeThrough(new DecompressionStream("deflate"))).text();
}

/** Gives a number, or a text such as "2 2/3", as a number. */
export function ticksOf(time) {
  if (typeof time === "number") return time;
  const words = time.split(" "), [num, den = 1] = words.pop().split("/");
  return Number(words[0] ?? 0) + num / den;
}

/** Gives ticks in ms, units a tick in MHz, or units in kcycles of the board; to six decimals. */
export const inBoard = (number, unit) => Math.round(ticksOf(number) * state.data.board[unit] * 1e6) / 1e6;

/** Gives a text of a number, and if the page is of a board, the number in the board's unit beside it. */
export const beside = (number, unit, text = number) =>
  state.data.board ? `${text} (${inBoard(number, unit)} ${unit})` : `${text}`;

/** Begins a trace without marks. */
export function emptyTrace(tasks, ticks) {
  const rows = tasks.map((task) => ({ task, jobs: [], runs: [], misses: [] }));
  return { rows, jobs: [], idles: [], decisions: [], ticks };
}

/** Adds the marks of a piece to a trace, in the order of time. */
export function addPiece(trace, piece) {
  for (const [place, number, release, due, completion, response, laxity, units, energy, speed, missed] of piece.jobs) {
    const row = trace.rows[place], done = completion === null ? Infinity : ticksOf(completion);
    const job = { row, number, release, due, completion, response, laxity, units, energy, speed, missed, done };
    row.jobs.push(job);
    if (missed) row.misses.push(job);
    trace.jobs.push(job);
  }
  for (const [place, ...fields] of piece.runs) {
    const job = trace.jobs[place];
    job.row.runs.push({ job, ...segment(fields) });
  }
  for (const fields of piece.idles) trace.idles.push(segment(fields));
  for (const [tick, speed, demand, line] of piece.decisions) {
    const place = trace.decisions.length, [num, den] = demand.split("/");
    if (place) trace.decisions[place - 1].until = tick;
    trace.decisions.push({ place, line, tick, until: trace.ticks, speed, demand, need: num / den });
  }
}

/** Reads a run or idle time. */
function segment([from, until, speed, units]) {
  return { from, until, speed, units, begin: ticksOf(from), end: ticksOf(until) };
}

/** Gives the decision in force at a time: the last one that isn't later, or the last one before it. */
export function decisionAt(sheet, tick, before = false) {
  const { decisions } = sheet.trace;
  const place = lower(decisions, DECISIONS[0], tick);
  return decisions[Math.max(0, decisions[place]?.tick === tick && !before ? place : place - 1)];
}

// Words

/** Writes a number of work units. */
const counted = (units) => beside(units, "kcycles", `${units} ${String(units) === "1" ? "unit" : "units"}`);
const at = (time) => beside(time, "ms");
const speedOf = (speed) => beside(speed, "MHz");
const ran = ({ from, until, speed, units }) =>
  `from ${at(from)} to ${at(until)} at speed ${speedOf(speed)}: ${counted(units)}`;
const titled = (job) => `${job.row.task.name} job ${job.number}`;

// The words of a mark
export const SAYS = {
  release: (job) => `${titled(job)} is released at ${at(job.release)}, due at ${at(job.due)}`,
  deadline: (job) => `${titled(job)} is due at ${at(job.due)}`,
  miss: (job) => `${titled(job)} misses its deadline at ${at(job.due)}: ${job.units} of ${counted(job.row.task.worst)}`,
  done: (job) => `${titled(job)} is complete at ${at(job.completion)} with ${job.units} of ${counted(job.row.task.worst)}`,
  run: (run) => `${titled(run.job)} runs ${ran(run)}`,
  idle: (idle) => `idle ${ran(idle)}`,
  decision: ({ tick, speed, demand }) => `decision at tick ${at(tick)}: speed ${speedOf(speed)} for ${speedOf(demand)}`,
};

/** Lists a job's facts: times in ticks, work units, and the unit of the trace's energies; of a board also in its own. */
export function jobFacts(job) {
  return [
    ["job", `${job.row.task.name} ${job.number}`], ["release", at(job.release)], ["deadline", at(job.due)],
    ["completion", job.completion === null ? (job.missed ? "missed" : "not in this run") : at(job.completion)],
    ["response", job.response === null ? "–" : at(job.response)],
    ["laxity", job.laxity === null ? "–" : at(job.laxity)],
    ["units", `${job.units} of ${beside(job.row.task.worst, "kcycles")}`], ["energy", job.energy],
  ];
}

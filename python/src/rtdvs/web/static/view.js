// What the reader sees and does: the window of ticks, the chosen mark with its explanation, pointers and keys.

import { draw, drawSheet, fillTable, find, gutter, make, ROW, scaleOf, SPEED } from "./picture.js";
import { addPiece, beside, decisionAt, emptyTrace, jobFacts, lower, RELEASES, RUNS, SAYS, state, unpack } from "./trace.js";
import { saveButtons } from "./save.js";

const MOST_JOBS = 60;       // lines of the table of jobs
const ASKS = "Click a mark, or step from decision to decision.";
const tenth = (number) => Math.round(number * 10) / 10;

// Pictures follow the widths of their places, which are measured only when they change.
const watched = new ResizeObserver((entries) => {
  for (const { target, contentRect } of entries) {
    if (target.sheet && contentRect.width) target.sheet.width = Math.round(contentRect.width);
  }
  redraw();
});

/** Shows the first ticks of the page's traces, and then reads the rest piece by piece. */
export async function load(data) {
  const sheets = data.sheets ?? [], kept = state.ticks;
  state.data = data;
  state.sheets = sheets.map((sheet, place) => ({ ...sheet, place, trace: emptyTrace(data.tasks, sheet.ticks) }));
  state.ticks = Math.max(1, ...sheets.map((sheet) => sheet.ticks));
  if (state.ticks !== kept || state.from >= state.ticks) [state.from, state.to] = [0, data.window];
  state.cursor = Math.min(state.cursor, state.ticks);
  state.active = 0;
  build();
  clear();
  const now = state.sheets;
  for (const sheet of now) {
    for (const piece of sheet.pieces) {
      addPiece(sheet.trace, JSON.parse(await unpack(piece)));
      redraw();
    }
  }
  if (state.sheets !== now) return;
  drawAll();
  document.body.classList.add("whole");
}

/** Builds what changes only with the traces: headings, pictures, tables of numbers, and the question on paper. */
function build() {
  const { data, sheets } = state, names = data.tasks?.length ?? 0;
  watched.disconnect();
  find("#sheets").replaceChildren(...sheets.map((sheet) => {
    const part = make("section", { class: "sheet" });
    part.sheet = sheet;
    part.append(make("h2", {}, sheet.title), make("p", { class: "energy" }, sheet.energy, ...saveButtons(sheet)));
    if (sheet.note) part.append(make("p", { class: "note" }, sheet.note));
    sheet.axis = draw(part, "svg", { class: "axis", "aria-hidden": "true" });
    sheet.svg = draw(part, "svg", { class: "rows", role: "group", "aria-label": sheet.title });
    sheet.svg.addEventListener("click", (event) => clicked(event, sheet));
    find("#sheets").append(part);
    sheet.width = Math.round(part.clientWidth || part.parentElement.clientWidth);
    sheet.svg.setAttribute("viewBox", `0 0 ${sheet.width} ${names * ROW + SPEED}`);
    watched.observe(part);
    return part;
  }));
  const filled = ({ caption, heading, rows }) => fillTable(make("table"), heading, rows, caption);
  find("#numbers").replaceChildren(...sheets.flatMap(({ tables }) => tables.map(filled)));
  find("#question").replaceChildren(...(data.question ?? []).map(filled));
  tellParting(data.apart);
  document.body.classList.remove("whole");
  redraw();
}

/** Says where two schedules part, with a button that goes there. */
function tellParting(apart) {
  find("#apart").hidden = !apart;
  if (!apart) return;
  const go = make("button", { type: "button" }, `Go to tick ${beside(apart.tick, "ms")}`);
  go.addEventListener("click", () => show(state.sheets[0], decisionAt(state.sheets[0], apart.tick)));
  find("#apart").replaceChildren(`${apart.text} `, ...(apart.parts ? [go] : []));
}

/** Takes the explanation of another run away. */
function clear() {
  state.chosen = state.focus = null;
  find("#subject").textContent = "Explanation";
  find("#facts").replaceChildren();
  find("#board").textContent = ASKS;
}

/** Speaks one sentence to a screen reader. */
export function say(sentence) {
  find("#said").textContent = sentence;
}

/** Gives the lines of `explain` for a decision, if the page has them. */
async function boardOf(sheet, decision) {
  const chunk = sheet.boards.findLast((each) => each.first <= decision.place);
  const boards = chunk ? JSON.parse(await unpack(chunk.text)) : [];
  const without = `line ${decision.line}, ${SAYS.decision(decision)}\n${sheet.left}`;
  return boards[decision.place - (chunk?.first ?? 0)] ?? without;
}

/** Opens the explanation of a mark, with the decision in force there. */
export async function choose(sheet, kind, item) {
  const tick = { decision: item.tick, release: item.release, done: item.done, miss: item.due }[kind] ?? item.begin;
  const decision = kind === "decision" ? item : decisionAt(sheet, tick, kind === "done" || kind === "miss");
  const job = kind === "run" ? item.job : item.row ? item : null;
  state.active = sheet.place;
  state.chosen = item;
  state.focus = { kind, item };
  state.cursor = Math.floor(tick);
  const subject = `${sheet.label}: ${SAYS[kind](item)}`;
  find("#subject").textContent = subject;
  find("#facts").replaceChildren(...(job ? jobFacts(job) : []).map(([name, value]) =>
    make("div", {}, make("dt", {}, name), make("dd", {}, value))));
  find("#compared").open = false;
  say(`${subject}.`);
  redraw();
  const board = decision ? await boardOf(sheet, decision) : "";
  if (state.chosen === item) find("#board").textContent = board;
}

/** Moves the cursor to the next decision (1) or the one before (-1), and opens it. */
export function step(by) {
  const sheet = state.sheets[state.active];
  if (!sheet?.trace.decisions.length) return;
  const decisions = sheet.trace.decisions;
  const here = decisionAt(sheet, state.cursor).place;
  const stays = state.chosen !== decisions[here] && by === -1 && decisions[here].tick < state.cursor;
  show(sheet, decisions[Math.min(decisions.length - 1, Math.max(0, stays ? here : here + by))]);
}

/** Opens a decision, and moves the window until it is inside. */
export function show(sheet, decision) {
  const span = state.to - state.from;
  if (decision.tick < state.from || decision.tick >= state.to) move(decision.tick - span / 4, span);
  choose(sheet, "decision", decision);
}

// The window

/** Sets the window: its first tick, and how many ticks it has, at least 2. */
export function move(from, span) {
  const kept = Math.min(Math.max(span, Math.min(2, state.ticks)), state.ticks);
  state.from = Math.min(Math.max(from, 0), state.ticks - kept);
  state.to = state.from + kept;
  redraw();
}

/** Makes the window this many times wider, around a tick that stays at its place. */
export function zoom(factor, tick = (state.from + state.to) / 2) {
  const span = Math.min(Math.max((state.to - state.from) * factor, 2), state.ticks);
  move(tick - (tick - state.from) * span / (state.to - state.from), span);
}

/** Draws all sheets in the next frame, once however often it is called before. */
export function redraw() {
  if (!state.frame) state.frame = requestAnimationFrame(drawAll);
}

/** Draws what is in the window. */
export function drawAll() {
  cancelAnimationFrame(state.frame);
  state.frame = 0;
  state.hidden = false;
  state.sheets.forEach(drawSheet);
  const [from, to] = [state.from, state.to].map((tick) => beside(tenth(tick), "ms"));
  const ticks = `ticks ${from} to ${to} of ${beside(state.ticks, "ms")}`;
  const more = state.hidden ? "; zoom in for single jobs and decisions" : "";
  find("#where").textContent = `${ticks}; cursor at ${beside(state.cursor, "ms")}${more}`;
  clearTimeout(state.later);
  state.later = setTimeout(listJobs, 250);
}

/** Lists the jobs that are released in the window, in order of time; a job's button opens it. */
function listJobs() {
  const sheet = state.sheets[state.active];
  if (!sheet) return;
  const { jobs } = sheet.trace;
  const first = lower(jobs, RELEASES[0], state.from), last = lower(jobs, RELEASES[0], state.to);
  const shown = jobs.slice(first, Math.min(last, first + MOST_JOBS));
  const more = last - first > shown.length ? `, the first ${shown.length} of ${last - first}` : "";
  const heading = ["job", "release", "deadline", "completion", "response", "laxity", "units", "energy"];
  const rows = shown.map((job) => {
    const [[, name], ...facts] = jobFacts(job), open = make("button", { type: "button", class: "plain" }, name);
    open.addEventListener("click", () => choose(sheet, job.completion === null ? "release" : "done", job));
    return [open, ...facts.map(([, value]) => value)];
  });
  fillTable(find("#jobs"), heading, rows, `${sheet.label}: jobs released in the window${more}`);
}

// The reader's hands

/** Gives the tick under a pointer. */
function tickAt(event, sheet) {
  const pixels = event.clientX - sheet.svg.getBoundingClientRect().left - gutter(sheet);
  return Math.min(Math.max(state.from + pixels / scaleOf(sheet), state.from), state.to);
}

/** Opens a mark: a deadline's is its job. */
function open(sheet, { kind, item }) {
  choose(sheet, kind === "deadline" ? "release" : kind, item);
}

/** Opens the mark that was clicked; next to one, the nearest run of the row, or the decision in force. */
function clicked(event, sheet) {
  const mark = event.target.closest("path")?.mark;
  if (state.dragged) return;
  if (mark) {
    open(sheet, mark);
    return;
  }
  const tick = tickAt(event, sheet);
  const row = sheet.trace.rows[Math.floor((event.clientY - sheet.svg.getBoundingClientRect().top) / ROW)];
  const run = row?.runs[Math.min(lower(row.runs, RUNS[1], tick), row.runs.length - 1)];
  if (run) choose(sheet, "run", run);
  else if (sheet.trace.decisions.length) choose(sheet, "decision", decisionAt(sheet, tick));
}

/** Lets pointers move the window by a drag, and zoom by two fingers. */
export function handlePointers(area) {
  const held = new Map();
  const apart = () => Math.abs([...held.values()][0].x - [...held.values()][1].x) || 1;
  area.addEventListener("pointerdown", (event) => {
    if (!held.size) state.dragged = false;
    held.set(event.pointerId, { x: event.clientX });
  });
  addEventListener("pointermove", (event) => {
    const finger = held.get(event.pointerId);
    if (!finger) return;
    const before = held.size === 2 ? apart() : 0, moved = event.clientX - finger.x;
    if (!state.dragged && Math.abs(moved) < 4) return;
    state.dragged = true;
    finger.x = event.clientX;
    if (before) zoom(before / apart());
    else move(state.from - moved / scaleOf(state.sheets[0]), state.to - state.from);
  });
  for (const kind of ["pointerup", "pointercancel"]) addEventListener(kind, (event) => held.delete(event.pointerId));
  area.addEventListener("wheel", (event) => {
    const turned = event.shiftKey ? event.deltaY : event.deltaX;
    if (!event.ctrlKey && !turned) return;
    event.preventDefault();
    if (event.ctrlKey) zoom(1.0015 ** event.deltaY, tickAt(event, state.sheets[0]));
    else move(state.from + turned * (state.to - state.from) / 1000, state.to - state.from);
  }, { passive: false });
}

const ARROWS = { ArrowLeft: () => step(-1), ArrowRight: () => step(1) };
const ENDS = { Home: () => step(-Infinity), End: () => step(Infinity) };    // only in the picture and its buttons
const LETTERS = {                                                           // a reader can switch them off
  "+": () => zoom(1 / 1.5, state.cursor), "=": () => zoom(1 / 1.5, state.cursor), "-": () => zoom(1.5, state.cursor),
  0: () => move(0, state.ticks),
};

/** Gives what a key does at a place of the page. */
function actionOf({ key, shiftKey, target }) {
  const span = state.to - state.from, by = { ArrowLeft: -span / 8, ArrowRight: span / 8 }[key];
  if (by && shiftKey) return () => move(state.from + by, span);
  const mark = target.closest("[tabindex]")?.mark;
  if (mark && (key.startsWith("Arrow") || key === "Enter" || key === " ")) return () => rove(target, key);
  const here = target.closest("#sheets, nav") ? ENDS : {};
  return [ARROWS, here, state.letters ? LETTERS : {}].find((keys) => Object.hasOwn(keys, key))?.[key];
}

/** Acts on a key, unless it is written into a field. */
export function pressed(event) {
  if (event.ctrlKey || event.altKey || event.metaKey || event.target.closest("input, select, textarea")) return;
  const act = actionOf(event);
  if (!act) return;
  event.preventDefault();
  act();
}

/** Moves the focus from mark to mark: along a row by time, or to the nearest of the next row; Enter opens it. */
function rove(element, key) {
  const sheet = state.sheets.find(({ svg }) => svg.contains(element)), { mark } = element;
  if (key === "Enter" || key === " ") {
    open(sheet, mark);
    return;
  }
  const rows = [...sheet.svg.querySelectorAll("g.row")].map((row) =>
    [...row.querySelectorAll("[tabindex]")].sort((one, two) => one.mark.at - two.mark.at)).filter((row) => row.length);
  const place = rows.findIndex((row) => row.includes(element)), row = rows[place];
  const by = { ArrowLeft: -1, ArrowRight: 1 }[key];
  const other = rows[place + (key === "ArrowUp" ? -1 : 1)] ?? row;
  const nearest = () => other.toSorted((one, two) =>
    Math.abs(one.mark.at - mark.at) - Math.abs(two.mark.at - mark.at))[0];
  const next = by ? row[row.indexOf(element) + by] ?? element : other === row ? element : nearest();
  state.focus = next.mark;
  element.setAttribute("tabindex", "-1");
  next.setAttribute("tabindex", "0");
  next.focus({ preventScroll: true });
}

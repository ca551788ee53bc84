// The picture of a sheet: its marks as paths, in pixels. Only what lies in the window is in the document.

import { COMPLETIONS, DEADLINES, DECISIONS, RELEASES, RUNS, SAYS, beside, inBoard, lower, state, within } from "./trace.js";

export const ROW = 50;      // of a task
export const AXIS = 22;     // the ticks' numbers
const BELOW = 16;           // the milliseconds below them
export const SPEED = 96;    // the row of speeds
const GUTTER = 150;         // pixels left of the ticks, for names
const NARROW = 84;          // the same in a picture of less than LEAST pixels
const LEAST = 600;
const RIGHT = 16;           // pixels right of the ticks
const BAR = 28;             // a run at the highest speed
const FULL = 56;            // the highest speed
const MOST_MARKS = 240;     // as single elements; of more marks each row and kind is one path
const NEAR = 6;             // pixels: of more marks those that are nearer are drawn once; more for many rows

export const find = (selector) => document.querySelector(selector);
const round = (number) => Math.round(number * 10) / 10;

/** Makes an HTML element with attributes, and puts texts or elements into it, never markup. */
export function make(name, attributes = {}, ...content) {
  const element = document.createElement(name);
  for (const [key, value] of Object.entries(attributes)) element.setAttribute(key, value);
  element.append(...content);
  return element;
}

/** Adds an SVG element to another one; its title is shown under the pointer and read by a screen reader. */
export function draw(parent, name, attributes, title) {
  const element = document.createElementNS("http://www.w3.org/2000/svg", name);
  for (const key in attributes) element.setAttribute(key, attributes[key]);
  if (title) draw(element, "title", {}).textContent = title;
  return parent.appendChild(element);
}

/** Puts rows of texts or elements into a table, below a heading; its caption is another one if a text is given. */
export function fillTable(table, heading, rows, caption) {
  const line = (cells, name, more = {}) => make("tr", {}, ...cells.map((cell) => make(name, more, cell)));
  const text = caption ?? table.caption?.textContent ?? "";
  table.replaceChildren(make("caption", {}, text), make("thead", {}, line(heading, "th", { scope: "col" })),
    make("tbody", {}, ...rows.map((row) => line(row, "td"))));
  return table;
}

// Shapes, as paths: of a bar, arrows, a circle, a diamond and a cross

const bar = (left, right, floor, height) =>
  `M${round(left)} ${floor}V${round(floor - height)}H${round(right)}V${floor}Z`;
const arrowUp = (x, floor) => `M${round(x)} ${floor}v-40m-4 5l4 -5l4 5`;
const arrowDown = (x, floor) => `M${round(x)} ${floor - 26}v26m-4 -5l4 5l4 -5`;
const circle = (x, y) => `M${round(x + 4)} ${round(y)}a4 4 0 1 1 -8 0a4 4 0 1 1 8 0Z`;
const diamond = (x, y) => `M${round(x)} ${round(y - 6)}l6 6l-6 6l-6 -6Z`;
const cross = (x, y) => `M${round(x - 6)} ${y - 6}l12 12m0 -12l-12 12`;

/** Gives the pixels left of the ticks. */
export const gutter = (sheet) => sheet.width < LEAST ? NARROW : GUTTER;

/** Gives the pixels of a tick. */
export const scaleOf = (sheet) => (sheet.width - gutter(sheet) - RIGHT) / (state.to - state.from);

/** Draws a sheet: its ticks, rows, speeds and cursor. Nothing is measured: its width is kept. */
export function drawSheet(sheet) {
  const { rows, decisions } = sheet.trace, scale = scaleOf(sheet), left = gutter(sheet);
  const x = (tick) => left + (Math.min(Math.max(tick, state.from), state.to) - state.from) * scale;
  const near = (NEAR + rows.length / 2) / scale;
  const pen = { sheet, x, scale, left, near, parent: document.createDocumentFragment() };
  pen.single = rows.reduce((sum, row) => sum + marksOf(row), 0) <= MOST_MARKS;
  const least = pen.single ? 0.6 : pen.near * scale, floor = rows.length * ROW + SPEED;
  pen.rightOf = ({ begin, end }) => Math.max(x(end), Math.min(x(begin) + least, x(state.to)));
  drawTicks(pen, floor, sheet.axis);
  rows.forEach((row, place) => drawRow(pen, row, place));
  const few = lower(decisions, DECISIONS[0], state.to) - lower(decisions, DECISIONS[1], state.from) <= MOST_MARKS / 2;
  drawSpeeds({ ...pen, single: few }, floor - 8);
  if (state.cursor >= state.from && state.cursor <= state.to) {
    draw(pen.parent, "path", { class: "cursor", d: `M${round(x(state.cursor))} 0V${floor}` });
  }
  const held = sheet.svg.contains(document.activeElement);
  sheet.svg.setAttribute("viewBox", `0 0 ${sheet.width} ${floor}`);
  sheet.svg.replaceChildren(pen.parent);
  const marks = [...sheet.svg.querySelectorAll("[tabindex]")];
  const first = marks.find((each) => each.mark.item === state.focus?.item && each.mark.kind === state.focus.kind);
  (first ?? marks[0])?.setAttribute("tabindex", "0");
  if (held) (first ?? marks[0])?.focus({ preventScroll: true });
}

/** Counts the items of a list that are in the window. */
function countWithin(list, [begin, end]) {
  return lower(list, begin, state.to) - lower(list, end, state.from);
}

/** Counts a row's marks in the window. */
function marksOf(row) {
  return countWithin(row.runs, RUNS) + 3 * countWithin(row.jobs, RELEASES);
}

/**
 * Draws marks of a kind: each as an element that can be chosen, or, if they are many, all as one path. Of many bars one
 * takes the place of those that are near; many arrows, circles or diamonds aren't drawn.
 */
function drawMarks(pen, kind, list, times, shape) {
  if (!pen.single && times !== RUNS && countWithin(list, times) * 2 * pen.near > state.to - state.from) {
    state.hidden = true;
    return;
  }
  const marks = within(list, times, state.from, state.to, pen.single ? 0 : pen.near);
  if (!pen.single) {
    const path = [...marks].map(shape).join("");
    if (path) draw(pen.parent, "path", { class: kind, d: path });
    return;
  }
  for (const item of marks) {
    const looks = { class: kind, d: shape(item), role: "button", tabindex: "-1" };
    const element = draw(pen.parent, "path", looks, SAYS[kind](item));
    element.mark = { kind, item, at: times[0](item) };
    if (item === state.chosen) element.classList.add("chosen");
  }
}

/** Draws a task's row: its name, releases, deadlines, runs, completions and misses. */
function drawRow(pen, row, place) {
  const { task } = row, floor = (place + 1) * ROW - 2, most = pen.left === GUTTER ? 15 : 7;
  const group = draw(pen.parent, "g", { class: `row c${place % 8}` });
  const inner = { ...pen, parent: group };
  const height = (speed) => BAR * speed / state.data.top;
  draw(group, "path", { class: "floor", d: `M${pen.left} ${floor}H${round(pen.x(state.to))}` });
  const name = draw(group, "text", { class: "name", x: pen.left - 10, y: floor - 18, "text-anchor": "end" });
  name.textContent = task.name.length > most ? `${task.name.slice(0, most - 1)}…` : task.name;
  draw(name, "title", {}).textContent = task.name;
  const isNarrow = pen.left !== GUTTER, { board } = state.data;
  const period = board && isNarrow ? `${inBoard(task.period, "ms")} ms` : `period ${beside(task.period, "ms")}`;
  const facts = `${period}, worst ${task.worst}`;
  draw(group, "text", { class: "small", x: pen.left - 10, y: floor - 3, "text-anchor": "end" }).textContent =
    facts.length > 23 || isNarrow ? period : facts;
  drawMarks(inner, "run", row.runs, RUNS, (run) =>
    bar(pen.x(run.begin), pen.rightOf(run), floor, height(run.speed)));
  drawMarks(inner, "release", row.jobs, RELEASES, (job) => arrowUp(pen.x(job.release), floor));
  drawMarks(inner, "deadline", row.jobs, DEADLINES, (job) => arrowDown(pen.x(job.due), floor));
  drawMarks(inner, "done", row.jobs, COMPLETIONS, (job) => circle(pen.x(job.done), floor - height(job.speed)));
  drawMarks(inner, "miss", row.misses, DEADLINES, (job) => cross(pen.x(job.due), floor - 14));
  if (pen.single) labelRuns(inner, row, floor);
}

/** Writes a job's number into each bar that has room for it. */
function labelRuns(pen, row, floor) {
  for (const run of within(row.runs, RUNS, state.from, state.to, 0)) {
    const left = pen.x(run.begin), right = pen.x(run.end), number = String(run.job.number);
    if (right - left < 9 * number.length + 12) continue;
    const place = { x: round((left + right) / 2), y: floor - 3, "text-anchor": "middle" };
    draw(pen.parent, "text", { ...place, class: "inside", "aria-hidden": "true" }).textContent = number;
  }
}

/** Draws the row of speeds: idle time, the speed, the demand and the decisions. */
function drawSpeeds(pen, floor) {
  const { decisions, idles } = pen.sheet.trace, group = draw(pen.parent, "g", { class: "row" });
  const inner = { ...pen, parent: group };
  const height = (speed) => FULL * Math.min(speed / state.data.top, 1.25);
  const label = (y, text, name) => {
    draw(group, "text", { class: name, x: pen.left - 10, y, "text-anchor": "end" }).textContent = text;
  };
  label(floor - FULL / 2 + 5, "speed", "name");
  label(floor - FULL + 4, state.data.board ? `${inBoard(state.data.top, "MHz")} MHz` : state.data.top, "small");
  label(floor, "0", "small");
  draw(group, "path", { class: "floor", d: `M${pen.left} ${floor}H${round(pen.x(state.to))}` });
  drawMarks(inner, "idle", idles, RUNS, (idle) =>
    bar(pen.x(idle.begin), pen.rightOf(idle), floor, height(idle.speed)));
  const held = [...within(decisions, DECISIONS, state.from, state.to, pen.single ? 0 : 4 / pen.scale)];
  const steps = (value) => held.map((each, place) => {
    const begin = place ? "V" : `M${round(pen.x(each.tick))} `;
    return `${begin}${round(floor - height(value(each)))}H${round(pen.x(each.until))}`;
  }).join("");
  if (held.length) {
    draw(group, "path", { class: "demand", d: steps((each) => each.need) });
    draw(group, "path", { class: "speed", d: steps((each) => each.speed) });
  }
  const inside = held.filter((each) => each.tick >= state.from);
  drawMarks(inner, "decision", inside, [DECISIONS[0], DECISIONS[0]], (each) =>
    diamond(pen.x(each.tick), floor - height(each.speed)));
}

/** Draws the numbers of the ticks, 1, 2 or 5 times a power of ten apart, and their lines; of a board also the ms. */
function drawTicks(pen, floor, axis) {
  const { board } = state.data, most = (board ? 90 : 60) / pen.scale, power = 10 ** Math.floor(Math.log10(most));
  const apart = Math.max(1, power * ([1, 2, 5].find((factor) => factor * power >= most) ?? 10));
  const numbers = document.createDocumentFragment();
  const write = (x, y, text, anchor) => {
    draw(numbers, "text", { x: round(x), y, "text-anchor": anchor }).textContent = text;
  };
  let path = "";
  for (let tick = Math.ceil(state.from / apart) * apart; tick <= state.to; tick += apart) {
    path += `M${round(pen.x(tick))} 0V${floor}`;
    write(pen.x(tick), AXIS - 6, tick, "middle");
    if (board) write(pen.x(tick), AXIS + BELOW - 6, inBoard(tick, "ms"), "middle");
  }
  if (board) ["tick", "ms"].forEach((unit, row) => write(pen.left - 18, AXIS - 6 + row * BELOW, unit, "end"));
  draw(pen.parent, "path", { class: "grid", d: path });
  axis.setAttribute("viewBox", `0 0 ${pen.sheet.width} ${AXIS + (board ? BELOW : 0)}`);
  axis.replaceChildren(numbers);
}

// The editor of an example: its fields, what each means, undo and redo, the address, and the calls of the program.

import { fillTable, find, make } from "./picture.js";
import { download } from "./save.js";
import { state } from "./trace.js";
import { load, say } from "./view.js";

const TABLES = {
  tasks: ["name", "period", "worst", "offset"], points: ["speed", "millivolts"], demands: ["task", "job", "units"],
};
const SINGLE = ["scheduler", "governor", "ticks", "idle", "charge", "beside"];
const MOST_ROWS = 1000;     // of an example in an address
const PAGE = `${performance.timeOrigin} ${Math.random()}`;   // a newer call of the page ends an older one
const REST = 150;           // milliseconds without a key before a call
const BUSY = 400;           // milliseconds before a busy server is asked again, and longer each time
const MOST_TURNS = 6;       // times that it is asked
const FILES = { tasks: "tasks.toml", machine: "machine.toml", demands: "demands.csv", trace: "run.trace" };

// A sentence for each field
const HINTS = {
  "tasks.name": "A task's name: 1 to 32 letters, digits, _ and -.",
  "tasks.period": "The ticks from one release of the task to the next; a job is due at its task's next release.",
  "tasks.worst": "The worst case: the most work units that a job needs, without the charge.",
  "tasks.offset": "The tick of the first release; an empty field is 0.",
  "points.speed": "The work units that the machine does in a tick. A work unit is what a speed of 1 does in a tick.",
  "points.millivolts": "The voltage at this speed. A unit's energy is the square of it.",
  "demands.task": "The task of a job that needs less than the worst case. Jobs without a row need the worst case.",
  "demands.job": "The number of the job: 1 is the task's first.",
  "demands.units": "The demand: the work units that the job needs, or a share of the worst case, such as 50%.",
  scheduler: "edf runs the job that is due first, and rm the one with the shortest period.",
  governor: "none keeps the highest speed, static one speed for all worst cases; cc uses what jobs leave over, and la "
    + "puts work off.",
  ticks: "The length of the run.",
  idle: "The idle share: the energy of an idle unit, in thousandths of a unit that runs.",
  charge: "The work units of one switch of the speed; each job pays for two.",
  beside: "A second pair of scheduler and governor, drawn below the first.",
};
const editor = {
  files: {}, last: null, calls: 0, timer: 0, past: [], future: [], now: "", drawn: "", compared: "", renamed: null,
};
export const fieldOf = (name) => find(`[data-field="${CSS.escape(name)}"]`);

// Rows

/** Makes the fields of one table's rows: a text field for each column, and a button that removes the row. */
function fillRows(kind, rows) {
  const body = rows.map((row, place) => {
    const cells = TABLES[kind].map((column) => {
      const label = `${kind} ${place + 1} ${column}`, title = HINTS[`${kind}.${column}`];
      const field = make("input", { "data-field": `${kind}.${place}.${column}`, "aria-label": label, title });
      field.value = row[column] ?? "";
      return make("td", {}, field);
    });
    const remove = make("button", { type: "button", "aria-label": `remove ${kind} ${place + 1}` }, "×");
    remove.addEventListener("click", () => removeRow(kind, place));
    return make("tr", {}, ...cells, make("td", {}, remove));
  });
  const add = make("button", { type: "button", class: "add", "aria-label": `add a row to ${kind}` }, "+ row");
  add.addEventListener("click", () => addRow(kind));
  const heading = make("tr", {}, ...TABLES[kind].map((column) =>
    make("th", { scope: "col", title: HINTS[`${kind}.${column}`] }, column)));
  const last = make("tr", {}, make("td", {}, add));
  find(`#table-${kind}`).replaceChildren(make("caption", {}, kind), heading, ...body, last);
}

/** Removes a row; a task takes its demands along. */
function removeRow(kind, place) {
  const rows = readRows(kind), [gone] = rows.splice(place, 1);
  fillRows(kind, rows);
  if (kind === "tasks" && !rows.some(({ name }) => name === gone.name)) {
    fillRows("demands", readRows("demands").filter(({ task }) => task !== gone.name));
  }
  run();
}

// A row that is right beside the others
const NEXT = {
  tasks: (rows) => {
    const names = new Set(rows.map(({ name }) => name));
    let number = rows.length + 1;
    while (names.has(`t${number}`)) number++;
    return { name: `t${number}`, period: rows.at(-1)?.period || "10", worst: "1", offset: "0" };
  },
  points: (rows) => {
    const last = rows.at(-1);
    return { speed: String(Number(last?.speed ?? 0) + 1), millivolts: last?.millivolts ?? "1000" };
  },
  demands: (rows) => {
    const task = readRows("tasks")[0] ?? {}, taken = rows.filter((row) => row.task === task.name);
    const job = Math.max(0, ...taken.map((row) => Number(row.job) || 0)) + 1;
    return { task: task.name ?? "", job: String(job), units: task.worst ?? "1" };
  },
};

/** Adds a row that is right, and puts the cursor into it. */
function addRow(kind) {
  const rows = readRows(kind);
  fillRows(kind, [...rows, NEXT[kind](rows)]);
  const field = fieldOf(`${kind}.${rows.length}.${TABLES[kind][0]}`);
  field.focus();
  field.select();
  run();
}

/** Gives each job of the run a share of its worst case as its demand. */
function fillDemands() {
  const ticks = Number(fieldOf("ticks").value), share = `${find("#share").value.replace("%", "").trim()}%`;
  const rows = readRows("tasks").flatMap(({ name, period, offset }) => {
    const jobs = Math.ceil((ticks - Number(offset)) / Number(period));
    return jobs > 0 && jobs <= MOST_ROWS ? Array.from({ length: jobs }, (_, place) =>
      ({ task: name, job: String(place + 1), units: share })) : [];
  });
  fillRows("demands", rows.slice(0, MOST_ROWS));
  run();
}

/** Reads a table's fields. */
function readRows(kind) {
  const cells = [...find(`#table-${kind}`).querySelectorAll("input")], width = TABLES[kind].length;
  return Array.from({ length: cells.length / width }, (_, place) => Object.fromEntries(
    TABLES[kind].map((column, index) => [column, cells[place * width + index].value])));
}

/** Reads the whole example from the editor. */
export function readExample() {
  const rows = Object.keys(TABLES).map((kind) => [kind, readRows(kind)]);
  return Object.fromEntries([...rows, ...SINGLE.map((name) => [name, fieldOf(name).value])]);
}

/** Writes an example into the editor. */
function writeExample(example) {
  for (const kind of Object.keys(TABLES)) fillRows(kind, Array.isArray(example[kind]) ? example[kind] : []);
  for (const name of SINGLE) fieldOf(name).value = example[name] ?? "";
}

/** Writes an example into the editor, and calls the program. */
export function edit(example) {
  writeExample(example);
  run();
}

/** Takes a task's new name to its demands: those that had its name when it was entered. */
function rename(field) {
  if (!/^tasks\.\d+\.name$/.test(field.dataset.field)) return;
  if (editor.renamed?.field !== field) return;
  for (const demand of editor.renamed.demands) demand.value = field.value;
}

/** Keeps the demands of the task whose name the cursor enters. */
function enter({ target }) {
  if (!/^tasks\.\d+\.name$/.test(target.dataset?.field ?? "")) return;
  const demands = [...find("#table-demands").querySelectorAll('[data-field$=".task"]')];
  editor.renamed = { field: target, demands: demands.filter(({ value }) => value === target.value) };
}

// Undo

/** Keeps an example that is new as the present one. */
function keep(text) {
  if (text === editor.now) return;
  if (editor.now) editor.past.push(editor.now);
  editor.now = text;
  editor.future = [];
}

/** Goes back to the example before, or on to the next one. */
function travel(from, to) {
  keep(JSON.stringify(readExample()));
  const text = from.pop();
  if (!text) return;
  to.push(editor.now);
  editor.now = text;
  edit(JSON.parse(text));
}

const undo = () => travel(editor.past, editor.future);
const redo = () => editor.future.length && travel(editor.future, editor.past);

// The address

/** Writes an example as an address's last part. */
function toAddress(example) {
  const bytes = new TextEncoder().encode(JSON.stringify(example));
  const letters = Array.from(bytes, (byte) => String.fromCharCode(byte)).join("");
  return btoa(letters).replaceAll("+", "-").replaceAll("/", "_");
}

/** Reads an example from an address's last part; throws what is wrong with it. */
function fromAddress(text) {
  let example = null;
  try {
    const letters = atob(text.replaceAll("-", "+").replaceAll("_", "/"));
    example = JSON.parse(new TextDecoder().decode(Uint8Array.from(letters, (letter) => letter.charCodeAt(0))));
  } catch {
    throw new Error("is cut or broken");
  }
  const kinds = Object.keys(TABLES), isRow = (row) => Object(row) === row && !Array.isArray(row);
  if (!isRow(example) || !kinds.every((kind) => Array.isArray(example[kind]))) throw new Error("is of another page");
  if (!kinds.every((kind) => example[kind].every(isRow))) throw new Error("has rows that are none");
  if (kinds.some((kind) => example[kind].length > MOST_ROWS)) throw new Error(`has more than ${MOST_ROWS} rows`);
  return example;
}

/** Opens the example of the address; without a right one says so, and opens another example. */
function openAddress(otherwise) {
  find("#link").hidden = true;
  try {
    edit(location.hash.length > 1 ? fromAddress(location.hash.slice(1)) : otherwise);
  } catch (fault) {
    const text = `The address ${fault.message}, so this is the first example of the menu.`;
    find("#link").hidden = false;
    find("#link").textContent = text;
    edit(otherwise);
  }
}

// Calls

/** Says what a refusal means, and if the picture isn't of what is in the fields; nothing without a refusal. */
function notice({ refused, meaning, offer } = {}) {
  const isOld = Boolean(refused) && editor.drawn !== editor.now;
  document.body.classList.toggle("stale", isOld);
  const shown = state.sheets.map(({ title }) => title).join(" and ");
  const old = isOld && shown ? `What is below is of earlier values (${shown}), not of those in the fields.` : "";
  const all = make("button", { type: "button" }, "Show the run anyway");
  all.addEventListener("click", () => run({ admission: "none" }));
  const words = [meaning, old].filter(Boolean).map((text) => `${text} `);
  find("#stale").replaceChildren(...words, ...(offer ? [all] : []));
  find("#stale").hidden = !find("#stale").hasChildNodes();
}

/** Shows a refusal, in the program's words, at the field that it names; an empty one is none. */
function refuse(answer = {}) {
  document.querySelectorAll("[aria-invalid]").forEach((field) => {
    field.removeAttribute("aria-invalid");
    field.removeAttribute("aria-describedby");
  });
  find("#refusal")?.remove();
  notice(answer);
  if (!answer.refused) return;
  const field = fieldOf(answer.field) ?? find("#status");
  field.setAttribute("aria-invalid", "true");
  field.setAttribute("aria-describedby", "refusal");
  field.after(make("p", { id: "refusal" }, answer.refused));
  find("#status").textContent = "";
  say(`Refused: ${answer.refused}.`);
}

/** Keeps the files of the fields, and lets those be taken along that are there. */
function offerFiles(files) {
  editor.files = files ?? {};
  for (const button of document.querySelectorAll("[data-file]")) {
    button.disabled = !(button.dataset.file in editor.files);
  }
}

/** Rests some milliseconds; a newer call ends the rest. */
function rest(milliseconds, signal) {
  return new Promise((resolve, reject) => {
    setTimeout(resolve, milliseconds);
    signal.addEventListener("abort", () => reject(signal.reason));
  });
}

/** Sends an example to the server, again while it is busy, and gives its answer. */
async function ask(path, example, signal) {
  for (let turn = 1; ; turn++) {
    const answer = await fetch(path, {
      method: "POST", body: JSON.stringify(example), headers: { "Content-Type": "application/json" }, signal,
    });
    if (answer.status !== 503) return answer.json();
    if (turn === MOST_TURNS) return { refused: "the server is busy", field: "" };
    find("#status").textContent = "The server is busy and is asked again.";
    await rest(BUSY * turn, signal);
  }
}

/** Sends the fields to the server, and gives its answer, or null if a later call has been made. */
async function call(path, more = {}) {
  clearTimeout(editor.timer);
  const example = readExample(), number = ++editor.calls;
  keep(JSON.stringify(example));
  history.replaceState(null, "", `#${toAddress(example)}`);
  find("#address").href = location.href;
  editor.last?.abort();
  editor.last = new AbortController();
  find("#sheets").setAttribute("aria-busy", "true");
  try {
    const found = await ask(path, { ...example, ...more, page: PAGE }, editor.last.signal);
    return number === editor.calls ? found : null;
  } catch (fault) {
    return number === editor.calls ? { refused: `no answer: ${fault.message}`, field: "" } : null;
  } finally {
    if (number === editor.calls) find("#sheets").removeAttribute("aria-busy");
    find("#undo").disabled = !editor.past.length;
    find("#redo").disabled = !editor.future.length;
  }
}

/** Calls the program for the example, and shows the trace or the refusal. */
async function run(more = {}) {
  offerFiles(null);
  const answer = await call("run", more);
  if (!answer) return;
  offerFiles(answer.files);
  if (answer.refused) {
    refuse(answer);
    return;
  }
  find("#compared").hidden = editor.compared !== editor.now;
  editor.drawn = editor.now;
  await load({ ...state.data, ...answer.data });
  refuse();
  find("#status").textContent = `Drawn: ${state.sheets.map(({ title }) => title).join(" and ")}.`;
}

/** Calls the program after a rest, so that one who types isn't interrupted. */
function soon() {
  clearTimeout(editor.timer);
  offerFiles(null);
  editor.timer = setTimeout(run, REST);
}

/** Compares all pairs of a scheduler and a governor. */
async function compare() {
  const answer = await call("compare");
  if (!answer) return;
  refuse(answer);
  if (!answer.refused) {
    editor.compared = editor.now;
    find("#compared").hidden = false;
    find("#compared").open = true;
    fillTable(find("#pairs"), answer.heading, answer.rows);
    say("All pairs are compared below the schedule.");
  }
  if (editor.drawn !== editor.now) run();     // the call has ended that of a run
}

// The start

/** Makes the menu of examples; each says what it is for. */
function fillMenu(examples) {
  const menu = find("#menu");
  menu.append(...examples.map(({ name, about = "" }) => make("option", { title: about }, name)));
  menu.addEventListener("change", () => {
    find("#link").hidden = true;
    find("#about").textContent = examples[menu.selectedIndex].about ?? "";
    edit(examples[menu.selectedIndex].example);
  });
  find("#about").textContent = location.hash.length > 1 ? "" : examples[0].about ?? "";
}

/** Lists what the fields mean, and says it at each field. */
function explainFields() {
  for (const name of SINGLE) fieldOf(name).title = HINTS[name];
  find("#meanings").replaceChildren(...Object.entries(HINTS).flatMap(([name, text]) =>
    [make("dt", {}, name.replace(".", ": ")), make("dd", {}, text)]));
}

/** Opens the editor with the example of the address, or with the first of the menu. */
export function startEditor(examples) {
  const form = find("#editor");
  document.body.classList.add("edits");
  find("#side").hidden = false;
  find("#side").open = innerWidth >= 1000;
  find("#tables").append(...Object.keys(TABLES).map((kind) => make("table", { id: `table-${kind}` })));
  fillMenu(examples);
  explainFields();
  form.addEventListener("focusin", enter);
  form.addEventListener("input", ({ target }) => {
    if (!target.dataset.field) return;
    rename(target);
    soon();
  });
  form.addEventListener("submit", (event) => event.preventDefault());
  const buttons = { compare, undo, redo, fill: fillDemands };
  for (const [id, act] of Object.entries(buttons)) find(`#${id}`).addEventListener("click", () => act());
  for (const button of document.querySelectorAll("[data-file]")) {
    const { file } = button.dataset;
    button.addEventListener("click", () =>
      download(FILES[file], new Blob([editor.files[file]], { type: "text/plain" })));
  }
  openAddress(examples[0].example);
  addEventListener("hashchange", () => openAddress(examples[0].example));
}

export const filesOfFields = () => editor.files;

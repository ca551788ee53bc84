// A lesson: menus of its examples and pairs, a text for each, and an address for each place. Its data has `title`,
// `text` and `examples`; an example has `name`, `title`, `text`, `pairs`, the page's data without sheets in `page`, the
// sheet of each pair in `sheets`, and in `apart`, by "first second", where the schedules of two pairs part.

import { find, make } from "./picture.js";
import { decisionAt, state } from "./trace.js";
import { load, say, show } from "./view.js";

const NONE = "nothing";
const course = { lesson: null, place: null };

/** Gives the place that an address names, and whether the lesson has all that it names. */
function placeOf(hash) {
  const words = new URLSearchParams(hash.slice(1)), { examples } = course.lesson;
  const named = (list, key) => (words.has(key) ? list.findIndex(({ name }) => name === words.get(key)) : -1);
  const example = Math.max(0, named(examples, "example")), { pairs } = examples[example];
  const pair = Math.max(0, named(pairs, "pair")), beside = named(pairs, "beside");
  const tick = Number(words.get("tick") ?? 0);
  const isRight = [["example", examples], ["pair", pairs], ["beside", pairs]].every(([key, list]) =>
    !words.has(key) || named(list, key) >= 0) && tick >= 0;
  return { example, pair, beside, tick: tick >= 0 ? tick : 0, isRight };
}

/** Writes the address of what is shown. */
function tellAddress() {
  const { example, pair, beside } = course.place, { name, pairs } = course.lesson.examples[example];
  const words = new URLSearchParams({ example: name, pair: pairs[pair].name });
  if (beside >= 0) words.set("beside", pairs[beside].name);
  words.set("tick", state.cursor);
  if (location.hash !== `#${words}`) history.replaceState(null, "", `#${words}`);
  find("#place").href = location.href;
}

/** Puts a text's paragraphs into elements. */
const paragraphs = (text) => text.split(/\n\s*\n/).filter((each) => each.trim()).map((each) => make("p", {}, each));

/** Fills a menu, with one item chosen. */
function fillSelect(menu, titles, chosen) {
  menu.replaceChildren(...titles.map((title) => make("option", {}, title)));
  menu.selectedIndex = chosen;
}

/** Writes the texts and the menus of a place. */
function tellPlace({ example, pair, beside, isRight }) {
  const { examples } = course.lesson, { title, text, pairs } = examples[example];
  const titles = pairs.map((one) => one.title);
  fillSelect(find("#example-menu"), examples.map((one) => one.title), example);
  fillSelect(find("#pair-menu"), titles, pair);
  fillSelect(find("#beside-menu"), [NONE, ...titles], beside + 1);
  const shown = [pair, beside].filter((place) => place >= 0).map((place) => pairs[place]);
  find("#lesson-text").replaceChildren(make("h2", {}, title), ...paragraphs(text), ...shown.flatMap((one) =>
    (one.text.trim() ? [make("h3", {}, one.title), ...paragraphs(one.text)] : [])));
  find("#link").hidden = isRight;
  find("#link").textContent = isRight ? "" : "The address names what this lesson doesn't have, so this is near it.";
}

/** Opens a place: its runs, and the decision in force at its tick. */
async function openPlace(place) {
  const { example, pair, beside, tick } = course.place = place;
  const { page, sheets, apart, pairs, title } = course.lesson.examples[example];
  const shown = beside < 0 || beside === pair ? [pair] : [pair, beside];
  tellPlace(place);
  await load({ ...page, sheets: shown.map((one) => sheets[one]), apart: apart[shown.join(" ")] ?? null });
  if (course.place !== place) return;
  const [sheet] = state.sheets;
  if (sheet.trace.decisions.length) show(sheet, decisionAt(sheet, Math.min(tick, state.ticks)));
  say(`${title}, ${shown.map((one) => pairs[one].title).join(" and ")}.`);
  tellAddress();
}

/** Opens what the menus say, at a tick. */
function openMenus(tick) {
  const [example, pair, beside] = ["example", "pair", "beside"].map((kind) => find(`#${kind}-menu`).selectedIndex);
  const isSame = example === course.place.example, first = { example, pair: 0, beside: -1, tick: 0, isRight: true };
  openPlace(isSame ? { ...first, pair, beside: beside - 1, tick } : first);
}

/** Starts the page of a lesson. */
export function startLesson(lesson) {
  course.lesson = lesson;
  document.title = find("h1").textContent = lesson.title;
  const menu = (id, label) => make("label", {}, `${label} `, make("select", { id: `${id}-menu` }));
  find("#view").before(make("aside", { id: "lesson" }, ...paragraphs(lesson.text),
    make("p", { class: "line" }, menu("example", "Example"), menu("pair", "A"), menu("beside", "B"),
      make("a", { id: "place", href: "#" }, "Address of this place")), make("div", { id: "lesson-text" })));
  find("#lesson").addEventListener("change", () => openMenus(state.cursor));
  for (const kind of ["click", "keydown"]) {
    addEventListener(kind, () => requestAnimationFrame(() => course.place && tellAddress()));
  }
  addEventListener("hashchange", () => openPlace(placeOf(location.hash)));
  return openPlace(placeOf(location.hash));
}

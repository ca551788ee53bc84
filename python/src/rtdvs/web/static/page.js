// The start of the page of one or two traces, of a lesson, and of the editor that `serve` adds. The data is JSON in the
// page; texts in it are packed: compressed by deflate and written in base64.

import { edit, fieldOf, filesOfFields, readExample, startEditor } from "./editor.js";
import { startLesson } from "./lesson.js";
import { find } from "./picture.js";
import { canvasOf, svgText } from "./save.js";
import { state } from "./trace.js";
import { drawAll, handlePointers, load, move, pressed, step, zoom } from "./view.js";

/** Starts the page. */
async function start() {
  const data = JSON.parse(find("#data").textContent);
  const buttons = {
    before: () => step(-1), after: () => step(1), in: () => zoom(1 / 1.5), out: () => zoom(1.5),
    all: () => move(0, state.ticks),
  };
  for (const [id, act] of Object.entries(buttons)) find(`#${id}`).addEventListener("click", act);
  find("#letters").addEventListener("change", ({ target }) => { state.letters = target.checked; });
  addEventListener("keydown", pressed);
  handlePointers(find("#sheets"));
  state.data = data;
  if (data.examples) startEditor(data.examples);
  if (data.sheets) await load(data);
  if (data.lesson) await startLesson(data.lesson);
}

// What a reader may call in the browser's console; nothing else of the page has a name there
globalThis.schedule = {
  state, drawAll, move, step, zoom, load, svgText, canvasOf, edit, fieldOf, filesOfFields, readExample,
};

start();

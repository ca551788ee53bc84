// Clicks a mark of a kind by its place.
schedule.drawAll();
const marks = [...document.querySelectorAll("#sheets path")].filter((each) => each.mark?.kind === arguments[0]);
marks[arguments[1]].dispatchEvent(new MouseEvent("click", { bubbles: true }));

// Goes to each mark by the arrow keys, row by row, and gives the titles of the marks that had the focus.
const seen = [];
const press = (key) => {
  document.activeElement.dispatchEvent(new KeyboardEvent("keydown", { key, bubbles: true, cancelable: true }));
  seen.push(document.activeElement.querySelector("title")?.textContent);
};
document.querySelector(".rows [tabindex='0']").focus();
for (let row = null; row !== document.activeElement.closest("g");) {
  row = document.activeElement.closest("g");
  for (let time = 0; time < 20; time++) press("ArrowRight");
  for (let time = 0; time < 20; time++) press("ArrowLeft");
  press("ArrowDown");
}
return seen;

// Gives each text of the page, with the contrast of its colour to what is behind it, the least first.
const channels = (colour) => colour.match(/[0-9.]+/g).map(Number);
const light = (colour) => channels(colour).slice(0, 3).map((each) => each / 255)
  .map((each) => (each <= 0.03928 ? each / 12.92 : ((each + 0.055) / 1.055) ** 2.4))
  .reduce((sum, each, place) => sum + each * [0.2126, 0.7152, 0.0722][place], 0);
const contrast = (one, two) => {
  const [low, high] = [light(one), light(two)].sort((a, b) => a - b);
  return (high + 0.05) / (low + 0.05);
};
const behind = (element) => {
  if (element.closest(".inside")) return getComputedStyle(element.parentElement.querySelector(".run")).fill;
  for (let each = element; each; each = each.parentElement) {
    const { backgroundColor } = getComputedStyle(each);
    if (channels(backgroundColor)[3] !== 0) return backgroundColor;
  }
  return "rgb(255, 255, 255)";
};
const found = [];
for (const element of document.body.querySelectorAll("*")) {
  const own = [...element.childNodes].some((node) => node.nodeType === Node.TEXT_NODE && node.data.trim());
  if (!own || ["SCRIPT", "STYLE", "OPTION", "title"].includes(element.nodeName) || !element.checkVisibility()) continue;
  const looks = getComputedStyle(element);
  found.push([contrast(element.namespaceURI.endsWith("svg") ? looks.fill : looks.color, behind(element)),
    element.textContent.trim().slice(0, 40)]);
}
return found.sort((one, two) => one[0] - two[0]);

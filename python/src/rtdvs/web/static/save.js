// A sheet's picture as a file: SVG with its looks written into it, and PNG.

import { make } from "./picture.js";

const TITLE = 30;       // pixels above the picture, for its title
const SHARP = 2;        // pixels of a PNG for one of the page
const LOOKS = ["fill", "stroke", "stroke-width", "stroke-dasharray", "font-family", "font-size", "font-weight",
  "paint-order"];

/** Hands a file to the browser's downloads. */
export function download(name, content) {
  const address = URL.createObjectURL(content);
  make("a", { href: address, download: name }).click();
  setTimeout(() => URL.revokeObjectURL(address), 10000);
}

/** Gives the parts of a sheet's picture, with the pixels above each, and the size of the whole. */
function partsOf(sheet) {
  const high = (svg) => svg.viewBox.baseVal.height, axis = high(sheet.axis);
  const parts = [[sheet.axis, TITLE], [sheet.svg, TITLE + axis]];
  const { color, backgroundColor, fontFamily } = getComputedStyle(document.body);
  return { parts, width: sheet.width, height: TITLE + axis + high(sheet.svg), color, backgroundColor, fontFamily };
}

/** Gives a sheet's picture as the text of an SVG file. */
export function svgText(sheet) {
  const { parts, width, height, color, backgroundColor, fontFamily } = partsOf(sheet);
  const space = "http://www.w3.org/2000/svg", file = document.implementation.createDocument(space, "svg");
  const add = (parent, name, attributes) => {
    const element = parent.appendChild(file.createElementNS(space, name));
    for (const [key, value] of Object.entries(attributes)) element.setAttribute(key, value);
    return element;
  };
  const root = file.documentElement;
  const size = { width, height, viewBox: `0 0 ${width} ${height}` };
  for (const [key, value] of Object.entries(size)) root.setAttribute(key, value);
  add(root, "rect", { width, height, fill: backgroundColor });
  add(root, "text", { x: 8, y: 20, fill: color, "font-family": fontFamily, "font-size": 16 }).textContent = sheet.title;
  for (const [svg, above] of parts) {
    const group = add(root, "g", { transform: `translate(0 ${above})` });
    for (const element of svg.querySelectorAll("path, text")) {
      const looks = getComputedStyle(element), text = element.nodeName === "text" ? ["x", "y", "text-anchor"] : ["d"];
      const kept = text.filter((name) => element.hasAttribute(name)).map((name) => [name, element.getAttribute(name)]);
      const copy = add(group, element.nodeName, Object.fromEntries([
        ...kept, ...LOOKS.map((name) => [name, looks.getPropertyValue(name)])]));
      copy.append(wordsOf(element));
      const title = element.querySelector("title");
      if (title) add(copy, "title", {}).textContent = title.textContent;
    }
  }
  return new XMLSerializer().serializeToString(file);
}

/** Gives an element's own text, without its title. */
function wordsOf(element) {
  return [...element.childNodes].filter((node) => node.nodeType === Node.TEXT_NODE).map((node) => node.data).join("");
}

/** Draws a sheet's picture on a canvas. */
export function canvasOf(sheet) {
  const { parts, width, height, color, backgroundColor, fontFamily } = partsOf(sheet);
  const canvas = make("canvas", { width: width * SHARP, height: height * SHARP }), pen = canvas.getContext("2d");
  pen.scale(SHARP, SHARP);
  pen.fillStyle = backgroundColor;
  pen.fillRect(0, 0, width, height);
  pen.fillStyle = color;
  pen.font = `16px ${fontFamily}`;
  pen.fillText(sheet.title, 8, 20);
  for (const [svg, above] of parts) {
    pen.save();
    pen.translate(0, above);
    for (const element of svg.querySelectorAll("path, text")) paint(pen, element);
    pen.restore();
  }
  return canvas;
}

/** Paints a path or a text with the looks that it has in the page. */
function paint(pen, element) {
  const looks = getComputedStyle(element), isText = element.nodeName === "text";
  const shape = isText ? [wordsOf(element), Number(element.getAttribute("x")), Number(element.getAttribute("y"))] :
    [new Path2D(element.getAttribute("d"))];
  pen.font = `${looks.fontWeight} ${looks.fontSize} ${looks.fontFamily}`;
  pen.textAlign = { middle: "center", end: "right" }[element.getAttribute("text-anchor")] ?? "left";
  pen.lineWidth = parseFloat(looks.strokeWidth);
  pen.setLineDash(looks.strokeDasharray === "none" ? [] : looks.strokeDasharray.split(",").map(parseFloat));
  const acts = [["fill", isText ? "fillText" : "fill"], ["stroke", isText ? "strokeText" : "stroke"]];
  for (const [look, act] of isText ? acts.reverse() : acts) {
    if (looks[look] === "none") continue;
    pen[`${look}Style`] = looks[look];
    pen[act](...shape);
  }
}

/** Makes the buttons that save a sheet's picture. */
export function saveButtons(sheet) {
  const name = sheet.title.replace(/[^a-z0-9]+/gi, "_");
  const svg = make("button", { type: "button", class: "save", title: "Save this picture as SVG" }, "SVG");
  const png = make("button", { type: "button", class: "save", title: "Save this picture as PNG" }, "PNG");
  svg.addEventListener("click", () => download(`${name}.svg`, new Blob([svgText(sheet)], { type: "image/svg+xml" })));
  png.addEventListener("click", () => canvasOf(sheet).toBlob((picture) => download(`${name}.png`, picture)));
  return [svg, png];
}

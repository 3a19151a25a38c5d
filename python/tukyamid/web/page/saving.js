// Pictures as files: what the page's style sheet says of them is written into the file, so that it looks the same.

import { offer } from "./dom.js";

const STYLES = ["fill", "stroke", "stroke-width", "stroke-dasharray", "font-family", "font-size", "font-weight",
  "text-anchor", "paint-order", "opacity"];
const PIXELS = 2;  // Of a PNG, for each pixel of the page.
const MOST_PIXELS = 8000;

/** The picture alone, at its natural size, with its background. */
function alone(svg, width, height) {
  const copy = svg.cloneNode(true);
  const [from, to] = [svg, copy].map((one) => [one, ...one.querySelectorAll("*")]);
  from.forEach((one, at) => {
    const style = getComputedStyle(one);
    for (const property of STYLES) to[at].setAttribute(property, style.getPropertyValue(property));
  });
  for (const link of copy.querySelectorAll("a")) link.removeAttribute("href");  // It has the page's secret address.
  for (const one of copy.querySelectorAll("[tabindex]")) one.removeAttribute("tabindex");
  for (const one of copy.querySelectorAll(".touch")) one.remove();  // It is for fingers alone.
  const paper = document.createElementNS("http://www.w3.org/2000/svg", "rect");
  const colour = getComputedStyle(document.documentElement).getPropertyValue("--paper").trim();
  for (const [name, value] of Object.entries({ width, height, fill: colour })) paper.setAttribute(name, value);
  copy.prepend(paper);
  copy.setAttribute("width", width);
  copy.setAttribute("height", height);
  copy.setAttribute("xmlns", "http://www.w3.org/2000/svg");
  return new XMLSerializer().serializeToString(copy);
}

export function saveAsSvg(svg, width, height, file) {
  offer(`${file}.svg`, new Blob([alone(svg, width, height)], { type: "image/svg+xml" }));
}

export async function saveAsPng(svg, width, height, file) {
  const image = new Image();
  image.src = `data:image/svg+xml;charset=utf-8,${encodeURIComponent(alone(svg, width, height))}`;
  await image.decode();
  const scale = Math.min(PIXELS, MOST_PIXELS / Math.max(width, height));
  const canvas = document.createElement("canvas");
  canvas.width = Math.ceil(width * scale);
  canvas.height = Math.ceil(height * scale);
  canvas.getContext("2d").drawImage(image, 0, 0, canvas.width, canvas.height);
  const blob = await new Promise((done) => canvas.toBlob(done, "image/png"));
  if (blob) offer(`${file}.png`, blob);
}

// A frame around a picture: it zooms by its buttons, keys, Ctrl and the wheel, and moves by dragging or scrolling.

import { fill, make } from "./dom.js";
import { saveAsPng, saveAsSvg } from "./saving.js";

const LEAST = 0.05;
const MOST = 4;
const STEP = 1.25;

/** Fills an element with a picture in a frame. `label` says what it is, `file` what it is called when it is saved. */
export function frame(element, svg, label, file) {
  const [width, height] = ["width", "height"].map((one) => Number(svg.getAttribute(one)));
  const area = make("div", {
    class: "area", id: `${element.id}-area`, tabindex: "0", role: "group", "aria-label": `${label}, scrolls` }, svg);
  const own = element.id;
  let scale = 1;

  /** Zooms so that the point of the area stays where it is; its middle if none is given. */
  function zoom(to, x = area.clientWidth / 2, y = area.clientHeight / 2) {
    const next = Math.min(MOST, Math.max(LEAST, to));
    const [left, top] = [(area.scrollLeft + x) / scale, (area.scrollTop + y) / scale];
    scale = next;
    svg.setAttribute("width", width * scale);
    svg.setAttribute("height", height * scale);
    area.scrollLeft = left * scale - x;
    area.scrollTop = top * scale - y;
    area.dataset.scale = scale.toFixed(3);
  }

  /** Shows all of it, but no larger than it is. */
  function fit() {
    zoom(Math.min(1, (area.clientWidth - 2) / width, (area.clientHeight - 2) / height));
  }

  const tool = (name, text, onclick) =>
    make("button", { type: "button", class: "small", id: `${own}-${name}`, "aria-label": text.label, onclick },
      text.shown);
  fill(element,
    make("div", { class: "row tools", role: "toolbar", "aria-label": `Tools of the picture: ${label}` },
      tool("in", { shown: "+", label: "Zoom in" }, () => zoom(scale * STEP)),
      tool("out", { shown: "−", label: "Zoom out" }, () => zoom(scale / STEP)),
      tool("fit", { shown: "Whole", label: "Show the whole picture" }, fit),
      tool("svg", { shown: "SVG", label: "Save the picture as SVG" }, () => saveAsSvg(svg, width, height, file)),
      tool("png", { shown: "PNG", label: "Save the picture as PNG" }, () => saveAsPng(svg, width, height, file))),
    area);
  area.addEventListener("keydown", (event) => {
    const by = { "+": STEP, "=": STEP, "-": 1 / STEP }[event.key];
    if (by) zoom(scale * by);
    else if (event.key === "0") fit();
    else return;
    event.preventDefault();
  });
  area.addEventListener("wheel", (event) => {
    if (!event.ctrlKey && !event.metaKey) return;  // Without these the wheel scrolls the page, as everywhere.
    event.preventDefault();
    const box = area.getBoundingClientRect();
    zoom(scale * (event.deltaY < 0 ? STEP : 1 / STEP), event.clientX - box.left, event.clientY - box.top);
  }, { passive: false });
  drag(area);
  return { fit, zoom, area };
}

/** The mouse moves the picture; a finger scrolls it, as the browser does. */
function drag(area) {
  let from = null;
  area.addEventListener("pointerdown", (event) => {
    if (event.pointerType !== "mouse" || event.button !== 0 || event.target.closest("a, [role=button]")) return;
    from = { x: event.clientX + area.scrollLeft, y: event.clientY + area.scrollTop };
    area.setPointerCapture(event.pointerId);
    area.classList.add("dragged");
  });
  area.addEventListener("pointermove", (event) => {
    if (!from) return;
    area.scrollLeft = from.x - event.clientX;
    area.scrollTop = from.y - event.clientY;
  });
  for (const end of ["pointerup", "pointercancel"]) {
    area.addEventListener(end, () => {
      from = null;
      area.classList.remove("dragged");
    });
  }
}

// The icons, as paths in a square of 20 units.

const PATHS = {
  select: "M5 3.5l10.5 6.2-4.7 1.2-2.6 4.3z",
  hand:
    "M6.5 10V5.2a1.2 1.2 0 0 1 2.4 0V9m0-.5V3.9a1.2 1.2 0 0 1 2.4 0V9m0-.3V4.9a1.2 1.2 0 0 1 2.4 0V10m0-2.4a1.2 1.2 0 0 1 2.3.3v4.2c0 2.8-1.9 4.9-4.7 4.9-2 0-3.3-.8-4.3-2.4l-2.7-4.3c-.8-1.3.9-2.4 1.9-1.3l.3.4",
  rect: "M4.8 4.5h10.4c.7 0 1.3.6 1.3 1.3v8.4c0 .7-.6 1.3-1.3 1.3H4.8c-.7 0-1.3-.6-1.3-1.3V5.8c0-.7.6-1.3 1.3-1.3z",
  ellipse: "M3.2 10a6.8 6 0 1 0 13.6 0a6.8 6 0 1 0-13.6 0z",
  line: "M4 16L16 4",
  text: "M4.5 6V4.2h11V6M10 4.2v11.6M7.8 15.8h4.4",
  undo: "M4 8h8a4 4 0 0 1 0 8H8M4 8l3.5-3.5M4 8l3.5 3.5",
  redo: "M16 8H8a4 4 0 0 0 0 8h4m4-8l-3.5-3.5M16 8l-3.5 3.5",
  plus: "M10 4.5v11M4.5 10h11",
  minus: "M4.5 10h11",
  fit: "M4 7.5V4h3.5M12.5 4H16v3.5M16 12.5V16h-3.5M7.5 16H4v-3.5",
  menu: "M3.5 6h13M3.5 10h13M3.5 14h13",
  play: "M7 4.8l8 5.2-8 5.2z",
  pause: "M7 5v10M13 5v10",
  prev: "M12 5l-5 5 5 5",
  next: "M8 5l5 5-5 5",
  now: "M5 5l5 5-5 5M14 5v10",
  late: "M10 3.2l6.8 6.8-6.8 6.8L3.2 10z",
  help: "M7.4 7.4a2.7 2.7 0 1 1 4 2.5c-.9.5-1.4 1-1.4 2M10 15v.1",
  people:
    "M7.5 9a2.6 2.6 0 1 0 0-5.2 2.6 2.6 0 0 0 0 5.2zM2.5 16c.3-3 2.2-4.6 5-4.6s4.7 1.6 5 4.6M12.8 4.2a2.4 2.4 0 0 1 0 4.6M14.5 11.7c1.8.6 2.8 2.1 3 4.3",
  list: "M7 5.5h9.5M7 10h9.5M7 14.5h9.5M3.7 5.5h.1M3.7 10h.1M3.7 14.5h.1",
  history: "M3.5 10a6.5 6.5 0 1 1 2 4.7M3.5 10l-1-2.2M3.5 10l2.2-1.2M10 6.5V10l2.5 1.8",
  front: "M7 3.5h8.5a1 1 0 0 1 1 1V13M3.5 8h8v8.5h-8z",
  back: "M3.5 3.5H12V12M8 8h8.5v7.5a1 1 0 0 1-1 1H8z",
  group: "M3.5 5.5v-2h2M14.5 3.5h2v2M16.5 14.5v2h-2M5.5 16.5h-2v-2M6.5 6.5h5v5h-5zM9 11.5v2h4.5V9h-2",
  ungroup: "M3.5 3.5h6v6h-6zM10.5 10.5h6v6h-6z",
  connector: "M3.5 3.5h5v5h-5zM11.5 11.5h5v5h-5zM6 8.5V14h5M8.5 11.5L11 14l-2.5 2.5",
  copy: "M7.5 7.5h9v9h-9zM12.5 7.5v-3a1 1 0 0 0-1-1h-7a1 1 0 0 0-1 1v7a1 1 0 0 0 1 1h3",
  trash: "M3.5 5.5h13M8 5.5v-2h4v2M5 5.5l.8 11h8.4l.8-11M8.5 8.5v5M11.5 8.5v5",
  dup: "M7 7h9.5v9.5H7zM13 7V3.5H3.5V13H7M11.75 9.5v4.5M9.5 11.75H14",
  alignL: "M3.5 3.5v13M6.5 5.5h10v3h-10zM6.5 11.5h6v3h-6z",
  alignC: "M10 3.5v13M5 5.5h10v3H5zM7 11.5h6v3H7z",
  alignR: "M16.5 3.5v13M3.5 5.5h10v3h-10zM7.5 11.5h6v3h-6z",
  alignT: "M3.5 3.5h13M5.5 6.5v10h3v-10zM11.5 6.5v6h3v-6z",
  alignM: "M3.5 10h13M5.5 5v10h3V5zM11.5 7v6h3V7z",
  alignB: "M3.5 16.5h13M5.5 3.5v10h3v-10zM11.5 7.5v6h3v-6z",
  distH: "M3.5 3.5v13M16.5 3.5v13M8 6.5h4v7H8z",
  distV: "M3.5 3.5h13M3.5 16.5h13M6.5 8v4h7V8z",
  search: "M9 14.5a5.5 5.5 0 1 0 0-11 5.5 5.5 0 0 0 0 11zM13.2 13.2l3.6 3.6",
  close: "M5 5l10 10M15 5L5 15",
  check: "M4 10.5l4 4 8-9",
  info: "M10 17a7 7 0 1 0 0-14 7 7 0 0 0 0 14zM10 9.5V13.5M10 6.6v.1",
  offline:
    "M6 15.5a3.5 3.5 0 0 1-.3-7 4.5 4.5 0 0 1 1-1.8M9 5.3a4.5 4.5 0 0 1 5.4 2.7 3.8 3.8 0 0 1 2.3 5.7M14 15.5H6M3.5 3.5l13 13",
  moon: "M16.5 11.5A6.8 6.8 0 0 1 8.5 3.5a6.8 6.8 0 1 0 8 8z",
  image: "M3.5 4.5h13v11h-13zM3.5 13l4-4 3.5 3.5 2-2 3.5 3.5M12.5 8h.1",
  print: "M6 7.5v-4h8v4M6 14H3.5V7.5h13V14H14M6 11.5h8v5H6z",
  open: "M3.5 15.5v-11h4.8l1.7 2h6.5v9z",
  save: "M10 3.5v9M6.5 9l3.5 3.5L13.5 9M3.5 13.5v3h13v-3",
  edit: "M4 16l.8-3.5L13 4.3l2.7 2.7-8.2 8.2z",
  style:
    "M10 3.5a6.5 6.5 0 1 0 0 13c1.3 0 1.7-.8 1.3-1.8-.5-1.2.2-2.2 1.5-2.2h1.7c1.2 0 2-.9 2-2.2 0-3.9-2.9-6.8-6.5-6.8zM6.5 10.2h.1M8 6.9h.1M12 6.9h.1",
  more: "M4.5 10h.1M10 10h.1M15.5 10h.1",
  cut: "M6 4l8.5 9M14 4L5.5 13M5.5 16.5a2 2 0 1 0 0-4 2 2 0 0 0 0 4zM14.5 16.5a2 2 0 1 0 0-4 2 2 0 0 0 0 4z",
  paste: "M7.5 4.5H5v12h10v-12h-2.5M7.5 3.5h5v2.5h-5z",
  link: "M6 10h8M4.2 12.5a2.5 2.5 0 1 1 0-5M15.8 7.5a2.5 2.5 0 1 1 0 5",
};
const SOLID = new Set(["play"]);
const BOLD = new Set(["more", "list"]);
const SPACE = "http://www.w3.org/2000/svg";

/**
 * An icon, hidden from assistive technology: what it stands for is said by what holds it.
 * @param {string} name one of the paths; `info` where there is none of that name
 * @param {number} [size] its width and height in pixels
 */
export function icon(name, size = 20) {
  const drawn = document.createElementNS(SPACE, "svg");
  const attributes = {
    viewBox: "0 0 20 20", width: size, height: size, class: "icon", "aria-hidden": "true",
    fill: SOLID.has(name) ? "currentColor" : "none", stroke: "currentColor", "stroke-width": BOLD.has(name) ? 2 : 1.6,
    "stroke-linecap": "round", "stroke-linejoin": "round",
  };
  for (const [key, value] of Object.entries(attributes)) drawn.setAttribute(key, String(value));
  const path = document.createElementNS(SPACE, "path");
  path.setAttribute("d", PATHS[/** @type {keyof PATHS} */ (name)] ?? PATHS.info);
  drawn.append(path);
  return drawn;
}

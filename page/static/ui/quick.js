// What is done most with a selection stands above it, where the window is small and the panel is a sheet.

import { commandButton } from "./aid.js";
import { commandOf } from "./commands.js";
import { button, roving } from "./h.js";

const WIDEST = 900;
const ACTS = ["duplicate", "front", "group", "ungroup", "delete"];
const GAP = { side: 8, above: 68, below: 16 };
const ROOM = { top: 68, bottom: 190, bottomOfSlim: 244 };
const SLIM = 720;

/**
 * @param {Ed} ed
 * @param {HTMLElement} bar
 * @returns {{update: () => void}}
 */
export function makeQuick(ed, bar) {
  const more = button("more", "More", () => {
    const box = more.getBoundingClientRect();
    ed.openMenu(box.left, box.bottom + 8);
  });
  bar.append(commandButton(ed, "edit"), button("style", "Style", () => ed.sheet(true)));
  bar.append(...ACTS.map((id) => commandButton(ed, id)), more);
  roving(bar);
  const update = () => {
    const isWanted = innerWidth <= WIDEST && ed.selection.ids.size > 0 && !ed.busy && !ed.editing && !ed.readOnly;
    const frame = isWanted && document.body.dataset.sheet !== "1" ? frameOf(ed) : null;
    bar.hidden = !frame;
    if (frame) put(ed, bar, frame);
  };
  return { update };
}

/**
 * The box around what is selected, in the window.
 * @param {Ed} ed
 */
function frameOf({ model, selection, camera }) {
  const box = model.boxOf(selection.ids);
  if (!box) return null;
  const [x0, y0] = camera.toWindow(box.x0, box.y0);
  const [x1, y1] = camera.toWindow(box.x1, box.y1);
  return { x0, y0, x1, y1 };
}

/**
 * @param {Ed} ed
 * @param {HTMLElement} bar
 * @param {import("../core/types.js").Box} frame
 */
function put(ed, bar, frame) {
  for (const each of /** @type {HTMLElement[]} */ ([...bar.querySelectorAll("[data-run]")])) {
    each.hidden = !commandOf(each.dataset.run ?? "").when(ed);
  }
  const width = bar.offsetWidth;
  const middle = (frame.x0 + frame.x1 - width) / 2;
  const x = Math.max(GAP.side, Math.min(innerWidth - width - GAP.side, middle));
  const isAbove = frame.y0 - GAP.above > ROOM.top;
  const room = innerWidth < SLIM ? ROOM.bottomOfSlim : ROOM.bottom;
  const y = Math.min(innerHeight - room, isAbove ? frame.y0 - GAP.above : frame.y1 + GAP.below);
  bar.style.transform = `translate(${Math.round(x)}px, ${Math.round(Math.max(ROOM.top, y))}px)`;
}

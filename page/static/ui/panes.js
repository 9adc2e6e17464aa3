// The page of a demonstration: a pane for each site, with a page of its own, and the controls of the link between them.

import { CALLED } from "../core/called.js";
import { calledOf } from "../core/people.js";
import { Wire } from "../core/wire.js";
import { h } from "./h.js";
import { cutSwitch, linkControls } from "./link.js";
import { startTheme } from "./theme.js";

/** @typedef {import("../core/types.js").LinkSettings} LinkSettings */

const host = /** @type {HTMLElement} */ (document.getElementById("panes"));
const told = /** @type {HTMLElement} */ (document.getElementById("told"));
const form = /** @type {HTMLElement} */ (document.getElementById("controls"));

/** @type {Map<number, HTMLElement>} the switch of each site */
const switches = new Map();
/** @type {LinkSettings} */
let link = { loss: 0, twice: 0, delay: 0, cut: [] };

const LOST = `No connection to ${CALLED}. If it has ended, start it again and open the address that it prints.`;

const wire = new Wire("socket", { hear });
const controls = linkControls((settings) => send(settings));

/** @param {Partial<LinkSettings>} settings */
const send = (settings) => wire.send({ do: "link", id: 0, ...settings });

/** @param {number[]} desks */
function makePanes(desks) {
  if (switches.size) return;
  for (const desk of desks) {
    const cut = cutSwitch("offline", () => {
      const others = link.cut.filter((site) => site !== desk);
      send({ cut: link.cut.includes(desk) ? others : [...others, desk] });
    });
    cut.setAttribute("aria-label", `Cut ${calledOf(desk)} off`);
    switches.set(desk, cut);
    const alone = h("a", { href: `./?desk=${desk}`, target: "_blank", rel: "noopener" }, "in a window of its own");
    const head = h("div", { class: "pane-head" }, h("h2", {}, calledOf(desk)), alone, cut);
    host.append(h("section", { class: "pane" }, head, h("iframe", { src: `./?desk=${desk}`, title: calledOf(desk) })));
  }
}

/** @param {LinkSettings} settings */
function showLink({ loss, twice, delay, cut }) {
  link = { loss, twice, delay, cut };
  controls.show(link);
  for (const [desk, each] of switches) {
    each.setAttribute("aria-checked", String(cut.includes(desk)));
    each.closest(".pane")?.classList.toggle("is-cut", cut.includes(desk));
  }
}

/**
 * @param {import("../core/wire.js").What} what
 * @param {any} message
 */
function hear(what, message) {
  if (what === "open") told.textContent = "";
  else if (what === "lost") told.textContent = LOST;
  else if (message.is === "hello") makePanes(message.desks);
  else if (message.is === "link") showLink(message);
}

startTheme();
form.append(...controls.parts);
form.addEventListener("submit", (event) => event.preventDefault());
wire.open();

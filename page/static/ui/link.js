// The link of a demonstration: how many datagrams are lost, doubled and delayed, and whether this site is cut off.

import { h } from "./h.js";

/** @typedef {import("../core/types.js").LinkSettings} LinkSettings */

const SLIDERS = /** @type {const} */ ([
  ["loss", "Lost", 90, " %"],
  ["twice", "Sent twice", 90, " %"],
  ["delay", "Delayed up to", 3000, " ms"],
]);

/**
 * Makes the controls of the link.
 * @param {(settings: Partial<LinkSettings>) => void} send
 */
export function linkControls(send) {
  const sliders = SLIDERS.map(([name, title, most, unit]) => {
    const output = h("output", {}, `0${unit}`);
    const input = h("input", { type: "range", name, min: 0, max: most, step: most / 90, value: "0", "aria-label": title });
    input.addEventListener("input", () => {
      output.textContent = `${Math.round(Number(input.value))}${unit}`;
    });
    input.addEventListener("change", () => send({ [name]: Math.round(Number(input.value)) }));
    return { name, unit, input, output, label: h("label", { class: "link-slider" }, h("span", {}, title), input, output) };
  });
  /** @param {LinkSettings} settings */
  const show = (settings) => {
    for (const { name, unit, input, output } of sliders) {
      input.value = String(settings[name]);
      output.textContent = `${settings[name]}${unit}`;
    }
  };
  return { parts: sliders.map(({ label }) => label), show };
}

/**
 * A switch that cuts a site off.
 * @param {string} title
 * @param {() => void} toggle
 */
export function cutSwitch(title, toggle) {
  return h("button", { type: "button", class: "switch", role: "switch", "aria-checked": "false", onclick: toggle }, title);
}

/**
 * The island of the link, which is there in a demonstration alone.
 * @param {Ed} ed
 * @param {HTMLElement} host
 * @returns {{update: () => void}}
 */
export function makeLink(ed, host) {
  const { parts, show } = linkControls((settings) => ed.node.setLink(settings));
  const cut = cutSwitch("Go offline, to try it", () => {
    const others = (ed.node.link?.cut ?? []).filter((site) => site !== ed.node.site);
    const isCut = ed.node.link?.cut.includes(ed.node.site);
    ed.node.setLink({ cut: isCut ? others : [...others, ed.node.site] });
  });
  const sliders = h("details", {}, h("summary", {}, "Make the network worse"), ...parts);
  host.append(cut, sliders);
  let shown = "";
  return {
    update: () => {
      const { demo, link, site } = ed.node;
      host.hidden = !demo || !link || window !== window.parent;
      const key = JSON.stringify([link, site]);
      if (!link || key === shown) return;
      shown = key;
      show(link);
      cut.setAttribute("aria-checked", String(link.cut.includes(site)));
    },
  };
}

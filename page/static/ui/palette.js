// The command palette: all commands and all objects with a text, found by words.

import { COMMANDS, run } from "./commands.js";
import { h, keyText } from "./h.js";
import { icon } from "./icons.js";
import { oneLine } from "./words.js";

/** @typedef {{title: string, hint: string, icon: string, key?: string, isOff?: boolean, run: () => void}} Found */

const MOST = 60;
const MOST_OBJECTS = 12;

export class Palette {
  /** @param {Ed} ed */
  constructor(ed) {
    this.ed = ed;
    this.at = 0;
    /** @type {Found[]} */
    this.found = [];
    this.input = h("input", {
      class: "palette-input", role: "combobox", "aria-expanded": "true", "aria-controls": "palette-list",
      "aria-autocomplete": "list", "aria-label": "Search commands and objects",
      placeholder: "Search commands and objects", autocomplete: "off", spellcheck: "false",
    });
    this.list = h("ul", { id: "palette-list", role: "listbox", "aria-label": "Found" });
    const head = h("div", { class: "palette-head" }, icon("search"), this.input, h("kbd", {}, "Esc"));
    this.box = h("dialog", { class: "palette", "aria-label": "Command palette" }, head, this.list);
    document.body.append(this.box);
    this.input.addEventListener("input", () => this.find());
    this.input.addEventListener("keydown", (event) => this.key(event));
    this.box.addEventListener("pointerdown", (event) => event.target === this.box && this.box.close());
  }

  open() {
    this.input.value = "";
    this.find();
    this.box.showModal();
    this.input.focus();
  }

  /** @param {KeyboardEvent} event */
  key(event) {
    const step = { ArrowDown: 1, ArrowUp: -1 }[event.key];
    if (step) this.pick(this.at + step);
    else if (event.key === "Enter" && !event.isComposing) this.do(this.at);
    else return;
    event.preventDefault();
  }

  find() {
    const words = this.input.value.toLowerCase().split(/\s+/).filter(Boolean);
    this.found = [...this.objects(words), ...this.commands(words)].slice(0, MOST);
    const rows = this.found.map((found, at) => this.row(found, at));
    const none = h("li", { class: "palette-none" }, "Nothing has these words");
    this.list.replaceChildren(...(rows.length ? rows : [none]));
    this.pick(0);
  }

  /**
   * @param {string[]} words
   * @returns {Found[]} those that can be done first
   */
  commands(words) {
    const fitting = COMMANDS.filter((command) => !command.hidden && command.id !== "palette")
      .filter((command) => hasAll(`${command.title} ${command.group}`, words));
    const found = fitting.map((command) => ({
      title: command.title, hint: command.group, icon: command.icon, key: command.keys[0],
      isOff: !command.when(this.ed), run: () => run(this.ed, command.id),
    }));
    return found.sort((a, b) => Number(a.isOff) - Number(b.isOff));
  }

  /**
   * @param {string[]} words
   * @returns {Found[]}
   */
  objects(words) {
    const { ed } = this;
    if (!words.length) return [];
    const fitting = ed.model.items.filter((item) => item.label && hasAll(item.label, words)).slice(0, MOST_OBJECTS);
    return fitting.map((item) => ({
      title: oneLine(item.label), hint: `${ed.kindName(item)} · ${ed.people.name(item.by)}`, icon: item.kind,
      run: () => {
        ed.selection.set([item.id], item.parent);
        const box = ed.model.boxOf([item.id]);
        if (box) ed.camera.reveal(box, ed.pad());
      },
    }));
  }

  /**
   * @param {Found} found
   * @param {number} at
   */
  row(found, at) {
    const props = {
      id: `palette-${at}`, role: "option", class: "palette-row", "aria-disabled": found.isOff ? "true" : null,
      onpointermove: () => this.at !== at && this.pick(at), onclick: () => this.do(at),
    };
    const title = h("span", { class: "palette-title", dir: "auto" }, found.title);
    return h("li", props, icon(found.icon, 18), title, h("small", {}, found.hint), found.key && h("kbd", {}, keyText(found.key)));
  }

  /** @param {number} at */
  pick(at) {
    this.at = Math.max(0, Math.min(this.found.length - 1, at));
    [...this.list.children].forEach((row, each) => row.setAttribute("aria-selected", String(each === this.at)));
    const row = this.list.children[this.at];
    if (!row?.id) return;
    this.input.setAttribute("aria-activedescendant", row.id);
    row.scrollIntoView({ block: "nearest" });
  }

  /** @param {number} at */
  do(at) {
    const found = this.found[at];
    if (!found || found.isOff) return;
    this.box.close();
    this.ed.focusBoard();
    found.run();
  }
}

/**
 * @param {string} text
 * @param {string[]} words
 */
function hasAll(text, words) {
  const low = text.toLowerCase();
  return words.every((word) => low.includes(word));
}

// All objects as a tree: for assistive technology always, for eyes as a drawer. Of a long list only a window of rows is in
// the document, each with its place in the whole; so a large drawing costs no more than a small one.

import { run } from "./commands.js";
import { button, h } from "./h.js";
import { icon } from "./icons.js";
import { count, oneLine } from "./words.js";

/** @typedef {{item: Item, level: number, size: number, place: number}} Row */

/** How many rows are in the document, and how near the end of these the chosen one may come. */
const WINDOW = 120;
const EDGE = 15;
const REST = 400;

/**
 * The rows of a tree: topmost first, a group above its members.
 * @param {Ed["model"]} model
 * @returns {Row[]}
 */
export function rowsOf(model) {
  /** @type {Row[]} */
  const rows = [];
  const tops = model.items.filter((item) => item.parent === null);
  /** @type {{list: Item[], at: number, level: number}[]} */
  const stack = [{ list: tops, at: tops.length, level: 1 }];
  while (stack.length) {
    const top = stack[stack.length - 1];
    if (top.at === 0) {
      stack.pop();
      continue;
    }
    top.at -= 1;
    const item = top.list[top.at];
    rows.push({ item, level: top.level, size: top.list.length, place: top.list.length - top.at });
    if (item.kind !== "group") continue;
    const members = (model.members.get(item.id) ?? []).map((id) => /** @type {Item} */ (model.byId.get(id)));
    stack.push({ list: members, at: members.length, level: top.level + 1 });
  }
  return rows;
}

/**
 * Whether two lists have the same objects. An object that changes is another one.
 * @param {Item[]} one
 * @param {Item[]} other
 */
const isSame = (one, other) => one.length === other.length && one.every((item, at) => item === other[at]);

export class Objects {
  /**
   * @param {Ed} ed
   * @param {HTMLElement} host
   */
  constructor(ed, host) {
    this.ed = ed;
    this.host = host;
    /** @type {string | null} */
    this.lit = null;
    this.first = 0;
    /** @type {Row[]} */
    this.rows = [];
    /** @type {Item[]} the items of which the rows were made */
    this.seen = [];
    this.timer = 0;
    this.frame = 0;
    /** @type {Map<string, {key: string, item: Item, el: HTMLElement}>} the rows that are in the document */
    this.kept = new Map();
    this.tree = h("ul", { role: "tree", "aria-label": "Objects, topmost first", "aria-multiselectable": "true", tabIndex: -1 });
    this.find = h("input", {
      class: "field", placeholder: "Filter", "aria-label": "Filter objects", spellcheck: "false", hidden: true,
    });
    const close = button("close", "Close the list", () => this.toggle(false), { class: "small", props: { tabIndex: -1 } });
    this.close = close;
    host.append(h("div", { class: "panel-head" }, h("h2", { class: "panel-title" }, "Objects"), close), this.find, this.tree);
    this.find.addEventListener("input", () => this.render(true));
    this.tree.addEventListener("keydown", (event) => this.key(event));
    this.tree.addEventListener("click", (event) => this.clicked(event));
    this.tree.addEventListener("dblclick", () => run(ed, "edit"));
    this.tree.addEventListener("scroll", () => this.scrolled());
  }

  get closed() {
    return this.host.classList.contains("away");
  }

  /**
   * Opens or closes the drawer. Closed, the tree stays for assistive technology, without a stop of the Tab key.
   * @param {boolean} [on]
   */
  toggle(on = this.closed) {
    this.host.classList.toggle("away", !on);
    this.tree.tabIndex = on ? 0 : -1;
    this.close.tabIndex = on ? 0 : -1;
    this.find.hidden = !on;
    document.body.dataset.drawer = on ? "1" : "";
    if (!on) {
      this.find.value = "";
      this.ed.focusBoard();
      return;
    }
    this.render(true);
    this.tree.focus();
  }

  /** @param {KeyboardEvent} event */
  key(event) {
    const at = this.rows.findIndex((row) => row.item.id === this.lit);
    const last = this.rows.length - 1;
    const to = { ArrowDown: at + 1, ArrowUp: at - 1, Home: 0, End: last, PageDown: at + 10, PageUp: at - 10 }[event.key];
    if (to !== undefined && this.rows.length) this.choose(this.rows[Math.max(0, Math.min(last, to))].item.id, event.shiftKey);
    else if (event.key === "Enter") run(this.ed, "edit");
    else if (event.key === "Delete" || event.key === "Backspace") run(this.ed, "delete");
    else if (event.key === "Escape") this.ed.focusBoard();
    else return;
    event.preventDefault();
    event.stopPropagation();
  }

  /** @param {MouseEvent} event */
  clicked(event) {
    const row = /** @type {HTMLElement} */ (event.target).closest("li");
    if (row?.dataset.id) this.choose(row.dataset.id, event.shiftKey);
  }

  /**
   * @param {string} id
   * @param {boolean} isMore whether what is selected stays so
   */
  choose(id, isMore) {
    const { ed } = this;
    const item = ed.model.byId.get(id);
    if (!item) return;
    this.lit = id;
    ed.selection.set(isMore ? [...ed.selection.ids, id] : [id], isMore ? ed.selection.scope : item.parent);
    const box = ed.model.boxOf([id]);
    if (box) ed.camera.reveal(box, ed.pad());
    this.render(false);
    this.tree.querySelector(`[data-id="${id}"]`)?.scrollIntoView({ block: "nearest" });
  }

  /** Where the list is scrolled to an end of its rows, it goes on. */
  scrolled() {
    const { scrollTop, clientHeight, scrollHeight } = this.tree;
    const isAtEnd = scrollTop + clientHeight > scrollHeight - 40 && this.first + WINDOW < this.rows.length;
    const isAtTop = scrollTop < 40 && this.first > 0;
    if (!isAtEnd && !isAtTop) return;
    const kept = this.tree.children[isAtEnd ? this.tree.children.length - 1 : 0];
    const id = /** @type {HTMLElement} */ (kept).dataset.id;
    this.first = Math.max(0, Math.min(this.rows.length - WINDOW, this.first + (isAtEnd ? WINDOW / 2 : -WINDOW / 2)));
    this.put();
    this.tree.querySelector(`[data-id="${id}"]`)?.scrollIntoView({ block: isAtEnd ? "end" : "start" });
  }

  /** Makes the rows anew once the drawing rests, or with the next frame where they are looked at. */
  update() {
    clearTimeout(this.timer);
    if (this.closed) this.timer = setTimeout(() => requestIdleCallback(() => this.render(false), { timeout: 1000 }), REST);
    else if (!this.frame) this.frame = requestAnimationFrame(() => this.render(false));
  }

  /** @param {boolean} isAnew whether the rows are made anew even where the drawing is the same */
  render(isAnew) {
    const { model, selection } = this.ed;
    this.frame = 0;
    if (isAnew || !isSame(this.seen, model.items)) {
      this.seen = [...model.items];
      const words = this.find.value.toLowerCase();
      const all = rowsOf(model);
      this.rows = words ? all.filter(({ item }) => this.ed.describe(item).toLowerCase().includes(words)) : all;
    }
    const [chosen] = [...selection.ids].slice(-1);
    if (chosen) this.lit = chosen;
    const at = this.rows.findIndex((row) => row.item.id === this.lit);
    if (at >= 0 && (at < this.first + EDGE || at >= this.first + WINDOW - EDGE)) this.first = at - WINDOW / 2;
    this.first = Math.max(0, Math.min(this.rows.length - WINDOW, this.first));
    this.put();
  }

  put() {
    const shown = this.rows.slice(this.first, this.first + WINDOW);
    const kept = new Map(shown.map((row) => [row.item.id, this.keep(row)]));
    const isOther = kept.size !== this.kept.size || shown.some(({ item }, at) => this.tree.children[at] !== kept.get(item.id)?.el);
    this.kept = kept;
    if (isOther) this.tree.replaceChildren(...[...kept.values()].map(({ el }) => el));
    this.tree.setAttribute("aria-description", count(this.ed.model.items.length));
    const isLit = this.lit && shown.some((row) => row.item.id === this.lit);
    if (isLit) this.tree.setAttribute("aria-activedescendant", `object-${this.lit}`);
    else this.tree.removeAttribute("aria-activedescendant");
  }

  /**
   * The element of a row, made anew only where something else stands there.
   * @param {Row} row
   */
  keep(row) {
    const { item, level, size, place } = row;
    const { ed } = this;
    const key = `${level} ${size} ${place} ${ed.people.name(item.by)} ${ed.scene.dark} ${ed.model.members.get(item.id)?.length ?? 0}`;
    const was = this.kept.get(item.id);
    const kept = was && was.item === item && was.key === key ? was : { key, item, el: this.row(row) };
    const isChosen = String(ed.selection.ids.has(item.id));
    if (kept.el.getAttribute("aria-selected") !== isChosen) kept.el.setAttribute("aria-selected", isChosen);
    return kept;
  }

  /** @param {Row} row */
  row({ item, level, size, place }) {
    const { ed } = this;
    const isGroup = item.kind === "group";
    const props = {
      id: `object-${item.id}`, role: "treeitem", "data-id": item.id, vars: { "--depth": level - 1 },
      "aria-level": level, "aria-setsize": size, "aria-posinset": place, "aria-label": ed.describe(item),
      "aria-expanded": isGroup ? "true" : null,
    };
    const name = h("span", { dir: "auto" }, item.label ? oneLine(item.label) : ed.kindName(item));
    const dot = h("i", { class: "dot", vars: { "--who": ed.roster.colour(item.by) }, title: ed.people.name(item.by) });
    return h("li", props, icon(item.kind, 16), name, dot);
  }
}

// What objects are called: in the title of a panel, in the tree, and for who can't see.

import { count, oneLine } from "./words.js";

const KINDS = /** @type {Record<string, string>} */ ({
  rect: "Rectangle", ellipse: "Ellipse", line: "Line", text: "Text", group: "Group", connector: "Connector",
});

/**
 * Puts `kindName`, `describe` and `short` on `ed`, and names the board by what is there and what is selected.
 * @param {Ed} ed
 * @returns {{update: () => void}}
 */
export function makeNames(ed) {
  ed.kindName = (item) => KINDS[item.kind];
  ed.describe = (item) => {
    const label = item.label ? ` “${oneLine(item.label)}”` : "";
    const members = item.kind === "group" ? ` of ${ed.model.members.get(item.id)?.length ?? 0}` : "";
    return `${KINDS[item.kind]}${label}${members}, by ${ed.people.name(item.by)}`;
  };
  ed.short = (id) => {
    const item = ed.model.byId.get(id);
    if (!item) return "nothing";
    return item.label ? oneLine(item.label) : KINDS[item.kind].toLowerCase();
  };
  let shown = "";
  const update = () => {
    const name = ["Board", count(ed.model.items.length), selected(ed)].filter(Boolean).join(", ");
    if (name !== shown) ed.board.setAttribute("aria-label", name);
    shown = name;
  };
  return { update };
}

/**
 * What is selected, or nothing.
 * @param {Ed} ed
 */
function selected({ selection, model, describe }) {
  const [first] = selection.ids;
  if (selection.ids.size > 1) return `${selection.ids.size} selected`;
  const item = first && model.byId.get(first);
  return item ? describe(item) : "";
}

/**
 * What a list of objects is called: by its kind where it is one.
 * @param {Ed} ed
 * @param {Item[]} items
 */
export const calledAll = (ed, items) => (items.length === 1 ? ed.kindName(items[0]).toLowerCase() : count(items.length));

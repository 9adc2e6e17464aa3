// What the modules of the board ask of a browser when they are loaded: enough of it for what doesn't draw. A letter is half as
// wide as its font is high.

const pen = () => ({
  font: "16px x",
  measureText(text) {
    return { width: [...text].length * parseFloat(this.font) * 0.5 };
  },
});

globalThis.document ??= /** @type {any} */ ({});
globalThis.document.createElement = () => ({ getContext: pen });

/** An object as the node says it. */
export const plain = (id, kind, x, y, w, h, more = {}) => ({
  id, kind, parent: null, x, y, w, h, stroke: "000000", fill: null, width: 1, label: "", ...more,
});

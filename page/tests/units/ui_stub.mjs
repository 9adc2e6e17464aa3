// What the modules of the islands ask of a browser when they are loaded: enough of it for what doesn't draw. A letter is
// half as wide as its font is high.

const pen = () => ({
  font: "16px x",
  measureText(text) {
    return { width: [...text].length * parseFloat(this.font) * 0.5 };
  },
});
const element = () => ({ getContext: pen, append() {}, setAttribute() {}, addEventListener() {}, style: {}, dataset: {}, classList: { toggle() {} } });
const store = new Map();

Object.assign(globalThis, {
  document: { createElement: element, createElementNS: element, addEventListener() {}, body: element(), documentElement: element() },
  matchMedia: () => ({ matches: false, addEventListener() {} }),
  localStorage: { getItem: (key) => store.get(key) ?? null, setItem: (key, value) => store.set(key, value) },
  addEventListener() {},
});
Object.defineProperty(globalThis, "navigator", { value: { platform: "Linux x86_64" }, configurable: true });

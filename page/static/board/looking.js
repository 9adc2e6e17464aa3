// What this person looks at is told to the others: the first of what is selected, once the selection rests.

const REST = 400;

export class Looking {
  /** @param {Ed} ed */
  constructor(ed) {
    this.ed = ed;
    /** @type {string | null} */
    this.told = null;
    this.timer = 0;
    // Who closes the page looks at nothing any more.
    addEventListener("pagehide", () => {
      if (this.told !== null) ed.node.tell(["focus -"]);
    });
  }

  /** Something else is selected. */
  changed() {
    clearTimeout(this.timer);
    this.timer = setTimeout(() => this.tell(), REST);
  }

  async tell() {
    const { node, selection, history } = this.ed;
    const [first = null] = selection.ids;
    // An object that the node hasn't answered yet is told later, and nothing is told of the past.
    if (first === this.told || first?.startsWith("~") || history.at !== null || !node.connected || node.ended) return;
    this.told = first;
    try {
      await node.focus(first);
    } catch {
      // Nobody is told then, and the next selection tries again.
      this.told = null;
    }
  }
}

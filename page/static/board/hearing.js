// What the node tells, and what becomes of it on the board.

/** @typedef {import("./pending.js").Pending} Pending */
/** @typedef {import("../core/node.js").NodeEar} NodeEar */

const STANDING = new Set(["hello", "who", "peers", "standing", "end", "begun", "link", "carried", "parted", "presence", "open", "lost"]);

/**
 * @param {Ed} ed
 * @param {Pending} pending
 * @returns {NodeEar}
 */
export function hearing(ed, pending) {
  let isFirst = true;
  return {
    picture(difference, edits, _others, whole) {
      pending.pictured(difference, edits, whole);
      ed.selection.prune();
      ed.edits.turned?.();
      if (isFirst) {
        isFirst = false;
        showFirst(ed);
      }
      ed.rested();
    },
    events() {
      ed.history.update();
      ed.edits.turned?.();
    },
    stand(what) {
      if (what === "pointer") ed.pointing.update();
      if (what === "turns" || what === "hello") ed.edits.heard();
      if (!STANDING.has(what)) return;
      if (what === "hello") {
        ed.watcher = ed.node.watcher;
        document.body.dataset.watcher = ed.watcher ? "1" : "";
        ed.standing.warn();
      }
      ed.people.update();
      ed.standing.update();
      ed.roster.update();
      ed.inviting.update();
      ed.touch("overlay");
    },
  };
}

/** @param {Ed} ed */
function showFirst(ed) {
  const { camera } = ed;
  if (ed.model.items.length) ed.fit();
  else camera.put(-camera.width / 2, -camera.height / 2, 1);
  document.body.dataset.ready = "1";
  performance.mark("shown");
}

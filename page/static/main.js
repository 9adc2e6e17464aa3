// The page: makes its parts and wires them. Lines go to the node, what it shows goes to the model, and a frame is drawn only
// when something has changed.

import { Camera } from "./board/camera.js";
import { Edits } from "./board/edits.js";
import { Frames } from "./board/frames.js";
import { Gestures } from "./board/gestures.js";
import { hearing } from "./board/hearing.js";
import { Looking } from "./board/looking.js";
import { Model } from "./board/model.js";
import { Nudge } from "./board/moving.js";
import { Overlay } from "./board/overlay.js";
import { Pending } from "./board/pending.js";
import { Scene } from "./board/scene.js";
import { Selection } from "./board/selection.js";
import { Node } from "./core/node.js";
import { People } from "./core/people.js";
import { listenToKeys, makeIslands } from "./ui/islands.js";

/** @typedef {import("./core/types.js").Ed} Ed */

const canvas = (/** @type {string} */ id) => /** @type {HTMLCanvasElement} */ (document.getElementById(id));
const desk = new URLSearchParams(location.search).get("desk");

/** @type {Ed} */
const ed = /** @type {any} */ ({
  board: document.getElementById("board"), tool: "select", lockTool: false, busy: null, hover: null, band: null, guides: null,
  ghosts: null, editing: null, readOnly: null, watcher: false, pointer: null,
  style: { stroke: "000000", fill: null, width: 2 },
});
ed.node = new Node(desk === null ? null : Number(desk));
ed.people = new People(ed.node);
ed.model = new Model();
ed.camera = new Camera();
ed.selection = new Selection(ed.model);
const pending = new Pending(ed.node.picture, ed.model, () => ed.history.at !== null);
const frames = new Frames(ed);
const nudge = new Nudge(ed);
const looking = new Looking(ed);
ed.edits = new Edits(ed, pending);
ed.stats = { draws: frames.draws };
ed.touch = (what) => frames.touch(what);
ed.settle = () => nudge.settle();
ed.nudge = (dx, dy) => nudge.move(dx, dy);
ed.changed = () => {
  if (ed.history.at === null) pending.showAll();
  ed.selection.prune();
  ed.history.update();
  ed.rested();
};

makeIslands(ed);
ed.scene = new Scene(canvas("scene"), ed.model, ed.camera);
ed.overlay = new Overlay(canvas("overlay"), ed);
ed.gestures = new Gestures(ed, ed.board);
listenToKeys(ed);

ed.model.hear = (/** @type {import("./core/types.js").Box[]} */ boxes) => {
  ed.scene.damage.push(...boxes);
  ed.editor.follow();
  frames.again();
};
ed.camera.hear = () => {
  frames.again();
  ed.placed();
};
ed.selection.hear = () => {
  nudge.check();
  looking.changed();
  frames.touch("overlay");
  ed.rested();
};

function resize() {
  const { innerWidth, innerHeight, devicePixelRatio } = window;
  Object.assign(ed.camera, { width: innerWidth, height: innerHeight });
  ed.scene.size(innerWidth, innerHeight, devicePixelRatio);
  ed.overlay.size(innerWidth, innerHeight, devicePixelRatio);
  ed.camera.hear();
}

ed.people.update();
resize();
addEventListener("resize", resize);
ed.setTool("select");
ed.node.ear = hearing(ed, pending);
ed.node.start();
ed.focusBoard();
// For tests and measurements.
Object.assign(window, { ed });

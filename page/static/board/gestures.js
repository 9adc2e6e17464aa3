// Pointers become gestures, and gestures edits. One thing is done at a time. `Escape`, a second finger, and a pointer that
// is taken away leave it off without a trace.

import { light, look, openMenu } from "./aim.js";
import { creating, drawingLine, writing } from "./creating.js";
import { edgePush, panning, pinching } from "./panning.js";
import { selecting } from "./selecting.js";

/** @typedef {import("./acts.js").Act} Act */

const SLIP = 4;
const SLIP_TOUCH = 8;
const HOLD = 520;
const DOUBLE = 380;
const DOUBLE_FAR = 6;

export class Gestures {
  /**
   * @param {Ed} ed
   * @param {HTMLElement} board
   */
  constructor(ed, board) {
    this.ed = ed;
    this.board = board;
    /** @type {Map<number, {x: number, y: number}>} */
    this.fingers = new Map();
    /** @type {Act | null} */
    this.act = null;
    /** Whether Space is down. */
    this.space = false;
    /** @type {(Place & {id: number}) | null} */
    this.pressed = null;
    /** @type {(Place & {time: number}) | null} */
    this.clicked = null;
    this.hold = 0;
    /** For so many milliseconds a finger rests until that opens the menu. */
    this.holdAfter = HOLD;
    this.edge = 0;
    this.listen();
  }

  listen() {
    const { board, ed } = this;
    board.addEventListener("pointerdown", (event) => this.down(event));
    board.addEventListener("pointermove", (event) => this.move(event));
    board.addEventListener("pointerup", (event) => this.up(event));
    board.addEventListener("pointercancel", (event) => {
      this.fingers.delete(event.pointerId);
      this.cancel();
    });
    board.addEventListener("pointerleave", () => {
      if (!this.act) light(ed, null);
      ed.pointer = null;
    });
    board.addEventListener("wheel", (event) => this.wheel(event), { passive: false });
    board.addEventListener("contextmenu", (event) => {
      event.preventDefault();
      if (!this.act?.moved && !this.fingers.size) openMenu(this, event);
    });
    // A button of the mouse that is down makes no second press, and the right one calls a gesture off by nothing.
    addEventListener("blur", () => this.cancel());
  }

  /**
   * @param {MouseEvent} event
   * @returns {Place}
   */
  at(event) {
    const [x, y] = this.ed.camera.toBoard(event.clientX, event.clientY);
    return { x, y, px: event.clientX, py: event.clientY };
  }

  /** @param {WheelEvent} event */
  wheel(event) {
    event.preventDefault();
    const { camera } = this.ed;
    const unit = event.deltaMode === 1 ? 16 : 1;
    const [dx, dy] = [event.deltaX * unit, event.deltaY * unit];
    if (event.ctrlKey || event.metaKey) {
      // A wheel turns by large steps, a pinch on a touchpad by small ones.
      const speed = event.deltaMode || Math.abs(event.deltaY) >= 60 ? 0.0025 : 0.01;
      camera.zoomAt(event.clientX, event.clientY, Math.exp(-Math.max(-80, Math.min(80, dy)) * speed));
    } else if (event.shiftKey && !dx) camera.pan(dy, 0);
    else camera.pan(dx, dy);
    if (this.act?.moved) this.act.move?.(this.at(event), event);
  }

  /** @param {PointerEvent} event */
  down(event) {
    const { ed } = this;
    ed.closePopups();
    const isTouch = event.pointerType === "touch";
    if (isTouch) this.fingers.set(event.pointerId, { x: event.clientX, y: event.clientY });
    if (this.fingers.size >= 2) {
      if (this.fingers.size === 2) this.beginPinch();
      return;
    }
    if (event.button === 2 || this.act) return;
    this.capture(event);
    const at = this.at(event);
    this.pressed = { ...at, id: event.pointerId };
    if (event.button === 1 || this.space || ed.tool === "hand") this.act = panning(this, at);
    else if (event.button === 0) this.press(at, event);
  }

  /** @param {PointerEvent} event */
  capture(event) {
    try {
      this.board.setPointerCapture(event.pointerId);
    } catch {
      // The pointer is gone already, and its end comes as a cancel.
    }
  }

  /**
   * @param {Place} at
   * @param {PointerEvent} event
   */
  press(at, event) {
    const { ed } = this;
    ed.settle();
    const wasEditing = ed.editing !== null;
    // A press that ends a text is never the second of two clicks.
    if (wasEditing) this.clicked = null;
    // A text that is too long stays in its field.
    if (wasEditing && ed.editor.commit() === false) return;
    // A press beside a text that is being written ends that, and begins no other.
    if (wasEditing && ed.tool === "text") {
      this.act = {};
      return;
    }
    if (ed.readOnly && ed.tool !== "select") ed.setTool("select");
    if (event.pointerType === "touch") this.hold = setTimeout(() => this.held(event), this.holdAfter);
    this.act = this.actOf(at, event);
  }

  /**
   * @param {Place} at
   * @param {PointerEvent} event
   * @returns {Act}
   */
  actOf(at, event) {
    const { tool } = this.ed;
    if (tool === "select") return selecting(this, at, event);
    if (tool === "text") return writing(this, at, event);
    return tool === "line" ? drawingLine(this, at) : creating(this, at);
  }

  /** @param {PointerEvent} event */
  held(event) {
    if (!this.act || this.act.moved) return;
    this.cancel();
    openMenu(this, event);
  }

  beginPinch() {
    this.cancel();
    this.act = pinching(this);
  }

  /** @param {PointerEvent} event */
  move(event) {
    const { ed, act } = this;
    if (this.fingers.has(event.pointerId)) this.fingers.set(event.pointerId, { x: event.clientX, y: event.clientY });
    if (act?.pinch) {
      act.pinch();
      return;
    }
    const at = this.at(event);
    ed.pointer = at;
    if (!act) look(this, at, event);
    else if (!this.pressed || this.pressed.id === event.pointerId) this.go(act, at, event);
  }

  /**
   * @param {Act} act
   * @param {Place} at
   * @param {PointerEvent} event
   */
  go(act, at, event) {
    const slip = event.pointerType === "touch" ? SLIP_TOUCH : SLIP;
    if (!act.moved && !act.eager && Math.hypot(at.px - this.pressed.px, at.py - this.pressed.py) < slip) return;
    if (!act.moved) {
      act.moved = true;
      clearTimeout(this.hold);
      act.begin?.(at, event);
    }
    act.move?.(at, event);
    this.ed.touch("overlay");
    if (!act.eager && act.move) edgePush(this, act, event);
  }

  /** @param {PointerEvent} event */
  up(event) {
    this.fingers.delete(event.pointerId);
    clearTimeout(this.hold);
    const { act } = this;
    if (act?.pinch || act?.pinched) {
      this.act = this.fingers.size ? { pinched: true } : null;
      if (!this.fingers.size) this.rest();
      return;
    }
    if (!act || (this.pressed && this.pressed.id !== event.pointerId)) return;
    this.act = null;
    const at = this.at(event);
    if (act.moved) act.drop?.(at, event);
    else act.click?.(at, event);
    this.rest();
    look(this, at, event);
    this.again(act, at, event);
  }

  /**
   * The second of two clicks at one place.
   * @param {Act} act
   * @param {Place} at
   * @param {PointerEvent} event
   */
  again(act, at, event) {
    // When it was clicked counts, and not when the page came to it.
    const time = event.timeStamp;
    const was = act.moved ? null : this.clicked;
    this.clicked = act.moved ? null : { ...at, time };
    const isDouble = was && time - was.time < DOUBLE && Math.hypot(at.px - was.px, at.py - was.py) < DOUBLE_FAR;
    if (!isDouble || !act.double) return;
    this.clicked = null;
    act.double(at, event);
  }

  /** Leaves off what is being done. Says whether there was anything. */
  cancel() {
    const had = Boolean(this.act?.moved);
    clearTimeout(this.hold);
    cancelAnimationFrame(this.edge);
    // What the pointer goes on to do until it is up is nothing.
    this.act = null;
    this.rest();
    return had;
  }

  rest() {
    const { ed } = this;
    if (ed.model.over.size) ed.model.preview(new Map());
    Object.assign(ed, { band: null, guides: null, ghosts: null, busy: null });
    this.showBusy("");
    ed.touch("overlay");
    ed.rested();
  }

  /** @param {string} what */
  busy(what) {
    this.ed.busy = what;
    this.showBusy(what);
    this.ed.busied();
  }

  /** @param {string} what */
  showBusy(what) {
    if (this.board.dataset.busy !== what) this.board.dataset.busy = what;
  }
}

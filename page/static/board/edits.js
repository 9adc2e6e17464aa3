// Gestures become edits: lists of lines that are typed as one batch, and one step of undo. `@3` in a line stands for the id
// that the batch's third line makes. Until the node has answered, an object that was made has a name, `~` and two numbers.

import { escaped, MOST_LINES } from "../core/lines.js";
import { refusalOf, whyOf } from "../core/node.js";
import { Foresight, wordsOf } from "./effects.js";
import { Layer } from "./pending.js";
import { turn } from "./turning.js";

export { copyLines, createLines, fitLabel } from "./making.js";

/** @typedef {import("../core/types.js").Refusal} Refusal */
/** @typedef {import("../core/types.js").Which} Which */
/** @typedef {import("./pending.js").Pending} Pending */
/** @typedef {{line: string, name: string | null}} Step a line of a gesture, with names for what this page made, and what it makes */

export class Edits {
  /**
   * @param {Ed} ed
   * @param {Pending} pending
   */
  constructor(ed, pending) {
    this.ed = ed;
    this.pending = pending;
    /** @type {Map<string, string>} the ids of what this page made, by its names */
    this.ids = new Map();
    this.batches = 0;
    /** What was typed last, and isn't answered yet. @type {{what: Which | "do", name: string} | null} */
    this.typing = null;
    /** Told once something else is done, or taken back. @type {(() => void) | null} */
    this.passed = null;
    /** Tried whenever the node has told more, until it has shown what was taken back. @type {(() => void) | null} */
    this.turned = null;
    /** The number of what was known last to be taken back. */
    this.known = 0;
  }

  /**
   * Does a gesture. `pick` says which of what it makes are selected then, from the names of what each line makes.
   * @param {string} name
   * @param {string[]} lines
   * @param {(made: (string | null)[]) => (string | null | undefined)[]} [pick]
   * @returns {Promise<boolean>} whether all of it was done
   */
  async do(name, lines, pick) {
    const { ed } = this;
    ed.settle();
    if (!lines.length) return true;
    if (ed.readOnly || lines.length > MOST_LINES) {
      ed.refuse([{ why: ed.readOnly ?? `a gesture has at most ${MOST_LINES.toLocaleString("en")} edits` }]);
      return false;
    }
    this.pass();
    const steps = this.begin(lines);
    ed.say(name);
    const sent = this.send(name, steps);
    if (pick) ed.selection.set(pick(steps.map((step) => step.name)).filter(Boolean));
    ed.rested();
    return sent;
  }

  /** Takes the last gesture back. */
  undo() {
    return turn(this, "undo");
  }

  /** Does the gesture again that was taken back last. */
  redo() {
    return turn(this, "redo");
  }

  /**
   * What an undo, or a redo, would be about, or null where there is nothing. What isn't answered yet is taken as done.
   * @param {Which} which
   */
  due(which) {
    const { typing, ed } = this;
    if (typing?.what === "do") return which === "undo" ? typing.name : null;
    if (typing && typing.what !== which) return typing.name;
    return ed.node.turns[which]?.name ?? null;
  }

  /** Another page of the same person may have done something, or taken it back. */
  heard() {
    const { number } = this.ed.node.turns;
    if (number === this.known) return;
    this.known = number;
    this.pass();
    this.ed.stacks();
  }

  pass() {
    const { passed } = this;
    this.passed = null;
    this.turned = null;
    passed?.();
  }

  /**
   * The lines of a batch as steps. What the second line of batch 4 makes is named `~4.2`.
   * @param {string[]} lines
   * @returns {Step[]}
   */
  begin(lines) {
    this.batches += 1;
    const made = (/** @type {number} */ number) => `~${this.batches}.${number}`;
    return lines.map((raw, index) => {
      const line = this.named(raw, (word) => (/^@\d+$/.test(word) ? made(Number(word.slice(1))) : word));
      const { op } = wordsOf(line);
      return { line, name: op === "create" || op === "connect" || op === "group" ? made(index + 1) : null };
    });
  }

  /**
   * A line with other words for its ids. A label stays as it is.
   * @param {string} line
   * @param {(word: string) => string} call
   */
  named(line, call) {
    const { op, words, label } = wordsOf(line);
    if (op === "create") return line;
    const named = words.map((word, index) => (index ? call(word) : word)).join(" ");
    return op === "text" || (op === "connect" && label) ? `${named} ${escaped(label)}` : named;
  }

  /** @param {string} name */
  idOf(name) {
    return this.ids.get(name) ?? name;
  }

  /**
   * A line with ids, as far as they are known.
   * @param {string} line
   */
  real(line) {
    return this.named(line, (word) => this.idOf(word));
  }

  /**
   * Shows what a gesture does, has its lines typed, and takes the answers.
   * @param {string} name
   * @param {Step[]} steps
   * @returns {Promise<boolean>} whether all of it was done; what wasn't is said here
   */
  async send(name, steps) {
    const layer = this.foresee(steps);
    const typing = this.typed("do", name);
    try {
      const { answers, edits } = await this.ed.node.type(() => this.wireLines(steps), name);
      const refusals = this.take(steps, answers, layer, edits);
      this.ed.refuse(refusals);
      return !refusals.length;
    } catch (fault) {
      this.pending.drop(layer);
      this.ed.refuse([{ line: this.real(steps[0].line), why: whyOf(fault) }]);
      return false;
    } finally {
      this.answered(typing);
    }
  }

  /**
   * Lines are typed now, behind all that was typed before.
   * @param {Which | "do"} what
   * @param {string} name
   */
  typed(what, name) {
    this.typing = { what, name };
    return this.typing;
  }

  /**
   * They are answered, or won't be.
   * @param {{what: Which | "do", name: string}} typing
   */
  answered(typing) {
    if (this.typing === typing) this.typing = null;
    this.known = this.ed.node.turns.number;
    this.ed.rested();
  }

  /** @param {Step[]} steps */
  foresee(steps) {
    const foresight = new Foresight(this.ed.model);
    for (const step of steps) foresight.take(this.real(step.line), step.name);
    const layer = new Layer(foresight.effects, foresight.turns);
    this.pending.add(layer);
    return layer;
  }

  /**
   * The lines as they go out: with ids, and with `@K` for what the batch itself makes.
   * @param {Step[]} steps
   */
  wireLines(steps) {
    const made = new Map(steps.map((step, index) => [step.name, `@${index + 1}`]));
    return steps.map((step) => this.named(step.line, (word) => made.get(word) ?? this.idOf(word)));
  }

  /**
   * Takes the answers to a batch, and gives what was refused.
   * @param {Step[]} steps
   * @param {string[]} answers
   * @param {Layer} layer
   * @param {number} edits
   */
  take(steps, answers, layer, edits) {
    /** @type {Refusal[]} */
    const refusals = [];
    const refused = new Set();
    const names = new Map();
    steps.forEach((step, index) => {
      const answer = answers[index];
      if (answer.startsWith("ok ")) {
        if (step.name) names.set(step.name, answer.slice(3));
        return;
      }
      refused.add(index);
      refusals.push({ line: this.real(step.line), why: refusalOf(answer) });
    });
    for (const [name, id] of names) this.ids.set(name, id);
    this.pending.answered(layer, refused, names, edits);
    if (names.size) this.ed.selection.rename(names);
    return refusals;
  }
}

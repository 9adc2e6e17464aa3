// What is known of the seats of a session over a broker, in words.

import { CALLED } from "../core/called.js";
import { count } from "./words.js";

/** @typedef {import("../core/types.js").Carried} Carried */

/**
 * How long ago something was.
 * @param {number} seconds
 */
export function ago(seconds) {
  if (seconds < 90) return `${count(Math.round(seconds), "second")} ago`;
  if (seconds < 90 * 60) return `${count(Math.round(seconds / 60), "minute")} ago`;
  return `${count(Math.round(seconds / 3600), "hour")} ago`;
}

/**
 * What is said of a seat behind whether it is there.
 * @param {Carried | null} carried
 * @param {number} site
 */
export function seatWords(carried, site) {
  const seat = carried?.seats.find((each) => each.site === site);
  if (!seat) return "";
  const words = [];
  if (!seat.here && seat.heard !== null) words.push(`last heard ${ago(seat.heard)}`);
  if (seat.missing) words.push(`${count(seat.missing, "edit")} not here yet`);
  if (seat.lies) words.push("has shown different drawings to different people: the same place is used twice");
  return words.map((each) => `, ${each}`).join("");
}

/**
 * What the members are told where others may look on.
 * @param {Carried | null} carried
 */
export const watchedWords = (carried) => (carried?.watched ? "Others may look on: there is a link for that." : "");

/**
 * How people come to this session, where nobody can be invited from here.
 * @param {Carried | null} carried
 */
export function howToInvite(carried) {
  if (carried) return "Who began this drawing can invite others, as long as places are free.";
  return `Who draws here was set when this drawing was started. For one to which a link invites people, start it with: ${CALLED} --found`;
}

/**
 * What to check where nobody else is heard, or nothing.
 * @param {Carried | null} carried
 */
export function whatToCheck(carried) {
  if (!carried || carried.seats.some((seat) => seat.here)) return "";
  if (!carried.up) return `Is the broker (the server that passes edits on) at ${carried.broker} running, and does this machine reach it?`;
  if (!carried.seats.length) return "Nobody else is in this drawing yet: invite somebody.";
  return `The broker (the server that passes edits on) is reached, and nobody else is connected to it. Does ${CALLED} run at the others?`;
}

// What is told of others' events as they arrive, by the state of the node meanwhile.

import "./ui_stub.mjs";
import assert from "node:assert/strict";
import { mock, test } from "node:test";

const { Arrivals } = await import("../../static/ui/arrivals.js");

/** A page with events that come in, and what its banners say. */
function page() {
  const told = [];
  const node = { site: 1, events: [], history: { byStamp: new Map() } };
  const ed = {
    node, people: { name: () => "Bob" }, model: { byId: new Map() }, history: { at: null }, overlay: { flash() {} },
    banner: (banner) => told.push(banner.text),
  };
  const arrivals = new Arrivals(ed);
  const come = (...stamps) => {
    for (const stamp of stamps) {
      const [clock, site] = stamp.split(".").map(Number);
      node.events.push({ op: "move", id: "1.1", stamp, clock, site, came: node.events.length, time: Infinity, late: null });
    }
    arrivals.update();
  };
  return { arrivals, told, come };
}

test("who comes back is told what was missed, and not what came before or long after", () => {
  mock.timers.enable({ apis: ["setTimeout"] });
  const { arrivals, told, come } = page();
  arrivals.standing("on");
  come("1.2", "2.2", "3.2");
  arrivals.standing("off");
  mock.timers.tick(60_000);
  assert.deepEqual(told, []);
  arrivals.standing("on");
  come("4.2");
  mock.timers.tick(300);
  come("5.2");
  mock.timers.tick(2000);
  assert.deepEqual(told, ["Together again: 2 edits by Bob are in now"]);
  arrivals.standing("off");
  mock.timers.tick(60_000);
  arrivals.standing("waits");
  mock.timers.tick(60_000);
  come("6.2");
  mock.timers.tick(2000);
  assert.equal(told.length, 1);
  mock.timers.reset();
});

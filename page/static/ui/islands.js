// All islands of the page, in one call. main.js makes the board (`ed.node`, `model`, `camera`, `selection`, `scene`,
// `overlay`, `edits`, `people`, `touch`, `changed`, `settle`, `nudge`), calls this, and then makes the gestures.

import { makeAid, makeZoom } from "./aid.js";
import { makeBanners } from "./banners.js";
import { Clipboard } from "./clipboard.js";
import { Editor } from "./editor.js";
import { makeEmpty } from "./empty.js";
import { Exporting } from "./exporting.js";
import { makeFile } from "./file.js";
import { Help } from "./help.js";
import { HistoryBar } from "./history.js";
import { Importing } from "./importing.js";
import { Inviting } from "./inviting.js";
import { listen } from "./keys.js";
import { makeLink } from "./link.js";
import { Menu } from "./menu.js";
import { makeNames } from "./names.js";
import { Objects } from "./objects.js";
import { Palette } from "./palette.js";
import { Pointing } from "./pointing.js";
import { makeQuick } from "./quick.js";
import { Roster } from "./roster.js";
import { StandingIsland } from "./standing.js";
import { StylePanel } from "./style.js";
import { makeTheme } from "./theme.js";
import { makeTools } from "./tools.js";
import { makeView } from "./view.js";

/** @param {string} id */
const find = (id) => /** @type {HTMLElement} */ (document.getElementById(id));

/**
 * Makes the islands and puts them on `ed`: `menu`, `roster`, `inviting`, `pointing`, `objects`, `stylePanel`, `history`, `editor`, `clipboard`,
 * `exporting`, `importing`, `palette`, `help`, `standing`; and what they do: `say`, `banner`, `refuse`, `kindName`,
 * `describe`, `short`, `pad`, `fit`, `walk`, `escape`, `focusBoard`, `closePopups`, `setReadOnly`, `styleFor`, `setTool`,
 * `sheet`, `stacks`, `openMenu`, `openSaves`, `rested`, `busied`, `placed`, `setTheme`.
 *
 * The board calls `ed.rested()` when a gesture, the selection or the drawing has changed, `ed.busied()` when a gesture
 * begins, `ed.placed()` when the camera has moved, `ed.standing.update()` when what is known of the node, its peers, its
 * people or the link has changed, and `ed.history.update()` when there are other events.
 * @param {Ed} ed
 */
export function makeIslands(ed) {
  dropTips();
  const banners = makeBanners(ed, find("said"), find("banners"), find("bubbles"));
  const names = makeNames(ed);
  makeView(ed);
  ed.menu = new Menu(ed);
  ed.roster = new Roster(ed, find("faces"));
  ed.inviting = new Inviting(ed, find("faces"));
  ed.pointing = new Pointing(ed);
  ed.objects = new Objects(ed, find("objects"));
  ed.stylePanel = new StylePanel(ed, find("style"));
  ed.history = new HistoryBar(ed, find("history"));
  ed.editor = new Editor(ed, find("fields"));
  ed.clipboard = new Clipboard(ed);
  ed.exporting = new Exporting(ed);
  ed.importing = new Importing(ed);
  ed.palette = new Palette(ed);
  ed.help = new Help();
  const file = makeFile(ed, find("file"));
  const tools = makeTools(ed, find("tools"));
  const zoom = makeZoom(ed, find("zoom"));
  const quick = makeQuick(ed, find("quick"));
  const empty = makeEmpty(ed, find("empty"));
  makeAid(ed, find("aid"));
  const link = makeLink(ed, find("link"));
  ed.standing = new StandingIsland(ed, file, link);
  makeTheme(ed);
  ed.rested = () => {
    for (const part of [names, ed.stylePanel, zoom, quick, ed.objects, empty, tools, banners]) part.update();
  };
  ed.busied = () => {
    for (const part of [ed.stylePanel, quick, empty]) part.update();
  };
  ed.placed = () => {
    zoom.update();
    quick.update();
    empty.update();
    banners.update();
    ed.editor.place();
    ed.pointing.place();
  };
}

/** A tip goes once its button was pressed, until the pointer comes again: it says nothing new, and covers what is behind it. */
function dropTips() {
  /** @type {HTMLElement | null} */
  let pressed = null;
  addEventListener("pointerdown", (event) => {
    pressed = event.target instanceof Element ? event.target.closest("[data-tip]") : null;
    if (pressed) pressed.dataset.pressed = "1";
  }, true);
  addEventListener("pointerover", (event) => {
    if (!pressed || (event.target instanceof Node && pressed.contains(event.target))) return;
    delete pressed.dataset.pressed;
    pressed = null;
  }, true);
}

/**
 * Listens to the keys, once the gestures are there.
 * @param {Ed} ed
 */
export function listenToKeys(ed) {
  listen(ed, ed.board, ed.gestures);
}

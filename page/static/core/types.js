// The types that the modules of the page share. `Ed` is the one object by which they know each other: main.js makes the
// board's parts of it, ui/islands.js the islands' parts.

/** @typedef {"rect" | "ellipse" | "line" | "text"} ShapeKind */
/** @typedef {ShapeKind | "group" | "connector"} Kind */
/** @typedef {"solid" | "dashed" | "dotted"} Dash */
/** @typedef {"none" | "end" | "start" | "both"} Heads */
/**
 * The looks beside stroke, fill and width, as a new shape has them where they are missing or null.
 * @typedef {object} Looks
 * @property {Dash} [dash]
 * @property {Heads} [heads]
 * @property {number | null} [round]
 * @property {number} [opacity] 1 to 100
 * @property {number | null} [letters] how high they are
 * @property {"start" | "middle" | "end" | null} [side] to which a label goes
 */
/** @typedef {{x0: number, y0: number, x1: number, y1: number}} Box */
/** @typedef {[number, number, number, number]} Ends the two ends of a line: x, y, x, y */

/**
 * An object as the board shows it. An item is never changed in place: what changes is another item of the same id.
 * @typedef {object} Item
 * @property {string} id `CLOCK.SITE`; of an object that the node hasn't answered yet a name that begins with `~`
 * @property {Kind} kind
 * @property {string | null} parent the group in which it is shown
 * @property {number} x where it is shown; of a group its own place
 * @property {number} y
 * @property {number} w 0 for a group
 * @property {number} h
 * @property {string} stroke RRGGBB
 * @property {string | null} fill RRGGBB, or null for none
 * @property {number} width 1 to 64
 * @property {string} label at most 500 bytes; a line break is a line feed, in older drawings U+2028
 * @property {Looks} [looks]
 * @property {string} [from] the ends of a connector
 * @property {string} [to]
 * @property {number} font the size of its letters, which goes by its kind
 * @property {"left" | "center" | "right"} align which goes by its kind, where nothing is set
 * @property {number} by the site that made it
 * @property {number} z its place in paint order, from 0 at the bottom
 * @property {Box} box
 * @property {Box} [ink] the box with the room that its label may take beyond it; of all that the model has
 * @property {Ends | null} ends of a line or a connector
 */

/** @typedef {Pick<Item, "id" | "kind" | "parent" | "x" | "y" | "w" | "h" | "stroke" | "fill" | "width" | "label"> & Partial<Pick<Item, "looks" | "from" | "to">>} Plain what the node says of an object */
/** @typedef {Partial<Pick<Item, "x" | "y" | "w" | "h" | "stroke" | "fill" | "width" | "label" | "parent" | "looks" | "from" | "to">>} Change */

/**
 * What the bridge says of an object of the drawing.
 * @typedef {object} Shown
 * @property {Kind} kind
 * @property {string} id
 * @property {string | null} in
 * @property {[number, number]} [at]
 * @property {[number, number]} [size]
 * @property {string} [from]
 * @property {string} [to]
 * @property {Dash} [dash]
 * @property {Heads} [heads]
 * @property {number} [round]
 * @property {number} [opacity]
 * @property {number} [letters]
 * @property {"start" | "middle" | "end"} [align]
 * @property {string} [stroke]
 * @property {string | null} [fill]
 * @property {number} [width]
 * @property {string} [label]
 */

/**
 * The last four are made by an undo or a redo alone.
 * @typedef {"create" | "delete" | "move" | "resize" | "stroke" | "fill" | "width" | "text" | "group" | "ungroup" | "raise" | "lower" |
 *   "connect" | "reconnect" | "style" | "restore" | "disband" | "rerank" | "reopen"} Op
 */
/** @typedef {{id: string, dx: number, dy: number}} Member */

/**
 * An event, in the words of its line.
 * @typedef {object} Event
 * @property {Op} op
 * @property {number} clock
 * @property {number} site
 * @property {string} stamp `CLOCK.SITE`
 * @property {string} id what it makes, or the object that it is about
 * @property {ShapeKind} [kind]
 * @property {number} [x] of a create or a move: the own place, within the groups
 * @property {number} [y]
 * @property {number} [w]
 * @property {number} [h]
 * @property {string} [label]
 * @property {string | number | null} [value] of stroke, fill, width and text
 * @property {Record<string, any>} [style] the looks that a style sets
 * @property {string} [from]
 * @property {string} [to]
 * @property {Member[]} [members]
 * @property {import("./drawing.js").Body} [body] what a restore puts back
 * @property {import("./drawing.js").Tie[]} [ties] the links that a restore or a disband gives to others
 * @property {number} [rank] of a rerank, as a body has it
 * @property {number | null} time when this machine saw it, in milliseconds, where that is known
 * @property {number} came its place in the order of arrival, from 0
 * @property {Late | null} late where it came behind events with greater stamps
 */

/**
 * What came of an event that came late.
 * @typedef {object} Late
 * @property {number} behind how many events with greater stamps were there
 * @property {string[]} redone the stamps of those that were undone and done again, where it was reworked
 * @property {"applied" | "reworked" | "dropped"} what
 * @property {string | null} by the stamp of the event that overwrites it, where it was dropped
 */

/**
 * What is known of a session over a broker: its name, the other seats that somebody has, whether the broker is reached and why
 * not, how many more people can be invited here, whether a link for those who only look on can be made here, and whether there is one. Of a seat: whether it is there, how many seconds ago it was heard, how many of
 * its edits are known of and aren't here, and whether it has told two stories.
 * @typedef {object} Carried
 * @property {string} name
 * @property {{site: number, here: boolean, heard: number | null, missing: number, lies: boolean}[]} seats
 * @property {boolean} up
 * @property {string} fault
 * @property {string} broker
 * @property {number} invites
 * @property {boolean} watches
 * @property {boolean} watched
 */

/** @typedef {"undo" | "redo"} Which */
/**
 * A gesture that can be taken back or done again: what it is called, how many lines that takes, one but for a very large one, and
 * the clocks of its first and its last edit.
 * @typedef {{name: string, lines: number, first: number, last: number}} Due
 */
/** @typedef {{number: number, undo: Due | null, redo: Due | null}} Turns what is next of each, and how often that has changed */
/** @typedef {{site: number, name: string, me: boolean, here: boolean, away: string | null, selection: Set<string>}} Seat */
/** @typedef {{held: number, kept: number, line: number, clock: number}} Standing */
/** @typedef {{sites: number[], older: boolean}} Parted whose edits are others here than there, and whether the own ones are */
/** @typedef {{loss: number, twice: number, delay: number, cut: number[]}} LinkSettings */
/** @typedef {{status: number, meaning: string, said: string}} End */
/** @typedef {{x: number, y: number, px: number, py: number}} Place a place of the board, and of the window */
/** @typedef {{line?: string, why: string}} Refusal */
/** @typedef {{x0: number, y0: number, x1: number, y1: number, gap?: number}} Guide */
/** @typedef {"select" | "hand" | "rect" | "ellipse" | "line" | "text"} Tool */
/** @typedef {Pick<Item, "stroke" | "fill" | "width" | "font" | "align">} Style */
/** @typedef {Item & {faint?: boolean}} Ghost */

/**
 * What the parts of the page share.
 * @typedef {object} Ed
 * @property {HTMLElement} board
 * @property {import("./node.js").Node} node
 * @property {import("./people.js").People} people
 * @property {import("../board/model.js").Model} model
 * @property {import("../board/camera.js").Camera} camera
 * @property {import("../board/selection.js").Selection} selection
 * @property {import("../board/scene.js").Scene} scene
 * @property {import("../board/overlay.js").Overlay} overlay
 * @property {import("../board/edits.js").Edits} edits
 * @property {import("../board/gestures.js").Gestures} gestures
 * @property {Tool} tool
 * @property {boolean} lockTool whether the tool stays behind a gesture
 * @property {string | null} busy what a gesture does: pan, move, copy, resize, create, end or band
 * @property {string | null} hover the object under the pointer
 * @property {Box | null} band
 * @property {Guide[] | null} guides
 * @property {Ghost[] | null} ghosts
 * @property {string | null} editing the object whose text is being edited
 * @property {string | null} readOnly why nothing can be drawn now, or null
 * @property {boolean} watcher whether this page only looks on
 * @property {Place | null} pointer where the pointer is
 * @property {{stroke: string, fill: string | null, width: number}} style what the next shape gets
 * @property {{draws: number[]}} stats
 * @property {(what: "scene" | "overlay") => void} touch has a frame drawn
 * @property {() => void} changed shows what the node shows, behind a look at the past too
 * @property {() => void} settle types what arrows have moved
 * @property {(dx: number, dy: number) => void} nudge moves what is selected, typed once the keys rest
 * @property {(text: string) => void} say
 * @property {(banner: any) => HTMLElement | null} banner
 * @property {number} patience how many times as long as usual what is said stays there
 * @property {(refusals: Refusal[], at?: [number, number]) => void} refuse
 * @property {(item: Item) => string} kindName
 * @property {(item: Item) => string} describe
 * @property {(id: string) => string} short
 * @property {() => [number, number, number, number]} pad
 * @property {() => void} fit
 * @property {(step: number) => void} walk
 * @property {() => void} escape
 * @property {() => void} focusBoard
 * @property {() => void} closePopups
 * @property {(why: string | null) => void} setReadOnly
 * @property {(kind: Tool) => Style} styleFor
 * @property {(tool: Tool, lock?: boolean) => void} setTool
 * @property {(on: boolean) => void} sheet
 * @property {() => void} stacks
 * @property {(x: number, y: number, at?: Place) => void} openMenu
 * @property {() => void} openSaves
 * @property {() => void} rested
 * @property {() => void} busied
 * @property {() => void} placed
 * @property {(theme: string) => void} setTheme
 * @property {() => void} pointers
 * @property {any} menu
 * @property {any} roster
 * @property {any} inviting
 * @property {any} pointing
 * @property {any} objects
 * @property {any} stylePanel
 * @property {any} history
 * @property {any} editor
 * @property {any} clipboard
 * @property {any} exporting
 * @property {any} importing
 * @property {any} palette
 * @property {any} help
 * @property {any} standing
 */

export {};

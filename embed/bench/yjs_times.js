// The same work on Yjs, for bench/measure_embed.py: node yjs_times.js EDITS EVENTS. (Debian has Yjs: apt-get install node-yjs, and
// NODE_PATH=/usr/share/nodejs.) An edit is an update, which is kept and sent as it is. Run it with --expose-gc, for the memory.

const Y = require('yjs');

// One shape for so many edits: the others move one of these.
const NEW = 10;
let seed = 7;

function draw(below) {
    seed = (Math.imul(seed, 1103515245) + 12345) >>> 0;
    return (seed >>> 8) % below;
}

function seconds() {
    const used = process.cpuUsage();
    return (used.user + used.system) / 1e6;
}

function place() {
    return [draw(1000), draw(1000)];
}

// Edit number `clock` of a site, of which edits 1, 11, 21 and so on make a shape.
function edit(doc, clock, site) {
    const board = doc.getMap('board');
    if ((clock - 1) % NEW === 0) {
        const fields = { kind: 'rect', at: place(), size: [10, 10], stroke: '000000', width: 1, label: '', rank: clock };
        board.set(`${clock}.${site}`, new Y.Map(Object.entries(fields)));
    } else {
        const made = Math.ceil(clock / NEW);
        board.get(`${1 + NEW * draw(made)}.${site}`).set('at', place());
    }
}

function docOf(site) {
    const doc = new Y.Doc();
    doc.clientID = site;
    return doc;
}

function shown(doc) {
    return JSON.stringify(doc.getMap('board').toJSON());
}

// The same with its objects in one order: that of a map goes by the order in which updates came.
function sorted(doc) {
    const board = doc.getMap('board').toJSON();
    return JSON.stringify(Object.keys(board).sort().map((name) => [name, board[name]]));
}

// The updates of so many edits.
function made(site, count) {
    const doc = docOf(site);
    const updates = [];
    doc.on('update', (update) => updates.push(update));
    const start = seconds();
    for (let clock = 1; clock <= count; clock++) {
        edit(doc, clock, site);
    }
    return { doc, updates, took: seconds() - start };
}

function applied(doc, updates) {
    const start = seconds();
    for (const update of updates) {
        Y.applyUpdate(doc, update);
    }
    return seconds() - start;
}

function sizeOf(updates) {
    return updates.reduce((sum, update) => sum + update.length, 0);
}

function measureEdits(count) {
    const { doc, updates, took } = made(1, count);
    const other = docOf(2);
    const taking = applied(other, updates);
    if (shown(doc) !== shown(other)) {
        process.exit(1);
    }
    console.log(`edit ${(took / count) * 1e9}\nremote ${(taking / count) * 1e9}\nupdate ${sizeOf(updates) / count}`);
}

function memoryKb() {
    global.gc();
    return process.memoryUsage().rss / 1024;
}

function measureCatchingUp(count) {
    const sites = [1, 2].map((site) => made(site, count / 2));
    // Of both in turn, as they were made.
    const updates = sites[0].updates.flatMap((update, at) => [update, sites[1].updates[at]]);
    const before = memoryKb();
    const away = docOf(3);
    const taking = applied(away, updates);
    console.log(`memory ${memoryKb() - before}`);
    const start = seconds();
    shown(away);
    const reading = seconds() - start;
    // All at once, as a peer hands a document to one that was away.
    const states = sites.map((site) => Y.encodeStateAsUpdate(site.doc));
    const merged = docOf(3);
    const merging = applied(merged, states);
    if (sorted(merged) !== sorted(away)) {
        process.exit(1);
    }
    console.log(`catching ${taking}\nmerging ${merging}\nshowing ${reading}\nupdates ${sizeOf(updates)}\nstate ${sizeOf(states)}`);
}

const [edits, events] = process.argv.slice(2).map(Number);
measureEdits(edits);
measureCatchingUp(events);

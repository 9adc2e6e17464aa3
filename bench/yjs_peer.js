// The work of a replay on Yjs: each event is an update, and the updates are applied one at a time to one document, which is
// then read out. (Debian has Yjs: apt-get install node-yjs, and NODE_PATH=/usr/share/nodejs.)
//
//     node yjs_peer.js make SITES EVENTS > UPDATES    the updates of sites that work apart, site after site; one in ten makes
//                                                     a shape, and the others move one of the same site
//     node yjs_peer.js replay < UPDATES               prints the seconds that it took to apply them and read out, by the
//                                                     clock and of the processor, the most memory in KB, and how many shapes

const fs = require('fs');
const Y = require('yjs');

let seed = 7;

function draw(below) {
    seed = (Math.imul(seed, 1103515245) + 12345) >>> 0;
    return (seed >>> 8) % below;
}

function place() {
    return [draw(1000), draw(1000)];
}

// The fields of a shape go out with it, in one update.
function create(doc, id, rank) {
    const fields = { kind: 'rect', at: place(), size: [10, 10], stroke: '000000', width: 1, label: '', rank };
    doc.getMap('board').set(id, new Y.Map(Object.entries(fields)));
}

function updatesOf(site, count) {
    const doc = new Y.Doc();
    const updates = [];
    const own = [];
    doc.clientID = site;
    doc.on('update', (update) => updates.push(update));
    for (let clock = 1; clock <= count; clock++) {
        if (own.length === 0 || draw(10) === 0) {
            own.push(`${clock}.${site}`);
            create(doc, own[own.length - 1], clock);
        } else {
            doc.getMap('board').get(own[draw(own.length)]).set('at', place());
        }
    }
    return updates;
}

function make(sites, events) {
    for (let site = 1; site <= sites; site++) {
        for (const update of updatesOf(site, Math.floor(events / sites))) {
            const length = Buffer.alloc(4);
            length.writeUInt32BE(update.length);
            fs.writeSync(1, Buffer.concat([length, update]));
        }
    }
}

// Each update is in a piece of memory of its own, as if it had come by itself.
function readUpdates() {
    const bytes = fs.readFileSync(0);
    const updates = [];
    for (let at = 0; at < bytes.length;) {
        const from = at + 4;
        at = from + bytes.readUInt32BE(at);
        updates.push(new Uint8Array(bytes.subarray(from, at)));
    }
    return updates;
}

function readOut(doc) {
    const shapes = [...doc.getMap('board').entries()];
    shapes.sort((a, b) => a[1].get('rank') - b[1].get('rank'));
    return shapes.map(([id, shape]) => `${shape.get('kind')} ${id} at ${shape.get('at').join(' ')}`);
}

function replay() {
    const updates = readUpdates();
    const started = process.cpuUsage();
    const start = process.hrtime.bigint();
    const doc = new Y.Doc();
    for (const update of updates) {
        Y.applyUpdate(doc, update);
    }
    const lines = readOut(doc);
    const wall = Number(process.hrtime.bigint() - start) / 1e9;
    const used = process.cpuUsage(started);
    console.log(wall, (used.user + used.system) / 1e6, process.resourceUsage().maxRSS, lines.length);
}

if (process.argv[2] === 'make') {
    make(Number(process.argv[3]), Number(process.argv[4]));
} else {
    replay();
}

// A peer of Yjs that catches up over datagrams, beside a node of groupdesign. (Debian has Yjs: apt-get install node-yjs, and
// NODE_PATH=/usr/share/nodejs.)
//
//     node yjs_peer_over_udp.js PORT OTHER MOVES EVERY      a peer at PORT, whose other one is at OTHER, on 127.0.0.1. With MOVES it
//                                                           makes one shape and moves it so often, and else it waits for that
//
// Each EVERY milliseconds it sends its state vector, which says how much it has of each peer, and it answers one that comes by the
// updates behind that, as many to a datagram as fit into 1,200 bytes, and at most 32 datagrams. It prints `ready`, and once it has
// so many edits as a line of its input asks for: the seconds since it began, those of the processor that it took in that time, and the
// most memory in KB.

const dgram = require('dgram');
const Y = require('yjs');

const [PORT, OTHER, MOVES, EVERY] = process.argv.slice(2).map(Number);
const HOST = '127.0.0.1';
const MOST_BYTES = 1200;
const MOST_DATAGRAMS = 32;
// What a datagram is: a state vector, or updates.
const VECTOR = 0;
const UPDATES = 1;
const MAKER = 1;

const doc = new Y.Doc();
doc.clientID = MOVES ? MAKER : 2;
const began = process.hrtime.bigint();

// The updates of this peer.
const made = [];
if (MOVES) doc.on('update', (update) => made.push(update));

function makeAll() {
    const shape = new Y.Map(Object.entries({ kind: 'rect', at: [0, 0], size: [10, 10], stroke: '000000', width: 1, label: '' }));
    const board = doc.getMap('board');
    board.set('1.1', shape);
    for (let move = 0; move < MOVES; move++) shape.set('at', [move, 0]);
}

// Updates that follow each other are one, as long as that has no more bytes than a datagram; each with the clock behind it.
function packed() {
    const packs = [];
    let part = [], size = 1;
    const close = () => {
        if (part.length) packs.push(Y.mergeUpdates(part));
        part = [];
        size = 1;
    };
    for (const update of made) {
        if (size + update.length > MOST_BYTES) close();
        part.push(update);
        size += update.length;
    }
    close();
    return packs.map((update) => ({ update, end: Y.parseUpdateMeta(update).to.get(MAKER) }));
}

let packs = [];
if (MOVES) {
    makeAll();
    packs = packed();
}

const socket = dgram.createSocket('udp4');
function send(kind, bytes) {
    socket.send(Buffer.concat([Buffer.from([kind]), bytes]), OTHER, HOST);
}

function answer(vector) {
    const has = Y.decodeStateVector(vector).get(MAKER) ?? 0;
    const first = packs.findIndex((pack) => pack.end > has);
    if (first < 0) return;
    for (const pack of packs.slice(first, first + MOST_DATAGRAMS)) send(UPDATES, pack.update);
}

socket.on('message', (message) => {
    const content = new Uint8Array(message.subarray(1));
    if (message[0] === VECTOR) answer(content);
    else Y.applyUpdate(doc, content);
});

// How many structs of the maker are here, those of the shape among them.
const held = () => Y.decodeStateVector(Y.encodeStateVector(doc)).get(MAKER) ?? 0;

socket.bind(PORT, HOST, () => {
    console.log(`ready ${held()}`);
    setInterval(() => send(VECTOR, Y.encodeStateVector(doc)), EVERY);
});

process.stdin.on('data', (line) => {
    const wanted = Number(line);
    const waiting = setInterval(() => {
        if (held() < wanted) return;
        clearInterval(waiting);
        const { user, system } = process.cpuUsage();
        const at = doc.getMap('board').get('1.1').get('at');
        console.log(Number(process.hrtime.bigint() - began) / 1e9, (user + system) / 1e6, process.resourceUsage().maxRSS, at[0]);
    }, 1);
});
process.stdin.on('end', () => process.exit(0));

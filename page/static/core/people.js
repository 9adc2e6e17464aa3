// Who draws together: a seat for each site of the session, with a name, and with what is selected there.

/** @typedef {import("./types.js").Seat} Seat */
/** @typedef {import("./node.js").Node} Node */

/**
 * What someone is called who has given no name.
 * @param {number} site
 */
export const calledOf = (site) => `Person ${site}`;

export class People {
  /** @param {Node} node */
  constructor(node) {
    this.node = node;
    /** @type {Seat[]} */
    this.seats = [];
    /** Nobody only watches so far. @type {{name: string, since: string}[]} */
    this.watchers = [];
  }

  /** Whether none of this machine's edits reaches anybody now. */
  get offline() {
    const { peers, connected } = this.node;
    return connected && peers.length > 0 && peers.every((peer) => peer.away);
  }

  /** How many own edits aren't known to be with all others. */
  get waiting() {
    return this.node.waiting;
  }

  /** Takes what is known now of each site. */
  update() {
    const { node } = this;
    const notes = new Map(node.who.map((note) => [note.site, note]));
    const peers = new Map(node.peers.map((peer) => [peer.site, peer]));
    // Of a session over a broker only those sites are seats that somebody has.
    const all = Array.from({ length: node.sites }, (_, index) => index + 1);
    const seated = node.carried ? new Set([node.site, ...node.carried.seats.map((each) => each.site)]) : new Set(all);
    this.seats = all.filter((site) => seated.has(site)).map((site) => {
      const me = site === node.site;
      const peer = peers.get(site);
      const focus = notes.get(site)?.focus;
      const isAway = !me && Boolean(peer?.away);
      const looksAt = node.selections.get(site) ?? (focus ? [focus] : []);
      return {
        site, me,
        name: peer?.name ?? notes.get(site)?.name ?? node.names[String(site)] ?? calledOf(site),
        here: me || (!isAway && (peer === undefined || peer.heard !== null)),
        away: isAway ? "away" : null,
        selection: new Set(me || isAway ? [] : looksAt),
      };
    });
  }

  /** @returns {Seat | undefined} */
  get me() {
    return this.seats.find((seat) => seat.me);
  }

  others() {
    return this.seats.filter((seat) => !seat.me);
  }

  /**
   * What a site is called: `You`, its name, or its number.
   * @param {number} site
   */
  name(site) {
    const seat = this.seats.find((each) => each.site === site);
    return seat?.me ? "You" : seat?.name ?? calledOf(site);
  }
}

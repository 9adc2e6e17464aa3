// The connection to the bridge: one WebSocket, which is opened again where it was lost, sooner at first.

const FIRST_WAIT = 250;
const LONGEST_WAIT = 5000;
/** The bridge closes the socket with one of these codes when it ends, and where another page has the seat. */
const BRIDGE_ENDED = 4001;
const SEAT_TAKEN = 4002;

/** @typedef {"open" | "message" | "lost"} What */
/** @typedef {{hear: (what: What, message: any) => void}} Ear */

export class Wire {
  /**
   * @param {string} path relative to the address of the page
   * @param {Ear} ear
   */
  constructor(path, ear) {
    this.address = new URL(path, location.href);
    this.address.protocol = this.address.protocol.replace("http", "ws");
    this.ear = ear;
    this.wait = FIRST_WAIT;
    this.isOpen = false;
    /** Why it isn't open, where that is known: the bridge has ended, another one answers at its address, or another page has the seat. */
    this.why = /** @type {"ended" | "replaced" | "taken" | null} */ (null);
    this.timer = 0;
    addEventListener("online", () => this.again());
  }

  open() {
    const socket = new WebSocket(this.address);
    this.socket = socket;
    socket.addEventListener("message", ({ data }) => {
      if (socket !== this.socket) return;
      if (!this.isOpen) this.opened();
      this.ear.hear("message", JSON.parse(data));
    });
    socket.addEventListener("close", ({ code }) => {
      if (socket === this.socket) this.lost(code);
    });
  }

  /** The bridge said something: one whose seat another page has only closes the socket. */
  opened() {
    this.isOpen = true;
    this.why = null;
    this.wait = FIRST_WAIT;
    this.ear.hear("open", null);
  }

  /** @param {number} code */
  lost(code) {
    const was = this.isOpen;
    this.isOpen = false;
    if (code === BRIDGE_ENDED) this.why = "ended";
    if (code === SEAT_TAKEN) this.why = "taken";
    if (was) this.ear.hear("lost", null);
    this.timer = setTimeout(() => this.look(), this.wait);
    this.wait = Math.min(LONGEST_WAIT, this.wait * 2);
  }

  /** Looks whether this page's own bridge is there, and opens a new socket unless another one answers. */
  async look() {
    try {
      const answer = await fetch("", { method: "HEAD", cache: "no-store" });
      if (answer.status === 403) this.why = "replaced";
    } catch {
      // Nobody answers: the next try may find somebody.
    }
    this.ear.hear("lost", null);
    if (this.why === "replaced") return;
    this.open();
  }

  /** Tries at once, and not when the wait is over. */
  again() {
    if (this.isOpen || this.why === "replaced" || this.socket?.readyState === WebSocket.CONNECTING) return;
    clearTimeout(this.timer);
    this.wait = FIRST_WAIT;
    this.open();
  }

  /**
   * Sends a message. Says whether there was a connection that takes it.
   * @param {object} message
   */
  send(message) {
    if (!this.isOpen) return false;
    this.socket.send(JSON.stringify(message));
    return true;
  }
}

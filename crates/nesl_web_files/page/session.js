/** The session over one WebSocket: lines go out one after the other, and each is answered by one reply. */
import * as server from "./lasting.js";

/** With it a server sends a hint after an answer that is an error. */
const HINTS = "pazkindu.hints";
const BUSY_TRIES = 5;
const BUSY_WAIT = 300;

/** The user is in the address for whatever routes connections by it; the first line has to name the same one. */
const address = (user) => `${location.protocol.replace("http", "ws")}//${location.host}/session?user=${user}`;
const after = (milliseconds) => new Promise((done) => setTimeout(done, milliseconds));

class Session extends EventTarget {
  constructor() {
    super();
    this.user = "";
    this.socket = null;
    /** Whether hints are asked for: a browser gives up where a server doesn't know what it is asked for. */
    this.hints = server.HINTS ?? false;
    /** The line that was answered last. */
    this.line = "";
    this.turn = Promise.resolve();
  }

  get seated() {
    return this.socket !== null;
  }

  /** Connects as a user with this key, if there is one; gives "" once seated, else "user", "busy" or "unreachable". */
  async connect(user, key) {
    const fault = await this.open(user, key, this.hints ? [HINTS] : []);
    if (fault !== "unopened" || !this.hints) return fault === "unopened" ? "unreachable" : fault;
    this.hints = false;
    return this.connect(user, key);
  }

  open(user, key, protocols) {
    this.end();
    this.opening?.close();
    return new Promise((settle) => {
      const socket = new WebSocket(address(encodeURIComponent(user)), protocols);
      this.opening = socket;
      let ended = "unopened";
      socket.onopen = () => {
        ended = "unreachable";
        socket.send(key ? `user ${user} ${key}` : `user ${user}`);
      };
      socket.onclose = () => settle(ended);
      socket.onmessage = ({ data }) => {
        if (data !== `user ${user}`) return settle(data.replace("fault ", ""));
        this.seat(socket, user);
        return settle("");
      };
    });
  }

  /** Connects again: a connection of this tab that has just ended may still have the seat for a moment. */
  async connectAgain(user, key) {
    for (let tries = 1; ; tries += 1) {
      const fault = await this.connect(user, key);
      if (fault !== "busy" || tries === BUSY_TRIES) return fault;
      await after(BUSY_WAIT);
    }
  }

  seat(socket, user) {
    this.socket = socket;
    this.user = user;
    socket.onclose = ({ wasClean }) => {
      if (this.socket !== socket) return;
      this.socket = null;
      this.answered?.(null);
      this.dispatchEvent(new CustomEvent("lost", { detail: wasClean }));
    };
    socket.onmessage = ({ data }) => (data[0] === "{" ? this.hint(data) : this.answered?.(data));
  }

  /** A hint on the line that was answered last: no reply begins with a brace. */
  hint(data) {
    try {
      this.dispatchEvent(new CustomEvent("hint", { detail: { line: this.line, ...JSON.parse(data) } }));
    } catch {
      // It is no hint.
    }
  }

  /** Ends the connection; the session itself stays with the server. */
  end() {
    const socket = this.socket;
    this.socket = null;
    this.answered?.(null);
    socket?.close();
  }

  /** One line and its reply; null where the connection ends before the reply. */
  async exchange(line) {
    if (!this.seated) return null;
    const reply = await new Promise((settle) => {
      this.answered = settle;
      this.socket.send(line);
    });
    this.answered = null;
    if (reply === null) return null;
    this.line = line;
    this.dispatchEvent(new CustomEvent("told", { detail: { line, reply } }));
    return reply;
  }

  /** Sends a line after those that wait, and gives its reply. */
  ask(line) {
    return this.inTurn(() => this.exchange(line));
  }

  inTurn(act) {
    const done = this.turn.then(act);
    this.turn = done.catch(() => {});
    return done;
  }
}

export const session = new Session();

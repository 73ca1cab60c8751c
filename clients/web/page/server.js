/** What is sent to the server: by requests of their own, or by a WebSocket that stays open. */

const token = new URLSearchParams(location.hash.slice(1)).get("token") ?? "";

/** What the server doesn't do, and its status over HTTP. */
export class Denied extends Error {
  constructor(why, status) {
    super(why);
    this.status = status;
  }
}

/** Sends a body to the server by its token. */
export async function post(path, body, more = {}) {
  const response = await fetch(path, { method: "POST", headers: { "X-Chart-Token": token }, body, ...more });
  if (!response.ok) {
    const told = await response.json().catch(() => ({ error: `the server answers ${response.status}` }));
    throw new Denied(told.error, response.status);
  }
  return response;
}

async function* piecesOf(reader) {
  for (let piece = await reader.read(); !piece.done; piece = await reader.read()) {
    yield piece.value;
  }
}

/** Sends request lines by a request of their own; gives how many frames their session had been pushed, and the pieces of their frames. */
export async function request(body, signal) {
  const response = await post("request", body, { signal });
  return { pushed: Number(response.headers.get("X-Chart-Pushed") ?? 0), pieces: piecesOf(response.body.getReader()) };
}

/**
 * A WebSocket by which requests go one behind the other, where the server has one: an answer is there some milliseconds sooner. It is a text
 * in JSON, then pieces of frames, and an empty text. While the socket isn't open, and once it is over, requests go without it.
 */
export class ServerSocket {
  constructor() {
    const address = new URL("socket", location.href);
    [address.protocol, address.search, address.hash] = [address.protocol.replace("http", "ws"), "", ""];
    [this.came, this.isOver, this.tell] = [[], false, () => {}];
    this.socket = new WebSocket(address, ["chart", token]);
    this.socket.binaryType = "arraybuffer";
    this.socket.onmessage = ({ data }) => {
      this.came.push(data);
      this.tell();
    };
    this.socket.onclose = () => this.end();
  }

  isOpen() {
    return !this.isOver && this.socket.readyState === WebSocket.OPEN;
  }

  /** Sends request lines; gives what `request` does. */
  async ask(body) {
    this.socket.send(body);
    const { pushed, error, status } = JSON.parse(await this.next());
    if (error) {
      throw new Denied(error, status);
    }
    return { pushed, pieces: this.pieces() };
  }

  async *pieces() {
    for (let data = await this.next(); typeof data !== "string"; data = await this.next()) {
      yield new Uint8Array(data);
    }
  }

  /** The next message. */
  async next() {
    while (this.came.length === 0) {
      if (this.isOver) {
        throw new Denied("the socket to the server was cut", 0);
      }
      await new Promise((done) => {
        this.tell = done;
      });
    }
    return this.came.shift();
  }

  /** Nothing more comes of it, neither what has come. */
  end() {
    [this.isOver, this.came] = [true, []];
    this.socket.close();
    this.tell();
  }
}

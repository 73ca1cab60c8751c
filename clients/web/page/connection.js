/** One session of the program, and the client that draws its frames. Requests go one behind the other. */
import { numberOf } from "../refusals.js";
import { coverOf, newClient, warm } from "./clients.js";
import { Denied, ServerSocket, post, request } from "./server.js";

const CACHE = 131072;
const MOST_BYTES = 4194304; // of a frame, about
const PATIENCE = 150; // milliseconds until an answer that comes in is shown by its cover
const BETWEEN_COVERS = 100; // and from one cover to the next
const [UNKNOWN_SESSION, SESSION_OPEN] = ["UnknownSession", "SessionOpen"].map(numberOf);
export const TOO_MANY_SESSIONS = numberOf("TooManySessions");
export const BAD_FILTER = numberOf("BadFilter");

/** A request that the program refused: `frame` has its number, its name and its numbers. */
export class Refused extends Error {
  constructor(frame) {
    super(frame.meaning);
    this.frame = frame;
  }
}

/** The size of the frame that bytes begin with, its length too; without end where that isn't whole. */
const sizeOf = (bytes) => (bytes.length < 4 ? Infinity : 4 + new DataView(bytes.buffer, bytes.byteOffset).getUint32(0));

/** The frames of a stream, of which the last one may not be whole yet. */
class Frames {
  constructor() {
    [this.bytes, this.taken, this.behind, this.since, this.looked] = [new Uint8Array(0), 0, 0, null, 0];
  }

  add(piece) {
    const rest = this.rest();
    this.since ??= performance.now();
    if (rest.length === 0) {
      [this.bytes, this.taken, this.behind] = [piece, 0, piece.length];
      return;
    }
    if (this.behind + piece.length > this.bytes.length) {
      // Room for the whole frame, so that each of its pieces is put there once.
      this.bytes = new Uint8Array(Math.max(rest.length + piece.length, Math.min(sizeOf(rest), MOST_BYTES)));
      this.bytes.set(rest);
      [this.taken, this.behind] = [0, rest.length];
    }
    this.bytes.set(piece, this.behind);
    this.behind += piece.length;
  }

  /** The bytes of the next whole frame, or null. */
  next() {
    const rest = this.rest();
    const size = sizeOf(rest);
    if (rest.length < size) {
      return null;
    }
    this.taken += size;
    this.since = this.taken < this.behind ? performance.now() : null;
    return rest.subarray(0, size);
  }

  /** What came of the frame that isn't whole. */
  rest() {
    return this.bytes.subarray(this.taken, this.behind);
  }

  /** Whether a frame has been coming in for so long that its cover is worth a look, which counts then. */
  isSlow() {
    const now = performance.now();
    const is = this.since !== null && now - this.since > PATIENCE && now - this.looked > BETWEEN_COVERS;
    this.looked = is ? now : this.looked;
    return is;
  }
}

/**
 * Whether a frame answers a line. A server that opens a session of the program for a view, and closes it behind, sends the frames that tell
 * this too, since the client draws by them.
 */
const isAnswer = ({ kind }, line) => !["opened", "closed"].includes(kind) || /^(open|close) /.test(line);

export class Connection {
  constructor(said) {
    this.said = said; // is told in words which client draws
    this.turn = null; // ends with the requests that are under way
    this.cut = new AbortController(); // of what is under way
    this.number = 0; // of the session; 0 while none is open
    this.pushes = 0; // how many frames the session was pushed
    this.follows = false; // whether it is pushed what changes of the view that it was answered last
    this.bytes = 0; // of all frames so far
    this.last = 0; // of the last answer
    this.socket = null; // by which requests go while it is open
  }

  /** Begins a session of a number that no other page uses, with a new client. */
  async begin() {
    this.close();
    this.cut.abort();
    [this.cut, this.turn, this.pushes, this.follows] = [new AbortController(), null, 0, false];
    this.drawn = await newClient();
    this.said(this.drawn);
    while (this.number === 0) {
      const number = 1 + Math.floor(Math.random() * (2 ** 32 - 1));
      const [answer] = await this.ask([`open ${number} ${CACHE}`]);
      if (!answer.refused) {
        [this.number, this.opened] = [number, answer.bytes];
      } else if (answer.refused.frame.number !== SESSION_OPEN) {
        throw answer.refused;
      }
    }
  }

  /**
   * Sends lines, at once where no others are under way, and gives an answer for each: its bytes, its frame and picture, or why it was
   * refused. Each is handed to `took` as it comes, with its place in the list; and while one comes slowly, `covered` gets its covers.
   */
  ask(lines, took = () => {}, covered = null) {
    return new Promise((enough, fail) => {
      const send = () => this.answers(lines, took, covered, enough).catch(fail);
      const turn = (this.turn ? this.turn.then(send) : send()).then(() => {
        this.turn = this.turn === turn ? null : this.turn;
      });
      this.turn = turn;
    });
  }

  /** Opens a socket for the requests of this session, where the browser lets it. */
  openSocket() {
    this.socket?.end();
    try {
      this.socket = new ServerSocket();
    } catch {
      this.socket = null;
    }
  }

  /** Sends the words of views behind the session's number. */
  view(words, took, covered) {
    return this.ask(
      words.map((word) => `view ${this.number} ${word}`),
      took,
      covered,
    );
  }

  /** Sends lines, and reads all that comes of them; the answers are handed to `enough` as soon as there is one for each. */
  async answers(lines, took, covered, enough) {
    const { drawn } = this;
    try {
      const answers = await this.read(lines, took, covered, enough);
      if (answers.length < lines.length) {
        throw new Denied("the answer was broken off", 0);
      }
    } catch (error) {
      // Unless it was refused as it stands, a frame was lost, and with it what the next ones stand on.
      if (drawn === this.drawn && !(error instanceof Denied && [400, 403].includes(error.status))) {
        this.close();
      }
      throw error;
    }
  }

  async read(lines, took, covered, enough) {
    const [asked, answers, frames, { drawn }] = [performance.now(), [], new Frames(), this];
    const { signal } = this.cut;
    this.follows &&= !lines.some((line) => line.startsWith("view "));
    const body = lines.join("\n");
    const { pushed, pieces } = await (this.socket?.isOpen() ? this.socket.ask(body) : request(body, signal));
    await this.haveCome(pushed, signal);
    this.last = 0;
    for await (const piece of pieces) {
      this.last += piece.length;
      this.bytes += piece.length;
      frames.add(piece);
      for (let bytes = frames.next(); bytes; bytes = frames.next()) {
        performance.measure("chart: answer", { start: asked });
        const answer = this.take(bytes, drawn.client);
        if (isAnswer(answer.frame, lines[answers.length])) {
          answers.push(answer);
          took(answers.length - 1, answer);
        }
        if (answers.length === lines.length) {
          enough(answers);
        }
      }
      if (covered && frames.isSlow()) {
        covered(answers.length, coverOf(drawn, frames.rest()));
      }
    }
    return answers;
  }

  /** Waits until so many frames were pushed, since those that follow may stand on them. */
  async haveCome(pushes, signal) {
    while (this.pushes < pushes) {
      signal.throwIfAborted();
      await new Promise((done) => {
        this.onPush = done;
        signal.addEventListener("abort", done, { once: true });
      });
    }
  }

  /** Has the session follow the view that it was answered last, unless that is too large. */
  async follow() {
    const [{ refused }] = await this.ask([`follow ${this.number}`]);
    this.follows = !refused;
  }

  /** Takes a frame that was pushed, as a text in base 64; gives what it tells, null where the session was let go. */
  push(text) {
    if (!this.drawn) {
      return null;
    }
    const bytes = Uint8Array.from(atob(text), (one) => one.charCodeAt(0));
    [this.last, this.bytes, this.pushes] = [bytes.length, this.bytes + bytes.length, this.pushes + 1];
    try {
      return this.take(bytes, this.drawn.client);
    } catch (error) {
      this.close();
      throw error;
    } finally {
      this.onPush?.();
    }
  }

  /** What one frame tells. */
  take(bytes, client) {
    const start = performance.now();
    const [{ frame, picture }] = client.push(bytes);
    performance.measure("chart: picture", { start });
    if (frame.kind !== "refused") {
      if (frame.kind === "view" && this.drawn) {
        warm(this.drawn, this.opened, bytes);
      }
      return { bytes, frame, picture };
    }
    if (frame.number === UNKNOWN_SESSION) {
      this.number = 0;
    }
    return { bytes, frame, picture, refused: new Refused(frame) };
  }

  /** Lets the session go. */
  close() {
    if (this.number) {
      post("request", `close ${this.number}`, { keepalive: true }).catch(() => {});
    }
    this.socket?.end();
    [this.number, this.drawn, this.socket] = [0, null, null];
  }
}

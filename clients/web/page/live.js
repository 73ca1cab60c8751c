/** The line to the server: it begins sessions, hands on what changed, and says how the line is and since when. */
import { TOO_MANY_SESSIONS } from "./connection.js";
import { part, tell } from "./dom.js";
import { readEvents } from "./events.js";
import { Denied } from "./server.js";

const [FIRST_WAIT, LONGEST_WAIT] = [500, 5000]; // milliseconds until the next try
const LASTED = 10000; // from which on a line stood well, so that the next try follows soon
const TURN = 30000; // until a page that gave way tries again by itself
const UNSEEN = 10000; // until a page that nobody sees lets its session and its connection go: a browser has six to a server
const LATE = 1000; // until a change that isn't drawn makes the page behind

const FULL =
  "Sixteen pages look at this store, as many as it takes at once. This one begins as soon as one of them goes or is idle for a minute.";

const later = (time) => new Promise((done) => setTimeout(done, time));
const isSeen = () => document.visibilityState === "visible";
const seen = async () => {
  while (!isSeen()) {
    await new Promise((done) => document.addEventListener("visibilitychange", done, { once: true }));
  }
};
const input = () => new Promise((done) => ["pointerdown", "keydown"].forEach((name) => addEventListener(name, done, { once: true })));

/** How the line is: `live`, `behind`, `cut`, `waiting`, `resting` or `ended`, in words and since when. */
export class Status {
  constructor() {
    this.state = null;
  }

  is(state, why = "") {
    if (state !== this.state) {
      Object.assign(this, { state, since: new Date() });
    }
    const names = { live: "Live", behind: "Behind", cut: "Cut off", waiting: "Waiting", resting: "Resting", ended: "Ended" };
    const clock = this.since.toTimeString().slice(0, 8);
    part("status").dataset.state = state;
    tell(part("status"), `${names[state]} since ${clock}`);
    tell(part("why"), why);
    part("why").hidden = why === "";
  }
}

/** What keeps the line up, for as long as the page is there. */
export class Line {
  constructor(page) {
    Object.assign(this, { page, status: new Status(), late: null, gaveWay: false, isOver: false, cut: new AbortController() });
    let timer = null;
    document.addEventListener("visibilitychange", () => {
      clearTimeout(timer);
      timer = isSeen() ? null : setTimeout(() => this.rest(), UNSEEN);
    });
  }

  /** Lets the session go, until the page is seen again. */
  rest() {
    this.page.connection.close();
    this.cut.abort();
    this.status.is("resting");
  }

  async keepUp() {
    for (let wait = FIRST_WAIT; !this.isOver; wait = Math.min(LONGEST_WAIT, 2 * wait)) {
      await seen();
      const begun = performance.now();
      try {
        await this.page.connection.begin();
        await this.page.catalog.load();
        if (this.page.catalog.hasSocket) {
          this.page.connection.openSocket();
        }
        this.status.is("live");
        this.page.draw();
        await this.listen();
      } catch (error) {
        this.fail(error);
      }
      this.forgetLate();
      this.page.alarms.age();
      if (!isSeen()) {
        continue;
      }
      if (performance.now() - begun > LASTED) {
        wait = FIRST_WAIT;
      }
      if (this.status.state === "live" || this.status.state === "behind") {
        this.status.is("cut", "The line to the server was cut. Trying again.");
      }
      await (this.gaveWay ? Promise.race([input(), later(TURN)]) : later(wait));
      this.gaveWay = false;
    }
  }

  fail(error) {
    if (!isSeen()) {
      this.status.is("resting");
    } else if (error.frame?.number === TOO_MANY_SESSIONS) {
      this.status.is("waiting", FULL);
    } else if (error instanceof Denied && error.status > 0) {
      this.status.is(error.status === 503 ? "ended" : "cut", `Nothing more is drawn: ${error.message}.`);
    } else {
      this.status.is("cut", "The server can't be reached. Trying again.");
    }
  }

  /** Hands on events until their stream ends. */
  async listen() {
    const alive = () => this.status.is(this.late === null ? "live" : this.status.state);
    this.cut = new AbortController();
    for await (const { name, value, behind } of readEvents(this.page.connection.number, alive, this.cut)) {
      if (name === "changed") {
        this.change(value);
      } else if (name === "pushed") {
        this.page.followed.show(value, behind);
      } else if (name === "alarms") {
        this.page.alarms.show(value);
      } else if (name === "ended") {
        this.status.is("ended", `Nothing more is drawn: ${value}.`);
      } else if (value) {
        this.gaveWay = true;
        this.status.is("waiting", "This page was idle, and gave its place to another one. A click brings it back.");
      }
    }
  }

  change(series) {
    this.page.catalog.change(series);
    this.late ??= setTimeout(() => this.status.is("behind"), LATE);
    this.page.drawChanged(series.map(({ name }) => name));
  }

  /** Says that all that changed is drawn. */
  caughtUp() {
    this.forgetLate();
    if (this.status.state === "behind") {
      this.status.is("live");
    }
  }

  forgetLate() {
    clearTimeout(this.late);
    this.late = null;
  }

  end() {
    this.isOver = true;
    this.page.connection.close();
  }
}

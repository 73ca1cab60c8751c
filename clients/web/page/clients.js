/**
 * Which client draws: the proved one, in the module chart_client.wasm, or where the browser has no WebAssembly or the module isn't there,
 * that of chart_client.js. And the covers of frames that are still on their way, which the proved client alone makes.
 */
import { Client, Stopped } from "../chart_client.js";
import { ProvedClient } from "../proved_client.js";

const [FRONT, ITEM, VIEW] = [88, 25, 5]; // of a View frame: the bytes before its coefficients, those of one, and its kind
const PAGE = 65536; // bytes by which a module's memory grows
const LONG = 32768; // bytes of a frame that keeps the module busy
const REST = 100; // milliseconds from a picture until a worker draws it again

let unproved = null; // why the page isn't drawn by the proved client

/** The module of the proved client; null where there is none. */
const compiled = (async () => {
  if (typeof WebAssembly === "undefined") {
    throw new Error("this browser has no WebAssembly");
  }
  const response = await fetch("chart_client.wasm");
  if (!response.ok) {
    throw new Error((await response.json()).error);
  }
  return WebAssembly.compile(await response.arrayBuffer());
})().catch((error) => {
  unproved = error.message;
  return null;
});

/** A client without sessions, the proved one where that runs, its module or null, and in words which it is. */
export async function newClient() {
  const module = await compiled;
  try {
    if (module) {
      return { client: new ProvedClient(module), module, words: "Drawn by the proved client, as a module for WebAssembly." };
    }
  } catch (error) {
    unproved = error.message;
  }
  return { client: new Client(), module: null, words: `Drawn by the client in JavaScript, which isn't proved: ${unproved}.` };
}

let isWarm = false;

/**
 * Has a worker draw a view a few times, by the frames of its session and of it: by that the browser finds out what of the module is worth
 * being compiled well, so that the page's next pictures don't take several times as long. Once for a page, and by no short frame.
 */
export function warm({ module }, opened, view) {
  if (!module || isWarm || view.length < LONG) {
    return;
  }
  isWarm = true;
  const frames = [opened.slice(), view.slice()];
  setTimeout(() => {
    const worker = new Worker(new URL("warm.js", import.meta.url), { type: "module" });
    worker.postMessage({ module, frames });
  }, REST);
}

/** Another proved client with the same memory, which may go its own way. */
function copyOf(client, module) {
  const calls = new WebAssembly.Instance(module, {}).exports;
  const more = client.calls.memory.buffer.byteLength - calls.memory.buffer.byteLength;
  if (more > 0) {
    calls.memory.grow(more / PAGE);
  }
  new Uint8Array(calls.memory.buffer).set(new Uint8Array(client.calls.memory.buffer));
  return Object.assign(Object.create(ProvedClient.prototype), client, { calls });
}

/**
 * What the first bytes of a View frame leave open: its cover after all coefficients but the last one that came, which tells how far the
 * frame is. Null where they are too few, or no view's. The client stays as it is.
 */
export function coverOf({ client, module }, bytes) {
  const count = Math.floor((bytes.length - FRONT) / ITEM);
  if (!module || bytes[4] !== VIEW || count < 1) {
    return null;
  }
  const front = bytes.slice(0, FRONT + ITEM * count);
  const numbers = new DataView(front.buffer);
  numbers.setUint32(0, FRONT - 4 + ITEM * count);
  numbers.setUint32(FRONT - 4, count);
  try {
    const copy = copyOf(client, module);
    copy.feed(front);
    const frame = copy.next();
    return { frame, picture: copy.cover(frame, count - 1), count: count - 1 };
  } catch (error) {
    if (error instanceof Stopped || error instanceof RangeError) {
      return null; // no room for a copy, or no frame that can be drawn, which the client itself will say
    }
    throw error;
  }
}

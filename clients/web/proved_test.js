// The proved client's module on a worked stream of docs/FORMATS.md, whole and in pieces, and where it fails.
// Run by `CHART_MODULE=FOLDER/chart_client.wasm node --test clients/web/proved_test.js`.
import assert from "node:assert";
import { execFileSync } from "node:child_process";
import { createHash } from "node:crypto";
import { existsSync, readFileSync, readdirSync } from "node:fs";
import { test } from "node:test";
import { fileURLToPath } from "node:url";
import { Client, Stopped } from "./chart_client.js";
import { ProvedClient } from "./proved_client.js";

const module = new WebAssembly.Module(readFileSync(process.env.CHART_MODULE));
const bytesOf = (hex) => Uint8Array.from(hex.replace(/\s/g, "").match(/../g), (byte) => parseInt(byte, 16));
const join = (...parts) => Uint8Array.from(parts.flatMap((part) => [...part]));

const OPENED = bytesOf("00000009 03 00000001 00010000");
const VIEW = bytesOf(`
  0000011C 05 00000001 0000 0004 0004 0000000000000000 0000000000000004 0000000000000002 0000000000000007
  0000000000000000 00000001 0000000000000004 01 0000000000000002 0000000000000007 00000008
  0000070000000000 01 0000000000000000 0000000000000000
  0000060000000000 01 0000000000000000 0000000000000000
  0000050000000000 01 0000000000000000 0000000000000000
  0000040000000000 01 0000000000000000 0000000000000000
  0000030000000000 01 0000000000000000 0000000000000000
  0000020000000000 03 0000000000000002 0000000000000005
  0000010000000000 03 FFFFFFFFFFFFFFFD FFFFFFFFFFFFFFFD
  0000010000000001 01 0000000000000000 0000000000000000`);
const OTHERS = [
  "00000009 01 0000000800000000", "00000012 02 14 0000000000000029 0000000000000028", "00000006 07 00000001 01", "00000006 07 00000001 00",
  "0000003D 06 00000001 0003 0002 FFFFFFFFFFFFFFFF 0000000000000005 0001 0001 0000000000000001 FFFFFFFFFFFFFFFE 0000000000000004 0000000000000002",
  "00000005 04 00000001",
].map(bytesOf);
const STREAM = join(OPENED, VIEW, ...OTHERS);

/** What a client makes of a stream in pieces of this size. */
function drawn(client, stream, size) {
  const found = [];
  for (let at = 0; at < stream.length; at += size) {
    for (const { frame, picture } of client.push(stream.subarray(at, at + size))) {
      const colours = picture && new Uint32Array(picture.w * picture.h);
      picture?.colour(colours, 7, 3);
      found.push({ frame, pbm: picture && [...picture.toPbm()], colours: colours && [...colours], isBlank: picture?.isBlank() });
    }
  }
  client.end();
  return found;
}

const SHARED = {
  done: ["slots"], refused: ["number", "a", "b", "name", "meaning"], opened: ["session", "cache"], closed: ["session"], live: ["session", "on"],
  catalog: ["total", "used"], values: ["series", "next"], swept: ["clears", "used", "more"],
  view: ["session", "series", "w", "h", "t0", "t1", "lo", "hi", "start", "step", "slots"], rows: ["session", "w", "h", "lo", "hi"],
}; // prettier-ignore
const told = (found) => found.map(({ frame, ...rest }) => [frame.kind, SHARED[frame.kind].map((name) => frame[name]), rest]);

for (const size of [1, 7, 100, STREAM.length]) {
  test(`frames and pictures are those of the client in JavaScript, in pieces of ${size} bytes`, () => {
    const found = told(drawn(new ProvedClient(module), STREAM, size));
    assert.deepStrictEqual(found, told(drawn(new Client(), STREAM, size)));
    assert.strictEqual(found.length, 8);
    assert.deepStrictEqual(found[1][2].pbm.slice(-4), [0x40, 0x40, 0xa0, 0x20]);
  });
}

test("covers come before the picture", () => {
  const client = new ProvedClient(module);
  client.feed(join(OPENED, VIEW));
  client.draw(client.next());
  const view = client.next();
  assert.strictEqual(view.count, 8);
  const covers = [0, 7, 8, 9].map((count) => Buffer.from(client.cover(view, count).toPbm().slice(-4)).toString("hex"));
  assert.deepStrictEqual(covers, ["f0f0f0f0", "f0f0f070", "e0e0e060", "e0e0e060"]);
  assert.deepStrictEqual(client.next(), view);
  assert.deepStrictEqual([...client.draw(view).toPbm().slice(-4)], [0x40, 0x40, 0xa0, 0x20]);
});

test("the values of columns", () => {
  const wide = OTHERS[4].slice();
  wide.set(bytesOf("F21F494C589C0000 0DE0B6B3A7640000"), 41); // the least and the greatest are 10^18 in size
  const pictures = [...new ProvedClient(module).push(join(OPENED, VIEW, OTHERS[4], wide))].flatMap(({ picture }) => picture ?? []);
  const values = pictures.map((picture) => Array.from({ length: picture.w + 2 }, (_, x) => picture.column(x - 1)));
  const alone = (value) => ({ least: value, greatest: value });
  assert.deepStrictEqual(values, [
    [null, alone(4), alone(7), alone(2), null, null],
    [null, null, { least: -2, greatest: 4 }, null, null],
    [null, null, { least: -(10n ** 18n), greatest: 10n ** 18n }, null, null],
  ]);
});

const ROOT = fileURLToPath(new URL("../..", import.meta.url));
const GOLDEN = `${ROOT}golden/draw/`;

/** The input of a run of golden/draw; some are computed. */
function inputOf(name) {
  const path = `${GOLDEN}${name}/stdin`;
  if (existsSync(`${path}.py`)) {
    const env = { ...process.env, PYTHONPATH: `${ROOT}scripts/lib`, PYTHONDONTWRITEBYTECODE: "1" };
    return execFileSync("python3", [`${path}.py`], { env, maxBuffer: 2 ** 28 });
  }
  return existsSync(path) ? readFileSync(path) : new Uint8Array(0);
}

/** Of a client's pictures the colours, by a digest, and the values of each column and of one on each side; and whether the client stops. */
function shownOf(client, stream) {
  const found = [];
  try {
    for (const { picture } of client.push(stream)) {
      if (picture) {
        const colours = new Uint32Array(picture.w * picture.h).fill(5);
        picture.colour(colours, 7, 3);
        const columns = Array.from({ length: picture.w + 2 }, (_, x) => picture.column(x - 1));
        found.push({ columns, colours: createHash("sha256").update(colours).digest("hex") });
      }
    }
    client.end();
    return { found, stops: false };
  } catch (error) {
    assert.ok(error instanceof Stopped, error);
    return { found, stops: true };
  }
}

test("colours and the values of columns are those of the client in JavaScript, over the runs of golden/draw", () => {
  let filled = 0;
  for (const name of readdirSync(GOLDEN)) {
    const stream = inputOf(name);
    const told = shownOf(new ProvedClient(module), stream);
    assert.deepStrictEqual(told, shownOf(new Client(), stream), name);
    filled += told.found.flatMap(({ columns }) => columns).filter((span) => span !== null).length;
  }
  assert.ok(filled > 0, "no column has a value");
});

test("covers have no values of columns, and leave those of the picture drawn last", () => {
  const client = new ProvedClient(module);
  const picture = [...client.push(join(OPENED, VIEW))][1].picture;
  client.feed(VIEW);
  assert.strictEqual(client.cover(client.next(), 8).column(1), null);
  assert.deepStrictEqual(picture.column(1), { least: 7, greatest: 7 });
  const { code, lo, hi } = client.ask("chart_column", 1);
  assert.deepStrictEqual([code, lo, hi], [1, 7, 7]);
});

const stops = (stream, message) => assert.throws(() => drawn(new ProvedClient(module), stream, 50), new Stopped(message));

test("what can't be drawn", () => {
  const bad = join(OPENED, VIEW);
  bad[13 + 104] = 1;
  stops(bad, "the field at byte 110 breaks its rule");
  stops(VIEW, "session 1 isn't open");
  stops(join(OPENED, VIEW).subarray(0, 100), "the stream ends within a frame, 87 bytes behind its first");
  const view = VIEW.slice(0, VIEW.length - 25);
  view.set([0, 0, 1, 3], 0);
  view[87] = 7;
  stops(join(OPENED, view), "the coefficient of level 1, index 1 is missing");
});

test("a module that traps or runs out of memory is given up, and another one draws", () => {
  const trapped = new ProvedClient(module);
  trapped.bytes(trapped.handle, 8).fill(0xff);
  assert.throws(() => [...trapped.push(OPENED)], /^Error: the client's module fails: /);
  const full = new ProvedClient(module);
  for (let size = 2 ** 30; size >= 16; size /= 2) {
    while (full.calls.host_alloc(BigInt(size)) !== 0n);
  }
  assert.throws(() => [...full.push(new Uint8Array(2 ** 20))], new Stopped("out of memory"));
  assert.strictEqual(drawn(new ProvedClient(module), STREAM, 1000).length, 8);
});

test("a client that is closed says so, and gives back all that it took", () => {
  const client = new ProvedClient(module);
  const round = () => {
    assert.strictEqual([...client.push(STREAM)].length, 8);
    client.close();
    client.call("chart_open");
  };
  for (let turn = 0; turn < 10; turn += 1) {
    round();
  }
  // No stream takes a block of this size, so the heap's end tells what is taken there: of two one behind the other all in between.
  const size = 2 ** 22;
  const block = () => Number(client.calls.host_alloc(BigInt(size - 16)));
  const [before, next] = [block(), block()];
  assert.strictEqual(next - before, size);
  for (let turn = 0; turn < 1000; turn += 1) {
    round();
  }
  assert.strictEqual(block() - next, size);
  client.close();
  assert.throws(() => client.next(), new Stopped("the client is closed"));
});

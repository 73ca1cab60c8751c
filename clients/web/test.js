// The client in JavaScript on the worked streams of docs/FORMATS.md, whole and in pieces. Run by `node --test clients/web/test.js`.
import assert from "node:assert";
import { test } from "node:test";
import { Client, Picture, Stopped } from "./chart_client.js";

const bytesOf = (hex) => Uint8Array.from(hex.replace(/\s/g, "").match(/../g), (byte) => parseInt(byte, 16));
const join = (...parts) => Uint8Array.from(parts.flatMap((part) => [...part]));

const OPENED = bytesOf("00000009 03 00000001 00010000");
const VIEW = bytesOf(`
  0000011C 05 00000001 0000 0004 0004 0000000000000000 0000000000000004 0000000000000002 0000000000000007
  0000000000000000 00000001 0000000000000004 01 0000000000000002 0000000000000007 00000008
  0000070000000000 01 0000000000000000 0000000000000000
  0000060000000000 01 0000000000000000 0000000000000000
  0000050000000000 01 0000000000000000 0000000000000000
  0000040000000000 01 0000000000000000 0000000000000000
  0000030000000000 01 0000000000000000 0000000000000000
  0000020000000000 03 0000000000000002 0000000000000005
  0000010000000000 03 FFFFFFFFFFFFFFFD FFFFFFFFFFFFFFFD
  0000010000000001 01 0000000000000000 0000000000000000`);
const STREAM = join(bytesOf("00000009 01 0000000000000000"), bytesOf("00000009 01 0000000000000004"), OPENED, VIEW);

/** What a client makes of a stream in pieces of this size: the kinds of its frames, and its pictures as text, rows from the top. */
function drawn(stream, size) {
  const client = new Client();
  const kinds = [];
  const pictures = [];
  for (let at = 0; at < stream.length; at += size) {
    for (const { frame, picture } of client.push(stream.subarray(at, at + size))) {
      kinds.push(frame.kind);
      if (picture) {
        const rows = Array.from({ length: picture.h }, (_, y) => picture.pixels.subarray(y * picture.w, (y + 1) * picture.w));
        pictures.push(rows.map((row) => Array.from(row, (pixel) => ".#"[pixel]).join("")).join(" "));
      }
    }
  }
  client.end();
  return { kinds, pictures };
}

for (const size of [1, 2, 7, 100, STREAM.length]) {
  test(`the worked stream in pieces of ${size} bytes`, () => {
    // 4, 7 and 2 on four rows have the heights 1, 3 and 0.
    const { kinds, pictures } = drawn(STREAM, size);
    assert.deepStrictEqual(kinds, ["done", "done", "opened", "view"]);
    assert.deepStrictEqual(pictures, [".#.. .#.. #.#. ..#."]);
  });

  test(`a field that breaks its rule, in pieces of ${size} bytes`, () => {
    const stream = STREAM.slice();
    stream[143] = 1;
    assert.throws(() => drawn(stream, size), new Stopped("the frame at byte 39: the field at byte 136 breaks its rule"));
  });

  test(`a stream that is cut, in pieces of ${size} bytes`, () => {
    assert.throws(() => drawn(STREAM.subarray(0, 100), size), new Stopped("the frame at byte 39: the stream ends at byte 100"));
  });
}

test("a refusal's name, and what it means", () => {
  const refused = (hex) => new Client().push(bytesOf(hex))[Symbol.iterator]().next().value.frame;
  const frame = refused("00000012 02 14 0000000000000029 0000000000000028");
  const meaning = "the view needs more coefficients than the session's client keeps: 41 of 40";
  assert.deepStrictEqual(frame, { kind: "refused", number: 20, a: 41, b: 40, name: "ViewTooLarge", meaning });
  assert.strictEqual(refused("00000012 02 08 0000000000000000 0000000000000000").meaning, "no series has the name");
});

test("a coefficient that isn't there", () => {
  const view = VIEW.slice(0, VIEW.length - 25);
  view.set([0, 0, 1, 3], 0);
  view[87] = 7;
  assert.throws(() => drawn(join(OPENED, view), 1000), new Stopped("the frame at byte 13: the coefficient of level 1, index 1 is missing"));
});

/** The worked view where the client has all coefficients. */
function again() {
  const view = VIEW.slice(0, 4 + 84);
  view.set([0, 0, 0, 84], 0);
  view[87] = 0;
  return view;
}

test("a view again, of which nothing was sent, shows the same as long as the session is open", () => {
  const same = ".#.. .#.. #.#. ..#.";
  assert.deepStrictEqual(drawn(join(OPENED, VIEW, again(), again()), 1000).pictures, [same, same, same]);
  assert.throws(() => drawn(join(OPENED, VIEW, OPENED, again()), 1000), new Stopped("the frame at byte 314: the coefficient of level 7, index 0 is missing"));
});

test("a view again in another range is drawn anew", () => {
  // From -7 to 7 the values 4, 7 and 2 have the heights 2, 3 and 1; the steep segment has its middle pixel in column 2.
  const wider = again();
  wider.set(bytesOf("FFFFFFFFFFFFFFF9"), 4 + 27);
  assert.deepStrictEqual(drawn(join(OPENED, VIEW, wider), 1000).pictures[1], ".#.. #.#. ..#. ....");
});

test("a session that isn't open, and one that was closed", () => {
  assert.throws(() => drawn(VIEW, 1000), new Stopped("the frame at byte 0: session 1 isn't open"));
  const closed = bytesOf("00000005 04 00000001");
  assert.throws(() => drawn(join(OPENED, closed, VIEW), 1000), new Stopped("the frame at byte 22: session 1 isn't open"));
});

test("a push is drawn by what changed, where the session follows its view", () => {
  // 1 in the place of the 2: of what the view needs one coefficient changed.
  const live = bytesOf("00000006 07 00000001 01");
  const push = bytesOf(`
    0000006D 05 00000001 0000 0004 0004 0000000000000000 0000000000000004 0000000000000001 0000000000000007
    0000000000000000 00000001 0000000000000004 01 0000000000000001 0000000000000007 00000001
    0000020000000000 03 0000000000000003 0000000000000006`);
  const { kinds, pictures } = drawn(join(OPENED, VIEW, live, bytesOf("00000009 01 0000000000000004"), push), 7);
  assert.deepStrictEqual(kinds, ["opened", "view", "live", "done", "view"]);
  assert.deepStrictEqual(pictures, [".#.. .#.. #.#. ..#.", ".#.. .#.. #.#. ..#."]);
  assert.throws(() => drawn(live, 1000), new Stopped("the frame at byte 0: session 1 isn't open"));
  assert.throws(() => drawn(join(OPENED, bytesOf("00000006 07 00000001 02")), 1000), new Stopped("the frame at byte 13: the field at byte 22 breaks its rule"));
});

// 10 pages, 5 in use; series a with values from 2 to 7, and series b.c without slots.
const CATALOG = bytesOf(`
  00000097 08 0000000A 00000005 0002
  01 61000000000000000000000000000000000000000000000000000000000000 00
  0000000000000000 00000001 0000000000000004 01 0000000000000002 0000000000000007
  03 622E6300000000000000000000000000000000000000000000000000000000 02
  FFFFFFFFFFFFFFFB 0000003C 0000000000000000 00 0000000000000000 0000000000000000`);
// Of series 1 the slots 5, 6 and 9; from the time 40 on more are left.
const VALUES = bytesOf(`
  00000048 09 0001 01 0000000000000028 0002 0003
  0000000000000005 0000000000000002 0000000000000009 0000000000000001
  0000000000000004 FFFFFFFFFFFFFFFF 0000000000000007`);
const SWEPT = bytesOf("00000008 0A 0040 00000063 01");

test("reports have no picture and name no session", () => {
  const frames = [...new Client().push(join(CATALOG, VALUES, SWEPT))];
  const series = [
    { name: "a", scale: 0, start: 0, step: 1, slots: 4, span: { least: 2, greatest: 7 } },
    { name: "b.c", scale: 2, start: -5, step: 60, slots: 0, span: null },
  ];
  const runs = [{ first: 5, values: [4, -1] }, { first: 9, values: [7] }];
  assert.deepStrictEqual(frames, [
    { frame: { kind: "catalog", total: 10, used: 5, series }, picture: null },
    { frame: { kind: "values", series: 1, next: 40, runs }, picture: null },
    { frame: { kind: "swept", clears: 64, used: 99, more: true }, picture: null },
  ]);
});

test("reports between views change nothing", () => {
  const { kinds, pictures } = drawn(join(OPENED, VIEW, CATALOG, VALUES, SWEPT, VIEW), 7);
  assert.deepStrictEqual(kinds, ["opened", "view", "catalog", "values", "swept", "view"]);
  assert.deepStrictEqual(pictures, [".#.. .#.. #.#. ..#.", ".#.. .#.. #.#. ..#."]);
});

test("reports that break a rule", () => {
  const broken = (report, at, byte, offset) => {
    const bytes = report.slice();
    bytes[at] = byte;
    assert.throws(() => drawn(bytes, 7), new Stopped(`the frame at byte 0: the field at byte ${offset} breaks its rule`), `${byte} at ${at}`);
  };
  broken(CATALOG, 3, 0x96, 0);
  broken(CATALOG, 14, 3, 13);
  broken(CATALOG, 15, 0, 15);
  broken(CATALOG, 15, 2, 16);
  broken(CATALOG, 16, 0x2f, 16);
  broken(CATALOG, 20, 1, 16);
  broken(CATALOG, 47, 10, 47);
  broken(CATALOG, 138, 1, 138);
  broken(VALUES, 3, 0x20, 0);
  broken(VALUES, 3, 0x44, 0);
  broken(VALUES, 7, 0, 8);
  broken(VALUES, 17, 1, 18);
  broken(VALUES, 35, 3, 28);
  broken(VALUES, 35, 0, 28);
  broken(VALUES, 43, 7, 36);
  broken(VALUES, 51, 2, 44);
  broken(VALUES, 42, 0x10, 36);
  broken(SWEPT, 6, 65, 5);
  broken(SWEPT, 11, 2, 11);
});

test("a refusal to follow has the coefficients that the view may need, and those that the cache keeps", () => {
  const [{ frame }] = new Client().push(bytesOf("00000012 02 16 00000000000001C7 0000000000000064"));
  assert.deepStrictEqual([frame.number, frame.name, frame.a, frame.b], [22, "LiveTooLarge", 455, 100]);
});

test("a sum is refused by numbers of its own", () => {
  const read = (number) => [...new Client().push(bytesOf(`00000012 02 ${number} 0000000000000000 0000000000000000`))];
  assert.deepStrictEqual([...read("17"), ...read("18")].map(({ frame }) => frame.name), ["OtherGrid", "SumTooLarge"]);
  assert.throws(() => read("19"), new Stopped("the frame at byte 0: the field at byte 5 breaks its rule"));
});

test("a refusal has its number, its name and its numbers", () => {
  const [{ frame }] = new Client().push(bytesOf("00000012 02 14 0000000000000029 0000000000000028"));
  assert.deepStrictEqual([frame.number, frame.name, frame.a, frame.b], [20, "ViewTooLarge", 41, 40]);
});

test("a picture is the same in numbers and in BigInts", () => {
  const rows = [[0, 3, -1, 9, 4], [2, 5, 5, 5, 5], [9, -7000, -7000, 80, 2], [10, 1, 1, 1, 1]];
  const in_ = (of) => rows.map(([column, ...values]) => Object.fromEntries(["first", "least", "greatest", "last"].map((name, at) => [name, of(values[at])]).concat([["column", column]])));
  const pictures = [Number, BigInt].map((of) => new Picture(11, 23, -1, 9, in_(of), of).toPbm());
  assert.deepStrictEqual(pictures[0], pictures[1]);
  assert.ok(pictures[0].some((byte, at) => at > 9 && byte !== 0));
});

test("a picture tells the least and the greatest value of each column", () => {
  const client = new Client();
  const [, , , { picture }] = client.push(STREAM);
  assert.deepStrictEqual([0, 1, 2, 3, 4].map((x) => picture.column(x)), [
    { least: 4, greatest: 4 }, { least: 7, greatest: 7 }, { least: 2, greatest: 2 }, null, null,
  ]); // prettier-ignore
});

const LATEST = 2n * 10n ** 18n;
const number = (size, value) => Array.from({ length: size }, (_, at) => Number((BigInt.asUintN(64, BigInt(value)) >> BigInt(8 * (size - 1 - at))) & 255n));

/**
 * A view of 2^35 slots, of which the last but one alone has a value, on the four columns before the last slot. There is one
 * coefficient a level, which says that the value is in the right half, and on level 1 that it is in the left one.
 */
function longest(start, step, slots = 2 ** 35) {
  const last = BigInt(start) + (2n ** 35n - 1n) * BigInt(step);
  const end = last < LATEST ? last : LATEST;
  const window = [[8, end - 4n * BigInt(step)], [8, end], [8, 0], [8, 3]];
  const head = [[4, 1], [2, 0], [2, 4], [2, 4], ...window, [8, start], [4, step], [8, slots], [1, 1], [8, 2], [8, 2], [4, 35]];
  const coefs = Array.from({ length: 35 }, (_, at) => [[8, BigInt(35 - at) * 2n ** 40n + 2n ** BigInt(at) - 1n], [1, at < 34 ? 2 : 1], [8, 0], [8, 0]]);
  return Uint8Array.from([...number(4, 84 + 25 * 35), 5, ...[...head, ...coefs.flat()].flatMap((field) => number(...field))]);
}

test("a series of 2^35 slots, up to the latest time", () => {
  const shown = ".... ...# .... ....";
  assert.deepStrictEqual(drawn(join(OPENED, longest(0, 1)), 1000).pictures, [shown]);
  assert.deepStrictEqual(drawn(join(OPENED, longest(-5, 2 ** 24 + 1)), 1000).pictures, [shown]);
  const start = LATEST - (2n ** 35n - 1n) * 29103831n;
  assert.deepStrictEqual(drawn(join(OPENED, longest(start, 29103831)), 1000).pictures, [shown]);
  const refused = new Stopped("the frame at byte 13: the field at byte 72 breaks its rule");
  assert.throws(() => drawn(join(OPENED, longest(start + 1n, 29103831)), 1000), refused);
  assert.throws(() => drawn(join(OPENED, longest(0, 1, 2 ** 35 + 1)), 1000), refused);
});

test("an edit of a series of 2^35 slots", () => {
  const [{ frame }] = new Client().push(bytesOf("00000009 01 0000000800000000"));
  assert.strictEqual(frame.slots, 2 ** 35);
  assert.throws(() => drawn(bytesOf("00000009 01 0000000800000001"), 1000), new Stopped("the frame at byte 0: the field at byte 5 breaks its rule"));
});

// What the page's modules reckon: addresses, windows, ticks and values. Run by `node --test clients/web/page_test.js`.
import assert from "node:assert";
import { test } from "node:test";
import { refusalOf } from "./chart_client.js";
import { factorOf, readAddress, spellAddress } from "./page/address.js";
import { beginOf, summaryOf, wordsOf } from "./page/alarms.js";
import { curvesOf, titleOf } from "./page/curves.js";
import { floorOf, nextMultiple, roundNumbers, wholeNumber } from "./page/numbers.js";
import { guessUnit, spelled, timeOf, timeTicks } from "./page/times.js";
import { decimal, rangeOf, rescaled, rowOf, sharedRange, valueTicks, wholeOf } from "./page/values.js";
import { isFollowing, panned, timesOf, windowOf, zoomed } from "./page/windows.js";

const UTC = { unit: "seconds", zone: "utc" };
const secondsOf = (text) => BigInt(Date.parse(text) / 1000);
const textsOf = (ticks) => ticks.map(({ text }) => text);

test("an address is read as it was spelled", () => {
  const query = "?panel=sea+few&filter=v+%3E+10+and+not+t+%3D+5&range=-5..15.5&height=240&panel=wind&from=-60&to=2000000000000000000&last=3600&unit=seconds&zone=utc&grid=off";
  const asked = readAddress(query);
  assert.deepStrictEqual(asked.panels, [
    { names: ["sea", "few"], factors: null, filter: "v > 10 and not t = 5", range: "-5..15.5", height: 240 },
    { names: ["wind"], factors: null, filter: "", range: "", height: 0 },
  ]);
  assert.deepStrictEqual([asked.t0, asked.t1, asked.last, asked.grid], [-60n, 2n * 10n ** 18n, 3600n, "off"]);
  assert.strictEqual(spellAddress(asked), query);
  assert.strictEqual(spellAddress(readAddress("?panel=sea")), "?panel=sea");
});

test("an address keeps to its rules", () => {
  const asked = readAddress(`?filter=x&${"panel=a+b+c+d+e+a&".repeat(9)}panel=%3Cb%3E&from=5&to=5&last=0&unit=days&height=7`);
  assert.strictEqual(asked.panels.length, 8);
  assert.deepStrictEqual(asked.panels[7], { names: ["a", "b", "c", "d"], factors: null, filter: "", range: "", height: 0 });
  assert.deepStrictEqual([asked.t0, asked.t1, asked.last, asked.unit], [null, null, null, ""]);
  assert.strictEqual(readAddress("?panel=a&height=10").panels[0].height, 80);
  assert.strictEqual(readAddress("?panel=a&from=5").t0, null);
  assert.strictEqual(readAddress("?panel=a&filter=v%0Aset+a+0+5").panels[0].filter, "v set a 0 5");
});

test("an address names sums", () => {
  const query = "?sum=1+tide+-3+wind&range=-5..15.5&panel=tide&sum=-1000000000+tide+0+tide&height=240";
  const asked = readAddress(query);
  assert.deepStrictEqual(asked.panels[0], { names: ["tide", "wind"], factors: [1, -3], filter: "", range: "-5..15.5", height: 0 });
  assert.deepStrictEqual([asked.panels[1].factors, asked.panels[2].names, asked.panels[2].factors], [null, ["tide", "tide"], [-(10 ** 9), 0]]);
  assert.strictEqual(spellAddress(asked), query);
  for (const wrong of ["a b", "1 a b", "1 a 1", "1 a 1 b 1 c", "1000000001 a 1 b", "1.5 a 1 b", "1 a - b", "1 a 1 <b>", "1 a  1 b"]) {
    assert.deepStrictEqual(readAddress(`?${new URLSearchParams({ sum: wrong })}`).panels, [], wrong);
  }
  assert.strictEqual(readAddress("?sum=1+a+1+b&filter=v+%3E+0").panels[0].filter, "");
  assert.deepStrictEqual(["7", " -7 ", "−7", "-0", "", "1e3", "+7"].map(factorOf), [7, -7, -7, 0, null, null, null]);
});

test("a sum is asked in the decimals of the finer series", () => {
  const all = new Map([["a", { scale: 1 }], ["b", { scale: 3 }]]); // prettier-ignore
  const catalog = { hasSums: true, get: (name) => all.get(name), shown: (name) => name.toUpperCase() };
  const [sum] = curvesOf({ names: ["a", "b"], factors: [1, -2], filter: "" }, catalog);
  assert.deepStrictEqual([sum.label, sum.scale, sum.fault(catalog)], ["A − 2 B", 3, null]);
  const placed = [{ w: 10, h: 5 }, { t0: -4n, t1: 4n }];
  assert.strictEqual(sum.line(7, ...placed, null), "sum 7 a b 100 -2 10 5 -4 4 auto");
  assert.strictEqual(sum.line(7, ...placed, { lo: -1n, hi: 2n }), "sum 7 a b 100 -2 10 5 -4 4 -1..2");
  const [large] = curvesOf({ names: ["a", "b"], factors: [10 ** 9, 1], filter: "" }, catalog);
  assert.strictEqual(large.fault(catalog), "with 3 decimals a factor is more than 10^9");
  assert.strictEqual(sum.fault({ ...catalog, hasSums: false }), "this server answers no sums");
  const told = (number) => sum.told({ message: refusalOf(number, 0, 0).meaning, frame: { number } });
  assert.deepStrictEqual([8, 17, 23, 24].map(told), [
    "the two series aren't of one store",
    "the window is empty, or an end of it too far from 0",
    "the steps of the two series differ, or their starts by no multiple of the step",
    "a sum in the window is more than 10^18 in size",
  ]);
  const [series] = curvesOf({ names: ["a"], factors: null, filter: "v > 0" }, catalog);
  assert.strictEqual(series.line(7, ...placed, null), "view 7 a 10 5 -4 4 auto where v > 0");
  assert.deepStrictEqual([[-1, 1], [0, -5], [2, 3]].map((factors) => titleOf(["a", "b"], factors)), ["− a + b", "0 a − 5 b", "2 a + 3 b"]); // prettier-ignore
});

test("whole numbers", () => {
  assert.deepStrictEqual([floorOf(-7n, 2n), floorOf(7n, 2n), floorOf(-8n, 2n)], [-4n, 3n, -4n]);
  assert.deepStrictEqual([nextMultiple(-7n, 5n), nextMultiple(6n, 5n), nextMultiple(10n, 5n)], [-5n, 10n, 10n]);
  assert.deepStrictEqual(roundNumbers(-3n, 14n, 6), [0n, 5n, 10n]);
  assert.deepStrictEqual(roundNumbers(7n, 7n, 6), [7n]);
  assert.deepStrictEqual(["0", "-12", "01", "1.5", "", null].map(wholeNumber), [0n, -12n, null, null, null, null]);
});

test("values have the decimals of their series", () => {
  assert.deepStrictEqual([decimal(584, 1), decimal(-5, 2), decimal(0n, 2), decimal(7, 0)], ["58.4", "−0.05", "0.00", "7"]);
  assert.deepStrictEqual(["58.4", "-0.05", "58.45", "7", "-", "1.2.3"].map((text) => wholeOf(text, 1)), [584n, null, null, 70n, null, null]);
  assert.deepStrictEqual(rangeOf("-5..15.5", 1), { lo: -50n, hi: 155n });
  assert.deepStrictEqual(["5..-5", "5", "auto", "1..2..3"].map((text) => rangeOf(text, 1)), [null, null, null, null]);
  assert.deepStrictEqual(textsOf(valueTicks({ lo: 0n, hi: 2538n, scale: 1 }, 6)), ["0.0", "50.0", "100.0", "150.0", "200.0", "250.0"]);
});

test("series of several scales share a range that each has exactly", () => {
  const shared = sharedRange([{ lo: 3, hi: 8, scale: 1 }, { lo: 25, hi: 925, scale: 2 }], [1, 2]); // prettier-ignore
  assert.deepStrictEqual(shared, { lo: 20n, hi: 930n, scale: 2 });
  assert.deepStrictEqual([rescaled(shared, 1), rescaled(shared, 2)], [{ lo: 2n, hi: 93n, scale: 1 }, shared]);
  assert.deepStrictEqual(sharedRange([{ lo: -7, hi: -7, scale: 0 }], [0, 0]), { lo: -7n, hi: -7n, scale: 0 });
});

test("the row of a value is that of the picture", () => {
  assert.deepStrictEqual([4n, 7n, 2n].map((value) => rowOf(value, { lo: 2n, hi: 7n }, 4)), [1, 3, 0]);
  assert.strictEqual(rowOf(5n, { lo: 5n, hi: 5n }, 4), 0);
});

test("which unit times seem to have", () => {
  const guessed = (start, step, slots) => guessUnit({ start, step, slots });
  assert.strictEqual(guessed(0n, 1, 2820), "numbers");
  assert.strictEqual(guessed(1672531200n, 60, 10), "seconds");
  assert.strictEqual(guessed(-6974208000n, 2629746, 2820), "seconds");
  assert.strictEqual(guessed(1672531200000n, 1000, 10), "milliseconds");
  assert.strictEqual(guessed(10n ** 18n, 1, 10), "numbers");
});

test("times are spelled, and read again", () => {
  const time = secondsOf("2026-11-01T08:30:00Z");
  assert.strictEqual(spelled(time, UTC), "2026-11-01 08:30:00 UTC");
  for (const text of ["2026-11-01 08:30:00 UTC", "2026-11-01 08:30", "2026-11-01T08:30", String(time)]) {
    assert.strictEqual(timeOf(text, UTC), time, text);
  }
  assert.strictEqual(timeOf("2026-11-01", UTC), secondsOf("2026-11-01T00:00:00Z"));
  assert.strictEqual(spelled(5n, { unit: "milliseconds", zone: "utc" }), "1970-01-01 00:00:00.005 UTC");
  assert.deepStrictEqual([spelled(2n * 10n ** 18n, UTC), timeOf("1.11.2026", UTC), timeOf("2026-11-01", { unit: "numbers" })], ["2000000000000000000", null, null]);
  const here = { unit: "seconds", zone: "" };
  const summer = secondsOf("2026-06-15T12:34:56Z"); // no clock is put back then, so it is spelled like no other time
  assert.strictEqual(timeOf(spelled(summer, here), here), summer);
});

test("ticks stand at round times", () => {
  const ticks = (from, to, most = 8) => textsOf(timeTicks(secondsOf(from), secondsOf(to), most, UTC));
  assert.deepStrictEqual(ticks("2023-01-01T22:10:00Z", "2023-01-02T02:00:00Z", 4), ["23:00", "2 Jan", "01:00"]);
  assert.deepStrictEqual(ticks("2023-01-01T00:00:00Z", "2023-01-01T00:00:40Z"), ["2023", "00:00:10", "00:00:20", "00:00:30"]);
  assert.deepStrictEqual(ticks("2022-12-28T12:00:00Z", "2023-02-01T00:00:00Z", 8), ["2 Jan", "9 Jan", "16 Jan", "23 Jan", "30 Jan"]);
  assert.deepStrictEqual(ticks("2022-11-05T00:00:00Z", "2023-03-02T00:00:00Z", 6), ["Dec", "2023", "Feb", "Mar"]);
  assert.deepStrictEqual(ticks("1749-01-01T00:00:00Z", "1984-01-01T00:00:00Z", 6), ["1750", "1800", "1850", "1900", "1950"]);
  assert.deepStrictEqual(textsOf(timeTicks(-3n, 15n, 6, { unit: "numbers" })), ["0", "5", "10"]);
});

test("ticks of a zone with summer time stand at its own midnights", () => {
  const zone = process.env.TZ;
  process.env.TZ = "Europe/Berlin";
  try {
    const [t0, t1] = ["2026-03-27T23:00:00Z", "2026-03-30T22:00:00Z"].map(secondsOf);
    const ticks = timeTicks(t0, t1, 4, { unit: "seconds", zone: "" });
    assert.deepStrictEqual(textsOf(ticks), ["28 Mar", "29 Mar", "30 Mar"]);
    assert.deepStrictEqual(ticks.map(({ time }) => time), ["2026-03-27T23:00:00Z", "2026-03-28T23:00:00Z", "2026-03-29T22:00:00Z"].map(secondsOf));
  } finally {
    process.env.TZ = zone ?? "";
  }
});

test("windows move, and follow the end", () => {
  const sea = { start: 0n, step: 10, slots: 100 };
  assert.deepStrictEqual(windowOf({ t0: null, t1: null, last: null }, [sea], 100), { t0: 0n, t1: 1000n });
  assert.deepStrictEqual(windowOf({ t0: null, t1: null, last: 50n }, [sea], 100), { t0: 950n, t1: 1000n });
  assert.deepStrictEqual(windowOf({ t0: null, t1: null, last: 900n }, [{ ...sea, slots: 101 }], 100), { t0: 117n, t1: 1017n });
  assert.deepStrictEqual(windowOf({ t0: 5n, t1: 9n, last: 50n }, [sea], 100), { t0: 5n, t1: 9n });
  assert.strictEqual(windowOf({ t0: null, t1: null, last: null }, [], 100), null);
  assert.deepStrictEqual([isFollowing({ t0: null, last: 5n }), isFollowing({ t0: 1n, last: 5n })], [true, false]);
  assert.deepStrictEqual(zoomed({ t0: 0n, t1: 100n }, 0.5), { t0: 25n, t1: 75n });
  assert.deepStrictEqual(zoomed({ t0: 5n, t1: 6n }, 0.5), { t0: 5n, t1: 6n });
  assert.deepStrictEqual(panned({ t0: 0n, t1: 100n }, -0.25), { t0: -25n, t1: 75n });
  assert.deepStrictEqual(panned({ t0: 2n * 10n ** 18n - 4n, t1: 2n * 10n ** 18n }, 0.5).t1, 2n * 10n ** 18n);
});

test("the times of a column are those that the picture puts there", () => {
  const window = { t0: -3n, t1: 14n };
  for (let column = 0; column < 5; column += 1) {
    const { from, to } = timesOf(window, column, 5);
    for (let time = from; time < to; time += 1n) {
      assert.strictEqual(Number(floorOf((time - window.t0) * 5n, 17n)), column);
    }
  }
  assert.deepStrictEqual([timesOf(window, 0, 5).from, timesOf(window, 4, 5).to], [-3n, 14n]);
});

test("the frames of an answer wait for what was pushed before them", async () => {
  globalThis.location = { hash: "" };
  const done = [0, 0, 0, 9, 1, 0, 0, 0, 0, 0, 0, 0]; // the front of a Done frame, behind which the slots stand
  const sent = globalThis.fetch;
  const answers = [];
  globalThis.fetch = (path) => (path === "request" ? new Promise((answer) => answers.push(answer)) : Promise.reject(new Error("no such file")));
  try {
    const { Connection } = await import("./page/connection.js");
    const { Client } = await import("./chart_client.js");
    const connection = new Connection(() => {});
    connection.drawn = { client: new Client(), module: null };
    const seen = [];
    const asked = connection.ask(["x"], (_, { frame }) => seen.push(frame.slots));
    answers[0](new Response(new Uint8Array([...done, 2]), { headers: { "X-Chart-Pushed": "1" } }));
    await new Promise((later) => setTimeout(later, 20));
    assert.deepStrictEqual(seen, []);
    seen.push(connection.push(btoa(String.fromCharCode(...done, 1))).frame.slots);
    await asked;
    assert.deepStrictEqual(seen, [1, 2]);
  } finally {
    globalThis.fetch = sent;
    delete globalThis.location;
  }
});

test("requests go by the socket while it is open, and are posted where it isn't", async () => {
  const before = [globalThis.fetch, globalThis.WebSocket];
  const [sockets, posted, done] = [[], [], new Uint8Array([0, 0, 0, 9, 1, 0, 0, 0, 0, 0, 0, 0, 3])];
  globalThis.location = { hash: "", href: "http://127.0.0.1:7/?panel=a" };
  globalThis.WebSocket = class {
    static OPEN = 1;
    constructor(address, protocols) {
      Object.assign(this, { address: String(address), protocols, readyState: 0, sent: [] });
      sockets.push(this);
    }
    send(body) {
      this.sent.push(body);
    }
    close() {
      this.readyState = 3;
    }
  };
  globalThis.fetch = async (path, { body }) => {
    posted.push(body);
    return new Response(done);
  };
  try {
    const { Connection } = await import("./page/connection.js");
    const { Client } = await import("./chart_client.js");
    const connection = new Connection(() => {});
    connection.drawn = { client: new Client(), module: null };
    connection.openSocket();
    const [socket] = sockets;
    assert.deepStrictEqual([socket.address, socket.protocols[0]], ["ws://127.0.0.1:7/socket", "chart"]);
    await connection.ask(["first"]);
    socket.readyState = 1;
    const asked = connection.ask(["second", "third"]);
    ['{"pushed":0}', done.slice(0, 5).buffer, new Uint8Array([...done.slice(5), ...done]).buffer].forEach((data) => socket.onmessage({ data }));
    assert.deepStrictEqual((await asked).map(({ frame }) => frame.slots), [3, 3]);
    socket.onmessage({ data: "" });
    const denied = connection.ask(["fourth"]);
    await new Promise((later) => setTimeout(later));
    socket.onmessage({ data: '{"error":"no","status":403}' });
    await assert.rejects(denied, { message: "no", status: 403 });
    const cut = connection.ask(["fifth"]);
    await new Promise((later) => setTimeout(later));
    socket.onclose();
    await assert.rejects(cut, { status: 0 });
    assert.strictEqual(connection.drawn, null);
    connection.drawn = { client: new Client(), module: null };
    await connection.ask(["sixth"]);
    assert.deepStrictEqual([posted, socket.sent], [["first", "sixth"], ["second\nthird", "fourth", "fifth"]]);
  } finally {
    [globalThis.fetch, globalThis.WebSocket] = before;
    delete globalThis.location;
  }
});

test("alarms are told in words", () => {
  const told = (kind, limit, value) => wordsOf({ kind, limit, value });
  assert.strictEqual(told("over", "90", "91.25"), "above 90, 91.25");
  assert.strictEqual(told("under", "-5", "-7.0"), "below -5, -7.0");
  assert.strictEqual(told("rate", "3 within 1min", "4.5"), "changed by more than 3 within 1min, 4.5");
  assert.strictEqual(told("stale", "5min", null), "no value for longer than 5min");
  assert.strictEqual(beginOf({ begun: "2026-11-01T08:30:00.250Z" }, "utc"), "2026-11-01 08:30:00 UTC");
  assert.deepStrictEqual([1, 2].map(summaryOf), ["1 alarm stands", "2 alarms stand"]);
});

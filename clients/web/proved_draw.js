#!/usr/bin/env node
// Reads frames on standard input, and writes a raw PBM for each View and Rows frame to standard output, as draw.js does, by the module of
// the proved client.
//
// usage: proved_draw.js MODULE [EVERY | --columns]
//   EVERY: before a view's picture its covers, after 0, EVERY, 2 * EVERY, .. of its coefficients
//   --columns: in place of a picture a line for each of its columns that has a value, with the column, its least and its greatest one,
//   and an empty line
import { readFileSync } from "node:fs";
import { Stopped } from "./chart_client.js";
import { ProvedClient } from "./proved_client.js";

process.stdout.on("error", () => process.exit(1));
const [file, word] = process.argv.slice(2);
const every = word === "--columns" ? undefined : word;
const client = new ProvedClient(new WebAssembly.Module(readFileSync(file)));

function columnsOf(picture) {
  let lines = "";
  for (let x = 0; x < picture.w; x += 1) {
    const span = picture.column(x);
    lines += span ? `${x} ${span.least} ${span.greatest}\n` : "";
  }
  return `${lines}\n`;
}

try {
  for await (const piece of process.stdin) {
    client.feed(piece);
    for (let frame = client.next(); frame; frame = client.next()) {
      for (let taken = 0; every && frame.kind === "view" && taken < frame.count; taken += Number(every)) {
        process.stdout.write(client.cover(frame, taken).toPbm());
      }
      const picture = client.draw(frame);
      if (picture) {
        process.stdout.write(word === "--columns" ? columnsOf(picture) : picture.toPbm());
      }
    }
  }
  client.end();
} catch (error) {
  if (!(error instanceof Stopped)) {
    throw error;
  }
  console.error(`chart_client: ${error.message}`);
  process.exitCode = 1;
}

#!/usr/bin/env node
// Reads frames on standard input, and writes a raw PBM for each View and Rows frame to standard output.
import { Client, Stopped } from "./chart_client.js";

process.stdout.on("error", () => process.exit(1));
const client = new Client();
try {
  for await (const piece of process.stdin) {
    for (const { picture } of client.push(piece)) {
      if (picture) {
        process.stdout.write(picture.toPbm());
      }
    }
  }
  client.end();
} catch (error) {
  if (!(error instanceof Stopped)) {
    throw error;
  }
  console.error(`chart_client: ${error.message}`);
  process.exitCode = 1;
}

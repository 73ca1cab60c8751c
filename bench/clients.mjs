// Draws each view of a stream of frames, and writes its milliseconds of the processor from the bytes of the frame to the colours of its pixels,
// and those that go into the values of its columns. bench/clients.py runs it.
//
// usage: clients.mjs module|client MODULE FRAMES
import { readFileSync } from "node:fs";
import { Client } from "../clients/web/chart_client.js";
import { ProvedClient } from "../clients/web/proved_client.js";

const [name, module, file] = process.argv.slice(2);
const client = name === "module" ? new ProvedClient(new WebAssembly.Module(readFileSync(module))) : new Client();
const frames = readFileSync(file);
const spent = () => {
  const { user, system } = process.cpuUsage();
  return (user + system) / 1000;
};
for (let at = 0; at < frames.length; ) {
  const end = at + 4 + frames.readUInt32BE(at);
  const start = spent();
  for (const { picture } of client.push(frames.subarray(at, end))) {
    if (picture) {
      picture.colour(new Uint32Array(picture.w * picture.h), 0xff000000, 0xffffffff);
      const drawn = spent();
      if (name === "module") {
        client.values(picture.w);
      }
      console.log(drawn - start, spent() - drawn);
    }
  }
  at = end;
}

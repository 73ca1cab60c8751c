/** A worker that draws a view again and again by the module that it is given, and ends. */
import { ProvedClient } from "../proved_client.js";

const TIMES = 12; // by the sixth or so a browser has compiled well what such a view needs

onmessage = ({ data: { module, frames } }) => {
  try {
    const client = new ProvedClient(module);
    for (let time = 0; time < TIMES; time += 1) {
      frames.forEach((bytes) => [...client.push(bytes)]);
    }
  } catch {
    // One that stands on a view before it can't be drawn alone; then it isn't.
  }
  close();
};

/** Server-sent events, read by `fetch`, which sends the token in a header: the address of an EventSource would have to hold it. */
import { post } from "./server.js";

const SILENCE = 15000; // milliseconds without a sign of life, behind which the line counts as cut

/** The event that a block of lines spells, or null where it is a comment. */
function eventOf(block) {
  const fields = Object.fromEntries(block.split("\n").map((line) => [line.slice(0, line.indexOf(":")), line.slice(line.indexOf(":") + 1).trim()]));
  return fields.event ? { name: fields.event, value: JSON.parse(fields.data) } : null;
}

/**
 * The events of a session, as they come, until the stream ends or `cut` is aborted, each with how many have come behind it already. Its
 * holder is told of each sign of life.
 */
export async function* readEvents(session, alive, cut) {
  let timer = setTimeout(() => cut.abort(), SILENCE);
  try {
    const response = await post("events", String(session), { signal: cut.signal });
    const [reader, decoder] = [response.body.getReader(), new TextDecoder()];
    let text = "";
    for (let piece = await reader.read(); !piece.done; piece = await reader.read()) {
      clearTimeout(timer);
      timer = setTimeout(() => cut.abort(), SILENCE);
      alive();
      const blocks = (text + decoder.decode(piece.value, { stream: true })).split("\n\n");
      text = blocks.pop();
      const events = blocks.map(eventOf).filter((event) => event !== null);
      yield* events.map((event, at) => ({ ...event, behind: events.length - 1 - at }));
    }
  } finally {
    clearTimeout(timer);
    cut.abort();
  }
}

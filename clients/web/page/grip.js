/** What is dragged, or moved by the arrow keys, to make a panel higher or lower. */
import { LEAST_HEIGHT } from "./address.js";
import { make } from "./dom.js";

const MOST_HEIGHT = 2000;
const STEP = 20; // pixels of an arrow key

export function makeGrip(panel, end) {
  const named = { "aria-label": `Height of panel ${panel.number + 1}`, "aria-orientation": "horizontal" };
  const grip = make("div", { class: "grip", role: "separator", tabindex: 0, ...named });
  const within = (height) => Math.round(Math.max(LEAST_HEIGHT, Math.min(MOST_HEIGHT, height)));
  let from = null; // where a drag began, and the height then
  const dragged = (event) => within(from.height + event.clientY - from.y);
  const listeners = {
    pointerdown(event) {
      from = { y: event.clientY, height: panel.plot.clientHeight };
      grip.setPointerCapture(event.pointerId);
    },
    pointermove(event) {
      if (from) {
        panel.setHeight(dragged(event));
      }
    },
    pointerup(event) {
      if (from) {
        end(dragged(event));
      }
      from = null;
    },
    keydown(event) {
      const by = { ArrowUp: -STEP, ArrowDown: STEP }[event.key];
      if (by) {
        event.preventDefault();
        end(within(panel.plot.clientHeight + by));
      }
    },
  };
  Object.entries(listeners).forEach(([name, listener]) => grip.addEventListener(name, listener));
  return grip;
}

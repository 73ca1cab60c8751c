/** The buttons and fields above the panels. */
import { wholeNumber } from "./numbers.js";
import { make, part, tell } from "./dom.js";
import { spelled, timeOf, usualLengths } from "./times.js";
import { isFollowing, panned, zoomed } from "./windows.js";

function listenToButtons(page) {
  const buttons = {
    back: () => page.travel(-1),
    forward: () => page.travel(1),
    earlier: () => page.moveBy((window) => panned(window, -0.25)),
    later: () => page.moveBy((window) => panned(window, 0.25)),
    out: () => page.moveBy((window) => zoomed(window, 2)),
    in: () => page.moveBy((window) => zoomed(window, 0.5)),
    all: () => page.showAll(),
    resume: () => page.resume(),
  };
  for (const [id, press] of Object.entries(buttons)) {
    part(id).addEventListener("click", press);
  }
}

/** The last times that are chosen from the list: a window that follows, or stays where it is. */
function chooseLast(page) {
  const { value } = part("last");
  const window = page.window();
  if (value === "") {
    page.change({ last: null, ...(window ?? { t0: null, t1: null }) });
  } else {
    const last = value === "this" ? window && window.t1 - window.t0 : wholeNumber(value);
    page.change({ last, t0: null, t1: null });
  }
}

function submitWindow(page) {
  const [from, to] = ["from", "to"].map((id) => timeOf(part(id).value, page.look));
  if (from === null || to === null || from >= to) {
    const example = page.look.unit === "numbers" ? "0 and 500" : "2026-11-01 and 2026-11-02 08:30, or as numbers";
    return tell(part("window_fault"), `From and To are two times, the first of them earlier: as ${example}.`);
  }
  tell(part("window_fault"), "");
  return page.move({ t0: from, t1: to });
}

export function listenToControls(page) {
  listenToButtons(page);
  part("last").addEventListener("change", () => chooseLast(page));
  for (const name of ["unit", "zone", "grid"]) {
    part(name).addEventListener("change", () => page.change({ [name]: part(name).value }, { replaces: true }));
  }
  part("window_form").addEventListener("submit", (event) => {
    event.preventDefault();
    submitWindow(page);
  });
  part("edit").addEventListener("submit", (event) => {
    event.preventDefault();
    edit(page, part("line").value);
  });
}

/** Puts a value into a control, where it isn't there already. */
function put(id, value) {
  if (part(id).value !== value) {
    part(id).value = value;
  }
}

/** Shows what is asked for in the list of lengths. */
function showLast(asked, unit) {
  const usual = usualLengths(unit).map(([length, text]) => [String(length), text]);
  const isUsual = asked.last === null || usual.some(([length]) => length === String(asked.last));
  const own = isUsual ? [] : [[String(asked.last), "this length, at the end"]];
  const options = [["", "fixed"], ["this", "follows the end"], ...own, ...usual];
  const key = JSON.stringify(options);
  if (part("last").dataset.options !== key) {
    part("last").dataset.options = key;
    part("last").replaceChildren(...options.map(([value, text]) => make("option", { value }, text)));
  }
  put("last", asked.last === null ? "" : String(asked.last));
  part("resume").hidden = asked.last === null || isFollowing(asked);
}

/** Puts what is asked for, and the window that is shown, into the controls. */
export function showControls(page, asked, window) {
  const { look } = page;
  showLast(asked, look.unit);
  ["unit", "zone", "grid"].forEach((id) => put(id, asked[id]));
  for (const [id, time] of [["from", window?.t0], ["to", window?.t1]]) {
    if (document.activeElement !== part(id)) {
      put(id, time === undefined ? "" : spelled(time, look).replace(/ UTC$/, ""));
    }
    part(id).dataset.time = time ?? "";
  }
}

/** Sends an edit, and says what it was answered. What it changed is told to all pages, this one too. */
async function edit(page, line) {
  if (!/^(create|append|set|clear) /.test(line)) {
    part("answer").value = "an edit is create, append, set or clear";
    return;
  }
  try {
    const [{ frame, refused }] = await page.connection.ask([line]);
    part("answer").value = refused ? refused.message : `done: ${frame.slots} slots`;
  } catch (error) {
    part("answer").value = error.message;
  }
}

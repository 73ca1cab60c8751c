/** The strip of alarms that stand, as a gateway tells them. serve.py tells none, and then there is no strip. */
import { MOST_PANELS, newPanel } from "./address.js";
import { make, part, tell } from "./dom.js";
import { spelled } from "./times.js";

const KINDS = { over: "above", under: "below", rate: "changed by more than", stale: "no value for longer than" };

/** What an alarm says behind the name of its series. */
export const wordsOf = ({ kind, limit, value }) => `${KINDS[kind] ?? kind} ${limit}${value === null ? "" : `, ${value}`}`;

/** When an alarm began, as a clock of a zone shows it. */
export const beginOf = ({ begun }, zone) => spelled(BigInt(Math.floor(Date.parse(begun) / 1000)), { unit: "seconds", zone });

/** What is said of all alarms, and aloud where it changes. */
export const summaryOf = (count) => `${count} ${count === 1 ? "alarm stands" : "alarms stand"}`;

export class Alarms {
  constructor(page) {
    this.page = page;
    this.told = { alarms: [], count: 0 };
  }

  /** Shows the alarms that stand now: the first of them, and how many there are. */
  show(told) {
    this.told = told;
    part("alarms").toggleAttribute("data-old", false);
    this.draw();
  }

  /** Says that the line was cut, so that what is shown may be over. */
  age() {
    part("alarms").toggleAttribute("data-old", true);
    this.tellCount();
  }

  draw() {
    const { alarms, count } = this.told;
    part("alarms").hidden = count === 0;
    this.tellCount();
    const more = count > alarms.length ? [make("li", {}, `and ${(count - alarms.length).toLocaleString("en")} more`)] : [];
    part("alarm_list").replaceChildren(...alarms.map((alarm) => this.item(alarm)), ...more);
  }

  tellCount() {
    const { count } = this.told;
    const age = part("alarms").hasAttribute("data-old") ? ", as of when the line was cut" : "";
    tell(part("alarm_count"), count === 0 ? "" : `${summaryOf(count)}${age}`);
  }

  item(alarm) {
    const show = () => {
      const { panels } = this.page.asked();
      if (!panels.some(({ names, factors }) => !factors && names.includes(alarm.name))) {
        this.page.change({ panels: [...panels, newPanel([alarm.name])].slice(-MOST_PANELS) });
      }
    };
    const button = make("button", { type: "button", class: "name", "aria-label": `Show ${alarm.series}`, on: { click: show } }, alarm.series);
    return make("li", {}, make("b", {}, alarm.alarm), " ", button, ` ${wordsOf(alarm)}, since ${beginOf(alarm, this.page.look.zone)}`);
  }
}

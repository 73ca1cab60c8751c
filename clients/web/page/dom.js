/** Small helpers over the page's elements. */

export const part = (id) => document.getElementById(id);

/** An element with attributes, listeners under `on`, and children. */
export function make(tag, { on = {}, ...attributes } = {}, ...children) {
  const element = document.createElement(tag);
  for (const [name, value] of Object.entries(attributes)) {
    if (value === true) {
      element.setAttribute(name, "");
    } else if (value !== false && value !== null) {
      element.setAttribute(name, String(value));
    }
  }
  for (const [name, listener] of Object.entries(on)) {
    element.addEventListener(name, listener);
  }
  element.append(...children);
  return element;
}

/** A button with a sign that names what it does. */
export function signButton(sign, label, press, more = {}) {
  return make("button", { type: "button", class: "sign", "aria-label": label, title: label, on: { click: press }, ...more }, sign);
}

/** Puts a text into an element where it isn't there already, so that nothing is told twice. */
export function tell(element, text) {
  if (element.textContent !== text) {
    element.textContent = text;
  }
}

/**
 * Hides an element, or shows it, where it isn't so already. Behind an input that sets an attribute anew, a browser keeps all that comes, the
 * answers too, until its next frame.
 */
export function hide(element, isHidden) {
  if (element.hidden !== isHidden) {
    element.hidden = isHidden;
  }
}

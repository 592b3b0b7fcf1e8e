// How numbers are told, and elements made.

/* global timeText */

// The picture's own.
export const { plural } = globalThis;

export const count = number => number.toLocaleString('en');

// Milliseconds as seconds, or in longer times as hours, minutes and seconds.
export const time = millis => (millis < 0 ? '−' : '') + timeText(Math.abs(millis), 1);

// A number with as few digits behind the point as it needs.
export const short = number => String(Math.round(number * 1e6) / 1e6);

// An element with properties and children: `on..` and properties as they are, `data` and other attributes by their names.
export function make(tag, properties = {}, ...children) {
  const made = document.createElement(tag);
  for (const [name, value] of Object.entries(properties)) {
    if (value === undefined || value === null) continue;
    if (name in made && name !== 'list') made[name] = value;
    else made.setAttribute(name, value);
  }
  made.append(...children.filter(child => child !== null && child !== undefined));
  return made;
}

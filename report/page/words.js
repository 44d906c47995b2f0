// Numbers, times and endings in words.

const ENDINGS = ["given", "aborted", "lost"];
const STEPS = ["announcement", "window", "again", "hold", "end"];
const ALL = 255;

// The reasons of an abort, by SAE J1939-21.
const REASONS = {
  1: "no further session",
  2: "resources",
  3: "timeout",
  4: "CTS during data transfer",
  5: "retransmit limit",
  6: "unexpected data packet",
  7: "bad sequence number",
  8: "duplicate sequence number",
  9: "size above 1,785 bytes",
  250: "other cause",
};

// Why no frame follows, where none of the message's own ends it.
const CAUSES = {
  "packet missing": "a later packet came: one is missing",
  replaced: "its sender announced another message",
  "timed out": "no frame of it came in time",
  "time went back": "the clock of the log was set back",
  acknowledged: "its receiver has all of it, the log hasn't",
  "wrong size": "no transport carries this size in so many packets",
  "too long": "longer than is put together",
  "end of log": "the log ended",
};

const count = (number) => number.toLocaleString("en-US");
const plural = (number, one, many = `${one}s`) => `${count(number)} ${number === 1 ? one : many}`;
const hex = (number, digits) => number.toString(16).toUpperCase().padStart(digits, "0");
const address = (number) => hex(number, 2);
const target = (number) => (number === ALL ? "all" : address(number));
const pgn = (number) => hex(number, 5);
const packets = (first, last) => (first === last ? `packet ${count(first)}` : `packets ${count(first)} to ${count(last)}`);

// A time since the first frame, in seconds.
const seconds = (micros, digits = 6) => (micros / 1e6).toFixed(digits);

// A time that something takes, in the unit that fits.
function duration(micros) {
  if (micros === 0) return "0";
  if (micros < 1000) return `${micros} µs`;
  if (micros < 1e6) return `${(micros / 1000).toFixed(micros < 1e5 ? 1 : 0)} ms`;
  if (micros < 6e7) return `${(micros / 1e6).toFixed(micros < 1e7 ? 2 : 1)} s`;
  const whole = Math.round(micros / 1e6);
  const parts = [Math.floor(whole / 86400), Math.floor(whole / 3600) % 24, Math.floor(whole / 60) % 60, whole % 60];
  return parts.map((part, at) => (part ? `${part} ${["d", "h", "min", "s"][at]}` : "")).filter(Boolean).slice(0, 2).join(" ");
}

// The date and time of microseconds since 1970, where a log counts from there.
function dated(micros) {
  const whole = Number(micros / 1000000n);
  if (whole < 1e8 || whole > 2.5e11) return "";
  return `${new Date(whole * 1000).toISOString().slice(0, 19).replace("T", " ")} UTC`;
}

// An element with text and children. No text is ever read as HTML.
function element(name, given = {}, ...children) {
  const made = document.createElement(name);
  for (const [key, value] of Object.entries(given)) {
    if (value === undefined || value === false) continue;
    if (key.startsWith("on")) made.addEventListener(key.slice(2), value);
    else made.setAttribute(key, value === true ? "" : value);
  }
  made.append(...children);
  return made;
}

function drawn(name, given = {}, ...children) {
  const made = document.createElementNS("http://www.w3.org/2000/svg", name);
  for (const [key, value] of Object.entries(given)) made.setAttribute(key, value);
  made.append(...children);
  return made;
}

// The sign of an ending: a full bar, a bar with a cross, an empty bar; and that of a repeat.
function sign(kind) {
  const svg = drawn("svg", { class: `sign ${kind}`, viewBox: "0 0 18 12", width: 18, height: 12, "aria-hidden": "true" });
  if (kind === "given") svg.append(drawn("rect", { class: "fill", x: 1, y: 2, width: 16, height: 8, rx: 1 }));
  if (kind === "aborted") {
    svg.append(drawn("rect", { class: "fill", x: 1, y: 2, width: 8, height: 8, rx: 1 }));
    svg.append(drawn("path", { class: "line", d: "M10.5 2.5 16.5 9.5 M16.5 2.5 10.5 9.5" }));
  }
  if (kind === "lost") svg.append(drawn("path", { class: "line", d: "M16 2.5 H2 V9.5 H16", "stroke-dasharray": "3 2" }));
  if (kind === "again") svg.append(drawn("path", { class: "fill", d: "M9 3 13.5 10 4.5 10 Z" }));
  return svg;
}

// What the page holds: the messages, and what is told of the log. The elements that held them are taken away once they are read.

function read(selector) {
  return [...document.querySelectorAll(selector)].map((holder) => {
    const value = JSON.parse(holder.textContent);
    holder.remove();
    return value;
  });
}

const messages = read("script.messages").flat();
const report = read("#report")[0];

// The places of a message's list.
const [IFACE, PGN, FROM, TO, KIND, START, END, FIRST, LAST, AGAIN, LENGTH, HAVE, WHY, BY, HEAD, TAIL, FRAMES, MEANING] = Array(18).keys();

const base = BigInt(report.base);
const lastOf = (list, of) => list.reduce((most, it) => Math.max(most, of(it)), -Infinity);
const firstOf = (list, of) => list.reduce((least, it) => Math.min(least, of(it)), Infinity);

// The seconds of each interface: the microseconds at which each begins, since the base, with its counts.
const loads = report.load.interfaces.map(({ name, cells }) => {
  const width = report.load.width * 1e6;
  const made = [];
  for (let at = 0; at < cells.length; at += 4) {
    const start = Number(BigInt(cells[at]) * BigInt(width) - base);
    made.push({ start, frames: cells[at + 1], bits: cells[at + 2], transport: cells[at + 3] });
  }
  return { name, cells: made, width };
});
const gaps = report.load.gaps.map(([name, from, micros]) => ({ name, from: Number(BigInt(from) - base), micros }));

// A log without times has one time alone; its frames are counted instead.
const isTimed = loads.length > 0 || messages.some((it) => it[END] !== 0 || it[START] !== 0);
const startOf = isTimed ? (it) => it[START] : (it) => it[FIRST];
const endOf = isTimed ? (it) => it[END] : (it) => it[LAST];

// The whole time that is shown, and where it is counted from.
const whole = (() => {
  const span = isTimed && report.load.span ? report.load.span.map((it) => Number(BigInt(it) - base)) : [Infinity, -Infinity];
  const from = Math.min(span[0], firstOf(messages, startOf));
  const to = Math.max(span[1], lastOf(messages, endOf));
  return from <= to ? { from, to: Math.max(to, from + 1) } : { from: 0, to: 1e6 };
})();
const since = (micros) => micros - whole.from;

const named = (it) => report.interfaces[it[IFACE]];
const shown = (micros) => (isTimed ? `${seconds(since(micros))} s` : `frame ${count(micros)}`);
const took = (it) => (isTimed ? duration(it[END] - it[START]) : plural(it[LAST] - it[FIRST] + 1, "frame"));

// How a message ended, in words.
function ending(it) {
  if (it[KIND] === 0) return "given";
  if (it[KIND] === 1) return `aborted by ${address(it[BY])}, reason ${it[WHY]}${REASONS[it[WHY]] ? ` (${REASONS[it[WHY]]})` : ""}`;
  return `lost: ${it[WHY]}, ${count(it[HAVE])} of ${plural(it[LENGTH], "byte")}`;
}

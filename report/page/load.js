// The load of each interface: a bar a second, of frames of messages in packets and, lighter, of all others.

const LOAD = 46;
const loadRooms = [];

const rate = (cell, load) => (cell.frames * 1e6) / load.width;
const percent = (cell, load) => (cell.bits * 1e8) / load.width / report.bitrate;

function loadWords(load, cell) {
  const width = load.width / 1e6;
  const each = width === 1 ? "" : ` each second of ${width}`;
  return `${load.name}, second ${count(Math.floor(since(cell.start) / 1e6 + 1))}: ${plural(Math.round(rate(cell, load)), "frame")}${each}, ${percent(cell, load).toFixed(1)} % of ${count(report.bitrate / 1000)} kbit/s, ${count(cell.transport)} of messages in packets`;
}

// The highest second, for the margin.
function highestWords(load) {
  const most = load.cells.reduce((best, it) => (it.frames > best.frames ? it : best));
  const share = percent(most, load);
  return `max. ${count(Math.round(rate(most, load)))}/s, ${share.toFixed(share < 10 ? 1 : 0)} %`;
}

function drawLoad({ canvas, load, chosen }) {
  const { pen, width } = prepared(canvas, LOAD);
  const most = lastOf(load.cells, (it) => it.frames) || 1;
  drawGaps(pen, width, LOAD, 0, load.name);
  drawTicks(pen, width, LOAD);
  pen.fillStyle = colours.paper;
  pen.fillRect(0, 0, gutter, LOAD);
  const columns = new Map();
  load.cells.forEach((cell, index) => {
    const from = Math.max(gutter, xOf(cell.start, width));
    const to = Math.min(width - 6, xOf(cell.start + load.width, width));
    if (to <= gutter || from >= width - 6) return;
    // (of the seconds that share a pixel, the highest)
    const key = Math.floor(from);
    const before = columns.get(key);
    if (!before || before.cell.frames < cell.frames) columns.set(key, { cell, from, to, index });
  });
  for (const { cell, from, to, index } of columns.values()) {
    const wide = Math.max(1, to - from - (to - from > 4 ? 1 : 0));
    const high = (cell.frames / most) * (LOAD - 10);
    const part = (cell.transport / most) * (LOAD - 10);
    pen.fillStyle = colours.rest;
    pen.fillRect(from, LOAD - high, wide, high);
    pen.fillStyle = colours.load;
    pen.fillRect(from, LOAD - part, wide, part);
    if (index === chosen) {
      pen.strokeStyle = colours.focus;
      pen.lineWidth = 2;
      pen.strokeRect(from, LOAD - high - 1, Math.max(3, wide), high + 2);
    }
  }
  pen.textAlign = "left";
  pen.fillStyle = colours.ink;
  pen.fillText(load.name, 10, 14, gutter - 16);
  pen.fillStyle = colours.quiet;
  pen.font = pen.font.replace("12px", "11px");
  pen.fillText(highestWords(load), 10, 31, gutter - 16);
}

function drawLoads() {
  loadRooms.forEach(drawLoad);
}

function chooseSecond(room, index) {
  room.chosen = Math.max(0, Math.min(index, room.load.cells.length - 1));
  const said = loadWords(room.load, room.load.cells[room.chosen]);
  room.holder.setAttribute("aria-valuenow", room.chosen);
  room.holder.setAttribute("aria-valuetext", said);
  byId("load-said").textContent = said;
  redraw();
}

function startLoad(load) {
  const canvas = element("canvas", { "aria-hidden": "true" });
  const holder = element("div", { class: "chart load", role: "slider", tabindex: 0, "aria-label": `Load of ${load.name}, second by second`, "aria-valuemin": 0, "aria-valuemax": load.cells.length - 1 }, canvas);
  const room = { holder, canvas, load, chosen: -1 };
  const highest = load.cells.reduce((best, it, at) => (it.frames > load.cells[best].frames ? at : best), 0);
  holder.setAttribute("aria-valuenow", highest);
  holder.setAttribute("aria-valuetext", loadWords(load, load.cells[highest]));
  holder.addEventListener("keydown", (event) => {
    const at = room.chosen < 0 ? highest : room.chosen;
    const page = Math.max(1, Math.round(load.cells.length / 10));
    const next = { ArrowRight: at + 1, ArrowUp: at + 1, ArrowLeft: at - 1, ArrowDown: at - 1, PageUp: at + page, PageDown: at - page, Home: 0, End: load.cells.length - 1 }[event.key];
    if (next === undefined) return;
    event.preventDefault();
    chooseSecond(room, next);
    const cell = load.cells[room.chosen];
    if (cell.start < view.from || cell.start + load.width > view.to) look(cell.start - (view.to - view.from) / 2, cell.start + (view.to - view.from) / 2);
  });
  holder.addEventListener("focus", () => chooseSecond(room, room.chosen < 0 ? highest : room.chosen));
  holder.addEventListener("pointermove", (event) => {
    const box = canvas.getBoundingClientRect();
    const at = view.from + (event.clientX - box.left - gutter) / scale(box.width);
    const cell = load.cells.find((it) => at >= it.start && at < it.start + load.width);
    showTip(event, cell ? loadWords(load, cell) : "");
  });
  holder.addEventListener("pointerleave", () => { tip.hidden = true; });
  loadRooms.push(room);
  byId("loads").append(holder);
}

function startLoads() {
  const width = report.load.width;
  if (width > 1) byId("load-heading").textContent = `Load of the bus by ${width} seconds`;
  loads.forEach(startLoad);
  const sum = (of) => loads.reduce((all, it) => it.cells.reduce((some, cell) => some + of(cell), all), 0);
  if (!loads.length) byId("load-said").textContent = report.counts.frames ? "The log has no times." : "There is no frame.";
  else {
    const inPackets = sum((it) => it.transport);
    const swatch = (name) => element("i", { class: `swatch ${name}` });
    byId("load-said").replaceChildren(swatch("load"), `${plural(inPackets, "frame")} of messages in packets`, swatch("rest"), plural(sum((it) => it.frames) - inPackets, "other frame"));
  }
  if (report.load.isCut) byId("loads").append(element("p", { class: "quiet" }, `Of more than ${loads.length} interfaces the others are left out here.`));
}

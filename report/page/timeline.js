// Messages over time: a row for each interface, sender, destination and PGN, drawn on a canvas that shows the rows in sight.

const ROW = 22;
const MOST_ROWS = 14;

const view = { from: whole.from, to: whole.to };
const byId = (id) => document.getElementById(id);
let gutter = 120;

// The colours of the page, as they are at the moment.
let colours = {};
function readColours() {
  const style = getComputedStyle(document.documentElement);
  for (const name of ["paper", "wash", "line", "ink", "quiet", "given", "given-faint", "aborted", "lost", "again", "load", "rest", "gap", "chosen", "focus", "mono"]) {
    colours[name] = style.getPropertyValue(`--${name}`).trim();
  }
}

// A canvas as wide as what holds it, sharp on any screen.
function prepared(canvas, height) {
  const width = canvas.parentElement.clientWidth;
  const ratio = Math.min(window.devicePixelRatio || 1, 3);
  const wide = Math.round(width * ratio);
  const high = Math.round(height * ratio);
  if (canvas.width !== wide || canvas.height !== high) {
    canvas.width = wide;
    canvas.height = high;
    canvas.style.height = `${height}px`;
  }
  const pen = canvas.getContext("2d");
  pen.setTransform(ratio, 0, 0, ratio, 0, 0);
  pen.clearRect(0, 0, width, height);
  pen.font = "12px system-ui, -apple-system, 'Segoe UI', 'DejaVu Sans', sans-serif";
  pen.textBaseline = "middle";
  return { pen, width, height };
}

// The rows, in the order of the table.
const lanes = (() => {
  const found = new Map();
  messages.forEach((it, index) => {
    const key = `${it[IFACE]} ${it[PGN]} ${it[FROM]} ${it[TO]}`;
    if (!found.has(key)) found.set(key, []);
    found.get(key).push(index);
  });
  const lists = [...found.values()].sort((a, b) => {
    const [one, other] = [messages[a[0]], messages[b[0]]];
    if (one[IFACE] !== other[IFACE]) return named(one) < named(other) ? -1 : 1;
    return one[PGN] - other[PGN] || one[FROM] - other[FROM] || one[TO] - other[TO];
  });
  const made = [];
  let interfaceBefore = -1;
  for (const list of lists) {
    const it = messages[list[0]];
    if (report.interfaces.length > 1 && it[IFACE] !== interfaceBefore) made.push({ heading: named(it), name: named(it) });
    interfaceBefore = it[IFACE];
    list.sort((a, b) => startOf(messages[a]) - startOf(messages[b]));
    made.push({ label: `${address(it[FROM])} → ${target(it[TO])}`, pgn: pgn(it[PGN]), name: named(it), list });
  }
  return made;
})();

const scale = (width) => (width - gutter - 14) / (view.to - view.from);
const xOf = (at, width) => gutter + (at - view.from) * scale(width);

// The silences of an interface; where there is room, how long each is.
function drawGaps(pen, width, height, top, name) {
  if (!isTimed) return;
  pen.fillStyle = colours.gap;
  for (const gap of gaps) {
    if (gap.name !== name) continue;
    const from = Math.max(gutter, xOf(gap.from, width));
    const to = Math.min(width, xOf(gap.from + gap.micros, width));
    if (to - from < 1) continue;
    pen.fillRect(from, top, to - from, height);
    if (to - from > 110 && height > ROW) {
      pen.fillStyle = colours.quiet;
      pen.textAlign = "center";
      pen.fillText(`no frame for ${duration(gap.micros)}`, (from + to) / 2, top + height / 2);
      pen.textAlign = "left";
      pen.fillStyle = colours.gap;
    }
  }
}

function drawGiven(pen, from, to, y) {
  pen.fillStyle = colours.given;
  pen.fillRect(from, y - 5, Math.max(2.5, to - from), 10);
}

function drawAborted(pen, from, to, y) {
  pen.fillStyle = colours.aborted;
  pen.fillRect(from, y - 5, Math.max(2, to - from - 10), 10);
  const x = Math.max(from + 7, to - 4);
  pen.strokeStyle = colours.aborted;
  pen.lineWidth = 2;
  pen.beginPath();
  pen.moveTo(x - 4, y - 4);
  pen.lineTo(x + 4, y + 4);
  pen.moveTo(x + 4, y - 4);
  pen.lineTo(x - 4, y + 4);
  pen.stroke();
}

// Open at its end, since that didn't come.
function drawLost(pen, from, to, y) {
  const end = Math.max(from + 9, to);
  pen.strokeStyle = colours.lost;
  pen.lineWidth = 1.8;
  pen.setLineDash([3, 2]);
  pen.beginPath();
  pen.moveTo(end, y - 5);
  pen.lineTo(from + 1, y - 5);
  pen.lineTo(from + 1, y + 5);
  pen.lineTo(end, y + 5);
  pen.stroke();
  pen.setLineDash([]);
}

function drawAgain(pen, x, y) {
  pen.fillStyle = colours.again;
  pen.beginPath();
  pen.moveTo(x, y - 10);
  pen.lineTo(x + 4, y - 5);
  pen.lineTo(x - 4, y - 5);
  pen.fill();
}

// The times at which packets were asked for again, or the message was announced again.
function repeats(it) {
  const made = [];
  const steps = it[FRAMES];
  for (let at = 0; at < steps.length; at += 5) {
    if (STEPS[steps[at]] === "again" || (STEPS[steps[at]] === "announcement" && at > 0)) made.push(isTimed ? it[START] + steps[at + 2] : it[FIRST] + steps[at + 1]);
  }
  return made;
}

const DRAWINGS = [drawGiven, drawAborted, drawLost];

// The messages of a row: given ones below, so that none hides what went wrong; those that the filters leave out are faint.
function drawLane(pen, width, lane, y) {
  const right = width - 6;
  const late = [];
  let before = -1;
  for (const index of lane.list) {
    const it = messages[index];
    const from = xOf(startOf(it), width);
    const to = xOf(endOf(it), width);
    if (to < gutter || from > right) continue;
    const left = Math.max(from, gutter);
    const end = Math.min(to, right);
    if (!matching[index]) {
      if (Math.round(left) === before) continue;
      before = Math.round(left);
      pen.fillStyle = colours.line;
      pen.fillRect(left, y - 2, Math.max(2, end - left), 4);
      continue;
    }
    if (index === opened) {
      pen.fillStyle = colours.chosen;
      pen.fillRect(left - 4, y - 10, Math.max(3, end - left) + 8, 20);
    }
    if (it[KIND] !== 0 || it[AGAIN] || index === opened) late.push([it, left, end]);
    if (it[KIND] === 0 && (Math.round(left) !== before || end - left > 1)) {
      before = Math.round(left);
      drawGiven(pen, left, end, y);
    }
  }
  for (const [it, left, end] of late) if (it[KIND] !== 0) DRAWINGS[it[KIND]](pen, left, end, y);
  for (const [it] of late) {
    for (const at of repeats(it)) {
      const x = xOf(at, width);
      if (x >= gutter && x <= right) drawAgain(pen, x, y);
    }
  }
}

function drawTimeline() {
  const room = byId("timeline");
  const tall = Math.max(1, lanes.length) * ROW + 8;
  const height = Math.min(tall, MOST_ROWS * ROW + 8);
  room.style.height = `${height + 1}px`;
  const { pen, width } = prepared(room.firstElementChild, height);
  const top = room.scrollTop;
  room.lastElementChild.style.height = `${tall - height}px`;
  drawTicks(pen, width, height);
  for (let at = Math.max(0, Math.floor((top - 4) / ROW)); at < lanes.length && at * ROW + 4 - top < height; at += 1) {
    const lane = lanes[at];
    const y = at * ROW + 4 - top + ROW / 2;
    pen.textAlign = "left";
    if (lane.heading) {
      pen.fillStyle = colours.quiet;
      pen.fillText(lane.heading, 10, y, gutter - 16);
      continue;
    }
    drawGaps(pen, width, ROW, y - ROW / 2, lane.name);
    pen.fillStyle = colours.ink;
    pen.fillText(lane.label, 10, y);
    pen.fillStyle = colours.quiet;
    pen.textAlign = "right";
    pen.fillText(lane.pgn, gutter - 12, y);
    drawLane(pen, width, lane, y);
  }
  if (!lanes.length) {
    pen.fillStyle = colours.quiet;
    pen.fillText("No message.", 10, ROW / 2 + 4);
  }
}

// The step between the marks of the axis, of which there are some eight.
function tickStep(width) {
  const rough = (view.to - view.from) / Math.max(2, (width - gutter) / 110);
  const steps = [1, 2, 5];
  let unit = 1;
  for (;;) {
    for (const step of steps) if (step * unit >= rough) return step * unit;
    if (isTimed && unit === 1e7) {
      for (const step of [6e7, 12e7, 3e8, 6e8, 12e8, 18e8, 36e8, 72e8, 216e8, 432e8, 864e8]) if (step >= rough) return step;
      unit = 864e8;
    }
    unit *= 10;
  }
}

function ticks(width) {
  const step = tickStep(width);
  const made = [];
  const zero = isTimed ? whole.from : 0;
  for (let at = Math.ceil((view.from - zero) / step) * step; at <= view.to - zero; at += step) made.push(at);
  return { step, zero, made };
}

function drawTicks(pen, width, height) {
  const { zero, made } = ticks(width);
  pen.fillStyle = colours.line;
  for (const at of made) pen.fillRect(Math.round(xOf(at + zero, width)), 0, 1, height);
}

function tickWords(at, step) {
  if (!isTimed) return count(at);
  if (step >= 6e7 || at >= 36e8) {
    const whole = Math.round(at / 1e6);
    const parts = [Math.floor(whole / 3600), Math.floor(whole / 60) % 60, whole % 60];
    return parts.map((part, place) => (place ? String(part).padStart(2, "0") : part)).join(":") + (step < 1e6 ? (at / 1e6 - Math.floor(at / 1e6)).toFixed(3).slice(1) : "");
  }
  const digits = Math.max(0, Math.min(6, Math.ceil(-Math.log10(step / 1e6))));
  return `${(at / 1e6).toFixed(digits)} s`;
}

function drawAxis() {
  const { pen, width } = prepared(byId("axis").firstElementChild, 24);
  const { step, zero, made } = ticks(width);
  pen.fillStyle = colours.quiet;
  pen.textAlign = "left";
  if (!isTimed) pen.fillText("frame", 10, 12);
  for (const at of made) {
    const x = xOf(at + zero, width);
    const text = tickWords(at, step);
    const half = pen.measureText(text).width / 2;
    pen.fillText(text, Math.min(x - half, width - 2 * half - 4), 12);
  }
}

let isDue = false;
function redraw() {
  if (isDue) return;
  isDue = true;
  requestAnimationFrame(() => {
    isDue = false;
    drawTimeline();
    drawAxis();
    drawLoads();
  });
}

// Shows another part of the time, within the whole.
function look(from, to) {
  const least = isTimed ? 100 : 4;
  const length = Math.min(Math.max(to - from, least), whole.to - whole.from);
  const middle = (from + to) / 2;
  view.from = Math.min(Math.max(middle - length / 2, whole.from), whole.to - length);
  view.to = view.from + length;
  const isAll = length >= whole.to - whole.from;
  byId("all").disabled = isAll;
  byId("wider").disabled = isAll;
  byId("earlier").disabled = view.from <= whole.from;
  byId("later").disabled = view.to >= whole.to;
  redraw();
}

function zoom(factor, at = (view.from + view.to) / 2) {
  look(at - (at - view.from) * factor, at + (view.to - at) * factor);
}

function move(part) {
  const by = (view.to - view.from) * part;
  look(view.from + by, view.to + by);
}

// The message at a place of the canvas: what went wrong before what was given, then the nearest.
function messageAt(x, y, width) {
  const lane = lanes[Math.floor((y + byId("timeline").scrollTop - 4) / ROW)];
  if (!lane || !lane.list || x < gutter - 4) return -1;
  let best = -1;
  let least = 7;
  for (const index of lane.list) {
    const it = messages[index];
    if (!matching[index]) continue;
    const from = xOf(startOf(it), width);
    const to = Math.max(from + 3, xOf(endOf(it), width));
    const far = (x < from ? from - x : x > to ? x - to : 0) + (it[KIND] === 0 ? 1 : 0);
    if (far < least) {
      least = far;
      best = index;
    }
  }
  return best;
}

const tip = element("div", { id: "tip", hidden: true, "aria-hidden": "true" });
function showTip(event, text) {
  tip.hidden = !text;
  if (!text) return;
  tip.textContent = text;
  const width = document.documentElement.clientWidth;
  tip.style.left = `${Math.max(4, Math.min(event.pageX + 12, width - tip.offsetWidth - 8))}px`;
  tip.style.top = `${event.pageY + 16}px`;
}

function startTimeline() {
  document.body.append(tip);
  const room = byId("timeline");
  const canvas = room.firstElementChild;
  room.append(element("div"));
  room.addEventListener("scroll", redraw);
  const said = plural(lanes.filter((it) => it.list).length, "row");
  canvas.setAttribute("aria-label", `${plural(messages.length, "message")} over time in ${said} of sender, destination and PGN. The table of messages below has the same, one by one.`);
  const measure = document.createElement("canvas").getContext("2d");
  measure.font = "12px system-ui, -apple-system, 'Segoe UI', 'DejaVu Sans', sans-serif";
  gutter = Math.ceil(measure.measureText("FF → FF").width + measure.measureText("00000").width) + 38;
  byId("earlier").addEventListener("click", () => move(-0.5));
  byId("later").addEventListener("click", () => move(0.5));
  byId("closer").addEventListener("click", () => zoom(0.5));
  byId("wider").addEventListener("click", () => zoom(2));
  byId("all").addEventListener("click", () => look(whole.from, whole.to));
  const place = (event) => {
    const box = canvas.getBoundingClientRect();
    return { x: event.clientX - box.left, y: event.clientY - box.top, width: box.width };
  };
  const timeAt = ({ x, width }) => view.from + (x - gutter) / scale(width);
  canvas.addEventListener("wheel", (event) => {
    if (!event.ctrlKey) return;
    event.preventDefault();
    zoom(event.deltaY < 0 ? 0.8 : 1.25, timeAt(place(event)));
  }, { passive: false });
  let held = null;
  canvas.addEventListener("pointerdown", (event) => {
    held = { at: place(event), from: view.from, to: view.to, isMoved: false };
    canvas.setPointerCapture(event.pointerId);
  });
  canvas.addEventListener("pointermove", (event) => {
    const at = place(event);
    if (held) {
      const by = held.at.x - at.x;
      if (Math.abs(by) > 4) held.isMoved = true;
      if (held.isMoved) look(held.from + by / scale(at.width), held.to + by / scale(at.width));
      return;
    }
    const index = messageAt(at.x, at.y, at.width);
    canvas.style.cursor = index < 0 ? "" : "pointer";
    showTip(event, index < 0 ? "" : brief(messages[index]));
  });
  canvas.addEventListener("pointerup", (event) => {
    const at = place(event);
    if (held && !held.isMoved) {
      const index = messageAt(at.x, at.y, at.width);
      if (index >= 0) open(index, false);
    }
    held = null;
  });
  canvas.addEventListener("pointercancel", () => { held = null; });
  canvas.addEventListener("pointerleave", () => { tip.hidden = true; });
}

// A message in a line.
function brief(it) {
  return `${shown(startOf(it))}: ${address(it[FROM])} → ${target(it[TO])}, PGN ${pgn(it[PGN])}, ${it[KIND] === 0 ? `given, ${plural(it[LENGTH], "byte")}` : ending(it)}`;
}

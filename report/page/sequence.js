// A message's frames as a drawing of two lifelines, and in words.

const PACKET = 7;
const STEP = 34;

// How many packets a message of so many bytes has.
const packetsOf = (length) => Math.ceil(length / PACKET);

// The steps of a message: each an arrow of a frame, a band of packets, or a remark, with its microseconds since the first frame where there is a time.
// A direction is 1 from the sender, -1 to it. Where packets were asked for before, a CTS has a repeat behind it; a window of such packets without one is
// that of a data packet offset.
function stepsOf(it) {
  const made = [];
  const list = it[FRAMES];
  const whom = target(it[TO]);
  let asked = 0;
  for (let at = 0; at < list.length; at += 5) {
    const [code, number, time, first, last] = list.slice(at, at + 5);
    const step = { number: it[FIRST] + number, time };
    const next = list.slice(at + 5, at + 10);
    const isRepeat = next.length > 0 && STEPS[next[0]] === "again" && next[1] === number;
    switch (STEPS[code]) {
      case "announcement":
        made.push({ ...step, way: 1, kind: at > 0 ? "again" : "frame", text: `announces ${it[LENGTH] < 0 ? "a message" : plural(it[LENGTH], "byte")}${at > 0 ? " once more" : ""}` });
        if (it[TO] === ALL && it[KIND] !== 1 && !["wrong size", "too long"].includes(it[WHY])) made.push({ way: 1, kind: "band", packets: packetsOf(it[LENGTH]), text: it[KIND] === 2 ? `${count(it[HAVE])} of ${plural(it[LENGTH], "byte")}` : packets(1, packetsOf(it[LENGTH])) });
        break;
      case "window":
        if (!isRepeat && last <= asked) {
          made.push({ ...step, way: 1, kind: "frame", text: `sends ${packets(first, last)} next` });
        } else {
          made.push({ ...step, way: -1, kind: isRepeat ? "again" : "frame", text: isRepeat ? `asks again for ${packets(next[3], next[4])}${next[4] < last ? ` of ${first} to ${last}` : ""}` : `asks for ${packets(first, last)}` });
        }
        if (it[LENGTH] <= 1785 || (!isRepeat && last <= asked)) made.push({ way: 1, kind: isRepeat ? "band again" : "band", packets: last - first + 1, text: packets(first, last) });
        asked = Math.max(asked, last);
        break;
      case "hold":
        made.push({ ...step, way: -1, kind: "frame", text: "asks to wait" });
        break;
      case "end":
        made.push({ ...step, ...endOfMessage(it, whom) });
        break;
      case "again":
        break;
      default:
        made.push({ kind: "remark", text: `${plural(number, "frame")} left out here` });
    }
  }
  const last = made[made.length - 1];
  if (last && it[KIND] === 2 && !["stop", "bad"].includes(last.kind)) made.push({ kind: "remark bad", text: CAUSES[it[WHY]] || it[WHY] });
  return made;
}

// The frame that ends a message.
function endOfMessage(it) {
  if (it[KIND] === 0) return { way: 1, kind: "frame", text: "the last packet: all came" };
  if (it[KIND] === 1) return { way: it[BY] === it[FROM] ? 1 : -1, kind: "stop", text: `aborts: reason ${it[WHY]}${REASONS[it[WHY]] ? `, ${REASONS[it[WHY]]}` : ""}` };
  return { way: it[WHY] === "acknowledged" ? -1 : 1, kind: "bad", text: CAUSES[it[WHY]] || it[WHY] };
}

// A silence of 200 ms for each frame that is to come is one that ends wait for.
function pausesOf(steps) {
  const made = [];
  let before = 0;
  let few = 1;
  for (const step of steps) {
    if (step.time === undefined) {
      few += step.packets || 0;
    } else {
      if (isTimed && made.length && step.time - before >= 200000 * few) made.push({ kind: "pause", text: `${duration(step.time - before)}`, to: step });
      before = step.time;
      few = 1;
    }
    made.push(step);
  }
  return made;
}

function arrowTip(x, y, way, kind) {
  return drawn("path", { class: kind, d: `M${x} ${y} l${-9 * way} -4 v8 Z` });
}

function drawStep(step, y, [left, right]) {
  const from = step.way === 1 ? left : right;
  const to = step.way === 1 ? right : left;
  const group = drawn("g", { class: step.kind });
  const middle = (left + right) / 2;
  const text = (value, at = y - 5) => drawn("text", { x: middle, y: at, "text-anchor": "middle" }, value);
  if (step.kind.startsWith("band")) {
    group.append(drawn("rect", { class: "band", x: left + 5, y: y - 18, width: right - left - 10, height: 20 }), arrowTip(right - 1, y - 8, 1, "bandtip"));
    group.append(text(step.text, y - 4));
    return group;
  }
  if (step.kind === "pause") {
    group.append(drawn("path", { class: "silence", d: `M${left} ${y - 26} V${y + 2} M${right} ${y - 26} V${y + 2}` }), drawn("text", { x: middle, y: y - 8, "text-anchor": "middle", class: "faint" }, `${step.text} without one of these frames`));
    return group;
  }
  if (step.kind.startsWith("remark")) {
    group.append(drawn("path", { class: "line bad", d: `M${left} ${y + 3} H${right}` }), text(step.text));
    return group;
  }
  group.append(drawn("path", { class: "arrow", d: `M${from} ${y} H${to - 4 * step.way}` }), arrowTip(to - step.way, y, step.way, "tip"));
  group.append(text(step.kind === "again" ? `▲ ${step.text}` : step.text));
  return group;
}

// A step in words, for those who don't see the drawing.
function stepWords(it, step) {
  const sender = address(it[FROM]);
  const at = step.time === undefined ? "" : isTimed ? `${duration(step.time)}: ` : `frame ${step.number}: `;
  if (step.kind.startsWith("band")) return `${step.text} from ${sender}`;
  if (step.way === undefined) return step.text;
  return `${at}${step.way === 1 ? sender : target(it[TO])} ${step.text}`;
}

function sequence(it, width) {
  const steps = pausesOf(stepsOf(it));
  const times = isTimed ? 78 : 70;
  const ends = [times + 34, width - 36];
  const height = 44 + steps.length * STEP + 8;
  const svg = drawn("svg", { class: "sequence", width, height, viewBox: `0 0 ${width} ${height}`, role: "img", "aria-label": `Frames between ${address(it[FROM])} and ${target(it[TO])}, of which the list below says the same` });
  ends.forEach((x, at) => {
    svg.append(drawn("path", { class: "life", d: `M${x} 28 V${height - 4}` }), drawn("rect", { class: "head", x: x - 32, y: 3, width: 64, height: 25, rx: 4 }));
    svg.append(drawn("text", { x, y: 20, "text-anchor": "middle" }, at ? target(it[TO]) : address(it[FROM])));
  });
  steps.forEach((step, at) => {
    const y = 44 + (at + 1) * STEP - 10;
    if (step.time !== undefined) svg.append(drawn("text", { class: "faint", x: times - 8, y: y + 4, "text-anchor": "end" }, isTimed ? duration(step.time) : `frame ${step.number}`));
    svg.append(drawStep(step, y, ends));
  });
  const list = element("ol", { class: "unseen" }, ...steps.map((step) => element("li", {}, stepWords(it, step))));
  return [svg, list];
}

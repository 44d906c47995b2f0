// The table of messages: filters, order, and rows of which those in sight are elements.

let opened = -1;
let active = -1;
let order = Uint32Array.from(messages.keys());
const matching = new Uint8Array(messages.length).fill(1);
let sorted = { by: "time", way: 1 };
let isStacked = false;
const rowHeight = () => (isStacked ? 52 : 28);

// The place of each interface among their names, and of each ending among the causes: what is sorted is a number.
const rankOf = (list) => {
  const places = new Map([...list].sort().map((it, at) => [it, at]));
  return (it) => places.get(it);
};
const rankOfInterface = rankOf(report.interfaces);
const rankOfCause = rankOf(Object.keys(CAUSES));
const rankOfEnding = (it) => 1000 * it[KIND] + (it[KIND] === 2 ? rankOfCause(it[WHY]) ?? 999 : it[WHY]);

// The columns: name, words at the head, what to sort by, and the text of a cell.
const COLUMNS = [
  { name: "time", head: isTimed ? "Time" : "Frame", of: startOf, text: (it) => (isTimed ? seconds(since(it[START])) : count(it[FIRST])), class: "code" },
  { name: "iface", head: "Interface", of: (it) => rankOfInterface(named(it)), text: named },
  { name: "pgn", head: "PGN", of: (it) => it[PGN], text: (it) => pgn(it[PGN]), class: "code" },
  { name: "from", head: "From", of: (it) => it[FROM], text: (it) => address(it[FROM]), class: "code" },
  { name: "to", head: "To", of: (it) => it[TO], text: (it) => (it[TO] === ALL ? "all" : address(it[TO])), class: "code" },
  { name: "bytes", head: "Bytes", of: (it) => it[LENGTH], text: (it) => (it[LENGTH] < 0 ? "" : count(it[LENGTH])), class: "right" },
  { name: "took", head: isTimed ? "Took" : "Frames", of: (it) => endOf(it) - startOf(it), text: (it) => (isTimed ? took(it) : count(it[LAST] - it[FIRST] + 1)), class: "right" },
  { name: "again", head: "Again", of: (it) => it[AGAIN], text: (it) => (it[AGAIN] ? count(it[AGAIN]) : ""), class: "right" },
  { name: "ending", head: "Ending", of: rankOfEnding, text: ending },
];

// What an ending can be chosen by.
const CHOICES = [
  ["given", (it) => it[KIND] === 0],
  ["aborted", (it) => it[KIND] === 1],
  ["lost", (it) => it[KIND] === 2],
  ["not given", (it) => it[KIND] !== 0],
  ["asked for again", (it) => it[AGAIN] > 0],
];

// Whether a message has a text: in its row, in what it means, in its bytes as hexadecimal digits, or as characters of either case.
function textTest(text) {
  const wanted = text.trim().toLowerCase();
  if (!wanted) return null;
  const digits = wanted.replace(/\s+/g, "").toUpperCase();
  const isHex = /^(?:[0-9A-F]{2})+$/.test(digits);
  const ascii = [...wanted].every((it) => it >= " " && it <= "~") && wanted.length > 1;
  const pairs = (it) => {
    const upper = hex(it.toUpperCase().charCodeAt(0), 2);
    const lower = hex(it.charCodeAt(0), 2);
    return upper === lower ? upper : `(?:${upper}|${lower})`;
  };
  const form = ascii ? new RegExp([...wanted].map(pairs).join(""), "g") : null;
  const isThere = (data) => {
    if (isHex) for (let at = data.indexOf(digits); at >= 0; at = data.indexOf(digits, at + 1)) if (at % 2 === 0) return true;
    if (!form) return false;
    form.lastIndex = 0;
    for (let found = form.exec(data); found; found = form.exec(data)) {
      if (found.index % 2 === 0) return true;
      form.lastIndex = found.index + 1;
    }
    return false;
  };
  return (it) =>
    named(it).toLowerCase().includes(wanted) ||
    `${pgn(it[PGN])} ${address(it[FROM])} ${target(it[TO])}`.toLowerCase().includes(wanted) ||
    ending(it).toLowerCase().includes(wanted) ||
    isThere(it[HEAD]) ||
    isThere(it[TAIL]) ||
    it[MEANING].some((line) => line.toLowerCase().includes(wanted));
}

function tests() {
  const made = [];
  const chosen = (id, at) => {
    const value = byId(id).value;
    if (value !== "") made.push((it) => it[at] === Number(value));
  };
  chosen("by-interface", IFACE);
  chosen("by-pgn", PGN);
  chosen("by-from", FROM);
  chosen("by-to", TO);
  const kind = byId("by-ending").value;
  if (kind !== "") made.push(CHOICES[Number(kind)][1]);
  const text = textTest(byId("by-text").value);
  if (text) made.push(text);
  return made;
}

function filter() {
  const all = tests();
  const kept = [];
  messages.forEach((it, index) => {
    const isKept = all.every((test) => test(it));
    matching[index] = isKept ? 1 : 0;
    if (isKept) kept.push(index);
  });
  order = Uint32Array.from(kept);
  active = order.includes(active) ? active : -1;
  sort();
}

function sort() {
  const { of } = COLUMNS.find((it) => it.name === sorted.by);
  const keys = new Float64Array(messages.length);
  for (const index of order) keys[index] = of(messages[index]);
  const { way } = sorted;
  order.sort((a, b) => way * (keys[a] - keys[b]) || a - b);
  const said = order.length === messages.length ? plural(messages.length, "message") : `${count(order.length)} of ${plural(messages.length, "message")}`;
  byId("matches").textContent = said;
  byId("messages").setAttribute("aria-rowcount", order.length + 1);
  for (const head of byId("heads").querySelectorAll("[data-name]")) {
    const isBy = head.dataset.name === sorted.by;
    head.setAttribute("aria-sort", isBy ? (way === 1 ? "ascending" : "descending") : "none");
    head.querySelector("span").textContent = isBy ? (way === 1 ? " ▴" : " ▾") : "";
  }
  byId("by-order").value = `${sorted.by} ${way}`;
  byId("messages").scrollTop = 0;
  fill();
  redraw();
}

function sortBy(by, way) {
  sorted = { by, way };
  sort();
}

function cell(column, it) {
  const made = element("div", { role: "gridcell", class: `${column.name} ${column.class || ""}`, title: column.name === "iface" || column.name === "ending" ? column.text(it) : undefined });
  if (column.name === "ending") made.append(sign(ENDINGS[it[KIND]]), element("span", {}, column.text(it)));
  else made.textContent = column.text(it);
  if (column.name === "again" && it[AGAIN]) made.prepend(sign("again"));
  return made;
}

// Puts the rows in sight into the table, and some on either side.
function fill() {
  const room = byId("messages");
  const rows = byId("rows");
  const high = rowHeight();
  rows.style.height = `${Math.max(order.length, 2) * high}px`;
  const top = Math.max(0, room.scrollTop - (isStacked ? 0 : 30));
  const first = Math.max(0, Math.floor(top / high) - 6);
  const last = Math.min(order.length, Math.ceil((top + room.clientHeight) / high) + 6);
  const made = [];
  for (let place = first; place < last; place += 1) {
    const index = order[place];
    const it = messages[index];
    const row = element("div", { role: "row", id: `row-${index}`, class: `row${index === active ? " active" : ""}${index === opened ? " open" : ""}`, "aria-rowindex": place + 2, "aria-selected": index === opened ? "true" : "false" }, ...COLUMNS.map((column) => cell(column, it)));
    row.style.top = `${place * high}px`;
    row.dataset.index = index;
    made.push(row);
  }
  if (!order.length) made.push(element("div", { class: "none", role: "row" }, element("div", { role: "gridcell" }, messages.length ? "No message is as chosen." : "The log has no message that was sent in packets.")));
  rows.replaceChildren(...made);
  if (active >= 0 && byId(`row-${active}`)) room.setAttribute("aria-activedescendant", `row-${active}`);
  else room.removeAttribute("aria-activedescendant");
}

// Makes a place of the table the active one, and brings it into sight.
function activate(place) {
  if (!order.length) return;
  const to = Math.max(0, Math.min(place, order.length - 1));
  active = order[to];
  const room = byId("messages");
  const high = rowHeight();
  const heads = isStacked ? 0 : 31;
  if (to * high < room.scrollTop) room.scrollTop = to * high;
  if ((to + 1) * high + heads > room.scrollTop + room.clientHeight) room.scrollTop = (to + 1) * high + heads - room.clientHeight;
  fill();
  if (opened >= 0) open(active, false);
}

const placeOf = (index) => order.indexOf(index);

function onKey(event) {
  if (event.target !== byId("messages") || event.ctrlKey || event.metaKey || event.altKey) return;
  const page = Math.max(1, Math.floor(byId("messages").clientHeight / rowHeight()) - 2);
  const at = active < 0 ? -1 : placeOf(active);
  const next = { ArrowDown: at + 1, ArrowUp: at - 1, PageDown: at + page, PageUp: at - page, Home: 0, End: order.length - 1 }[event.key];
  if (next !== undefined) {
    event.preventDefault();
    activate(next);
  } else if (event.key === "Enter" || event.key === " ") {
    event.preventDefault();
    if (active < 0) activate(0);
    if (active >= 0) open(active, true);
  }
}

// The values of a column, each with how many messages have it.
function choose(id, at, words) {
  const found = new Map();
  for (const it of messages) found.set(it[at], (found.get(it[at]) || 0) + 1);
  const values = [...found.keys()].sort((a, b) => a - b).slice(0, 2000);
  byId(id).replaceChildren(element("option", { value: "" }, "all"), ...values.map((value) => element("option", { value }, `${words(value)} (${count(found.get(value))})`)));
}

function startFilters() {
  choose("by-interface", IFACE, (value) => report.interfaces[value]);
  choose("by-pgn", PGN, pgn);
  choose("by-from", FROM, address);
  choose("by-to", TO, (value) => (value === ALL ? "FF, to all" : address(value)));
  byId("by-ending").replaceChildren(element("option", { value: "" }, "all"), ...CHOICES.map(([words, test], at) => element("option", { value: at }, `${words} (${count(messages.filter(test).length)})`)));
  byId("by-order").replaceChildren(...COLUMNS.flatMap(({ name, head }) => [element("option", { value: `${name} 1` }, `${head} ↑`), element("option", { value: `${name} -1` }, `${head} ↓`)]));
  const form = byId("filters");
  form.addEventListener("submit", (event) => event.preventDefault());
  form.addEventListener("reset", () => setTimeout(filter));
  for (const id of ["by-interface", "by-pgn", "by-from", "by-to", "by-ending"]) byId(id).addEventListener("change", filter);
  byId("by-order").addEventListener("change", (event) => {
    const [by, way] = event.target.value.split(" ");
    sortBy(by, Number(way));
  });
  let wait = 0;
  byId("by-text").addEventListener("input", () => {
    clearTimeout(wait);
    wait = setTimeout(filter, 150);
  });
}

function startMessages() {
  startFilters();
  const heads = COLUMNS.map((column) => {
    const button = element("button", { type: "button", onclick: () => sortBy(column.name, sorted.by === column.name ? -sorted.way : 1) }, column.head, element("span", { "aria-hidden": "true" }));
    return element("div", { role: "columnheader", class: column.class === "right" ? "right" : "", "data-name": column.name }, button);
  });
  byId("heads").append(element("div", { role: "row", class: "row", "aria-rowindex": 1 }, ...heads));
  const room = byId("messages");
  let isFilling = false;
  room.addEventListener("scroll", () => {
    if (isFilling) return;
    isFilling = true;
    requestAnimationFrame(() => {
      isFilling = false;
      fill();
    });
  });
  room.addEventListener("keydown", onKey);
  byId("rows").addEventListener("click", (event) => {
    const row = event.target.closest("[data-index]");
    if (!row) return;
    active = Number(row.dataset.index);
    open(active, false);
    fill();
  });
  sort();
}

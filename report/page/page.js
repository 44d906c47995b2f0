// The page: its head, the summary, the message that is open, and what happens when its size or colours change.

const NARROW = window.matchMedia("(max-width: 999px)");

function startHead() {
  byId("title").textContent = report.title;
  document.title = `${report.title} – J1939 report`;
  const { counts } = report;
  const words = [];
  if (counts.lines !== undefined) words.push(plural(counts.lines, "line"), plural(counts.frames, "frame"));
  const start = dated(base + BigInt(Math.trunc(whole.from)));
  if (isTimed && counts.frames) words.push(`${duration(Math.round(whole.to - whole.from))}${start ? ` from ${start}` : ""}`);
  const strays = ["packets", "windows", "acknowledgements"].filter((it) => counts[`stray ${it}`]).map((it) => `${count(counts[`stray ${it}`])} ${it}`);
  if (strays.length) words.push(`of no message: ${strays.join(", ")}`);
  if (report.chosen.length) words.push(`chosen by ${report.chosen.join(" ")}`);
  byId("about").textContent = words.join(" · ");
  const endings = ENDINGS.map((kind, at) => [kind, kind, messages.reduce((sum, it) => sum + (it[KIND] === at), 0)]);
  const again = messages.reduce((sum, it) => sum + it[AGAIN], 0);
  endings.push(["again", `${again === 1 ? "packet" : "packets"} asked for again`, again]);
  byId("endings").replaceChildren(...endings.map(([kind, said, number]) => element("li", { "data-kind": kind }, sign(kind), element("span", {}, element("b", {}, count(number)), ` ${said}`))));
  byId("footer").textContent = `Made by j1939-report ${report.version} of ${report.logs.join(" ")}. Addresses and PGNs are hexadecimal. A frame of N bytes counts as 67 + 8 N bits, or 47 + 8 N if its identifier has 11; stuff bits aren't counted.`;
}

// What the page lacks of the log.
function startNotes() {
  const made = [];
  if (!report.isWhole) made.push("The log was not read to its end: this page has what came before.");
  made.push(...report.faults);
  if (report.wrongCount) made.push(`${plural(report.wrongCount, "line")} of the log ${report.wrongCount === 1 ? "is" : "are"} wrong: ${report.wrong.slice(0, 12).map(count).join(", ")}${report.wrongCount > 12 ? " .." : ""}.`);
  if (report.leftOut) made.push(`This page holds the first ${count(report.held)} of ${plural(report.held + report.leftOut, "message")}; the table of what came counts all. --pgn, --from and --to choose others.`);
  if (report.isWhole && report.counts.lines === 0) made.push("The log is empty.");
  else if (report.isWhole && report.counts.lines === report.counts.passed) made.push("Every line of the log was passed over: its form is another one than that of candump.");
  const long = gaps.length + report.load.moreGaps;
  if (long) made.push(`${plural(long, "gap")} of a second or longer, in which an interface has no frame; the longest is ${duration(lastOf(gaps, (it) => it.micros))}.`);
  byId("notes").replaceChildren(...made.map((it) => element("p", { class: "note" }, it)));
}

const SUMMARY = ["interface", "PGN", "from", "to", "given", "bytes", "mean", "longest", "again", "share", "not given"];

function summaryRow(row) {
  const [iface, group, from, to, given, bytes, mean, longest, again, share, aborts, losses] = row;
  const choose = element("button", { type: "button", "aria-label": `Messages of PGN ${pgn(group)} from ${address(from)} to ${target(to)} on ${report.interfaces[iface]}`, onclick: () => showOnly(iface, group, from, to) }, pgn(group));
  const text = (value, name) => element("td", { class: name }, value);
  const why = [
    ...Object.entries(aborts).map(([reason, times]) => ["aborted", `${count(times)} × reason ${reason}`, REASONS[reason]]),
    ...Object.entries(losses).map(([cause, times]) => ["lost", `${count(times)} × ${cause}`, CAUSES[cause]]),
  ].map(([kind, said, title]) => element("span", { title }, sign(kind), said));
  return element("tr", {}, text(report.interfaces[iface], "text"), element("td", { class: "text" }, choose), text(address(from), "text code"), text(target(to), "text code"), text(count(given)), text(count(bytes)), text(given ? duration(mean) : ""), text(given ? duration(longest) : ""), text(count(again)), text(`${(share / 10).toFixed(1)} %`), element("td", { class: "text why" }, ...why));
}

function showOnly(iface, group, from, to) {
  byId("filters").reset();
  [["by-interface", iface], ["by-pgn", group], ["by-from", from], ["by-to", to]].forEach(([id, value]) => { byId(id).value = value; });
  setTimeout(() => {
    filter();
    byId("messages").focus();
    byId("messages-heading").scrollIntoView({ block: "start" });
  });
}

function startSummary() {
  const heads = SUMMARY.map((name, at) => element("th", { scope: "col", class: at < 4 || at === 10 ? "text" : undefined }, name));
  const some = report.rows.slice(0, 2000);
  byId("summary").replaceChildren(element("thead", {}, element("tr", {}, ...heads)), element("tbody", {}, ...some.map(summaryRow)));
  const more = report.rows.length - some.length + report.moreRows;
  byId("summary-more").textContent = report.rows.length ? (more ? `${plural(more, "row")} more are left out; j1939bus decode --summary --quiet prints all.` : "") : report.isWhole ? "There is no row, since there is no message." : "There is no table, since the log was not read to its end.";
}

// The bytes, sixteen or eight to a line, each line with its place and its characters.
function dump(data, place, wide) {
  const pre = element("pre", { tabindex: 0, "aria-label": "Bytes" });
  for (let at = 0; at < data.length; at += 2 * wide) {
    const part = data.slice(at, at + 2 * wide).match(/../g);
    const characters = part.map((it) => (it >= "20" && it <= "7E" ? String.fromCharCode(parseInt(it, 16)) : "·")).join("");
    pre.append(element("i", {}, hex(place + at / 2, 4)), `  ${part.join(" ").padEnd(3 * wide - 1)}  `, element("i", {}, `${characters}\n`));
  }
  return pre;
}

function bytesOf(it, width) {
  const wide = width >= 540 ? 16 : 8;
  if (!it[HEAD]) return [element("p", { class: "quiet" }, it[KIND] === 0 ? "none" : "Only a message that is given has bytes here.")];
  if (!it[TAIL]) return [dump(it[HEAD], 0, wide)];
  const end = it[LENGTH] - it[TAIL].length / 2;
  return [dump(it[HEAD], 0, wide), element("p", { class: "quiet" }, `${plural(end - it[HEAD].length / 2, "byte")} between are left out.`), dump(it[TAIL], end, wide)];
}

function facts(it) {
  const at = (time, number) => (isTimed ? `${seconds(since(time))} s, frame ${count(number)}` : `frame ${count(number)}`);
  const made = [["Interface", named(it)], ["First frame", at(it[START], it[FIRST])], ["Last frame", at(it[END], it[LAST])]];
  const start = dated(base + BigInt(Math.trunc(it[START])));
  if (start) made.push(["Date", start]);
  if (it[LENGTH] >= 0) made.push(["Length", plural(it[LENGTH], "byte")]);
  made.push(["Asked for again", plural(it[AGAIN], "packet")]);
  return element("dl", {}, ...made.flatMap(([name, value]) => [element("dt", {}, name), element("dd", {}, value)]));
}

// Shows the message that is open; what has the focus there keeps it.
let shownWidth = 0;
function showMessage() {
  const it = messages[opened];
  const room = byId("message");
  const had = room.contains(document.activeElement) ? document.activeElement.id : "";
  shownWidth = room.clientWidth;
  const style = getComputedStyle(room);
  const width = Math.max(260, room.clientWidth - parseFloat(style.paddingLeft) - parseFloat(style.paddingRight));
  const place = placeOf(opened);
  const step = (by, said, words) => element("button", { type: "button", id: by < 0 ? "before" : "behind", "aria-label": said, title: said, disabled: place < 0 || place + by < 0 || place + by >= order.length, onclick: () => follow(by) }, words);
  const buttons = element("div", { class: "buttons" }, step(-1, "Message before", "↑"), step(1, "Next message", "↓"), element("button", { type: "button", id: "close", onclick: close }, "Close"));
  const title = element("h2", { id: "message-title", tabindex: -1 }, `${address(it[FROM])} → ${target(it[TO])}, PGN ${pgn(it[PGN])}`);
  const said = it[KIND] === 0 ? `given: ${plural(it[LENGTH], "byte")} in ${took(it)}` : ending(it);
  room.replaceChildren(element("div", { class: "bar" }, element("div", {}, title, element("p", { class: "said" }, sign(ENDINGS[it[KIND]]), said)), buttons), facts(it), element("h3", {}, "Frames"), ...sequence(it, width));
  room.append(element("p", { class: "quiet" }, "Between frames stand the packets that were announced or asked for."));
  if (it[MEANING].length) room.append(element("h3", {}, "Meaning"), element("ul", { class: "meaning" }, ...it[MEANING].map((line) => element("li", {}, line))));
  room.append(element("h3", {}, "Bytes"), ...bytesOf(it, width));
  if (had) byId(byId(had) && !byId(had).disabled ? had : "message-title").focus();
}

// Puts the message that is open behind the page's name, once no other follows at once: browsers refuse to do so often.
let placing = 0;
function place() {
  clearTimeout(placing);
  placing = setTimeout(() => {
    try {
      history.replaceState(null, "", opened < 0 ? "#" : `#message-${opened + 1}`);
    } catch (refused) {
      // The page does without: its name then leads to no message.
    }
  }, 400);
}

// Opens a message beside the table, or over it where there is no room beside.
function open(index, isFocused) {
  const isOther = opened !== index;
  opened = index;
  byId("message").hidden = false;
  document.body.classList.add("open");
  byId("main").inert = NARROW.matches;
  showMessage();
  if (isOther) byId("message").scrollTop = 0;
  if (isFocused || NARROW.matches) byId("message-title").focus();
  place();
  fill();
  redraw();
}

function close() {
  if (opened < 0) return;
  active = opened;
  opened = -1;
  byId("message").hidden = true;
  document.body.classList.remove("open");
  byId("main").inert = false;
  place();
  byId("messages").focus({ preventScroll: true });
  fill();
  redraw();
}

// Goes on to a message above or below in the table.
function follow(by) {
  const to = placeOf(opened) + by;
  if (to < 0 || to >= order.length) return;
  activate(to);
}

function layOut() {
  const isNow = byId("messages").clientWidth < 640;
  if (isNow !== isStacked) {
    isStacked = isNow;
    document.body.classList.toggle("stacked", isStacked);
  }
  fill();
  redraw();
}

function start() {
  readColours();
  startHead();
  startNotes();
  startTimeline();
  startLoads();
  startSummary();
  startMessages();
  look(whole.from, whole.to);
  new ResizeObserver(layOut).observe(byId("messages"));
  new ResizeObserver(() => {
    if (opened >= 0 && byId("message").clientWidth !== shownWidth) showMessage();
  }).observe(byId("message"));
  NARROW.addEventListener("change", () => { byId("main").inert = opened >= 0 && NARROW.matches; });
  window.matchMedia("(prefers-color-scheme: dark)").addEventListener("change", () => {
    readColours();
    redraw();
  });
  document.addEventListener("keydown", (event) => {
    if (event.key === "Escape") close();
  });
  const wanted = /^#message-(\d+)$/.exec(location.hash);
  if (wanted && messages[Number(wanted[1]) - 1]) open(Number(wanted[1]) - 1, false);
}

start();

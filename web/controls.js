"use strict";
// The controls: what is sent, and what is shown of what the calls left.

const find = (id) => document.getElementById(id);
const element = (name, text, of) => {
  const made = document.createElement(name);
  if (text !== undefined) made.textContent = text;
  if (of) made.className = of;
  return made;
};

class Page {
  constructor(module, font) {
    this.bay = new Terminal(module);
    this.scratch = new Terminal(module);
    this.font = font;
    this.glasses = Object.fromEntries(["glass", "kept", "now", "screen1", "screen2"].map((id) => [id, new Glass(find(id), font)]));
    this.kept = null;
    this.line = { bytes: new Uint8Array(), next: 0, timer: null };
    Object.assign(this, { before: [], records: [], items: [], printed: new Uint8Array(), room: LONGEST.room, said: "" });
    this.open(1);
    this.before = [];
  }

  // ---- calls: each is remembered, so that it can be undone and linked ----

  open(rule, { quiet = false } = {}) {
    this.stop();
    this.begin({ kind: "opening", body: Uint8Array.of(rule) });
    this.line = { bytes: new Uint8Array(), next: 0, timer: null };
    this.lineSaid();
    Object.assign(this, { records: this.records.slice(-1), items: [], printed: new Uint8Array(), room: LONGEST.room });
    const number = this.bay.opening(rule);
    this.finish({ said: number ? this.refusalText(number, 0) : `Open, by rule ${rule}.`, quiet });
    return number;
  }

  begin(record) {
    const { records, items, printed, room, said, line } = this;
    this.before = [...this.before.slice(-499), { state: this.bay.state(), kept: { records, items, printed, room, said, line: { ...line, timer: null } } }];
    // what a stream brings is one record, however it came
    const last = this.records.at(-1);
    const joined = record.kind === "piece" && last?.kind === "piece" && last.body.length + record.body.length <= LONGEST.message;
    this.records = joined
      ? [...this.records.slice(0, -1), { kind: "piece", body: Uint8Array.from([...last.body, ...record.body]) }]
      : [...this.records, record];
  }

  // A record served; its answer is given back.
  serve(record, { quiet = false } = {}) {
    const { kind, body } = record;
    if (kind === "opening") return this.open(body[0], { quiet });
    const before = this.bay.state();
    this.begin(record);
    if (kind === "room") {
      this.room = body[0] + 256 * body[1];
      return this.finish({ said: `Printer room ${this.room}.`, quiet });
    }
    const answer = kind === "keyText" ? this.bay.keyText(body[0], body.slice(1)) : kind === "closing"
      ? this.bay.closing() : this.bay[kind](body, Math.min(this.room, LONGEST.room));
    this.printed = Uint8Array.from([...this.printed, ...answer.copy]);
    if (answer.number === 0) this.items = [...this.items, ...this.itemsOf(before, record)].slice(-2000);
    this.finish({ said: this.answerText(kind, answer), quiet });
    return answer;
  }

  finish({ said, quiet }) {
    this.said = said;
    if (!quiet) this.show();
  }

  undo() {
    const last = this.before.pop();
    if (!last) return;
    this.stop();
    this.bay.take(last.state);
    Object.assign(this, last.kept, { said: `Undone. ${last.kept.said}` });
    this.lineSaid();
    this.show();
  }

  // ---- items: what was read, told by the calls themselves, byte by byte on a second terminal ----

  itemsOf(before, { kind, body }) {
    this.scratch.take(before);
    const waits = [...settingsOf(before.settings).waiting];
    if (kind === "closing") return this.closed(waits, this.scratch.settings.count - waits.length);
    if (kind === "pack") return this.bodies(before, body);
    if (!["message", "short", "piece"].includes(kind)) return [];
    const start = kind === "piece" ? this.scratch.settings.count - waits.length : 0;
    const items = this.readBy(body, waits, start);
    if (kind === "piece") return items;
    const left = [...this.scratch.settings.waiting];
    return left.length ? [...items, ...this.closed(left, body.length - left.length)] : items;
  }

  readBy(bytes, waits, start) {
    const items = [];
    let [held, at, printed] = [waits, start, 0];
    for (const byte of bytes) {
      const answer = this.scratch.piece([byte], Math.max(0, Math.min(this.room, LONGEST.room) - printed));
      printed += answer.printed;
      held = [...held, byte];
      if (this.scratch.settings.held > 0) continue; // an item that goes on
      items.push({ at, bytes: held, ...outcome(answer) });
      at += held.length;
      held = [];
    }
    return items;
  }

  closed(waits, at) {
    const answer = this.scratch.closing();
    return waits.length ? [{ at, bytes: waits, ...outcome(answer) }] : [];
  }

  bodies(before, pack) {
    return recordsOf(pack).flatMap((record) => {
      const items = this.itemsOf(before, record);
      this.scratch.take(before);
      this.scratch.message(record.body);
      before = this.scratch.state();
      return items;
    });
  }

  // ---- words ----

  refusalText(number, parameter) {
    const [means, look] = REFUSED[number] ?? ["", ""];
    return `Refused by ${number}${parameter ? `, parameter ${parameter}` : ""}: ${means}. Look at: ${look}.`;
  }

  answerText(kind, answer) {
    if (answer.number) return `The whole call was ${this.refusalText(answer.number, 0).replace("Refused", "refused")}`;
    const sequences = `${answer.accepted} sequence${answer.accepted === 1 ? "" : "s"} accepted, ${answer.refused} refused`;
    const first = answer.refused ? ` First, at byte ${answer.offset}: ${this.refusalText(answer.first, answer.parameter)}` : "";
    return `${{ piece: "Piece", closing: "Closing", short: "Short message", keyText: "Key text", pack: "Pack" }[kind] ?? "Message"} served: ` +
      `${answer.taken} bytes taken, ${sequences}${answer.printed ? `, ${answer.printed} bytes printed` : ""}.${first}`;
  }

  // ---- what is shown ----

  show() {
    const state = this.bay.state();
    const settings = settingsOf(state.settings);
    this.drawn("glass", state);
    this.showCursor(state, settings);
    find("said").textContent = this.said;
    find("undo").disabled = this.before.length === 0;
    find("rows-text").textContent = rowsText(state.shown).join("\n");
    find("standing").textContent = standing(state, this.printed);
    find("waits").textContent = settings.held
      ? `${settings.held} of the stream: ${[...settings.waiting].join(", ")}. ${settings.count} bytes came so far.`
      : `Nothing waits. ${settings.count} bytes of the stream came so far.`;
    this.showItems();
    this.showSettings(settings);
    this.showScreens(state, settings);
    this.showPrinted();
    this.showTwo(state);
    this.judge();
    this.remember();
  }

  drawn(id, state) {
    const settings = settingsOf(state.settings);
    this.glasses[id].draw({ codes: state.shown, width: 80, patterns: settings.patterns, dots: settings.mode === 3 ? state.dots : null });
  }

  showCursor(state, settings) {
    const at = settings.cursor ? this.scratch.cursorPlace(state) : -1;
    const cursor = find("cursor");
    cursor.hidden = at < 0;
    cursor.style.left = `${(at % 80) * 1.25}%`;
    cursor.style.top = `${Math.floor(at / 80) * 12.5}%`;
    cursor.className = [settings.kind < 2 ? "block" : "underline", settings.kind % 2 ? "" : "blinking"].join(" ").trim();
  }

  showItems() {
    const rows = joinedRuns(this.items).slice(-100).map((item) => {
      const row = element("tr");
      const bytes = element("td", undefined, "bytes");
      item.bytes.forEach((byte, i) => {
        const bad = item.refused && (item.parameter ? i === item.parameter + 1 : i === 1 && item.number === 10);
        bytes.append(i ? " " : "", bad ? element("mark", byte) : String(byte));
      });
      const told = item.refused ? `✗ ${this.refusalText(item.number, item.parameter)}` : item.accepted ? "✓ accepted" : "";
      row.append(element("td", item.at), bytes, element("td", item.words), element("td", told));
      return row;
    });
    find("items").replaceChildren(...rows.reverse());
    const refused = this.items.filter((item) => item.refused).length;
    find("items-said").textContent = `${this.items.length} items, ${refused} refused; the last first.`;
  }

  showSettings(settings) {
    find("settings").replaceChildren(...Object.keys(SETTING_WORDS).map((name) => {
      const row = element("tr");
      const value = settings[name];
      row.append(element("td", name), element("td", value.length === undefined ? value : [...value].join(" ")), element("td", SETTING_WORDS[name]));
      return row;
    }));
  }

  showScreens(state, settings) {
    if (!find("screens-part").open) return;
    const high = (settings.mode === 1 ? 2 : 1) * (settings.display === 1 ? 8 : 7);
    let start = 0;
    for (const nth of [1, 2]) {
      const [lines, columns] = [settings[`lines${nth}`], settings[`columns${nth}`]];
      const [line, column, top] = [settings[`line${nth}`], settings[`column${nth}`], settings[`top${nth}`]];
      const glass = this.glasses[`screen${nth}`];
      glass.canvas.hidden = lines === 0;
      const chosen = settings.selected === nth - 1 ? ", selected" : "";
      find(`screen${nth}-said`).textContent = lines === 0 ? `Screen ${nth}: none in mode 3.` : `Screen ${nth}${chosen}: ${lines} lines of ${columns}; ` +
        `framed the window, lines ${top} to ${top + high - 1}, and the cursor, line ${line}, column ${column}.`;
      if (lines === 0) continue;
      glass.canvas.style.width = `${(48 * columns) / 80}rem`;
      glass.draw({ codes: state.cells.slice(start, start + lines * columns), width: columns, patterns: settings.patterns });
      glass.frame(0, top - 1, columns, high);
      glass.frame(column - 1, line - 1, 1, 1);
      start += lines * columns;
    }
  }

  showPrinted() {
    const { printed } = this;
    find("save").disabled = printed.length === 0;
    const text = printed.every((byte) => byte >= 32 || byte === 13 || byte === 10);
    find("printed-said").textContent = printed.length ? `${printed.length} bytes were printed.` : "Nothing was printed.";
    find("printed").hidden = printed.length === 0;
    find("printed").textContent = text ? Array.from(printed, (byte) => (byte === 13 ? "" : byte < 127 ? String.fromCharCode(byte) : "·")).join("")
      : `${written(printed.slice(0, 240), "hexadecimal")}${printed.length > 240 ? " .." : ""}`;
  }

  showTwo(state) {
    for (const id of ["kept-frame", "now-frame"]) find(id).hidden = !this.kept;
    if (!this.kept || !find("two-part").open) return;
    const places = this.scratch.compare(this.kept.shown, state.shown);
    for (const [id, side] of [["kept", this.kept], ["now", state]]) {
      this.drawn(id, side);
      for (const [row, column] of places) this.glasses[id].frame(column - 1, row - 1, 1, 1);
    }
    find("differences").replaceChildren(...places.slice(0, 640).map((place) => {
      const row = element("tr");
      row.append(...place.map((value, i) => element("td", i < 2 ? value : `${value}${value > 32 && value < 127 ? ` ${String.fromCharCode(value)}` : ""}`)));
      return row;
    }));
    const [one, other] = [settingsOf(this.kept.settings), settingsOf(state.settings)];
    const names = Object.keys(one).filter((name) => String(one[name]) !== String(other[name]));
    find("two-said").textContent = places.length ? `${places.length} places differ, framed on both.` : "No place of the shown screens differs.";
    find("settings-differ").textContent = names.length ? `Settings that differ: ${names.join(", ")}.` : "No setting differs.";
  }

  // ---- a sequence by its name ----

  chosen() {
    const [second, , parameters, mode] = SEQUENCES[find("sequence").value || 0];
    const given = parameters.map((_, i) => Number(find(`parameter-${i}`)?.value));
    return { second, given: mode === undefined ? given : [mode, ...given] };
  }

  askParameters() {
    const [, , parameters] = SEQUENCES[find("sequence").value || 0];
    find("parameters").replaceChildren(...parameters.map(([name, value], i) => {
      const label = element("label", name);
      const input = Object.assign(element("input"), { type: "number", min: 0, max: 255, value, id: `parameter-${i}` });
      input.addEventListener("input", () => this.judge());
      label.append(input);
      return label;
    }));
    this.judge();
  }

  // Judged by the call that writes sequences, under the settings that stand.
  judge() {
    const { second, given } = this.chosen();
    const put = find("put");
    put.disabled = true;
    if (given.some((byte) => !Number.isInteger(byte) || byte < 0 || byte > 255)) {
      find("judged").textContent = "Each parameter is a byte, 0 to 255.";
      return null;
    }
    this.scratch.take(this.bay.state());
    const answer = this.scratch.write(second, given);
    put.disabled = answer.number !== 0;
    find("judged").textContent = answer.number ? `✗ Not written. ${this.refusalText(answer.number, answer.parameter)}` : `✓ ${[...answer.bytes].join(", ")}`;
    return answer.number ? null : answer.bytes;
  }

  put() {
    const bytes = this.judge();
    if (!bytes) return;
    const writing = find("writing").value;
    const field = find("bytes");
    field.value += (writing === "text" || !field.value.trim() ? "" : " ") + written(bytes, writing);
    this.typed();
  }

  // ---- what is typed ----

  // The bytes in the field, or none with the reason beside it; the field itself is never altered.
  given() {
    try {
      const bytes = bytesOf(find("bytes").value, find("writing").value);
      if (find("what").value === "recording") {
        const records = recordsOf(bytes);
        find("read").textContent = `A recording of ${records.length} records.`;
        return { records };
      }
      find("read").textContent = `${bytes.length} bytes.`;
      return { bytes };
    } catch (error) {
      find("read").textContent = `✗ Not understood, nothing was sent. ${error.message}`;
      return null;
    }
  }

  typed() {
    const recording = find("what").value === "recording";
    for (const id of ["message", "short", "start", "step"]) find(id).disabled = recording;
    find("play").hidden = !recording;
    this.given();
    this.remember();
  }

  send(kind) {
    const given = this.given();
    if (given?.bytes) this.serve({ kind, body: given.bytes });
  }

  play() {
    const given = this.given();
    for (const record of given?.records ?? []) this.serve(record, { quiet: true });
    if (given) this.show();
  }

  // A link holds what was sent; what is typed is kept beside it. The address is written a little later: a browser
  // takes only so many addresses a second.
  remember() {
    find("link").value = `${location.href.split("#")[0]}#${linkOf(this.records)}`;
    this.later ??= setTimeout(() => this.keep(), 200);
  }

  keep() {
    clearTimeout(this.later);
    this.later = undefined;
    history.replaceState(null, "", find("link").value);
    try {
      localStorage.setItem("px8", JSON.stringify(["bytes", "writing", "what"].map((id) => find(id).value)));
    } catch { /* no place to keep it: the link has what was sent */ }
  }

  // A link's records; one that is damaged says so and plays nothing.
  follow(word) {
    if (!word) return;
    try {
      const records = linked(word);
      for (const record of records) this.serve(record, { quiet: true });
      this.show();
    } catch (error) {
      this.said = `The link was not understood, nothing was played. ${error.message}`;
      this.show();
    }
  }

  // ---- the line ----

  start() {
    const given = this.given();
    if (!given?.bytes) return;
    if (this.line.next >= this.line.bytes.length) Object.assign(this.line, { bytes: given.bytes, next: 0 });
    this.go();
  }

  go() {
    this.stop();
    const { line } = this;
    const begun = performance.now();
    const from = line.next;
    line.timer = setInterval(() => {
      // ten bits a byte: a start bit, eight, a stop bit
      const speed = Number(find("speed").value);
      const due = Math.min(from + Math.floor(((performance.now() - begun) * speed) / 10000), line.bytes.length);
      if (line.next >= due) return;
      // a slow line is watched byte by byte, however late the browser is
      const until = speed <= 600 ? line.next + 1 : due;
      while (line.next < until) this.bring();
      this.show();
      this.lineSaid();
      if (line.next >= line.bytes.length) this.stop();
    }, 10);
    this.lineSaid();
  }

  bring() {
    const { line } = this;
    this.serve({ kind: "piece", body: line.bytes.slice(line.next, line.next + 1) }, { quiet: true });
    line.next += 1; // behind the call, which remembers where the line stood
  }

  step() {
    this.stop();
    const { line } = this;
    if (line.next >= line.bytes.length) {
      const given = this.given();
      if (!given?.bytes?.length) return;
      Object.assign(line, { bytes: given.bytes, next: 0 });
    }
    this.bring();
    this.show();
    this.lineSaid();
  }

  stop() {
    clearInterval(this.line.timer);
    this.line.timer = null;
    this.lineSaid();
  }

  lineSaid() {
    const { bytes, next, timer } = this.line;
    const left = bytes.length - next;
    find("pause").disabled = timer === null;
    find("start").textContent = timer === null && left > 0 ? "Go on" : "Start";
    const coming = left > 0 ? ` Next: ${[...bytes.slice(next, next + 12)].join(" ")}${left > 12 ? " .." : ""}` : "";
    find("line").textContent = bytes.length ? `${next} of ${bytes.length} bytes came${timer === null && left ? "; paused" : ""}.${coming}` : "No byte is on the line.";
  }

  // The fitter's first minute: a load drawn as the scale sends it, until it stands still.
  weigh() {
    this.open(Number(find("rule").value));
    const loads = [" 4,200", "11,900", "23,750", "31,600", "37,900", "38,500"];
    const load = `\x1b*GROSS\x1b=!+kg${loads.map((weight) => `\x1b=!$${weight}`).join("")}`;
    find("writing").value = "text";
    find("what").value = "bytes";
    find("bytes").value = written(Uint8Array.from(load, (letter) => letter.charCodeAt(0)), "text");
    find("speed").value = "300";
    this.typed();
    this.start();
  }
}

function outcome(answer) {
  return { accepted: answer.accepted > 0, refused: answer.refused > 0, number: answer.first, parameter: answer.parameter };
}

// Characters printed one behind another are one row.
function joinedRuns(items) {
  const rows = [];
  for (const item of items) {
    const plain = item.bytes[0] > 32 && item.bytes[0] < 127 && item.bytes[0] !== 27;
    const last = rows.at(-1);
    if (plain && last?.plain && last.at + last.bytes.length === item.at) {
      last.bytes.push(...item.bytes);
      last.words = `prints ${String.fromCharCode(...last.bytes)}`;
    } else rows.push({ ...item, bytes: [...item.bytes], plain, words: wordsOf(item.bytes) });
  }
  return rows;
}

// What was typed last time.
function recall() {
  try {
    const kept = JSON.parse(localStorage.getItem("px8"));
    ["bytes", "writing", "what"].forEach((id, i) => { if (kept) find(id).value = kept[i]; });
  } catch { /* nothing was kept */ }
}

function saved(bytes, name) {
  const link = Object.assign(element("a"), { href: URL.createObjectURL(new Blob([bytes])), download: name });
  link.click();
  URL.revokeObjectURL(link.href);
}

function wire(page) {
  const on = (id, event, act) => find(id).addEventListener(event, act);
  SEQUENCES.forEach(([second, name], i) => find("sequence").append(Object.assign(element("option", `${name} (${second})`), { value: i })));
  on("sequence", "change", () => page.askParameters());
  on("put", "click", () => page.put());
  on("weigh", "click", () => page.weigh());
  on("open", "click", () => page.open(Number(find("rule").value)));
  on("undo", "click", () => page.undo());
  on("message", "click", () => page.send("message"));
  on("short", "click", () => page.send("short"));
  on("play", "click", () => page.play());
  on("start", "click", () => page.start());
  on("pause", "click", () => page.stop());
  on("step", "click", () => page.step());
  on("close", "click", () => { page.stop(); page.serve({ kind: "closing", body: new Uint8Array() }); });
  on("set-key", "click", () => page.serve({ kind: "keyText", body: Uint8Array.from([Number(find("key").value), ...escaped(find("key-text").value)]) }));
  on("keep", "click", () => { page.kept = page.bay.state(); page.show(); });
  on("save", "click", () => saved(page.printed, "copy.prn"));
  on("copy-link", "click", () => { find("link").select(); navigator.clipboard?.writeText(find("link").value); });
  for (const id of ["bytes", "writing", "what"]) on(id, "input", () => page.typed());
  for (const id of ["screens-part", "two-part"]) on(id, "toggle", () => page.show());
  on("file", "change", async (event) => {
    const [file] = event.target.files;
    if (!file) return;
    find("writing").value = "hexadecimal";
    find("bytes").value = written(new Uint8Array(await file.arrayBuffer()), "hexadecimal");
    page.typed();
  });
  addEventListener("pagehide", () => page.keep());
  matchMedia("(prefers-color-scheme: dark)").addEventListener("change", () => page.show());
}

// Begins; a module that does not load says so, and what was typed stays.
async function begin(module, font) {
  try {
    const word = location.hash.slice(1);
    recall();
    window.page = new Page(await loaded(Uint8Array.from(atob(module), (letter) => letter.charCodeAt(0))), fontOf(font));
    wire(window.page);
    window.page.askParameters();
    window.page.typed();
    window.page.follow(word);
    find("made").textContent = `px8.wasm, ${Math.round((module.length * 3) / 4)} bytes, is in this page.`;
  } catch (error) {
    find("trouble").hidden = false;
    find("trouble").textContent = `The proved module did not load, and nothing is shown in its place. ${error.message}`;
    find("main").hidden = true;
  }
}

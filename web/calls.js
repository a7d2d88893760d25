"use strict";
// The call layer: the calls of c/px8.h, as px8.wasm exports them, on plain byte arrays. It works out nothing: what a
// call answers and leaves is read from the memory that was lent to it, by the offsets that px8.h asserts.

const SIZE = { settings: 408, cells: 3840, layer: 1280, shown: 640, dots: 3840 };
const STATE = Object.keys(SIZE);
const STORES = ["cells", "layer", "shown", "dots"];
const LONGEST = { message: 4096, pack: 60000, room: 65536 };

// Name, offset and, for more than one byte, how many; by rows as px8.h has them.
const FIELDS = [
  ["marks", 0, 16],
  ["mode", 16], ["lines1", 17], ["lines2", 18], ["columns1", 19], ["columns2", 20], ["boundary", 21], ["selected", 22],
  ["line1", 23], ["column1", 24], ["top1", 25], ["late1", 26], ["line2", 27], ["column2", 28], ["top2", 29],
  ["late2", 30], ["tracking", 31], ["step", 32], ["secret", 33], ["cursor", 34], ["display", 35], ["kind", 36],
  ["leds", 37, 3], ["charset", 40], ["strings", 41], ["repeat", 42], ["delay", 43], ["interval", 44], ["shift", 45],
  ["arrows", 46, 12], ["rule", 58], ["patterns", 59, 248], ["held", 307], ["waiting", 308, 12], ["texts", 324, 80],
];
const COUNT_AT = 320;

// The settings by name; `waiting` is what waits, and no more.
function settingsOf(bytes) {
  const settings = {};
  for (const [name, at, many] of FIELDS) settings[name] = many ? bytes.slice(at, at + many) : bytes[at];
  settings.waiting = settings.waiting.slice(0, settings.held);
  settings.count = new DataView(bytes.buffer, bytes.byteOffset).getUint32(COUNT_AT, true);
  return settings;
}

// A terminal in the module's memory: settings and stores of its own, and room for what a call is given besides.
class Terminal {
  // Two terminals of one module do not share a byte.
  constructor(module) {
    this.module = module;
    const room = { ...SIZE, answer: 64, input: 65536, printer: LONGEST.room };
    this.at = {};
    let next = module.free;
    for (const name in room) {
      this.at[name] = next;
      next += Math.ceil(room[name] / 16) * 16;
    }
    module.free = next;
    const missing = Math.ceil((next - module.memory.buffer.byteLength) / 65536);
    if (missing > 0) module.memory.grow(missing);
  }

  bytes(name, length = SIZE[name]) {
    return new Uint8Array(this.module.memory.buffer, this.at[name], length);
  }

  // What stands, to be kept; and taken up again.
  state() {
    return Object.fromEntries(STATE.map((name) => [name, this.bytes(name).slice()]));
  }
  take(state) {
    for (const name of STATE) this.bytes(name).set(state[name]);
  }
  get settings() {
    return settingsOf(this.bytes("settings"));
  }

  call(name, ...words) {
    return this.module.calls[`px8_${name}_l2`](...words);
  }
  stores() {
    return STORES.flatMap((name) => [this.at[name], BigInt(SIZE[name])]);
  }
  given(bytes) {
    if (bytes.length > 65536) throw new RangeError("more bytes than any call takes");
    this.bytes("input", bytes.length).set(bytes);
    return [this.at.input, BigInt(bytes.length)];
  }
  answer() {
    const view = new DataView(this.module.memory.buffer, this.at.answer);
    return {
      number: view.getUint8(0), taken: view.getUint32(4, true), accepted: view.getUint32(8, true),
      refused: view.getUint32(12, true), first: view.getUint8(16), parameter: view.getUint8(17),
      offset: view.getUint32(20, true), printed: Number(view.getBigUint64(24, true)),
    };
  }

  opening(rule) {
    return this.call("opening", this.at.settings, BigInt(rule), ...this.stores());
  }
  // message, message_short, piece, pack: the answer, and the bytes printed
  read(name, bytes, room) {
    const printer = [this.at.printer, BigInt(room)];
    this.call(name, this.at.settings, this.at.answer, ...this.given(bytes), ...this.stores(), ...printer);
    const answer = this.answer();
    if (name === "pack") answer.record = new DataView(this.module.memory.buffer, this.at.answer).getUint32(32, true);
    answer.copy = this.bytes("printer", answer.printed).slice();
    return answer;
  }
  message(bytes, room = LONGEST.room) { return this.read("message", bytes, room); }
  short(bytes, room = LONGEST.room) { return this.read("message_short", bytes, room); }
  piece(bytes, room = LONGEST.room) { return this.read("piece", bytes, room); }
  pack(bytes, room = LONGEST.room) { return this.read("pack", bytes, room); }
  closing() {
    this.call("closing", this.at.settings, this.at.answer, ...this.stores());
    return { ...this.answer(), copy: new Uint8Array() };
  }
  keyText(key, text) {
    this.call("key_text", this.at.settings, this.at.answer, BigInt(key), ...this.given(text));
    return { ...this.answer(), copy: new Uint8Array() };
  }
  // A sequence written: its bytes, or the number of the refusal and the parameter.
  write(second, parameters) {
    const buffer = [this.at.printer, 64n];
    this.call("write", this.at.settings, this.at.answer, second, ...this.given(Uint8Array.from(parameters)), ...buffer, 0n);
    const view = new DataView(this.module.memory.buffer, this.at.answer);
    const place = Number(view.getBigUint64(0, true));
    return { number: view.getUint8(8), parameter: view.getUint8(9), bytes: this.bytes("printer", place).slice() };
  }
  // The places in which two shown screens differ: row, column, and the code of each.
  compare(first, second) {
    const both = new Uint8Array([...first, ...second]);
    const [at] = this.given(both);
    const half = BigInt(SIZE.shown);
    this.call("compare", this.at.answer, at, half, at + SIZE.shown, half, this.at.printer, half);
    const count = Number(new DataView(this.module.memory.buffer, this.at.answer).getBigUint64(8, true));
    const list = this.bytes("printer", 4 * count);
    return Array.from({ length: count }, (_, i) => [...list.slice(4 * i, 4 * i + 4)]);
  }

  // Where the picture shows the cursor's cell, from 0, or -1: asked of the painting, on a screen that has nothing else.
  cursorPlace(state) {
    const settings = settingsOf(state.settings);
    const second = settings.selected === 1;
    const line = second ? settings.line2 : settings.line1;
    const column = second ? settings.column2 : settings.column1;
    const columns = second ? settings.columns2 : settings.columns1;
    const start = second ? settings.lines1 * settings.columns1 : 0;
    this.take(state);
    for (const [name, at, many] of FIELDS) {
      if (["boundary", "secret", "texts"].includes(name)) this.bytes("settings").fill(0, at, at + (many ?? 1));
    }
    this.bytes("cells").fill(0)[start + columns * (line - 1) + column - 1] = 1;
    this.bytes("layer").fill(0);
    this.piece([]);
    return this.bytes("shown").indexOf(1);
  }
}

// The module from its bytes. It imports nothing.
async function loaded(bytes) {
  const { instance } = await WebAssembly.instantiate(bytes, {});
  const { memory, __heap_base, ...calls } = instance.exports;
  return { memory, calls, free: Math.ceil(__heap_base.value / 16) * 16 };
}

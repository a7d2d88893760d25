// machine.mjs MODULE: c/machine.c for WebAssembly, under node: the calls of px8.wasm for whoever sits at the other end
// of a pipe. What crosses is told there.
import { readFileSync, readSync, writeSync } from "node:fs";

const { instance } = await WebAssembly.instantiate(readFileSync(process.argv[2]), {});
const { memory, __heap_base, ...calls } = instance.exports;
const PARTS = 7;
const SETTINGS = 408;
const HEAD = 4 + 4 * PARTS + 16;
const start = Math.ceil(__heap_base.value / 16) * 16;
const at = { given: start, answer: start + 640, settings: start + 704, parts: start + 1280 };
memory.grow(20);
const bytes = Buffer.from(memory.buffer);

function read(from, length) {
  for (let came; length > 0; from += came, length -= came) {
    came = readSync(0, bytes, from, length, null);
    if (came === 0) return false;
  }
  return true;
}

function write(from, length) {
  for (let went; length > 0; from += went, length -= went) {
    try {
      went = writeSync(1, bytes, from, length);
    } catch (error) {
      if (error.code !== "EAGAIN") throw error;
      went = 0;
    }
  }
}

function makeCall(call, parts, number, place) {
  const { settings: s, answer: a } = at;
  const stores = parts.slice(2, 6).flat();
  const [input, second, , , , , last] = parts;
  const list = [last[0], last[1] / 4n];
  const name = (word) => calls[`px8_${word}_l2`];
  switch (call) {
    case 0: bytes[a] = name("opening")(s, number, ...stores); break;
    case 1: name("message")(s, a, ...input, ...stores, ...last); break;
    case 2: name("message_short")(s, a, ...input, ...stores, ...last); break;
    case 3: name("piece")(s, a, ...input, ...stores, ...last); break;
    case 4: name("closing")(s, a, ...stores); break;
    case 5: name("pack")(s, a, ...input, ...stores, ...last); break;
    case 6: name("key_text")(s, a, number, ...input); break;
    case 7: bytes.writeBigUInt64LE(name("printed")(...input, number), a); break;
    case 8: name("compare")(a, ...input, ...second, ...list); break;
    case 9: name("first_difference")(a, ...input, ...second); break;
    case 10: name("key_repeats")(s, a, ...input, ...last); break;
    default: name("write")(s, a, Number(number), ...input, ...last, place); break;
  }
}

while (read(at.given, HEAD + SETTINGS)) {
  const parts = [];
  let next = at.parts;
  for (let i = 0; i < PARTS; i++) {
    const length = bytes.readUInt32LE(at.given + 4 + 4 * i);
    parts.push([next, BigInt(length)]);
    next += length;
  }
  if (!read(at.parts, next - at.parts)) process.exit(1);
  bytes.fill(0xa5, at.answer, at.answer + 40);
  bytes.copy(bytes, at.settings, at.given + HEAD, at.given + HEAD + SETTINGS);
  const numbers = [HEAD - 16, HEAD - 8].map((place) => bytes.readBigUInt64LE(at.given + place));
  makeCall(bytes.readUInt32LE(at.given), parts, ...numbers);
  write(at.answer, 40);
  write(at.settings, SETTINGS);
  write(at.parts, next - at.parts);
}

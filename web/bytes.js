"use strict";
// Bytes as people write them, recordings, and links. What is not understood is refused with the place, never guessed.

// The bytes of a text; throws an Error that says what was not understood.
function bytesOf(text, writing) {
  return writing === "text" ? escaped(text) : numbers(text, writing === "hexadecimal" ? 16 : 10);
}

const ESCAPES = { n: 10, r: 13, t: 9, b: 8, f: 12, a: 7, v: 11, e: 27, 0: 0, "\\": 92, '"': 34, "'": 39, "?": 63 };

// C's escapes; a line's end in the text is 13, 10.
function escaped(text) {
  const bytes = [];
  for (let at = 0; at < text.length; at++) {
    const refuse = (why) => { throw new Error(`character ${at + 1}: ${why}`); };
    const letter = text[at];
    if (letter === "\n") { bytes.push(13, 10); continue; }
    if (letter !== "\\") {
      const code = text.codePointAt(at);
      if (code > 255) refuse(`${String.fromCodePoint(code)} has no code below 256; write \\x and its number`);
      bytes.push(code);
      continue;
    }
    const rest = text.slice(at + 1);
    const octal = /^[0-7]{1,3}/.exec(rest)?.[0];
    const hexadecimal = /^x([0-9a-fA-F]{1,2})/.exec(rest);
    if (hexadecimal) {
      bytes.push(parseInt(hexadecimal[1], 16));
      at += hexadecimal[0].length;
    } else if (octal) {
      if (parseInt(octal, 8) > 255) refuse(`\\${octal} is above 255`);
      bytes.push(parseInt(octal, 8));
      at += octal.length;
    } else if (rest[0] in ESCAPES) {
      bytes.push(ESCAPES[rest[0]]);
      at += 1;
    } else refuse(`\\${rest[0] ?? ""} is no escape of C's`);
  }
  return Uint8Array.from(bytes);
}

// Numbers parted by anything but letters and digits; hexadecimal ones also with 0x before or two digits after another.
function numbers(text, base) {
  const bytes = [];
  for (const { 0: word, index } of text.matchAll(/[0-9A-Za-z_]+/g)) {
    const digits = base === 16 ? word.replace(/^0[xX]/, "") : word;
    const good = base === 16 ? /^[0-9a-fA-F]+$/ : /^[0-9]+$/;
    if (!good.test(digits)) throw new Error(`character ${index + 1}: ${word} is no ${base === 16 ? "hexadecimal" : "decimal"} number`);
    const parts = base === 16 && digits.length > 2 ? digits.match(/../g) : [digits];
    if (base === 16 && digits.length > 2 && digits.length % 2) throw new Error(`character ${index + 1}: ${word} has an odd number of digits`);
    for (const part of parts) {
      const byte = parseInt(part, base);
      if (byte > 255) throw new Error(`character ${index + 1}: ${part} is above 255`);
      bytes.push(byte);
    }
  }
  return Uint8Array.from(bytes);
}

// The same bytes written by C's escapes.
function written(bytes, writing) {
  if (writing === "decimal") return [...bytes].join(", ");
  if (writing === "hexadecimal") return [...bytes].map((byte) => byte.toString(16).padStart(2, "0")).join(" ");
  const letter = (byte) => (byte === 92 ? "\\\\" : byte >= 32 && byte <= 126 ? String.fromCharCode(byte) : `\\${byte.toString(8).padStart(3, "0")}`);
  return [...bytes].map(letter).join("");
}

// ---- recordings: records of body length and kind, two bytes each, the low one first, then the body ----

const KIND = { message: 1, piece: 2, closing: 3, keyText: 4, pack: 5, short: 6, opening: 7, room: 8 };

function recordsOf(bytes) {
  const records = [];
  for (let at = 0; at < bytes.length; ) {
    const cut = () => { throw new Error(`record ${records.length + 1}, at byte ${at}, runs past the end`); };
    if (at + 4 > bytes.length) cut();
    const length = bytes[at] + 256 * bytes[at + 1];
    const kind = bytes[at + 2] + 256 * bytes[at + 3];
    if (at + 4 + length > bytes.length) cut();
    const body = bytes.slice(at + 4, at + 4 + length);
    const name = Object.keys(KIND).find((name) => KIND[name] === kind);
    const least = { keyText: [1, Infinity], opening: [1, 1], room: [2, 2], closing: [0, 0] }[name] ?? [0, Infinity];
    if (!name || length < least[0] || length > least[1]) throw new Error(`record ${records.length + 1}, at byte ${at}, is of no known kind`);
    records.push({ kind: name, body });
    at += 4 + length;
  }
  return records;
}

function recordingOf(records) {
  const bytes = [];
  for (const { kind, body } of records) bytes.push(body.length & 255, body.length >> 8, KIND[kind], 0, ...body);
  return Uint8Array.from(bytes);
}

// ---- links: a recording behind the #, in base 64 as addresses have it ----

function linkOf(records) {
  let text = "";
  for (const byte of recordingOf(records)) text += String.fromCharCode(byte);
  return btoa(text).replaceAll("+", "-").replaceAll("/", "_").replaceAll("=", "");
}

function linked(word) {
  const text = atob(word.replaceAll("-", "+").replaceAll("_", "/"));
  return recordsOf(Uint8Array.from(text, (letter) => letter.charCodeAt(0)));
}

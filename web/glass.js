"use strict";
// The glass: codes and dots that a call left, drawn dot by dot. A place is 6 dots wide and 8 high.

const DOT = 4; // pixels of a dot on the canvas
const PLACE = { width: 6, height: 8 };
const PATTERN = { first: 224, last: 254 };

// font.txt: six bands of sixteen characters side by side, from the blank on; a # is a dot.
function fontOf(text) {
  const font = new Map();
  text.trimEnd().split("\n\n").forEach((band, nth) => {
    const rows = band.split("\n");
    for (let i = 0; i < 16 && 32 + 16 * nth + i < 127; i++) {
      const bits = (row) => parseInt(row.slice(6 * i, 6 * i + 6).replaceAll(".", "0").replaceAll("#", "1"), 2);
      font.set(32 + 16 * nth + i, rows.map(bits));
    }
  });
  return font;
}

// The rows of a code, each of six bits: its pattern if ESC 224 set one, else the font's; none for any other code.
function rowsOf(code, patterns, font) {
  if (code >= PATTERN.first && code <= PATTERN.last) {
    const start = 8 * (code - PATTERN.first);
    const rows = [...patterns.slice(start, start + 8)].map((row) => row & 63);
    if (rows.some((row) => row !== 0)) return rows;
  }
  return font.get(code);
}

// Digits of 3 by 5, for the number of a code that has no picture.
const DIGITS = ["75557", "26227", "71747", "71717", "55711", "74717", "74757", "71111", "75757", "75717"];

class Glass {
  constructor(canvas, font) {
    this.canvas = canvas;
    this.font = font;
  }

  // `codes` by rows of `width`; `dots` as px8.h has them, or none.
  draw({ codes, width, patterns, dots }) {
    const height = codes.length / width;
    const { canvas } = this;
    const size = [width * PLACE.width * DOT, height * PLACE.height * DOT];
    if (canvas.width !== size[0] || canvas.height !== size[1]) [canvas.width, canvas.height] = size;
    const pen = canvas.getContext("2d", { willReadFrequently: true });
    const style = getComputedStyle(canvas);
    pen.fillStyle = style.getPropertyValue("--glass");
    pen.fillRect(0, 0, ...size);
    pen.fillStyle = style.getPropertyValue("--dot");
    codes.forEach((code, at) => this.place(pen, code, at % width, Math.floor(at / width), patterns));
    if (dots) this.dots(pen, dots);
  }

  place(pen, code, column, row, patterns) {
    const rows = rowsOf(code, patterns, this.font);
    const [left, top] = [column * PLACE.width, row * PLACE.height];
    if (!rows) return this.number(pen, code, left * DOT, top * DOT);
    rows.forEach((bits, y) => {
      for (let x = 0; x < PLACE.width; x++) if ((bits >> (5 - x)) & 1) dot(pen, left + x, top + y);
    });
  }

  // A box with the code's number in it.
  number(pen, code, left, top) {
    pen.strokeStyle = pen.fillStyle;
    pen.strokeRect(left + 0.5, top + 2.5, PLACE.width * DOT - 1, PLACE.height * DOT - 5);
    const digits = [...String(code)];
    const start = left + (PLACE.width * DOT - 8 * digits.length + 2) / 2;
    digits.forEach((digit, nth) => {
      [...DIGITS[digit]].forEach((bits, y) => {
        for (let x = 0; x < 3; x++) if ((bits >> (2 - x)) & 1) pen.fillRect(start + 8 * nth + 2 * x, top + 11 + 2 * y, 2, 2);
      });
    });
  }

  dots(pen, bytes) {
    bytes.forEach((byte, at) => {
      for (let bit = 0; byte && bit < 8; bit++) {
        if (byte & (128 >> bit)) dot(pen, 8 * (at % 60) + bit, Math.floor(at / 60));
      }
    });
  }

  // A frame around places, from 0, over what is drawn.
  frame(column, row, wide, high) {
    const pen = this.canvas.getContext("2d");
    pen.strokeStyle = getComputedStyle(this.canvas).getPropertyValue("--frame");
    pen.lineWidth = 3;
    const [x, y] = [column * PLACE.width * DOT, row * PLACE.height * DOT];
    pen.strokeRect(x + 1.5, y + 1.5, wide * PLACE.width * DOT - 3, high * PLACE.height * DOT - 3);
    pen.lineWidth = 1;
  }
}

function dot(pen, x, y) {
  pen.fillRect(x * DOT, y * DOT, DOT, DOT);
}

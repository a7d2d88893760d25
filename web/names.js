"use strict";
// What has a name: the sequences, the numbers of refusals and the settings. Names and words only: which bytes a
// sequence has and whether they are good, the calls say.

// Second byte, name, the parameters in the order in which they are sent with a value to begin with; for 208 its mode.
const SEQUENCES = [
  [61, "cursor to a place", [["line + 31", 33], ["column + 31", 36]]],
  [42, "clear the screen", []],
  [37, "print a code", [["code", 65]]],
  [84, "erase to the end of the logical line", []],
  [89, "erase to the end of the screen", []],
  [50, "cursor off", []],
  [51, "cursor on", []],
  [214, "cursor type", [["type, 0 to 3", 0]]],
  [209, "select a screen", [["0 screen 1, 1 screen 2", 1]]],
  [208, "mode 0: one screen shown, of two", [["lines of screen 1", 24], ["lines of screen 2", 24]], 0],
  [208, "mode 1: a screen in two halves", [["lines", 24]], 1],
  [208, "mode 2: both screens side by side", [["lines", 12], ["columns of screen 1", 39], ["boundary's code", 124]], 2],
  [208, "mode 3: dots", [], 3],
  [198, "line of dots", [["from: horizontal, high", 0], ["low", 10], ["vertical, high", 0], ["low", 60],
    ["to: horizontal, high", 1], ["low", 200], ["vertical, high", 0], ["low", 4], ["mask, high", 255], ["low", 255],
    ["function: 1 clears, 2 sets, 3 inverts", 2]]],
  [199, "a dot", [["1 sets, 0 clears", 1], ["vertical", 32], ["horizontal, high", 0], ["low", 240]]],
  [144, "lines up by one", [["lines above", 0], ["lines", 8]]],
  [145, "lines down by one", [["lines above", 0], ["lines", 8]]],
  [148, "step of the window", [["lines", 1]]],
  [149, "the window follows the cursor", [["0 yes, 1 no", 0]]],
  [150, "window up", []],
  [151, "window down", []],
  [212, "window to the top", []],
  [213, "window to the end", []],
  [215, "window to the cursor", []],
  [210, "cover a place", [["row", 1], ["column", 1], ["code", 42]]],
  [211, "key line", [["0 shown, 1 not", 0]]],
  [224, "pattern of a code", [["code, 224 to 254", 230], ["row 1", 12], ["row 2", 12], ["row 3", 30], ["row 4", 63],
    ["row 5", 12], ["row 6", 18], ["row 7", 0], ["row 8", 0]]],
  [123, "secret on", []],
  [125, "secret off", []],
  [80, "print a copy", []],
  [67, "character set", [["letter's code, of U F G E D W I S N", 85]]],
  [160, "INS on", []], [161, "INS off", []], [162, "CAPS on", []], [163, "CAPS off", []],
  [164, "NUM on", []], [165, "NUM off", []],
  [176, "function keys send codes", []], [177, "function keys send strings", []],
  [240, "key repeat", [["1 on, 0 off", 1]]],
  [241, "key repeat starts after", [["1/64 s", 32]]],
  [242, "key repeat every", [["1/256 s", 16]]],
  [243, "arrow keys send", [["code 1", 30], ["code 2", 31], ["code 3", 29], ["code 4", 28]]],
  [244, "arrow keys with SHIFT send", [["code 1", 0], ["code 2", 0], ["code 3", 0], ["code 4", 0]]],
  [245, "arrow keys with CTRL send", [["code 1", 0], ["code 2", 0], ["code 3", 0], ["code 4", 0]]],
  [246, "clear the key buffer", []],
  [247, "shift state", [["state", 0]]],
];

// An item in words.
function wordsOf(bytes) {
  const [first, second, ...rest] = bytes;
  if (first !== 27) return codeWords(first);
  const named = SEQUENCES.find(([code, , , mode]) => code === second && (mode === undefined || mode === rest[0]));
  if (!named) return second === undefined ? "ESC" : `ESC ${second}`;
  if (second === 61) return `cursor to line ${rest[0] - 31}, column ${rest[1] - 31}`;
  if (second === 209) return `select screen ${(rest[0] ?? 0) + 1}`;
  const given = named[3] === undefined ? rest : rest.slice(1);
  return given.length ? `${named[1]}: ${given.join(", ")}` : named[1];
}

function codeWords(code) {
  const codes = { 8: "one column back", 10: "one line down", 12: "clear the screen", 13: "to column 1" };
  if (code >= 33 && code <= 126) return `prints ${String.fromCharCode(code)}`;
  if (code >= 32) return code === 32 ? "prints a blank" : `prints code ${code}`;
  return codes[code] ?? "does nothing";
}

// Numbers of calls and of sequences: what each means, and what to look at (docs/REFUSALS.md, c/px8.h).
const REFUSED = {
  1: ["a store is not of its size", "the lengths of cells, layer, shown screen and dots"],
  2: ["longer than 4,096 bytes", "the message's or the piece's length: send a stream in pieces"],
  3: ["the settings are not sound", "where they come from: hand on what the last call left"],
  10: ["the byte after ESC is in no list; 2 bytes skipped", "that byte: an ESC too many, or a length taken wrong before it"],
  11: ["a parameter is outside its range; the sequence is skipped", "that parameter; ranges hang on the screen selected and on the mode"],
  12: ["the end comes inside the sequence; the rest skipped", "the end of the bytes: a sequence does not run on into the next message; for a line that comes in parts there is the stream"],
  13: ["a copy without room for it", "the printer room: 656 bytes a copy, in mode 3 3,840"],
  15: ["the stream would pass 1,000,000,000 bytes", "close the stream and begin anew"],
  16: ["bytes of a stream wait", "send the rest of the sequence, or close the stream"],
  17: ["not a key from 1 to 10, or not 8 bytes", "the key's number and its text"],
  19: ["longer than 60,000 bytes", "the pack's length"],
  20: ["a record runs past the end", "the lengths of the records"],
  21: ["a record of another kind than 1", "the kinds of the records"],
  22: ["no space in the buffer", "the buffer's length"],
  23: ["the rule is not 1 or 2", "the rule given to the opening"],
};

// The settings by name, with what their numbers say.
const SETTING_WORDS = {
  mode: "display mode", lines1: "lines of screen 1", lines2: "lines of screen 2", columns1: "columns of screen 1",
  columns2: "columns of screen 2", boundary: "boundary's code in mode 2", selected: "selected: 0 screen 1, 1 screen 2",
  line1: "cursor's line on screen 1", column1: "its column", top1: "first line of its window", late1: "late: 1 yes",
  line2: "cursor's line on screen 2", column2: "its column", top2: "first line of its window", late2: "late: 1 yes",
  tracking: "window follows the cursor: 1 yes", step: "step of the window", secret: "secret: 1 on", cursor: "cursor: 1 on",
  display: "key line: 0 shown", kind: "cursor's type", leds: "INS, CAPS, NUM", charset: "character set's code",
  strings: "function keys: 1 strings, 0 codes", repeat: "key repeat: 1 on", delay: "its start, 1/64 s",
  interval: "its interval, 1/256 s", shift: "shift state", arrows: "arrow codes: plain, SHIFT, CTRL",
  rule: "rule of the last column: 1 at once, 2 late", count: "bytes of the stream so far", waiting: "bytes that wait",
};

// A field by its name in the rules of px8.h: what `replay` prints of what stands, word for word.
function standing(state, printed) {
  const s = settingsOf(state.settings);
  const list = (bytes) => [...bytes].map((byte) => ` ${byte}`).join("");
  const marked = (screen, line) => (s.marks[8 * screen + ((line - 1) >> 3)] >> ((line - 1) & 7)) & 1;
  const runs = (screen) => list([...Array(48).keys()].map((at) => at + 1).filter((line) => marked(screen, line)));
  return [
    `mode ${s.mode} lines ${s.lines1} ${s.lines2} columns ${s.columns1} ${s.columns2} selected ${s.selected + 1}`,
    `screen 1 line ${s.line1} column ${s.column1} top ${s.top1}`,
    `screen 2 line ${s.line2} column ${s.column2} top ${s.top2}`,
    `tracking ${s.tracking} step ${s.step} cursor ${s.cursor} type ${s.kind} boundary ${s.boundary} secret ${s.secret} ` +
      `leds${list(s.leds)} set ${s.charset}`,
    `strings ${s.strings} display ${s.display} repeat ${s.repeat} ${s.delay} ${s.interval} shift ${s.shift}`,
    `arrows${list(s.arrows)}`,
    `stream count ${s.count} waiting${list(s.waiting)}`,
    `runs 1${runs(0)}`,
    `runs 2${runs(1)}`,
    `rule ${s.rule} flags ${s.late1} ${s.late2}`,
    `sums cells ${adler32(state.cells)} layer ${adler32(state.layer)} patterns ${adler32(s.patterns)} ` +
      `printer ${adler32(printed)} texts ${adler32(s.texts)} dots ${adler32(state.dots)}`,
    ...rowsText(state.shown).map((row, i) => `${i + 1} ${row}`.trimEnd()),
  ].join("\n");
}

function rowsText(shown) {
  const letter = (code) => (code >= 32 && code <= 126 ? String.fromCharCode(code) : ".");
  return Array.from({ length: 8 }, (_, row) => [...shown.slice(80 * row, 80 * row + 80)].map(letter).join(""));
}

function adler32(bytes) {
  let [low, high] = [1, 0];
  for (const byte of bytes) {
    low = (low + byte) % 65521;
    high = (high + low) % 65521;
  }
  return high * 65536 + low;
}

// web/test [--pictures]: the page in a real browser. What it shows of every named case is what the reference gives; a
// fitter's first minute, typing by keyboard, stepping, a link, a cut recording, a module that does not load. It needs
// target/web/px8.html (web/make), the reference's named cases (rust/target/release/vectors) and Debian's chromium, and
// fails where one is missing. With --pictures it writes those of docs/. The last line is `N passed, M failed`.
import { execFileSync } from "node:child_process";
import { existsSync, readFileSync, writeFileSync } from "node:fs";
import { join } from "node:path";
import { Browser } from "./browser.mjs";

const root = join(import.meta.dirname, "..");
const file = join(root, "target/web/px8.html");
const vectors = join(root, "rust/target/release/vectors");
let [passed, failed] = [0, 0];

function check(name, good, ...why) {
  if (good) passed += 1;
  else failed += 1;
  if (!good) console.log(`web/test: ${name} FAILED`, ...why);
}

function needed(path, how) {
  if (existsSync(path)) return;
  console.log(`web/test: no ${path.slice(root.length + 1)}: ${how}\n0 passed, 1 failed`);
  process.exit(1);
}

// ---- the named cases, by the reference ----

const output = (...words) => execFileSync(vectors, words, { maxBuffer: 1 << 30 });

// The form stands at the top of rust/compare/src/vectors.rs.
function casesOf(bytes) {
  const kinds = { 1: "message", 3: "piece", 4: "closing", 5: "keyText", 6: "opening", 7: "pack", 8: "short" };
  const cases = [];
  for (let at = 0; at < bytes.length; ) {
    const [length, kind] = [bytes.readUInt16LE(at), bytes.readUInt16LE(at + 2)];
    const body = bytes.subarray(at + 4, at + 4 + length);
    if (kind === 0) cases.push({ name: body.toString(), room: 1312, calls: [] });
    else if (kind === 2) cases.at(-1).room = body.readUInt32LE(0);
    else cases.at(-1).calls.push({ kind: kinds[kind], room: cases.at(-1).room, body: [...body] });
    at += 4 + length;
  }
  return cases;
}

function textsOf(text) {
  return text.split(/^case .*\n/m).slice(1).map((part) => part.trimEnd());
}

// In the page: a case played call by call as its buttons do, and what then is to be read and seen.
function shownOf(calls) {
  const { page } = window;
  page.open(1, { quiet: true });
  const number = (body) => Number(new DataView(Uint8Array.from(body).buffer).getBigUint64(0, true));
  const lines = calls.map(({ kind, room, body }, i) => {
    page.room = room;
    if (kind === "opening") return `${i + 1} answer ${page.bay.opening(BigInt(number(body)))}`;
    if (kind === "keyText") return `${i + 1} answer ${page.bay.keyText(new DataView(Uint8Array.from(body).buffer).getBigUint64(0, true), Uint8Array.from(body.slice(8))).number}`;
    const a = page.serve({ kind, body: Uint8Array.from(body) }, { quiet: true });
    const record = kind === "pack" ? ` record ${a.record}` : "";
    return `${i + 1} answer ${a.number} taken ${a.taken} accepted ${a.accepted} refused ${a.refused} first ${a.first} at ${a.offset} printed ${a.printed} parameter ${a.parameter}${record}`;
  });
  page.show();
  const pixels = new Uint32Array(document.getElementById("glass").getContext("2d").getImageData(0, 0, 1920, 256).data.buffer);
  const [red, green, blue] = getComputedStyle(document.getElementById("glass")).getPropertyValue("--glass").match(/[0-9a-f]{2}/g);
  const paper = parseInt(`ff${blue}${green}${red}`, 16);
  let bits = "";
  for (let y = 0; y < 256; y += 4) {
    for (let x = 1; x < 1920; x += 4) bits += pixels[1920 * (y + 1) + x] === paper ? "0" : "1";
  }
  return { text: [...lines, document.getElementById("standing").textContent].join("\n"), bits, dots: page.bay.settings.mode === 3 ? [...page.bay.bytes("dots")] : [] };
}

// The glass again, from the reference's rows and the dots whose sum the reference gave: what is drawn wrong, if anything.
function wrongDot({ bits, dots }, text, font) {
  const rows = text.split("\n").slice(-8).map((row) => row.slice(2).padEnd(80));
  const mode3 = /^mode 3 /m.test(text);
  for (let y = 0; y < 64; y++) {
    for (let x = 0; x < 480; x++) {
      const letter = rows[y >> 3][Math.floor(x / 6)];
      if (letter === ".") continue; // a full stop, or a code that the reference's text does not name
      const drawn = font[letter.charCodeAt(0) - 32][y & 7][x % 6] === "#" || (mode3 && (dots[60 * y + (x >> 3)] & (128 >> (x & 7))) !== 0);
      if (drawn !== (bits[480 * y + x] === "1")) return `dot ${x} of row ${y}`;
    }
  }
  return null;
}

// The font's picture of each character, from the blank on, without the page's help.
function fontOf() {
  const bands = readFileSync(join(import.meta.dirname, "font.txt"), "utf8").trimEnd().split("\n\n").map((band) => band.split("\n"));
  return Array.from({ length: 96 }, (_, i) => bands[i >> 4].map((row) => row.slice(6 * (i & 15), 6 * (i & 15) + 6)));
}

async function namedCases(page) {
  const cases = casesOf(output("--recording"));
  const texts = textsOf(output().toString());
  const font = fontOf();
  const modes = new Set();
  check("as many cases as texts", cases.length === texts.length && cases.length > 2000, cases.length, texts.length);
  await page.value(`window.shownOf = ${shownOf}; 0`);
  let different = 0;
  for (let from = 0; from < cases.length; from += 50) {
    const some = cases.slice(from, from + 50);
    const all = await page.value(`${JSON.stringify(some.map(({ calls }) => calls))}.map(shownOf)`);
    all.forEach((shown, i) => {
      const text = texts[from + i];
      const wrong = shown.text !== text ? firstLine(shown.text, text) : wrongDot(shown, text, font);
      if (wrong && ++different < 5) console.log(`web/test: case ${some[i].name}: ${wrong}`);
      modes.add(/^mode (\d)/m.exec(text)[1]);
    });
  }
  check(`what is shown of ${cases.length} named cases`, different === 0, different, "differ");
  check("cases end in every mode", modes.size === 4);
  console.log(`web/test: ${cases.length} named cases in modes ${[...modes].sort().join(" ")}, ${different} differ`);
}

function firstLine(shown, expected) {
  const lines = expected.split("\n");
  const at = shown.split("\n").findIndex((line, i) => line !== lines[i]);
  return `the page has "${shown.split("\n")[at]}", the reference "${lines[at]}"`;
}

// ---- what a person does ----

const click = (page, id) => page.value(`document.getElementById("${id}").click()`);
const fill = (page, id, value) =>
  page.value(`{ const field = document.getElementById("${id}"); field.value = ${JSON.stringify(value)}; field.dispatchEvent(new Event("input")); field.dispatchEvent(new Event("change")); }`);
const row = async (page, nth) => (await page.text("rows-text")).split("\n")[nth - 1].trimEnd();

async function firstMinute(page) {
  const rows = `document.getElementById("rows-text")`;
  await page.value(`window.seen = []; new MutationObserver(() => seen.push(${rows}.textContent.split("\\n")[1].trimEnd())).observe(${rows}, { childList: true })`);
  await click(page, "weigh");
  await page.until(`document.getElementById("line").textContent.startsWith("73 of 73")`, 180);
  check("the load is drawn", (await row(page, 1)) === "GROSS" && (await row(page, 2)) === "    38,500 kg", await row(page, 2));
  const seen = await page.value("seen");
  const parts = ["37,900", "37,900", "38,900", "38,900", "38,500", "38,500", "38,500"].map((part) => `    ${part} kg`);
  check("byte by byte", seen.join("|").includes(parts.join("|")), seen.slice(-12));
  check("a stream of 73 bytes", (await page.text("waits")).includes("73 bytes"), await page.text("waits"));
}

async function byKeyboard(page) {
  await click(page, "open");
  await fill(page, "bytes", "");
  await page.value(`document.getElementById("bytes").focus()`);
  await page.type("\\33*TARE \\x1b=! 12");
  check("bytes are counted while they are typed", (await page.text("read")) === "13 bytes.", await page.text("read"));
  await page.key("Tab");
  check("the next stop is the message's button", (await page.value("document.activeElement.id")) === "message");
  await page.key("Enter");
  check("what was typed is shown", (await row(page, 1)) === "TARE" && (await row(page, 2)) === "12");
  await page.until(`location.href === document.getElementById("link").value`);
  await page.ask("Page.reload");
  await page.until("window.page && performance.getEntriesByType(\"navigation\")[0].type === \"reload\"");
  check("a reload keeps what was typed", (await page.value(`document.getElementById("bytes").value`)) === "\\33*TARE \\x1b=! 12");
  check("and what was sent", (await row(page, 2)) === "12");
}

async function stepping(page) {
  await click(page, "open");
  await fill(page, "bytes", "\\x1b=!$A");
  for (let i = 0; i < 3; i++) await click(page, "step");
  check("three bytes wait", (await page.text("waits")).startsWith("3 of the stream: 27, 61, 33"), await page.text("waits"));
  await click(page, "message");
  check("a message is refused meanwhile, with what to look at", /refused by 16.*close the stream/i.test(await page.text("said")), await page.text("said"));
  await click(page, "step");
  await click(page, "step");
  check("the letter stands in its place", (await row(page, 2)) === "    A");
  check("the item is named", (await page.text("items")).includes("cursor to line 2, column 5"));
  await click(page, "undo");
  check("the last byte undone", (await row(page, 2)) === "");
  await click(page, "step");
  await fill(page, "bytes", "\\x1b=");
  await click(page, "step");
  await click(page, "step");
  await click(page, "close");
  check("a stream closed inside a sequence", /Refused by 12/.test(await page.text("items")), await page.text("items"));
}

async function refusing(page) {
  await click(page, "open");
  await fill(page, "bytes", "\\x1b=\\x21\\xff");
  await click(page, "message");
  const items = await page.text("items");
  check("a refusal: number, parameter, what to look at", /Refused by 11, parameter 2.*Look at/.test(items), items);
  check("its byte is marked", (await page.value(`document.querySelector("#items mark").textContent`)) === "255");
  await fill(page, "sequence", "0");
  await fill(page, "parameter-1", "255");
  check("the writer judges while one types", /Not written. Refused by 11, parameter 2/.test(await page.text("judged")), await page.text("judged"));
  await fill(page, "parameter-1", "36");
  check("and gives the bytes", (await page.text("judged")).includes("27, 61, 33, 36"), await page.text("judged"));
  await fill(page, "bytes", "\\q");
  check("what is not understood is said, and kept", /Not understood.*character 1/.test(await page.text("read")) && (await page.value(`document.getElementById("bytes").value`)) === "\\q");
}

async function recordings(page) {
  await click(page, "open");
  await fill(page, "writing", "hexadecimal");
  await fill(page, "what", "recording");
  await fill(page, "bytes", "05 00 01 00 41 42");
  await page.value("page.play()");
  check("a cut recording is refused whole, with its place", /record 1, at byte 0, runs past the end/.test(await page.text("read")) && (await row(page, 1)) === "", await page.text("read"));
  await fill(page, "bytes", "01 00 07 00 02 02 00 01 00 41 42");
  await click(page, "play");
  check("a recording is played", (await row(page, 1)) === "AB" && /rule 2/.test(await page.text("standing")));
  await fill(page, "what", "bytes");
  await fill(page, "writing", "decimal");
  await fill(page, "bytes", "27, 61, 32, 32, 67");
  await click(page, "short");
  check("decimal bytes, as a short message", (await row(page, 1)) === "CB");
}

async function linking(page, browser) {
  const [link, standing] = [await page.value(`document.getElementById("link").value`), await page.text("standing")];
  const other = await browser.page(link);
  check("a link brings the same", (await other.text("standing")) === standing, link);
  const bad = await browser.page(`file://${file}#AAAA`);
  check("a damaged link says so", /link was not understood/.test(await bad.text("said")), await bad.text("said"));
}

async function twoStates(page) {
  await click(page, "open");
  await page.value(`for (const part of document.querySelectorAll("details")) part.open = true`);
  await click(page, "keep");
  await fill(page, "writing", "text");
  await fill(page, "bytes", "AB\\x1b=\\x22\\x2a\\x1bP");
  await click(page, "message");
  check("the places that differ", (await page.text("differences")) === "113265 A123266 B", await page.text("differences"));
  check("the settings that differ", (await page.text("settings-differ")).includes("line1, column1"), await page.text("settings-differ"));
  check("a copy was printed", (await page.text("printed-said")).startsWith("656 bytes"));
  check("the screens are told", /Screen 1, selected: 24 lines of 80; framed the window, lines 1 to 8, and the cursor, line 3, column 11/.test(await page.text("screen1-said")), await page.text("screen1-said"));
}

async function noModule(browser) {
  const broken = file.replace(/\.html$/, "-broken.html");
  writeFileSync(broken, readFileSync(file, "utf8").replace(/begin\("AGFzb/, 'begin("BGFzb'));
  const page = await browser.page(`file://${broken}`);
  check("a module that does not load is said", /did not load/.test(await page.text("trouble")));
  check("and nothing is shown in its place", await page.value(`document.getElementById("main").hidden`));
}

async function telephone(page) {
  await page.picture({ width: 390, height: 844, phone: true });
  const wide = await page.value("[document.scrollingElement.scrollWidth, innerWidth]");
  check("nothing hangs over on a telephone", wide[0] <= wide[1], wide);
  const small = await page.value(`[...document.querySelectorAll("button")].filter((b) => b.offsetHeight && b.offsetHeight < 38).length`);
  check("buttons are large enough for a finger", small === 0, small);
  const nameless = await page.value(`[...document.querySelectorAll("input, select, textarea")].filter((f) => !f.labels.length).map((f) => f.id).join()`);
  check("every field has a label", nameless === "", nameless);
}

async function pictures(page) {
  await click(page, "open");
  await page.value(`for (const part of document.querySelectorAll("details")) part.open = part.id !== "settings-part" && part.id !== "screens-part"`);
  await fill(page, "writing", "text");
  await fill(page, "bytes", "\\x1b*BAY 3          GROSS\\x1b=!$38,500 kg\\x1b=#$TARE   12,340 kg\\x1b=$$NET    26,160 kg\\x1b\\xe0\\xe6\\14\\14\\x1e?\\14\\x12\\0\\0\\x1b=!>\\xe6\\x1b\\xd6\\1\\x1b=\\xff ");
  await click(page, "message");
  await page.value("scrollTo(0, 0)");
  for (const dark of [false, true]) {
    writeFileSync(join(root, `docs/page-${dark ? "dark" : "light"}.png`), await page.picture({ width: 1100, height: 1000, dark }));
  }
  writeFileSync(join(root, "docs/page-telephone.png"), await page.picture({ width: 390, height: 844, phone: true }));
}

needed(file, "make it with web/make");
needed(vectors, "build it with cargo, in rust/");
const browser = new Browser(process.env.CHROMIUM ?? "chromium");
try {
  const page = await browser.page(`file://${file}`);
  for (const part of [firstMinute, byKeyboard, stepping, refusing, recordings]) await part(page);
  await linking(page, browser);
  await twoStates(page);
  await namedCases(page);
  await noModule(browser);
  await telephone(page);
  const asked = browser.heard.filter(({ method, params }) => method === "Network.requestWillBeSent" && !/^(file|data|about):/.test(params.request.url));
  check("nothing is fetched", asked.length === 0, asked.map(({ params }) => params.request.url));
  const thrown = browser.heard.filter(({ method }) => method === "Runtime.exceptionThrown");
  check("no error in the page", thrown.length === 0, JSON.stringify(thrown[0]?.params.exceptionDetails.exception?.description));
  if (process.argv.includes("--pictures")) await pictures(page);
} catch (error) {
  check("the test itself", false, error.message);
} finally {
  await browser.end().catch(() => {});
}
console.log(`${passed} passed, ${failed} failed`);
process.exitCode = failed === 0 && passed > 0 ? 0 : 1;

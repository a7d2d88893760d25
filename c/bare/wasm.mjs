// wasm.mjs MODULE: runs a C program that was linked with bare.c for WebAssembly; what it prints goes to standard output.
import { readFileSync, writeSync } from "node:fs";

const env = { bare_write: (from, length) => { writeSync(1, new Uint8Array(memory.buffer, from, length)); } };
const { instance } = await WebAssembly.instantiate(readFileSync(process.argv[2]), { env });
const { memory } = instance.exports;
const { main, __main_void, __original_main } = instance.exports;
process.exitCode = (main ?? __main_void ?? __original_main)(0, 0);

// node rehearse.mjs rehearse.wasm < SCRIPT: what the rehearsal prints of a script. What it is lent lies above the file's own memory.
import fs from "node:fs";

const SCRIPT = 4097, PLACES = 34816, TEXT = 65536, PAGE = 65536; // as rehearse.h has them
const file = new WebAssembly.Module(fs.readFileSync(process.argv[2]));
const { memory, ocb_rehearse, __heap_base } = new WebAssembly.Instance(file, {}).exports;
const script = fs.readFileSync(0).subarray(0, SCRIPT);

const places = __heap_base.value, text = places + PLACES, given = text + TEXT;
memory.grow(Math.ceil((PLACES + TEXT + SCRIPT) / PAGE));
const bytes = new Uint8Array(memory.buffer);
bytes.set(script, given);
const count = ocb_rehearse(places, text, given, script.length);
process.stdout.write(bytes.subarray(text, text + count));

// node play.mjs barrier.wasm play.wasm: runs a program that calls the library's functions, in the library's memory.
// It prints and ends by the semihosting calls of semihost.c.
import fs from "node:fs";

const SYS_WRITE0 = 0x04, SYS_EXIT_EXTENDED = 0x20;
const PAGES = 512; // more than a program needs; where it is not, no program is made

const [library, program] = process.argv.slice(2).map((path) => new WebAssembly.Module(fs.readFileSync(path)));
const { memory, __heap_base, ...calls } = new WebAssembly.Instance(library, {}).exports;
memory.grow(PAGES);
let printed = "", ended = null;

function semihost(operation, argument) {
  if (operation === SYS_WRITE0) {
    const bytes = new Uint8Array(memory.buffer, argument);
    printed += Buffer.from(bytes.subarray(0, bytes.indexOf(0))).toString("latin1");
  } else {
    if (operation === SYS_EXIT_EXTENDED) ended = new DataView(memory.buffer).getUint32(argument + 4, true);
    throw new Error(`semihosting call ${operation}`); // out of the program
  }
}

const { main, __global_base } = new WebAssembly.Instance(program, { env: { memory, semihost, ...calls } }).exports;
if (__heap_base.value > __global_base.value) throw new Error("the program's data lie in what is the library's");
try {
  ended = main();
} catch (error) {
  if (ended === null) printed += `${error.stack}\n`;
}
process.exitCode = ended ?? 1;
process.stdout.write(printed);

// Takes single steps of the machine in the module of page/index.html, which is built of the proved crate s390x_page; checks/single_steps.py runs it:
// node --experimental-wasm-memory64 single_steps.mjs PAGE. A record on standard input is the registers and the storage of a step, as that crate lays them out;
// on standard output each is followed by how the step ended, eight bytes.
import fs from "node:fs";

const REGISTERS = 720, STORAGE = 1032, RECORD = REGISTERS + STORAGE;
const module = fs.readFileSync(process.argv[2], "utf8").match(/^const MODULE = "(.*)";$/m)[1];
const { instance } = await WebAssembly.instantiate(Buffer.from(module, "base64"), {});
const at = instance.exports.memory.buffer.byteLength;
// One page more; before version 24 node takes its number as a double.
try { instance.exports.memory.grow(1n); } catch { instance.exports.memory.grow(1); }
const memory = Buffer.from(instance.exports.memory.buffer);

let rest = Buffer.alloc(0);
for await (const chunk of process.stdin) {
  rest = Buffer.concat([rest, chunk]);
  const count = Math.floor(rest.length / RECORD), out = Buffer.alloc(count * (RECORD + 8));
  for (let k = 0; k < count; k++) {
    rest.copy(memory, at, k * RECORD, (k + 1) * RECORD);
    const end = instance.exports.s390x_page_step(BigInt(at), BigInt(at + REGISTERS));
    memory.copy(out, k * (RECORD + 8), at, at + RECORD);
    out.writeBigUInt64LE(BigInt(end), k * (RECORD + 8) + RECORD);
  }
  rest = rest.subarray(count * RECORD);
  if (count && !process.stdout.write(out)) await new Promise(done => process.stdout.once("drain", done));
}

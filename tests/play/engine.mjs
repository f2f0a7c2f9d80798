// The engine of a page in node: node engine.mjs PAGE. A question is a line [words, input as base64], its answer a line [status,
// output as base64, errors as base64, bytes of memory]. With "narrowly" and a number nearly all memory is taken before the call, and
// given back after it: one block of that size is left. With "small" there is room for 8 bytes of each output at first.
import { readFileSync } from "node:fs";
import { createInterface } from "node:readline";
import { gunzipSync } from "node:zlib";
import { createContext, runInContext } from "node:vm";

const page = readFileSync(process.argv[2], "ascii"), part = id => page.match(new RegExp(`id="${id}">([^]*?)</script>`))[1];
const module = new WebAssembly.Module(gunzipSync(Buffer.from(part("engine"), "base64")));
const imports = WebAssembly.Module.imports(module);
if (imports.length) throw new Error(`the engine imports ${imports.map(({ name }) => name).join(", ")}`);
const room = createContext({ WebAssembly, TextEncoder, TextDecoder, performance });
runInContext(`${part("worker")}\nglobalThis.Engine = Engine;`, room);
const engine = new room.Engine(module), { host_alloc, host_free, memory } = engine.exports, taken = [];
// Blocks of each size, from the largest on, until there is no other. A little is left, for the line that says so.
function takeAll() {
  for (let size = 1n << 27n; size >= 1n << 17n; size /= 2n)
    for (let at = host_alloc(size - 16n); at; at = host_alloc(size - 16n)) taken.push(at);
  return taken.length;
}
const inLetters = bytes => Buffer.from(bytes).toString("base64");
function answer([words, input, how]) {
  const bytes = new Uint8Array(Buffer.from(input, "base64"));
  const { status, output, errors } = how === "small" ? engine.answer(words, bytes, [8, 8]) : engine.answer(words, bytes);
  return [status, inLetters(output), inLetters(errors), memory.buffer.byteLength];
}
// The answer in rooms that are there already, so that only the engine itself can run out of memory.
function narrowly(words, input, left) {
  const line = Buffer.from(words.map(word => `${word}\0`).join("")), bytes = Buffer.from(input, "base64"), most = 1 << 24;
  const rooms = [line, bytes].map(one => engine.hold(one)), [output, errors, lengths] = [most, most, 16].map(size => engine.room(size));
  const spare = left && host_alloc(BigInt(left - 16));
  takeAll();
  if (spare) host_free(spare);
  const status = engine.exports.filskeam_answer(rooms[0], BigInt(line.length), rooms[1], BigInt(bytes.length), output, BigInt(most), lengths,
    errors, BigInt(most), lengths + 8n) & 255;
  const [long, told] = new BigUint64Array(memory.buffer, Number(lengths), 2), made = [engine.bytes(output, long), engine.bytes(errors, told)];
  const said = [status, ...made.map(inLetters), memory.buffer.byteLength];
  for (const at of [...rooms, output, errors, lengths, ...taken.splice(0)]) host_free(at);
  return said;
}
for await (const line of createInterface({ input: process.stdin })) {
  const asked = JSON.parse(line);
  process.stdout.write(`${JSON.stringify(asked[2] === "narrowly" ? narrowly(asked[0], asked[1], asked[3]) : answer(asked))}\n`);
}

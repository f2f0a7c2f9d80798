// The worker: it holds the engine, which is the program as WebAssembly, and asks it one command after the other.
const MEGA = 1048576, LEAST = 65536;  // bytes of room for an output at first
// The engine of a compiled module. After a call that breaks off, another engine is needed.
class Engine {
  constructor(module) { this.exports = new WebAssembly.Instance(module, {}).exports; }
  bytes(at, length) { return new Uint8Array(this.exports.memory.buffer, Number(at), Number(length)); }
  // Room in the engine's memory, which is given back by `free`.
  room(length) {
    const at = this.exports.host_alloc(BigInt(length));
    if (!at) throw new RangeError("no memory in the page");
    return at;
  }
  hold(bytes) {
    const at = this.room(bytes.length);
    this.bytes(at, bytes.length).set(bytes);
    return at;
  }
  // The status, the output and the errors for these arguments and this input, as bytes. If they have no room, they are asked for
  // again with room for them, which a long search should not need.
  answer(words, input, rooms = [MEGA + 2 * input.length + 14 * Math.min(input.length, MEGA), LEAST]) {
    const line = new TextEncoder().encode(words.map(word => `${word}\0`).join("")), given = [line, input];
    const held = [...given.map(bytes => this.hold(bytes)), ...[...rooms, 16].map(length => this.room(length))];
    const [, , output, errors, lengths] = held, pairs = [given[0], given[1]].flatMap((bytes, nth) => [held[nth], BigInt(bytes.length)]);
    const status = this.exports.filskeam_answer(...pairs, output, BigInt(rooms[0]), lengths, errors, BigInt(rooms[1]), lengths + 8n) & 255;
    const sizes = [...new BigUint64Array(this.exports.memory.buffer, Number(lengths), 2)].map(Number);
    const made = [output, errors].map((at, nth) => this.bytes(at, Math.min(sizes[nth], rooms[nth])).slice());
    for (const at of held) this.exports.host_free(at);
    if (sizes.some((size, nth) => size > rooms[nth])) return this.answer(words, input, sizes.map((size, nth) => Math.max(size, rooms[nth])));
    return { status, output: made[0], errors: made[1] };  // of the status the low 8 bits: above them a `u8` has anything
  }
}
let engine = null;
// A compiled module is taken first, and then questions, each of which is answered with its number.
globalThis.onmessage = ({ data: { module, id, words, input } }) => {
  if (module) { engine = new Engine(module); return; }
  const began = performance.now(), decode = bytes => new TextDecoder().decode(bytes);
  const given = typeof input === "string" ? new TextEncoder().encode(input) : input;
  try {
    const { status, output, errors } = engine.answer(words, given);
    postMessage({ id, status, output: decode(output), errors: decode(errors), took: performance.now() - began });
  } catch (fault) { postMessage({ id, status: null, output: "", errors: `${fault}`, took: performance.now() - began }); }
};

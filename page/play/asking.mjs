// Asking: the engine in a worker of its own, which can be ended while it searches.
import { $, on } from "../app.mjs";
const bytesOf = text => Uint8Array.from(atob(text), letter => letter.charCodeAt());
const unpacked = bytes => new Response(new Blob([bytes]).stream().pipeThrough(new DecompressionStream("gzip"))).arrayBuffer();
const asked = new Map();  // what waits for an answer, by its number
let compiled = null, worker = null, count = 0;
// Ends the worker, and gives each question that waits this answer.
function dismiss(answer) {
  worker?.terminate();
  worker = null;
  for (const [id, done] of asked) { asked.delete(id); done(answer); }
}
// Without an answer of the engine the status is null, and the errors say why.
const broken = why => dismiss({ status: null, output: "", errors: `${why}`, took: 0 });
async function ready() {
  compiled ??= unpacked(bytesOf($("#engine").textContent)).then(WebAssembly.compile);
  const module = await compiled;
  if (worker) return;
  const address = URL.createObjectURL(new Blob([$("#worker").textContent], { type: "text/javascript" })), made = new Worker(address);
  URL.revokeObjectURL(address);
  on(made, "message", ({ data }) => {
    const done = asked.get(data.id);
    asked.delete(data.id);
    if (done && data.status === null) broken(data.errors);
    done?.(data);
  });
  for (const type of ["error", "messageerror"]) on(made, type, event => { if (made === worker) broken(event.message ?? "no worker"); });
  worker = made;
  worker.postMessage({ module });
}
// The answer to a command with this input, which is a text or bytes; null if it was ended before.
export function ask(words, input) {
  const id = count += 1, answer = new Promise(done => asked.set(id, done));
  ready().then(() => { if (asked.has(id)) worker.postMessage({ id, words, input }); }).catch(broken);
  return answer;
}
export const isAsked = () => asked.size > 0;
// Ends what the engine does now. The next question is asked of a new one.
export const end = () => dismiss(null);

// What is given: an example, a file, the text of a link, or the user's own text.
import { $, counted } from "../app.mjs";
import { MOST_BYTES } from "../reading.mjs";
import { judge, state } from "./judging.mjs";
import { setText } from "./editor.mjs";
const MOST_SHOWN = 1500000, MOST_LINES = 200000, OWN = "your text", MODEL = "the model";  // letters and lines in the editor
const examples = JSON.parse($("#examples").textContent);
let own = null, opened = 0;  // the user's last text, as `take` takes it; how many files were opened
// Says what happened to what was given, until something else is.
export const notice = words => { $("#notice").textContent = words; };
// An option more for the user's own text, so that it is there again after an example.
function keepOwn(given) {
  if (!own) $("#example").add(new Option(OWN), 0);
  own = given;
  $("#example").value = OWN;
}
const isTooLong = text => text.length > MOST_SHOWN || text.split("\n", MOST_LINES + 1).length > MOST_LINES;
// Takes a text instead of the one that is there. `input` is what the engine is asked about. One that is too long to edit is not put
// into the editor.
function take({ text, input = text, name = "The text" }) {
  const isLarge = isTooLong(text);
  setText(isLarge ? "" : text);
  $("#large").hidden = !isLarge;
  $("#text").disabled = isLarge;
  $("#large p").textContent = `${name} has ${counted(text.length, "letter")}, and is too long to edit here. All of it is asked about.`;
  judge(text, input);
}
export function takeOwn(given) {
  keepOwn(given);
  take(given);
}
export function chooseExample() {
  const { value } = $("#example");
  take(value === OWN ? own : { text: examples[value] });
}
export function takeFirst() {
  const [name] = Object.keys(examples);
  $("#example").value = name;
  take({ text: examples[name] });
}
// The text of bytes. If they are no UTF-8, each is shown as a letter, and the engine is asked about the bytes.
function givenBy(bytes, name) {
  try { return { name, text: new TextDecoder("utf-8", { fatal: true, ignoreBOM: true }).decode(bytes) }; }
  catch { return { name, text: new TextDecoder("windows-1252").decode(bytes), input: bytes }; }
}
// As many bytes of a file as may be read, and one more, with which the engine refuses it.
export async function takeFile(files) {
  const [file] = files, nth = opened += 1;
  const buffer = await file.slice(0, MOST_BYTES + 1).arrayBuffer().catch(() => notice(`${file.name} cannot be read.`));
  if (!buffer || nth !== opened) return;
  if (files.length > 1) notice(`One file at a time: this is ${file.name}.`);
  takeOwn(givenBy(new Uint8Array(buffer), file.name));
}
// What the user typed is asked about after a moment.
export function typed(wait) {
  const text = $("#text").value;
  keepOwn({ text });
  clearTimeout(state.later);
  state.later = setTimeout(() => judge(text), wait);
}
// A pasted text that is too long to edit is taken instead of what is there.
export function pasted(event) {
  const text = event.clipboardData?.getData("text/plain") ?? "";
  if (!isTooLong(text)) return;
  event.preventDefault();
  notice("");
  takeOwn({ text });
}
// Takes the models of the histories that are there, which can be chosen again.
export function takeModel(text) {
  if (!examples[MODEL]) $("#example").add(new Option(MODEL), 0);
  examples[MODEL] = text;
  $("#example").value = MODEL;
  take({ text });
}
export const fillExamples = () => $("#example").append(...Object.keys(examples).map(name => new Option(name)));

// The editor: a text and its sort, the numbers of its lines, and its fault, as the program prints it with --explain.
import { $, on, when } from "../app.mjs";
import { escaped } from "../drawing.mjs";
const LINE = 19, PAD = 8;  // dots, as in play.css
// The line, the column, the word there and the nearest one, if the answer names them. A column counts bytes. No fault is after a byte
// above 127 of its line, so it is the number of a letter too.
export function faultIn(errors) {
  const one = pattern => pattern.exec(errors)?.[1] ?? null, number = pattern => one(pattern) && Number(one(pattern));
  return { printed: errors.trimEnd(), line: number(/^(?:ttrun: )?line (\d+): /), column: number(/^ {2}column (\d+): /m),
    word: one(/^ {2}column \d+: `(.*)`$/m), nearest: one(/^ {2}nearest: (.*)$/m) };
}
// How many letters are marked: those of the word, which may be cut or spelled by its bytes, otherwise one.
export const widthIn = ({ word }) => word && !/\\x|\.\.$/.test(word) ? word.length : 1;
// What a text is, by the first word that it says: "script", "histories" or "moves".
export function sortOf(text) {
  const left = /[ \t]*(?:#[^\n]*)?\n/y, word = /[ \t]*(\w*)/y;
  while (left.test(text)) word.lastIndex = left.lastIndex;
  const [, first] = word.exec(text);
  return first === "history" || first === "evidence" ? "histories" : first === "behaviours" ? "moves" : "script";
}
let fault = null, chosen = null;
function place() {
  const area = $("#text"), { scrollTop, scrollLeft } = area, first = Math.floor(scrollTop / LINE);
  const count = area.value.split("\n").length, shown = Math.min(count - first, Math.ceil(area.clientHeight / LINE) + 1);
  $("#numbers").textContent = Array.from({ length: Math.max(shown, 0) }, (_, nth) => first + nth + 1).join("\n");
  $("#numbers").style.transform = `translateY(${first * LINE - scrollTop}px)`;
  const mark = $("#mark"), row = $("#row");
  row.hidden = !chosen || (chosen - 1) * LINE < scrollTop - LINE;
  row.style.top = `${PAD + (chosen - 1) * LINE - scrollTop}px`;
  mark.hidden = !fault?.line || (fault.line - 1) * LINE < scrollTop - LINE;
  if (mark.hidden) return;
  mark.style.top = `${PAD + (fault.line - 1) * LINE - scrollTop}px`;
  const letters = $("#letters"), column = fault.column === null ? 0 : fault.column - 1;
  letters.hidden = fault.column === null;
  letters.style.left = `calc(${PAD - scrollLeft}px + ${column}ch)`;
  letters.style.width = `${widthIn(fault)}ch`;
}
// Shows what is printed of a fault, with buttons that go to its place, put the nearest word there, or leave the carriage returns
// out, which no editor has. A fault that is not `ofText` is the engine's.
export function showFault(found, ofText = true, hasReturns = false) {
  fault = found;
  $("#text").setAttribute("aria-invalid", Boolean(fault) && ofText);
  const canGo = fault?.line && !$("#text").disabled, button = (id, words) => `<button id="${id}">${words}</button>`;
  $("#fault").innerHTML = fault ? `<pre>${escaped(fault.printed)}</pre><div>${when(canGo, button("there", `Go to line ${fault.line}`))}
    ${when(canGo && fault.nearest, button("nearest", `Put <code>${escaped(fault.nearest)}</code> there`))}
    ${when(canGo && hasReturns, button("plain", "Leave out the carriage returns"))}</div>` : "";
  const act = (id, what) => { if ($(id)) on($(id), "click", what); };
  act("#there", () => choosePlace(fault));
  act("#nearest", () => { choosePlace(fault); putWord(fault.nearest); });
  act("#plain", () => $("#text").dispatchEvent(new Event("input")));
  place();
}
// Marks the line of what is chosen in the chart, and shows it.
export function markLine(line) {
  const area = $("#text"), { scrollTop, clientHeight } = area, top = (line - 1) * LINE;
  chosen = line;
  if (line && !area.matches(":focus") && (top < scrollTop || top > scrollTop + clientHeight - 2 * LINE)) area.scrollTop = Math.max(0, top - 3 * LINE);
  place();
}
// Chooses the word at the fault, or its line.
function choosePlace({ line, column, ...rest }) {
  const area = $("#text"), lines = area.value.split("\n").slice(0, line), last = lines.at(-1) ?? "";
  const start = lines.slice(0, -1).reduce((sum, before) => sum + before.length + 1, 0), from = start + (column ?? 1) - 1;
  area.focus();
  area.setSelectionRange(from, column === null ? start + last.length : from + widthIn({ column, ...rest }));
  area.scrollTop = Math.max(0, (line - 4) * LINE);
}
function putWord(word) {
  const area = $("#text");
  area.setRangeText(word, area.selectionStart, area.selectionEnd, "end");
  area.dispatchEvent(new Event("input"));
}
export function setText(text) {
  $("#text").value = text;
  $("#text").scrollTop = 0;
  chosen = null;
  showFault(null);
}
export function listenToEditor() {
  on($("#text"), "scroll", place);
  on($("#text"), "input", place);
  new ResizeObserver(place).observe($("#text"));
}

// The page to try: what its buttons, keys and address do.
import { $, app, goTo, on } from "../app.mjs";
import { choose, find, unfold } from "../view.mjs";
import { link, linked, setAddress } from "./address.mjs";
import { judge, modelled, state, stop } from "./judging.mjs";
import { listenToEditor, markLine } from "./editor.mjs";
import { chooseExample, fillExamples, notice, pasted, takeFile, takeFirst, takeModel, takeOwn, typed } from "./given.mjs";
const WAIT = 250;  // ms after a key
const STEPS = { j: 1, ArrowDown: 1, k: -1, ArrowUp: -1, PageDown: 15, PageUp: -15, Home: -Infinity, End: Infinity };
const goToNext = step => { if (app.cases[app.last + step]) goTo(app.cases[app.last + step]); };
const IN_CASE = { Enter: unfold, n: () => find(1), N: () => find(-1), "[": () => goToNext(-1), "]": () => goToNext(1),
  w: pane => choose(pane, pane.chart.rowAt(pane.chart.game.why?.index ?? -1)) };
// The text that is there, with what the engine is asked about.
const current = () => state.later === null ? [state.text, state.input] : [$("#text").value];
// The address changes only if something is after its `#`.
function goToTable() {
  if (location.hash) { goTo(); return; }
  setAddress("#");
  app.show();
}
function press(event) {
  const { key, target } = event, isTyping = target.matches("textarea, select, input:not([type=checkbox])");
  if (key === "Enter" && (event.ctrlKey || event.metaKey)) judge(...current());
  else if (event.ctrlKey || event.metaKey || event.altKey || $("dialog[open]")) return;
  else if (key === "Escape") { if (isTyping) target.blur(); else goToTable(); }
  else if (isTyping || (key === "Enter" && target.matches("a, button, input, summary"))) return;
  else if (key === "/" && $("#search")) $("#search").focus();
  else if (STEPS[key] && app.panes.length) choose(app.pane, app.pane.chart.chosen + STEPS[key]);
  else if (STEPS[key] && $(".cases")) app.moveTo(app.at + STEPS[key]);
  else if (key === "Enter" && $(".cases") && app.found.length) goTo(...app.found[app.at].opened);
  else if (IN_CASE[key] && app.panes.length) IN_CASE[key](app.pane);
  else return;
  event.preventDefault();
}
// Something else is given: what was said of the last is left, and the address holds another text no more.
function leave() {
  notice("");
  if (location.hash) setAddress("");
}
// A file that is dragged over the page. A text may be dropped into the editor.
function drag(event) {
  const { type, target, dataTransfer } = event, hasFiles = dataTransfer.types.includes("Files");
  if (!hasFiles && target === $("#text")) return;
  event.preventDefault();
  document.body.classList.toggle("dragged", type === "dragover" && hasFiles);
  if (type === "drop" && dataTransfer.files.length) { leave(); takeFile(dataTransfer.files); }
}
// Instead of the histories comes the script of their models, which is explored. It says which have none, and why.
async function model() {
  const found = await modelled();
  if (found?.output) { leave(); takeModel(found.output); }
  if (found) notice(found.errors.trimEnd());
}
function listen() {
  on($("#text"), "input", () => { notice(""); if (linked() !== undefined) setAddress(""); typed(WAIT); });
  on($("#text"), "paste", pasted);
  on($("#example"), "change", () => { leave(); chooseExample(); });
  for (const [button, type] of [["#go", "click"], ["#states", "change"]]) on($(button), type, () => judge(...current()));
  on($("#stop"), "click", stop);
  on($("#model"), "click", model);
  on($("#link"), "click", async () => notice(await link(current()[0])));
  on($("#about"), "click", () => $("#proved").showModal());
  on($("#open"), "click", () => { $("#file").value = ""; $("#file").click(); });
  on($("#file"), "change", ({ target }) => { leave(); takeFile(target.files); });
  on($("#close"), "click", () => { leave(); takeFirst(); });
  for (const type of ["dragover", "dragleave", "drop"]) on(document, type, drag);
  on(document, "keydown", press);
  on($("#main"), "click", event => { if (event.target.closest('a[href="#"]')) { event.preventDefault(); goToTable(); } });
  on(window, "hashchange", takeAddress);
}
// Takes the text of a link, or shows the view that the address names.
function takeAddress() {
  const text = linked();
  notice(text === null ? "The link cannot be read: it was cut or changed on its way." : "");
  if (text === undefined) app.show(); else if (text !== null) takeOwn({ text });
}
app.chosen = entry => markLine(entry?.line ?? null);
fillExamples();
listenToEditor();
listen();
if (typeof linked() !== "string") takeFirst();
if (linked() !== undefined) takeAddress();

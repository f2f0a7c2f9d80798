// Judging: a text is asked about, and what the engine answers is shown.
import { $, app, casesAt, counted, when } from "../app.mjs";
import { openCase } from "../lanes.mjs";
import { addSource } from "../sources.mjs";
import { showTable } from "../list.mjs";
import { showCases } from "../view.mjs";
import { escaped } from "../drawing.mjs";
import { ask, end, isAsked } from "./asking.mjs";
import { isView, setAddress } from "./address.mjs";
import { faultIn, showFault, sortOf } from "./editor.mjs";
import { behavioursOf, exploredRows, firstToShow, lineByLine, markShown, readExplored, rowOf, whyOf, witnessesOf } from "./explored.mjs";
const SOON = 400;  // ms after which a task is told of, and what is shown of an older text is pale
const TITLE = "ttrun in a page";
// `text` is what is asked about, `input` the same for the engine: the text, or the bytes of a file. `turn` is the number of the text,
// `answered` the last one that was answered, `later` the timer of one that is not asked about yet. `rows` is what was found of a
// script, `found` the answer with it, `first` the cases that are shown at first. `isOld` is whether what is shown is of an older
// text. `since` and `timer` are of the task that runs.
export const state = { text: "", input: "", turn: 0, answered: 0, later: null, rows: [], behaviours: new Map(), found: null, first: [], isOld: false, since: 0,
  timer: null };
function tell(head, took = "") {
  if ($("#head").innerHTML !== head) $("#head").innerHTML = head;  // which is read aloud when it changes
  $("#took").textContent = took;
}
const inTime = took => took < 1000 ? `${took.toFixed(0)} ms` : `${(took / 1000).toFixed(1)} s`;
const PARTS = ["#rows", "#why", "#main"];
const stale = isStale => { for (const part of PARTS) $(part).classList.toggle("stale", isStale); };
// Leaves what was shown of an older text.
function forget() {
  Object.assign(app, { sources: [], cases: [], panes: [], only: new Set(), search: "", at: 0, last: null });
  for (const part of PARTS) $(part).innerHTML = "";
  [state.rows, state.isOld] = [[], false];
  stale(false);
}
// Begins a task. If it takes long the page says so, by `say` with the words for the time.
function begin(say) {
  clearInterval(state.timer);
  $("#stop").disabled = false;
  state.since = performance.now();
  state.timer = setInterval(() => {
    const took = performance.now() - state.since;
    if (took < SOON) return;
    stale(state.isOld);
    say(`for ${(took / 1000).toFixed(1)} s`);
  }, 100);
}
function done() {
  clearInterval(state.timer);
  $("#stop").disabled = true;
}
// The answer to a command about the text; nothing if it was stopped, or there is a newer text by then.
const answerTo = (...words) => ask(words, state.input);
// What is printed instead of an answer is shown below the text. If that is a fault of the text, its place is marked.
function refuse({ status, errors }) {
  const isOfText = /^ttrun: (?:line \d+: |input too long)/.test(errors);
  done();
  showFault(faultIn(errors), isOfText, state.text.includes("\r"));
  tell(isOfText ? "The text is refused" : `<span class="warn">The engine gave no answer</span>`, when(status !== null, `status ${status}`));
  stale(true);
}
async function searchScript() {
  const listed = await answerTo("run", "--list");
  if (!listed) return;
  if (listed.status !== 0) { const told = await answerTo("run", "--explain"); if (told) refuse(told); return; }
  showFault(null);
  const limit = $("#states").value ? ["--states", $("#states").value] : [];
  const found = await answerTo("explore", "--details", ...limit);
  if (!found) return;
  if (found.status === null || found.errors) { refuse(found); return; }
  forget();
  Object.assign(state, { found, rows: readExplored(found.output), behaviours: behavioursOf(state.text) });
  tellFound();
  $("#rows").innerHTML = `<table>${exploredRows(state.rows, false)}</table>`;
  begin(took => tellFound(`; searching again for the witnesses, ${took}`));
  const drawn = await answerTo("explore", "--evidence", ...limit);
  if (!drawn) return;
  done();
  tellFound();
  addSource("witnesses", drawn.output);
  for (const one of app.cases) takeLines(one);
  const isWhole = app.cases.length === witnessesOf(state.rows);
  if (!isWhole) showFault(faultIn(drawn.errors || "no witnesses came"), false);
  $("#rows").innerHTML = `<table>${exploredRows(state.rows, isWhole)}</table>`;
  show(isWhole ? firstToShow(state.rows) : []);
}
// The entries of a witness have the lines of the script.
function takeLines(one) {
  one.lineByLine = () => lineByLine(state.behaviours.get(one.name) ?? []);
  if (one.why) one.why.line = openCase(one.source.text, one).list[one.why.index].line;
}
function tellFound(more = "") {
  const { status, took } = state.found;
  const count = holds => state.rows.filter(holds).length, several = count(({ verdicts }) => verdicts.length > 1);
  const open = count(({ ending }) => ending !== "complete"), wrong = count(({ verdicts }) => verdicts.join() === "error");
  tell(open ? `${counted(open, "search", "searches")} met the limit` : wrong ? `${counted(wrong, "test case")} with no verdict but error` : several ?
    `${counted(several, "test case")} with more than one verdict` : "Each test case has one verdict", `status ${status}, in ${inTime(took)}${more}`);
}
async function checkHistories() {
  const checked = await answerTo("check", "--explain");
  if (!checked) return;
  if (checked.errors || checked.status === null) { refuse(checked); return; }
  done();
  forget();
  const lines = checked.output.trimEnd().split("\n"), wrong = checked.status === 0 ? null : lines.at(-1);
  showFault(wrong && faultIn(wrong));
  tell(wrong ? `<span class="warn">Not legal</span>` : `${counted(lines.length, "history", "histories")}, each legal`,
    `status ${checked.status}, in ${inTime(checked.took)}`);
  $("#rows").innerHTML = `<pre>${escaped(lines.slice(0, 200).join("\n"))}${when(lines.length > 200, "\n..")}</pre>`;
  addSource("histories", state.text);
  show(app.cases.length === 1 ? [0] : []);
}
async function replayMoves() {
  const played = await answerTo("replay", "--explain");
  if (!played) return;
  if (played.errors || played.status === null) { refuse(played); return; }
  done();
  showFault(null);
  forget();
  tell("The reply to each move, and the verdict", `status ${played.status}, in ${inTime(played.took)}`);
  $("#main").innerHTML = `<pre class="list">${escaped(played.output)}</pre>`;
}
const TASKS = { script: { act: searchScript, name: "Explore", says: "Searching" },
  histories: { act: checkHistories, name: "Check", says: "Checking" }, moves: { act: replayMoves, name: "Replay", says: "Replaying" } };
// Asks about a text. What is still asked about an older one is ended.
export async function judge(text, input = text) {
  const turn = state.turn + 1, task = TASKS[sortOf(text)];
  clearTimeout(state.later);
  Object.assign(state, { text, input, turn, later: null, isOld: true });
  if (isAsked()) end();
  $("#go").textContent = task.name;
  $("#states").disabled = task !== TASKS.script;
  $("#model").hidden = task !== TASKS.histories;
  begin(took => tell(task.says, took));
  await task.act();
  if (turn === state.turn) state.answered = turn;
}
// The models of the histories, or of those with the names of the ones that are shown.
export const modelled = () => answerTo("model", ...app.panes.flatMap(({ chart }) => ["--only", chart.game.name]));
// Ends the task that runs. If that searched for the witnesses, what was found before stays.
export function stop() {
  state.answered = state.turn += 1;
  end();
  done();
  if (state.rows.length && !state.isOld) { tellFound("; stopped before the witnesses came"); return; }
  forget();
  tell("Stopped: nothing is known of the verdicts", `after ${inTime(performance.now() - state.since)}`);
}
// Shows new cases, of which these are first, unless the address says which.
function show(ids) {
  state.first = ids;
  if (isView()) setAddress("");
  app.show();
}
app.show = () => {
  const cases = isView() ? casesAt(location.hash) : state.first.map(id => app.cases[id]).filter(Boolean);
  app.panes = [];
  $("#main").innerHTML = $("#said").textContent = "";
  markShown($("#rows"), cases.map(({ id }) => id));
  if (cases.length) showCases(cases); else if (app.cases.length) showTable();
  document.title = `${when(cases.length, `${cases[0]?.name}, `)}${TITLE}`;
  const row = cases.length && state.rows.length ? rowOf(state.rows, cases[0].id) : null;
  $("#why").innerHTML = row ? whyOf(row, state.behaviours.get(row.name)) : "";
};

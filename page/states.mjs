// The states: what each component was doing after the chosen entry, and what that entry changed.
import { VERDICTS } from "./reading.mjs";
import { $, app, chip, when } from "./app.mjs";
import { countWhile, lastAt } from "./lanes.mjs";
import { escaped } from "./drawing.mjs";
import { saidAround } from "./list.mjs";
import { isDeciding } from "./rows.mjs";
import { meaningOf } from "./shapes.mjs";
const MOST = 200, IN_SIGHT = 20;  // of many components, those that were changed are first
const LEGEND = `<kbd>j</kbd> <kbd>k</kbd> next, previous; <kbd>/</kbd> search, <kbd>n</kbd> <kbd>N</kbd> next, previous found;
  <kbd>w</kbd> why; <kbd>Enter</kbd> unfold; <kbd>[</kbd> <kbd>]</kbd> previous, next test case; <kbd>Esc</kbd> all. A click on a
  head shows that component alone, another one all. Thick: a run is running. Bracket: it waits. Cross: killed. Short bar: ended.
  Double line: the test case ends. Orange: the entry that made the verdict what it is. Slanted: a remark.`;
export function showStates() {
  $(".state").innerHTML = app.panes.map(({ chart }) => `<div>${statesOf(chart)}</div>`).join("") +
    `<p class="legend">${LEGEND} ${when(app.panes.length > 1, "Dashed line: from here on the two differ.")}</p>`;
  const { game, rows, chosen } = app.pane.chart, entry = game.list[rows[chosen]?.last];
  $("#said").textContent = when(entry, `line ${entry?.line}, ${game.who(entry?.on ?? null)}: ${entry?.text}`);
}
// A component after a row: what it was doing, what it waited for, its local verdict, and whether the row changed these.
function stateBehind({ which }, lane, row) {
  const last = lastAt(lane.phases, row.last), local = lastAt(lane.locals, row.last), before = row.first - 1;
  const wait = lane.waits[countWhile(lane.waits, past => past.to <= row.last)], isOpen = wait?.at <= row.last;
  const phase = last.phase === "running" ? `running ${which(last.run)}` : last.phase;
  return { number: lane.number, phase, waits: isOpen ? wait.operation : "", verdict: VERDICTS[local.rank],
    isChanged: lastAt(lane.phases, before) !== last || lastAt(lane.locals, before) !== local };
}
// What a case is after its chosen row; of many components the first `most`.
export function statesOf({ game, lanes, rows, chosen }, most = MOST) {
  const row = rows[chosen], entry = row && game.list[row.last];
  if (!entry) return "<p>No entry is shown.</p>";
  const states = lanes.filter(lane => lane.phases[0].at <= row.last).map(lane => stateBehind(game, lane, row));
  if (states.length > IN_SIGHT) states.sort((one, other) => other.isChanged - one.isChanged);
  const line = ({ number, phase, verdict, waits, isChanged }) => `<tr class="${when(isChanged, "changed")}">
    <td>${game.who(number)}<td>${phase}${when(waits, `<br><span class="dim">${waits}</span>`)}<td>${chip(verdict)}</tr>`;
  const isEnd = game.overAt !== null && row.first <= game.overAt && game.overAt <= row.last;
  const asked = when(row.asked > 1, `, asked ${row.asked} times`);
  const folded = row.times > 1 ? `, the last of ${row.times * row.size} folded` : asked;
  return `<p><b>line ${entry.line}</b>${folded}
    <br><code>${escaped(entry.text)}</code></p><p>run ${game.which(entry.run)} on ${game.who(entry.on)}
    ${when(isDeciding(game, row), `<br><b>After this entry the verdict is ${VERDICTS[game.overall]}.</b>
    <span class="reason">${saidAround(game.why ?? {}, "")}</span>`)}
    ${when(entry.error, `<br>Dynamic error: ${meaningOf(game.names, entry)}.`)}
    ${when(isEnd, "<br>This entry ends the test case.")}</p>
    <table><thead><tr><th>Component<th>Phase<th>Local</thead><tbody>${states.slice(0, most).map(line).join("")}</tbody></table>
    ${when(states.length > most, `<p>and ${states.length - most} more: choose a component</p>`)}`;
}

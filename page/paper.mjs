// The paper: what is printed. A table has all its rows; a case why, its chart in pieces that fit a sheet, and its components.
import { $, app, chip, counted, on, when } from "./app.mjs";
import { Chart, HEAD, ROW } from "./chart.mjs";
import { escaped } from "./drawing.mjs";
import { reasonOf } from "./list.mjs";
import { decidingOf } from "./rows.mjs";
import { statesOf } from "./states.mjs";
const WIDTH = 700, HEIGHT = 930, WIDEST = 1100;  // dots of a sheet, and of a piece of a chart, which is made smaller then
const OTHERS = 8, ENDING = 4;  // rows that fit in the place of what is above the first piece, or below the last entry
const LONGEST = 160, BEFORE = 60, AFTER = 30;  // rows of a case that is whole; rows of a longer one, around its deciding entry
// The rows that are printed: all, or those around the deciding entry, the one at which two cases part, or the chosen one.
function shownOf({ rows, chosen }) {
  if (rows.length <= LONGEST) return [0, rows.length];
  const from = Math.max(0, Math.min(chosen - BEFORE, rows.length - BEFORE - AFTER));
  return [from, from + BEFORE + AFTER];
}
function leftOut({ rows, game: { list } }, from, to) {
  const part = (count, word, at) => when(count > 0, `${counted(count, "row")} ${word} line ${list[rows[at]?.first]?.line}`);
  const parts = [part(from, "above", from), part(rows.length - to, "below", to - 1)].filter(Boolean);
  return when(parts.length, `<p><b>Left out: ${parts.join(", ")}.</b> The page shows them.</p>`);
}
// How far left and right each part of the chart is, that fits a sheet.
function columnsOf({ lanes, left, gutter, pitch, width }) {
  const most = Math.max(1, Math.floor((WIDEST - left - 16) / pitch)), columns = [];
  if (width <= WIDEST) return [[0, width]];
  for (let at = 0; at < lanes.length; at += most) {
    const begin = at ? left + at * pitch - gutter : 0, isLast = at + most >= lanes.length;
    columns.push([begin, isLast ? Math.min(width, begin + WIDEST) : left + (at + most) * pitch]);
  }
  return columns;
}
function chartPieces(chart, from, to) {
  const columns = columnsOf(chart), pieces = [], widest = Math.max(...columns.map(([left, right]) => right - left));
  const most = Math.floor((HEIGHT * Math.max(1, widest / WIDTH) - HEAD) / ROW) - ENDING;
  for (let at = from, end; at < to; at = end) {
    end = Math.min(to, at + most - (at === from ? OTHERS : 0));
    columns.forEach(([left, right], nth) => {
      const part = when(columns.length > 1, `, columns ${nth + 1} of ${columns.length}`);
      pieces.push(chart.picture("", `${chart.game.name}${part}`, at, end, left, right));
    });
  }
  return pieces.join("");
}
function caseOnPaper({ chart: { game, options, unfolded, rows, chosen } }) {
  const chart = Object.assign(new Chart(game, options), { unfolded }), { name, date } = game.source;
  const deciding = decidingOf(game)?.at ?? rows[chosen]?.first ?? 0;
  chart.layout();
  chart.place(WIDEST);
  chart.chosen = Math.max(0, chart.rowAt(game.part >= 0 ? game.part : deciding));
  const [from, to] = shownOf(chart);
  return `<section><h2>${game.name} ${chip(game.status)}</h2><p>${reasonOf(game)}</p><p>${escaped(name)} ${date}</p>
    ${leftOut(chart, from, to)}${chartPieces(chart, from, to)}<div class="state">${statesOf(chart, Infinity)}</div></section>`;
}
export function listenForPrint() {
  on(window, "beforeprint", () => {
    while ($(".cases") && app.showMore());
    $("#paper").innerHTML = ($(".partings")?.outerHTML ?? "") + app.panes.map(caseOnPaper).join("");
    document.body.classList.toggle("printed", app.panes.length > 0);
  });
  on(window, "afterprint", () => { $("#paper").innerHTML = ""; document.body.classList.remove("printed"); });
}

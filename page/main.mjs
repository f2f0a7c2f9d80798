// The page: which view is shown, the keys, and what happens when it is opened.
import { $, app, casesAt, counted, goTo, on, when } from "./app.mjs";
import { addSource, listenForFiles, showStart } from "./sources.mjs";
import { showTable } from "./list.mjs";
import { choose, find, showCases, unfold } from "./view.mjs";
import { listenForPrint } from "./paper.mjs";
const VERSION = $("meta[name=generator]").content, MOST_NAMED = 3;
app.show = () => {
  const { sources, cases } = app, shown = casesAt(location.hash);
  const named = isDated => sources.length > MOST_NAMED ? counted(sources.length, "file") :
    sources.map(({ name, date }) => name + when(isDated && date, ` of ${date}`)).join(", ");
  $("#source").textContent = when(sources.length, `${named(sources.length === 1)}: ${counted(cases.length, "test case")}`);
  $("#said").textContent = "";
  document.title = [shown[0]?.name, named(true), VERSION].filter(Boolean).join(", ");
  app.panes = [];
  if (!sources.length) showStart(); else if (shown.length) showCases(shown); else showTable();
};
const STEPS = { j: 1, ArrowDown: 1, k: -1, ArrowUp: -1, PageDown: 15, PageUp: -15, Home: -Infinity, End: Infinity };
const neighbour = step => app.found[app.found.findIndex(({ opened }) => opened[0].id === app.last) + step];
const goToRow = row => { if (row) goTo(...row.opened); };
// What further keys do in the table, and in a case.
const IN_TABLE = { Enter: () => goToRow(app.found[app.at]) };
const IN_CASE = { Enter: unfold, n: () => find(1), N: () => find(-1), "[": () => goToRow(neighbour(-1)),
  "]": () => goToRow(neighbour(1)), w: pane => choose(pane, pane.chart.rowAt(pane.chart.game.why?.index ?? -1)) };
on(document, "keydown", event => {
  const { key, target } = event, isOpen = app.panes.length > 0, isTable = $(".cases") !== null;
  const isTyping = target.matches("textarea, select, input:not([type=checkbox])");
  const isPressing = key === "Enter" && target.matches("a, button, input");
  const act = (isOpen ? IN_CASE : isTable ? IN_TABLE : {})[key];
  if (event.ctrlKey || event.metaKey || event.altKey || isPressing || (isTyping && key !== "Escape") || $("dialog")) return;
  if (key === "Escape") { if (isTyping) target.blur(); else goTo(); }
  else if (key === "/" && $("#search")) $("#search").focus();
  else if (STEPS[key] && isOpen) choose(app.pane, app.pane.chart.chosen + STEPS[key]);
  else if (STEPS[key] && isTable) app.moveTo(app.at + STEPS[key]);
  else if (act) act(app.pane); else return;
  event.preventDefault();
});
on(window, "hashchange", app.show);
listenForFiles();
const held = $("#history").textContent.replaceAll("\u2039", "<");  // which stands in the page for it, and in no text
const pageName = decodeURIComponent(location.pathname.split("/").at(-1)).replace(/\.html?$/, "");
if (held) addSource(pageName || "histories", held, Date.parse(document.lastModified));
listenForPrint();
app.show();

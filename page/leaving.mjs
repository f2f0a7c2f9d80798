// Leaving: what a reader saves from the page, as a picture in a file, or as text for Mermaid.
import { app, on } from "./app.mjs";
import { mermaidOf } from "./mermaid.mjs";
const MOST_DRAWN = 20000, MOST_TOLD = 2000;  // rows
// The picture of a chart for a file. It has the light colours as values, for programs that do not know variables.
export function fileOf(chart) {
  const rules = [...document.styleSheets[0].cssRules], light = rules[0].style;
  const plain = rule => rule.cssText.replace(/var\((--[\w-]+)\)/g, (_, name) => light.getPropertyValue(name).trim());
  const style = `<style>${rules.filter(rule => rule.selectorText?.includes("chart")).map(plain).join("\n")}</style>`;
  return chart.picture(style, `test case ${chart.game.name}`);
}
function isShort({ rows }, what, most) {
  if (rows.length > most) alert(`${what} would have ${rows.length} rows of at most ${most}: fold, hide, or choose a component.`);
  return rows.length <= most;
}
export function saveChart() {
  const { chart } = app.pane;
  if (!isShort(chart, "The picture", MOST_DRAWN)) return;
  const href = URL.createObjectURL(new Blob([fileOf(chart)], { type: "image/svg+xml" }));
  Object.assign(document.createElement("a"), { href, download: `${chart.game.name}.svg` }).click();
}
// Shows the text for Mermaid with all of it selected, so that it can be copied.
export function showMermaid() {
  const { chart } = app.pane, dialog = document.createElement("dialog"), area = document.createElement("textarea");
  if (!isShort(chart, "The diagram", MOST_TOLD)) return;
  area.value = mermaidOf(chart.game, chart.rows, chart.lanes.map(lane => lane.number));
  dialog.append(Object.assign(area, { rows: 24, cols: 90, readOnly: true }));
  on(document.body.appendChild(dialog), "close", () => dialog.remove());
  on(dialog, "click", event => { if (event.target === dialog) dialog.close(); });
  dialog.showModal();
  area.select();
}

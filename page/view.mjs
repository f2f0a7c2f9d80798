// The view: the chart of one case, or the charts of two side by side, which scroll together.
import { $, $$, app, chip, counted, goTo, on, when } from "./app.mjs";
import { alike, partings } from "./cases.mjs";
import { Chart, HEAD, ROW } from "./chart.mjs";
import { decidingOf } from "./rows.mjs";
import { escaped } from "./drawing.mjs";
import { openCase } from "./lanes.mjs";
import { saveChart, showMermaid } from "./leaving.mjs";
import { faults } from "./sources.mjs";
import { reasonOf } from "./list.mjs";
import { showStates } from "./states.mjs";
const TALLEST = 8e6;  // in dots; browsers scroll no much greater height
function caseFrame(cases, games, part) {
  const [one, two] = cases, namesOf = game => [...game.lanes.keys()].map(number => [number, game.who(number)]);
  const box = (key, label) =>
    `<label><input type="checkbox" data-option="${key}" ${when(app.options[key], "checked")}> ${label}</label>`;
  const option = (value, words, isChosen = false) => `<option value="${value}" ${when(isChosen, "selected")}>${words}</option>`;
  const place = ({ line, source, lineByLine }, from) =>
    when(!lineByLine, `line ${line}${when(from, ` of ${escaped(source.name)}`)}`);
  const others = app.cases.filter(other => other.name === one.name && other !== one);
  const chosen = other => [other.status, place(other, other.source !== one.source)].filter(Boolean).join(", ");
  const choice = other => option(other.id, chosen(other), other === two);
  const isOdd = ({ isOver, told, overall }) => !isOver || told !== overall;
  const state = shown => chip(shown.status) + when(isOdd(shown), ` <span>${reasonOf(shown)}</span>`);
  const told = two ? `<span>alike for ${counted(part, "entry", "entries")}</span>` : state(one);
  const pane = shown => `<section class="pane">${when(two, `<h3>${state(shown)} ${place(shown, true)}</h3>`)}
    <div class="scroll" tabindex="0" role="group" aria-label="chart"><svg class="chart heads" height="${HEAD}"></svg>
    <div class="space"><svg class="chart rows" role="listbox" aria-label="entries"></svg></div></div></section>`;
  const button = (id, words, title) => `<button id="${id}" title="${title}">${words}</button>`;
  return `${faults()}<div class="bar"><a href="#">All test cases</a><h2>${one.name}</h2>${told}
    ${button("more", "Show\u2026", "what is shown, and what can be saved")}<div class="more">
    <input id="search" type="search" size="18" placeholder="entry or name  ( / )" aria-label="search for an entry">
    <select id="focus" aria-label="component">${option("", "all components")}
    ${[...new Map(games.flatMap(namesOf))].map(name => option(...name)).join("")}</select>
    ${box("questions", "questions")}${box("ended", "ended calls")}${box("isFolded", "fold repeats")}
    ${when(games.some(game => game.list.length > game.places.length), box("remarks", "remarks"))}
    ${when(others.length, `<select id="other" aria-label="compare with">${option("", "compare with\u2026")}
    ${others.map(choice).join("")}</select>`)}
    ${when(!two, `<span class="push">${button("save", "SVG", "saves this chart as a picture")}
    ${button("mermaid", "Mermaid", "shows the text of this chart for Mermaid")}</span>`)}</div></div>
    ${two ? `<pre class="partings" aria-label="where the runs part">${escaped(partings(...games).join("\n"))}</pre>` : ""}
    <div class="case ${when(two, "two")}">${cases.map(pane).join("")}<aside class="state"></aside></div>`;
}
export function showCases(cases) {
  const games = cases.map(shown => openCase(shown.source.text, shown)), [one, two] = cases, part = two ? alike(...games) : -1;
  for (const game of games) game.part = two ? game.places[part] ?? game.list.length : -1;
  [app.options.focus, app.last] = [null, one.id];
  $("#main").innerHTML = caseFrame(cases, games, part);
  app.panes = $$(".pane").map((element, place) => makePane(games[place], element));
  for (const box of $$("[data-option]")) on(box, "change", () => {
    app.options[box.dataset.option] = box.checked;
    for (const { chart } of app.panes) chart.unfolded.clear();
    layOutAgain();
  });
  on($("#search"), "keydown", event => { if (event.key === "Enter") { find(event.shiftKey ? -1 : 1); event.preventDefault(); } });
  on($("#focus"), "change", ({ target }) => focusOn(target.value === "" ? null : Number(target.value)));
  if ($("#other")) on($("#other"), "change", ({ target }) => goTo(...[one, app.cases[target.value]].filter(Boolean)));
  on($("#more"), "click", ({ target }) => target.closest(".bar").classList.toggle("opened"));
  if (!two) { on($("#save"), "click", saveChart); on($("#mermaid"), "click", showMermaid); }
  for (const pane of [...app.panes].reverse()) {
    const { chart } = pane, first = two ? chart.game.part : chart.game.list.indexOf(decidingOf(chart.game));
    choose(pane, chart.rowAt(Math.max(0, first)));
  }
}
function makePane(game, element) {
  const pane = { chart: new Chart(game, app.options) };
  for (const part of ["scroll", "heads", "rows", "space"]) pane[part] = $(`.${part}`, element);
  const { chart, scroll, rows, heads } = pane;
  const redraw = () => requestAnimationFrame(() => draw(pane));
  const numberAt = (event, name) => Number(event.target.closest(`[data-${name}]`)?.dataset[name] ?? NaN);
  on(scroll, "scroll", () => { redraw(); for (const other of app.panes) other.scroll.scrollTop = scroll.scrollTop; });
  on(rows, "click", event => { if (numberAt(event, "row") >= 0) choose(pane, numberAt(event, "row")); });
  on(rows, "dblclick", () => unfold(pane));
  on(heads, "click", event => {
    const number = numberAt(event, "lane");
    if (number >= 0) focusOn(app.options.focus === number ? null : number);
  });
  new ResizeObserver(() => { chart.place(scroll.clientWidth); redraw(); }).observe(scroll);
  chart.place(scroll.clientWidth);
  return pane;
}
// How tall the rows look, and how far down they are scrolled. If they are too tall, one dot of the scroll bar is several.
function share({ scroll }) {
  const room = scroll.clientHeight - HEAD, all = Math.max(room, ...app.panes.map(pane => pane.chart.height));
  const tall = Math.min(all, TALLEST), scale = tall > room ? (all - room) / (tall - room) : 1;
  return { room, tall, scale, top: scroll.scrollTop * scale };
}
function draw(pane) {
  const { chart, scroll, rows, heads, space } = pane, { room, tall, top } = share(pane);
  const left = scroll.scrollLeft, right = Math.min(chart.width, left + scroll.clientWidth);
  const from = Math.max(0, Math.min(Math.floor(top / ROW) - 4, chart.rows.length));
  const to = Math.min(chart.rows.length, from + Math.ceil(room / ROW) + 10);
  Object.assign(space.style, { height: `${tall}px`, width: `${chart.width}px` });
  for (const part of [heads, rows]) part.setAttribute("width", chart.width);
  rows.setAttribute("height", (to === chart.rows.length ? chart.height : to * ROW) - from * ROW);
  rows.style.top = `${HEAD + scroll.scrollTop - top + from * ROW}px`;
  heads.innerHTML = chart.heads(left, right);
  rows.innerHTML = chart.draw(from, to, left, right);
}
function layOutAgain() {
  for (const { chart } of app.panes) {
    const entry = chart.rows[chart.chosen]?.first ?? 0;
    chart.layout();
    chart.chosen = Math.max(0, chart.rowAt(entry));
  }
  const last = app.pane;
  for (const pane of [...app.panes.filter(other => other !== last), last]) choose(pane, pane.chart.chosen);
}
// Shows what is about one component, or everything for null.
function focusOn(number) {
  app.options.focus = number;
  $("#focus").value = number ?? "";
  layOutAgain();
}
// Chooses a row, and scrolls to it and its caller.
export function choose(pane, place) {
  const { chart, scroll } = pane, { room, scale, top } = share(pane), left = scroll.scrollLeft;
  app.pane = pane;
  chart.chosen = Math.max(0, Math.min(place, chart.rows.length - 1));
  draw(pane);
  const y = chart.chosen * ROW, x = chart.xs.get(chart.game.list[chart.rows[chart.chosen]?.first]?.on) ?? 0;
  if (y < top + ROW || y > top + room - 2 * ROW) scroll.scrollTop = Math.max(0, y - room / 3) / scale;
  if (x < left + chart.gutter + 20 || x > left + scroll.clientWidth - 40) scroll.scrollLeft = x - scroll.clientWidth / 2;
  draw(pane);
  showStates();
  app.chosen?.(chart.game.list[chart.rows[chart.chosen]?.first]);
}
export function unfold({ chart }) {
  const row = chart.rows[chart.chosen];
  if (row?.times > 1 || row?.asked > 1) { chart.unfolded.add(row.first); layOutAgain(); }
}
// The next row with the word: in an entry, or in the name of a component or behaviour of it.
export function find(step) {
  const word = $("#search").value.toLowerCase(), { chart } = app.pane, { rows, game } = chart;
  const says = ({ text, run, started, on, target }) => [text, game.which(run), game.which(started ?? run), game.who(on),
    game.who(target ?? on)].some(words => words.toLowerCase().includes(word));
  for (let far = 1; word && far <= rows.length; far += 1) {
    const place = (chart.chosen + step * far + rows.length) % rows.length;
    if (rows[place].seen.some(index => says(game.list[index]))) { choose(app.pane, place); return; }
  }
}

// The list: all test cases as a table, with filters by verdict, a search by name, an order, and why each verdict came.
import { VERDICTS } from "./reading.mjs";
import { $, $$, app, chip, counted, goTo, hashOf, on, when } from "./app.mjs";
import { nameOf, named, quoted } from "./lanes.mjs";
import { escaped, lookOf } from "./drawing.mjs";
import { STATUSES, orderOf, tableRows, tallies } from "./nights.mjs";
import { meaningOf } from "./shapes.mjs";
import { faults } from "./sources.mjs";
const PORTION = 500, MOST_REASONS = 3;  // rows that are made at a time, as they come into sight; reasons in one of several files
const FEW = 3;  // files that have their columns before that of the reasons
// Why the verdict of a case is what it is, in words.
export function reasonOf({ told, overall, end, isOver, why, names }) {
  const made = VERDICTS[overall];
  if (told !== overall)
    return `<b class="warn">line ${end} says ${VERDICTS[told]}, the entries make ${made}: <code>ttrun check</code> judges</b>`;
  if (!isOver) return `no entry ends the test case; verdict so far ${made}`;
  if (overall < 2) return when(overall === 0, '<span class="dim">no verdict was set</span>');
  const { run, behaviour, on, name, text, line } = why, title = meaningOf(names, why);
  return `run ${named(run, behaviour)} on <b>${nameOf(on, name)}</b>: ${saidAround(why, `<code title="${title}">${text}</code>`)}
    <span class="dim">line&nbsp;${line}</span>`;
}
// The remarks of the run of the deciding entry, before and after some words.
export function saidAround({ before, behind }, words) {
  const said = text => when(text, escaped(quoted(text ?? "")));
  return `${said(before)} ${words} ${said(behind)}`;
}
function rowWriter(files) {
  const verdicts = tallies(app.cases), places = new Map(app.cases.map(({ name }) => [name, []]));
  for (const one of app.cases) places.get(one.name).push(one);
  const link = (cases, words, look = "") => `<a class="${look}" href="${hashOf(cases)}">${words}</a>`;
  const mark = name => {
    const found = [...verdicts.get(name)], told = found.map(([status, times]) => `${status} ${times}`).join(", ");
    return when(found.length > 1, ` <span class="mark" title="of this name: ${told}">${found.length} verdicts</span>`);
  };
  const compare = one => {
    const same = places.get(one.name), other = same[(same.indexOf(one) + 1) % same.length];
    return when(same.length > 1, ` ${link(other.id < one.id ? [other, one] : [one, other], "compare", "dim")}`);
  };
  const begun = (row, place) => `<tr data-row="${place}">`;
  if (files.length < 2) return (row, place) => {
    const [one] = row.cases, { components, entries, status, name } = one;
    return `${begun(row, place)}<td>${chip(status)}<td class="name">${link([one], name)}${compare(one)}${mark(name)}
      <td class="number">${components}<td class="number">${entries}<td class="reason">${reasonOf(one)}</tr>`;
  };
  const ofFile = (cell, nth) => `<td data-file="${escaped(files[nth].name)}">` +
    (cell.map(one => link([one], chip(one.status))).join(" ") || '<span class="chip v-missing">missing</span>');
  const isTold = ({ overall, told, isOver }) => overall >= 2 || told !== overall || !isOver;
  const where = ones => ones.length > 1 ? `${ones.length} times` : escaped(ones[0].source.name);
  const reason = ones => `<div><span class="dim">${where(ones)}</span> ${reasonOf(ones.at(-1))}</div>`;
  const reasons = ({ cases }) => {
    const found = new Map(), key = ({ why, ...one }) => reasonOf({ ...one, why: { ...why, line: "" } });
    for (const one of cases.filter(isTold)) found.set(key(one), [...found.get(key(one)) ?? [], one]);
    return [...found.values()].slice(-MOST_REASONS).map(reason).join("");
  };
  return (row, place) => {
    const told = `<td class="reason">${reasons(row)}`, ofFiles = row.cells.map(ofFile).join("");
    return `${begun(row, place)}<td class="name">${link(row.opened, row.name)}${mark(row.name)}
      ${files.length > FEW ? told + ofFiles : ofFiles + told}</tr>`;
  };
}
function tableFrame(files, rows) {
  const tally = status => rows.filter(({ statuses }) => statuses.includes(status)).length;
  const changed = rows.filter(row => row.isChanged).length;
  const button = status => `<button class="chip ${lookOf(status)}" data-verdict="${status}"
    title="shows only ${status}, a second click all; with Ctrl shows ${status} too">${status} ${tally(status)}</button>`;
  const head = (column, words, look = "", date = "") => `<th class="${look}" data-sort="${column}">
    <button title="sorts by this column, a second click backwards">${escaped(words)}</button>${date && `<div>${date}</div>`}`;
  const several = files.length > 1, ofFile = ({ name, date }, nth) => head(nth, name, "", date);
  const ofFiles = files.map(ofFile).join(""), isMany = files.length > FEW;
  const why = '<th class="why">Why: the first entry with that verdict';
  const ofCases = head("components", "Components", "number") + head("entries", "Entries", "number") + why;
  const heads = several ? head("name", "Test case") + (isMany ? why + ofFiles : ofFiles + why) :
    head("verdict", "Verdict") + head("name", "Test case") + ofCases;
  return `${faults()}<div class="bar">
    <input id="search" type="search" placeholder="name  ( / )" aria-label="search by name" value="${escaped(app.search)}">
    ${STATUSES.filter(tally).map(button).join("")}${when(several, `<label><input type="checkbox" id="changed"
    ${when(app.isChangedOnly, "checked")}> only what changed: ${changed} of ${rows.length.toLocaleString("en")}</label>`)}
    <span id="shown" class="dim" role="status"></span></div>
    <div class="list"><table class="cases ${when(several, "several")} ${when(isMany, "many")}"><thead><tr>${heads}</thead>
    <tbody></tbody></table></div>`;
}
export function showTable() {
  const files = app.sources.filter(({ cases }) => cases.length), rows = tableRows(app.cases, files), several = files.length > 1;
  app.only = new Set(STATUSES.filter(status => app.only.has(status) && rows.some(({ statuses }) => statuses.includes(status))));
  $("#main").innerHTML = tableFrame(files, rows);
  const body = $(".cases tbody"), list = $(".list"), writeRow = rowWriter(files);
  app.showMore = () => {
    const from = body.rows.length, next = app.found.slice(from, from + PORTION);
    body.insertAdjacentHTML("beforeend", next.map((row, nth) => writeRow(row, from + nth)).join(""));
    return next.length > 0;
  };
  const mark = isMarked => body.rows[app.at]?.setAttribute("aria-current", isMarked);
  app.moveTo = at => {
    mark(false);
    app.at = Math.max(0, Math.min(at, app.found.length - 1));
    while (app.at >= body.rows.length && app.showMore());
    mark(true);
    body.rows[app.at]?.scrollIntoView({ block: "nearest" });
  };
  const isShown = ({ name, statuses, isChanged }) => (!app.only.size || statuses.some(status => app.only.has(status))) &&
    (!several || !app.isChangedOnly || isChanged) && name.toLowerCase().includes(app.search.toLowerCase());
  const fill = () => {
    for (const button of $$("[data-verdict]")) button.setAttribute("aria-pressed", app.only.has(button.dataset.verdict));
    for (const head of $$("[data-sort]"))
      head.setAttribute("aria-sort", head.dataset.sort !== app.sort ? "none" : app.isDown ? "descending" : "ascending");
    app.found = rows.filter(isShown).sort(orderOf(app.sort, app.isDown));
    const isPart = app.found.length < rows.length, all = counted(rows.length, "test case");
    $("#shown").textContent = when(isPart, `${app.found.length.toLocaleString("en")} of ${all} shown`);
    body.innerHTML = "";
    app.showMore();
    app.moveTo(app.found.findIndex(({ cases }) => cases.some(({ id }) => id === app.last)));
  };
  on(list, "scroll", () => { if (list.scrollTop + list.clientHeight > list.scrollHeight - 600) app.showMore(); });
  on(body, "click", ({ target }) => { if (!target.closest("a")) goTo(...app.found[target.closest("tr").dataset.row].opened); });
  on($("#search"), "input", event => { app.search = event.target.value; fill(); });
  if (several) on($("#changed"), "change", event => { app.isChangedOnly = event.target.checked; fill(); });
  for (const button of $$("[data-verdict]")) on(button, "click", event => {
    const { verdict } = button.dataset, { only } = app, isAlone = only.size === 1 && only.has(verdict);
    if (!event.ctrlKey && !event.metaKey) only.clear();
    if (event.ctrlKey || event.metaKey ? !only.delete(verdict) : !isAlone) only.add(verdict);
    fill();
  });
  for (const { dataset, firstElementChild } of $$("[data-sort]")) on(firstElementChild, "click", () => {
    Object.assign(app, { isDown: app.sort === dataset.sort && !app.isDown, sort: dataset.sort });
    fill();
  });
  fill();
}

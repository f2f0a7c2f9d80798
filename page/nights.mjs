// The nights: the rows of the table. Of one file each is a test case, of several each is a name, with a cell for each file.
export const STATUSES = ["error", "unfinished", "fail", "inconc", "missing", "none", "pass"];  // the failures first
const collator = new Intl.Collator("en", { numeric: true });
const worstOf = statuses => STATUSES.find(status => statuses.includes(status));
// What a row opens: its last case, next to the last one before it with another verdict. If there is none, next to the one before.
function openedOf(cases) {
  const last = cases.at(-1), other = cases.findLast(({ status }) => status !== last.status) ?? cases.at(-2);
  return other ? [other, last] : [last];
}
function tableRow(name, cells) {
  const cases = cells.flat(), statuses = cells.flatMap(cell => cell.length ? cell.map(({ status }) => status) : ["missing"]);
  const status = worstOf(statuses), isChanged = new Set(statuses).size > 1;
  return { name, cells, cases, statuses, status, isChanged, opened: openedOf(cases) };
}
export function tableRows(cases, files) {
  if (files.length < 2) return cases.map(one => tableRow(one.name, [[one]]));
  const cells = new Map(cases.map(({ name }) => [name, files.map(() => [])]));
  for (const one of cases) cells.get(one.name)[files.indexOf(one.source)].push(one);
  return [...cells].map(([name, ofFiles]) => tableRow(name, ofFiles));
}
// How many of the cases of each name have each verdict.
export function tallies(cases) {
  const found = new Map(cases.map(({ name }) => [name, new Map()]));
  for (const { name, status } of cases) found.get(name).set(status, (found.get(name).get(status) ?? 0) + 1);
  return found;
}
// The order of rows by a column: `verdict`, `name`, `components`, `entries`, or the place of a file. Equal rows stay in order.
export function orderOf(column, isDown) {
  const inFile = ({ cells }) => worstOf(cells[column].map(({ status }) => status)) ?? "missing";
  const keyOf = column === "verdict" ? ({ status }) => STATUSES.indexOf(status) :
    /^\d/.test(column) ? row => STATUSES.indexOf(inFile(row)) : ({ cases }) => cases[0][column];
  const byName = (one, other) => collator.compare(one.name, other.name), byKey = (one, other) => keyOf(one) - keyOf(other);
  const order = column === "name" ? byName : byKey;
  return isDown ? (one, other) => order(other, one) : order;
}

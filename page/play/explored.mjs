// What was found: the answer of `explore --details` read line by line, with the lines of the script, and shown as a table of verdicts.
import { VERDICTS } from "../reading.mjs";
import { chip, counted, when } from "../app.mjs";
import { escaped } from "../drawing.mjs";
const FIRST = new RegExp(`^(\\w+)((?: (?:${VERDICTS.join("|")}))*) (complete|undecided after \\d+ states(?:: limit of (?:states|memory))?)$`);
// Each test case with its verdicts, how its search ended, the lines below it, and the place of its first witness.
export function readExplored(output) {
  const rows = [];
  let from = 0;
  for (const line of output.split("\n")) {
    const [, name, verdicts, ending] = FIRST.exec(line) ?? [];
    if (!name) { if (line) rows.at(-1).lines.push(line); continue; }
    rows.push({ name, ending, from, verdicts: verdicts.split(" ").slice(1), lines: [] });
    from += rows.at(-1).verdicts.length;
  }
  return rows;
}
const about = ({ ending, verdicts }) => ending !== "complete" ? "Other verdicts can happen: the search met its limit, which is set below the text." :
  verdicts.length > 1 ? "No schedule has another verdict." : "Each schedule has this verdict.";
// The rows of the table. Until the witnesses are there, the verdicts are no links.
export function exploredRows(rows, hasWitnesses) {
  const link = (ids, words) => hasWitnesses ? `<a href="#${ids.map(id => `/${id}`).join("")}">${words}</a>` : words;
  const sideBySide = ({ from, verdicts }) => verdicts.slice(1).map((verdict, nth) =>
    link([from, from + nth + 1], when(hasWitnesses, `${verdicts[0]} next to ${verdict}`))).join(" ");
  return rows.map(row => `<tr data-from="${row.from}"><td><b>${row.name}</b><td>${row.verdicts.map((verdict, nth) =>
    link([row.from + nth], chip(verdict))).join(" ")}<td><span class="${when(row.ending !== "complete", "warn")}">${row.ending}</span>
    <span class="dim">${about(row)}</span> ${sideBySide(row)}</tr>`).join("");
}
// The behaviours of each test case, in the order of their runs, by its name.
export function behavioursOf(script) {
  const cases = new Map();
  let behaviours = null, open = null;
  script.split("\n").forEach((text, at) => {
    const words = text.trim(), [word, name] = words.split(/\s+/);
    if (!word || word.startsWith("#")) return;
    if (word === "testcase") cases.set(name, behaviours = []);
    else if (word === "behaviour") behaviours?.push(open = { name, steps: [], end: null });
    else if (word !== "end") open?.steps.push({ line: at + 1, words });
    else if (open) { open.end = at + 1; open = null; }
  });
  return cases;
}
// Gives each entry, in their order, the line of its step. A wake is of the step of its wait, and the last entry of its `end`.
export function lineByLine(behaviours) {
  const made = new Map();
  return ({ run, verb, line }) => {
    const nth = (made.get(run) ?? 0) - verb.startsWith("wake "), { steps, end } = behaviours[run] ?? { steps: [], end: line };
    made.set(run, nth + 1);
    return steps[nth]?.line ?? end;
  };
}
// A line of `explore --details` about a step, by the name of the behaviour and the line of the script.
export function inScript(behaviours, words) {
  const [, run, step] = /^run (\d+) from step (\d+) of \d+ on: /.exec(words) ?? [], { name, steps } = behaviours?.[run] ?? {};
  const found = steps?.[step - 1];
  return found ? `${name}, line ${found.line}: ${found.words}` : words;
}
// The row whose witness has this number.
export const rowOf = (rows, id) => rows.findLast(({ from }) => from <= id);
// The lines of a row that say why: who waits for whom, and what no schedule carries out. The rest is as it is printed.
export function whyOf({ lines, verdicts }, behaviours) {
  const of = word => lines.filter(line => line.startsWith(`  ${word}: `)).map(line => `<li>${escaped(inScript(behaviours, line.slice(word.length + 4)))}`);
  const stuck = of("stuck"), unseen = of("not seen");
  return when(stuck.length, `<div><b>No run can continue</b> at the end of <i>error</i>:<ul>${stuck.join("")}</ul></div>`) +
    when(unseen.length, `<div><b>No schedule comes to</b><ul>${unseen.join("")}</ul></div>`) +
    when(lines.length, `<details><summary>${counted(verdicts.length, "witness", "witnesses")}, as <code>explore --details</code>
    prints of them</summary><pre>${escaped(lines.join("\n"))}</pre></details>`);
}
// The shown cases are marked in the table.
export function markShown(table, ids) {
  for (const link of table.querySelectorAll("a")) link.toggleAttribute("aria-current", link.hash === `#${ids.map(id => `/${id}`).join("")}`);
}
export const witnessesOf = rows => rows.reduce((sum, { verdicts }) => sum + verdicts.length, 0);
export const firstToShow = rows => {
  const row = rows.find(({ verdicts }) => verdicts.length > 1) ?? rows.find(({ lines }) => lines.some(line => /^ {2}stuck/.test(line))) ?? rows[0];
  return row && row.verdicts.length > 1 ? [row.from, row.from + 1] : row ? [row.from] : [];
};

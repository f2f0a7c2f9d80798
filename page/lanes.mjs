// The lanes: a case with its entries, and how each component's phase, local verdict and wait change with them.
import { Lines, readBlock } from "./reading.mjs";
import { Table, phaseOf } from "./table.mjs";
// How many items are `so`, in a list that has these first.
export function countWhile(list, so) {
  let low = 0, high = list.length;
  while (low < high) {
    const middle = (low + high) >> 1;
    if (so(list[middle])) low = middle + 1; else high = middle;
  }
  return low;
}
// The last change at an entry, or before it.
export const lastAt = (changes, index) => changes[countWhile(changes, change => change.at <= index) - 1];
// The name of a run with its behaviour, or of a component.
export const named = (number, name) => name ? `${number} ${name}` : `${number}`;
export const quoted = said => `\u201c${said}\u201d`;
export const nameOf = (number, name = null) => number === null ? "no component" : number === 0 ? "mtc" : named(number, name);
// Notes the phase and the local verdict that a slot has after the entry at an index, whose verb is `by`.
function note(lanes, slot, at, by) {
  if (!slot.exists) return;
  const { number, name, alive, run, local } = slot, phase = phaseOf(slot);
  if (!lanes.has(number)) lanes.set(number, { number, name, alive, runs: new Set(), phases: [], locals: [], waits: [] });
  const lane = lanes.get(number), last = lane.phases.at(-1);
  if (phase === "running") lane.runs.add(run);
  if (!last || last.phase !== phase || last.run !== run) {
    lane.phases.push({ at, phase, run, by });
    if (lane.wait) { Object.assign(lane.wait, { to: at, how: "halted" }); lane.wait = null; }
  }
  if (lane.locals.at(-1)?.rank !== local) lane.locals.push({ at, rank: local });
}
// Begins or ends the wait of the run that made the entry. A wake that is parked continues the same wait.
function noteWait(lane, entry, at) {
  const { run, reply, error } = entry, operation = entry.operation.replace("wake", "wait");
  const isParked = operation.startsWith("wait") && reply === "parked";
  if (lane.wait?.run === run && !(isParked && lane.wait.operation === operation)) {
    Object.assign(lane.wait, { to: at, how: error ? "error" : reply });
    lane.wait = null;
  }
  if (isParked && !lane.wait) lane.waits.push(lane.wait = { at, to: Infinity, how: "open", run, operation });
}
// The case of a summary: its entries and remarks in one list, and `places`, the indices of the entries in it. A change at an
// entry holds after it, and a change at -1 from the beginning. `overAt` is the entry that ended the case, `part` the first one
// that differs from another case, `on` of an entry the component of its run, `at` its place. If a run asks for its verdict
// again and gets the same, `asked` is where it began to ask. `who`, `which` and `ran` give names. `lineByLine` of a summary gives
// the entries other lines than those of its text.
export function openCase(text, summary) {
  const table = new Table(), list = [], places = [], lanes = new Map(), lasts = new Map(), { names } = summary;
  const lineOf = summary.lineByLine?.();
  const who = number => nameOf(number, lanes.get(number)?.name), which = run => named(run, names.get(run));
  const ran = number => [...lanes.get(number).runs].filter(run => names.has(run)).map(run => `run ${which(run)}`).join(", ");
  const game = { ...summary, list, places, lanes, overAt: null, part: -1, who, which, ran };
  note(lanes, table.slot(0), -1, null);
  readBlock(new Lines(text, summary.from, summary.line - 1), entry => {
    const at = list.push(entry) - 1, wasOver = table.isOver, on = table.runs.get(entry.run), last = lasts.get(entry.run);
    Object.assign(entry, { on: lanes.has(on) ? on : null, at, asked: at });
    if (entry.said) return;
    if (lineOf) entry.line = lineOf(entry);
    if (entry.verb === "getverdict" && last?.verb === "getverdict" && last.reply === entry.reply) entry.asked = last.asked;
    lasts.set(entry.run, entry);
    places.push(at);
    if (entry.on !== null) noteWait(lanes.get(on), entry, at);
    for (const slot of table.take(entry)) note(lanes, slot, at, entry.verb);
    if (table.isOver && !wasOver) game.overAt = at;
  });
  return game;
}

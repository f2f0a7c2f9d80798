// The cases: what the table of test cases says of each block of a text, and where two opened cases part.
import { Fault, Lines, MOST_BYTES, VERDICTS, readBlock } from "./reading.mjs";
import { callOf } from "./shapes.mjs";
import { Table } from "./table.mjs";
// A block without its entries, and where to read it again. `why` is the first entry after which the overall verdict is the
// final one. It has two remarks of its run: `before` is the last since the run's entry before it, `behind` the first until
// the run's next entry.
function summarise(lines) {
  const from = lines.at, table = new Table(), remarks = new Map();
  let entries = 0, index = -1, why = null;
  const block = readBlock(lines, entry => {
    const { run, verb, said } = entry, worst = table.overall;
    index += 1;
    if (why?.run === run && verb !== "!") why.behind ??= said;
    if (verb === "#") remarks.set(run, said);
    if (said) return;
    table.take(entry);
    const on = table.runs.get(run) ?? null, before = remarks.get(run) ?? "";
    if (table.overall > worst) why = { ...entry, index, on, before, behind: null };
    remarks.delete(run);
    entries += 1;
  });
  const { components, overall, isOver } = table;
  if (why) Object.assign(why, { name: table.slots.get(why.on)?.name ?? null, behaviour: block.names.get(why.run) ?? null });
  return { ...block, from, entries, components, overall, isOver, status: isOver ? VERDICTS[overall] : "unfinished", why };
}
// All blocks of a text, up to its first fault.
export function readHistories(text) {
  const cases = [], lines = new Lines(text);
  try {
    if (text.length > MOST_BYTES) throw new Fault(null, "input too long", null);
    do cases.push(summarise(lines)); while (lines.more);
    return { cases, fault: null };
  } catch (fault) {
    if (!(fault instanceof Fault)) throw fault;
    return { cases, fault };
  }
}
// How many first entries of two opened cases are equal. Remarks and names are not compared.
export function alike(one, other) {
  const part = one.places.findIndex((place, nth) => one.list[place].text !== other.list[other.places[nth]]?.text);
  return part < 0 ? one.places.length : part;
}
// What ended the run of an entry, if the entry is replied so.
function endOf({ list, lanes }, entry) {
  const phases = entry?.reply === "ended" ? lanes.get(entry.on)?.phases ?? [] : [];
  const begun = phases.findLastIndex(({ phase, run }) => phase === "running" && run === entry.run);
  return list[phases[begun + 1]?.at]?.text;
}
// For each run of two opened cases the first of its calls that differ, and what ended the run before a call that is replied so.
// Waits that were parked are left out.
export function partings(one, other) {
  const games = [one, other], all = games.map(({ list, places }) => places.map(place => list[place]));
  const plain = entry => entry ? `${entry.operation.replace("wake", "wait")} -> ${entry.reply}` : "";
  return [...new Set(all.flat().map(({ run }) => run))].sort((left, right) => left - right).flatMap(run => {
    const calls = all.map(entries => entries.filter(entry => entry.run === run && entry.reply !== "parked"));
    const at = [...calls[0], null].findIndex((entry, nth) => plain(entry) !== plain(calls[1][nth]));
    const sides = games.map((game, side) => [game, calls[side][at], ["left", "right"][side]]);
    const told = sides.map(([game, entry]) => entry ? `${callOf(game, entry)} -> ${entry.reply}` : "not made").join(" | ");
    const ends = sides.map(([game, entry, side]) => [side, endOf(game, entry)]).filter(([, text]) => text);
    const before = ends.map(([side, text]) => `; ${side}: before it ${text}`).join("");
    return at < 0 ? [] : `run ${one.which(run)}: call ${at + 1}: ${told}${before}`;
  });
}

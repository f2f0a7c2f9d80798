// The table: what follows for each component from the entries so far, by docs/rules.md. No entry is refused here.
import { VERDICTS } from "./reading.mjs";
const isHalt = verb => verb === "stop" || verb === "kill";
export class Table {
  constructor() {
    Object.assign(this, { slots: new Map(), components: 0, isOver: false, overall: 0 });
    this.runs = new Map([[0, 0]]);  // the component that a run is on, by the first start of it that was carried out
    this.make(0, null).run = 0;
  }
  // What is kept of a component, even of one that was not made.
  slot(number) {
    if (!this.slots.has(number)) this.slots.set(number,
      { number, exists: false, alive: false, name: null, run: null, isHalted: false, isKilled: false, local: 0 });
    return this.slots.get(number);
  }
  make(number, entry) {
    const slot = this.slot(number);
    if (slot.exists) return slot;
    Object.assign(slot, { exists: true, alive: entry?.alive ?? false, name: entry?.name ?? null });
    this.components += 1;
    this.overall = Math.max(this.overall, slot.local);
    return slot;
  }
  endsCase({ verb, run, target, error }) {
    return error !== null || verb === "stopcase" || (verb === "finish" && run === 0) || (isHalt(verb) && target === 0);
  }
  // The slots of the components that the entry halts.
  halted(entry, own, ends) {
    if (ends) return [...this.slots.values()];
    if (entry.verb === "finish") return own ? [own] : [];
    if (!isHalt(entry.verb)) return [];
    if (entry.target === "all") return [...this.slots.values()].filter(slot => slot.number !== 0);
    return this.slots.has(entry.target) ? [this.slot(entry.target)] : [];
  }
  // Takes an entry, and returns the slots that it may have changed. `isAgain`: refused, since its run was started before.
  take(entry) {
    entry.isAgain = entry.error === "no-behaviour" && entry.started > 0 && this.runs.has(entry.started);
    if (entry.reply === "ended") return [];
    const isCarriedOut = entry.reply === "ok", ends = this.endsCase(entry);
    const own = this.runs.has(entry.run) ? this.slot(this.runs.get(entry.run)) : null;
    const touched = this.halted(entry, own, ends);
    for (const slot of touched) { slot.isHalted = true; slot.isKilled ||= slot.exists && (ends || entry.verb === "kill"); }
    this.isOver ||= ends;
    if (own) {
      if (entry.error !== null || (isCarriedOut && entry.verb === "stopcase")) own.local = VERDICTS.indexOf("error");
      else if (isCarriedOut && entry.verb === "setverdict") own.local = Math.max(own.local, VERDICTS.indexOf(entry.verdict));
      if (own.exists) this.overall = Math.max(this.overall, own.local);
      if (!ends) touched.push(own);
    }
    if (entry.verb === "create" && entry.made !== null) touched.push(this.make(entry.made, entry));
    if (entry.verb === "start" && isCarriedOut) {
      touched.push(Object.assign(this.slot(entry.target), { run: entry.started, isHalted: false }));
      if (!this.runs.has(entry.started)) this.runs.set(entry.started, entry.target);
    }
    return touched;
  }
}
export const phaseOf = slot => slot.isKilled ? "killed" : slot.run === null ? "inactive" : !slot.isHalted ? "running" :
  slot.alive ? "stopped" : "killed";

// Reading: the grammar of docs/texts.md ("Moves" to "Evidence"), and the first line that breaks it.
export const VERDICTS = ["none", "pass", "inconc", "fail", "error"], MOST_BYTES = 16777216;
const MOST_RUN = 65535, MOST_COMPONENT = 4294967295;
const NUMBER = "(?:0|[1-9][0-9]{0,9})";
const NAME = "(?!(?:all|any|mtc|self)(?!\\w))[A-Za-z]\\w{0,31}";
const OPERATIONS = [
  `create( alive)?(?: named (${NAME}))?`, `(?:stop|kill) (${NUMBER}|all)`,
  `start (${NUMBER}) (${NUMBER})((?: ${NUMBER}){0,4})`, `(?:running|alive|(?:wait |wake )?(?:done|killed)) (${NUMBER}|any|all)`,
  "setverdict (none|pass|inconc|fail)", "stopcase|getverdict|finish",
];
const ERRORS = "no-component|not-main|start-main|already-running|not-startable|no-behaviour|too-many|stuck";
const REPLY = `made (${NUMBER})|ok|true|false|${VERDICTS.join("|")}|matched|parked|ended|error (${ERRORS})`;
const whole = pattern => new RegExp(`^${pattern}$`);
const ENTRY = whole(`(${NUMBER}) (${OPERATIONS.join("|")}) -> (${REPLY})`);
const HEADER = whole(`(history [12]|evidence 1) (${NAME}) (${NUMBER})`), END = whole(`end (${VERDICTS.join("|")})`);
const NAMING = whole(`behaviour (${NUMBER}) (${NAME})`), SAID = whole(`(${NUMBER}) ([#!]) ([ -~]{1,200})`);
// The line at which a text breaks the grammar, and why, as `ttrun check` prints it; without a line, the text as a whole.
export class Fault extends Error {
  constructor(line, kind, text) { super(kind); Object.assign(this, { line, kind, text }); }
}
// The lines of a text, one after the other.
export class Lines {
  constructor(text, at = 0, number = 0) { Object.assign(this, { text, at, number }); }
  get more() { return this.at < this.text.length; }
  next() {
    this.number += 1;
    if (!this.more) throw new Fault(this.number, "text ends too early", null);
    const feed = this.text.indexOf("\n", this.at), end = feed < 0 ? this.text.length : feed;
    const line = this.text.slice(this.at, end);
    this.at = end + 1;
    return line;
  }
}
const numberOf = word => word === undefined ? null : /^\d/.test(word) ? Number(word) : word;
// The entry that the line spells, by the groups above, or null. `target` is a component, "any", "all" or null.
function readEntry(line, text, kind) {
  const [, run, operation, alive, name = null, group, on, started, args, asked, verdict = null, reply, made, error = null] =
    ENTRY.exec(text) ?? [];
  if (!operation) return null;
  const entry = { line, text, run: Number(run), verb: /^(?:wait |wake )?\w+/.exec(operation)[0], operation, reply, said: "", name,
    verdict, error, alive: alive !== undefined, target: numberOf(on ?? group ?? asked), started: numberOf(started),
    made: numberOf(made), args: args ? args.slice(1).split(" ").map(Number) : [] };
  const isTooLarge = [entry.target, entry.made, ...entry.args].some(component => component > MOST_COMPONENT);
  if (isTooLarge || entry.run > MOST_RUN || entry.started > MOST_RUN) return null;
  return kind === "history 1" && name !== null ? null : entry;
}
// A remark of a run, or why a line of it was refused, or null. It is in the list of entries, and its verb is `#` or `!`.
function readSaid(line, text, behaviours) {
  const [, run, verb, said] = SAID.exec(text) ?? [];
  return Number(run) < behaviours ? { line, text, run: Number(run), verb, operation: verb, reply: "", said, name: null,
    verdict: null, error: null, alive: false, target: null, started: null, made: null, args: [] } : null;
}
// Reads a block, and passes on each entry and each remark. `names` are those of the behaviours, by their runs.
export function readBlock(lines, take) {
  const first = lines.next(), line = lines.number, names = new Map(), met = new Set();
  const [, kind, name, count] = HEADER.exec(first) ?? [], behaviours = Number(count), isEvidence = kind === "evidence 1";
  if (!(behaviours >= 1 && behaviours <= (kind === "history 1" ? 64 : 256))) throw new Fault(line, "bad first line", first);
  for (;;) {
    const text = lines.next(), number = lines.number;
    const entry = readEntry(number, text, kind) ?? (isEvidence ? readSaid(number, text, behaviours) : null);
    if (entry) { take(entry); met.add(entry.run).add(entry.started); continue; }
    const end = END.exec(text), [, named, behaviour] = isEvidence && NAMING.exec(text) || [], run = Number(named);
    if (end) return { name, names, line, end: number, told: VERDICTS.indexOf(end[1]) };
    if (!(run < behaviours) || met.has(run)) throw new Fault(number, "bad entry", text);
    names.set(run, behaviour);
    met.add(run);
  }
}

// The shapes: what a chart draws for an entry or a row, and the words next to it. There are no coordinates here.
import { VERDICTS } from "./reading.mjs";
import { lastAt, named, nameOf, quoted } from "./lanes.mjs";
import { isQuestion } from "./rows.mjs";
// What each dynamic error means: make.py puts in the words of the program.
const MEANINGS = {};
// What the error of an entry means, in a case with these names of behaviours; nothing if it is none.
export const meaningOf = (names, { error, started, isAgain }) =>
  isAgain ? `run ${named(started, names.get(started))}${MEANINGS.last}` : MEANINGS[error] ?? "";
// A call with names next to its numbers. A wake is a wait.
export function callOf({ who, which }, { verb, operation, target, started, args }) {
  const ofRun = verb === "start" ? ` run ${which(started)}${args.length ? ` with ${args.map(who).join(" ")}` : ""}` : "";
  return (typeof target === "number" ? `${verb} ${who(target)}${ofRun}` : operation).replace(/^wake/, "wait");
}
// An arrow between two life lines, a create, an arrow to all other components, a box on the caller's life line, or a note
// next to it. An entry without a rule is a box with all its words.
export function shapeOf(game, entry, index) {
  const { lanes, who, which } = game, { verb, reply, run, on, target, made, operation, started, said } = entry;
  const to = lanes.has(target) && target !== on ? target : null, isHalt = verb === "stop" || verb === "kill";
  const spoken = verb === "!" ? `refused: ${said}` : quoted(said), words = callOf(game, entry), isCarriedOut = reply === "ok";
  const shape = (form, label, look = "", from = on, end = to) => ({ form, label, look, from, to: end });
  if (!lanes.has(on)) return shape("note", `run ${which(run)}: ${said ? spoken : `${operation} \u2192 ${reply}`}`, "dim");
  if (said) return verb === "!" ? shape("box", spoken, "kept v-error") : shape("note", spoken, "said");
  if (reply === "ended") return shape("note", `${words} \u2192 ended`, "dim small");
  if (entry.error !== null) return shape("box", `${words} \u2192 error ${entry.error}`, "v-error");
  if (verb === "create" && made !== null && made !== on)
    return shape("create", entry.alive ? "create alive" : "create", "dashed", on, made);
  if (verb === "start" && isCarriedOut && to !== null) {
    const names = entry.args.map(entry.args.length > 1 ? number => nameOf(number) : who);
    return shape("arrow", `start run ${which(started)}${names.length ? ` with ${names.join(", ")}` : ""}`);
  }
  if (isHalt && isCarriedOut && target === "all") {
    const isThere = lane => (lastAt(lane.phases, index - 1)?.phase ?? "killed") !== "killed";
    const others = [...lanes.values()].filter(lane => lane.number !== 0 && lane.number !== on && isThere(lane));
    return shape("all", operation, verb, on, others.map(lane => lane.number));
  }
  if (isHalt && isCarriedOut && target === on) return shape("box", `${verb} itself`);
  if (isHalt && isCarriedOut && to !== null) return shape("arrow", verb, verb);
  if (verb === "stopcase" && isCarriedOut) return shape("box", "testcase.stop", "v-error");
  if (verb === "setverdict" && isCarriedOut) {
    const now = VERDICTS[lastAt(lanes.get(on).locals, index).rank];
    if (now === entry.verdict) return shape("box", words, `v-${now}`);
    return shape("box", `${words}, stays ${now}`, `kept v-${entry.verdict}`);
  }
  const isWait = verb.startsWith("wait "), isWake = verb.startsWith("wake "), awaited = words.slice(5);
  if ((isWait || isWake) && reply === "matched")
    return to === null ? shape("box", awaited) : shape("arrow", awaited, "dashed", to, on);
  if (isWait && reply === "parked") return shape("note", words);
  if (isWake && reply === "parked") return shape("note", `still waits: ${awaited}`, "dim small");
  if (verb === "finish" && isCarriedOut) return shape("note", `finish run ${which(run)}`);
  return isQuestion(entry) ? shape("note", `${words} \u2192 ${reply}`, "dim small") : shape("box", `${words} \u2192 ${reply}`);
}
export function shapeOfRow(game, { seen, size, times, asked = 1 }) {
  const shapes = seen.map(index => shapeOf(game, game.list[index], index)), repeats = size === 1 ? Math.max(times, asked) : 1;
  if (repeats > 1) return { ...shapes[0], label: `${shapes[0].label}  \u00d7${repeats}` };
  if (times === 1) return shapes[0];
  return { ...shapes[0], form: "box", label: `${times} times: ${shapes.map(shape => shape.label).join(" / ")}`, look: "kept" };
}

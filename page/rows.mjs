// The rows: which entries of a case are shown, and which share one row since they repeat one another.
const QUESTIONS = new Set(["running", "alive", "done", "killed", "getverdict"]);
export const isQuestion = entry => QUESTIONS.has(entry.verb);
// An entry that changes nothing: a question, or a wait that continues.
const isQuiet = entry => entry.error === null && entry.reply !== "ended" &&
  (isQuestion(entry) || (entry.verb.startsWith("wake") && entry.reply === "parked"));
const isAbout = (entry, component) => entry.on === component || entry.target === component || entry.target === "all" ||
  entry.made === component || entry.args.includes(component);
// The entry that made the verdict of the case, if that is inconc, fail or error.
export const decidingOf = game => game.overall >= 2 ? game.list[game.why.index] : null;
export const isDeciding = (game, row) => game.overall >= 2 && row.first <= game.why.index && game.why.index <= row.last;
// Whether an entry is shown. The entry that ends the case and the one that made its verdict always are.
// A run that asks for its verdict over and over, as a bench does in a sleep, shows the first of these if repeats are folded.
export function filterOf(game, { focus, questions, ended, remarks, isFolded }, unfolded) {
  const always = [game.list[game.overAt], decidingOf(game)];
  const isAgain = ({ asked, at }) => isFolded && asked !== at && !unfolded.has(asked) && !(asked < game.part && game.part <= at);
  return entry => always.includes(entry) || ((focus === null || isAbout(entry, focus)) && !isAgain(entry) &&
    (questions || !isQuiet(entry)) && (ended || entry.reply !== "ended") && (remarks || !entry.said));
}
// Notes in each row how often its run asked for its verdict, from there on to its next other call.
export function countAsked(list, isShown, rows) {
  const times = new Map();
  for (const entry of list)
    if (entry.asked !== entry.at && !isShown(entry)) times.set(entry.asked, (times.get(entry.asked) ?? 1) + 1);
  for (const row of rows) row.asked = row.times === 1 ? times.get(row.first) ?? 1 : 1;
}
// The rows of the entries that are shown. If a run makes the same one to four entries at least three times in a row, they
// share one row. No row goes past the entry `part`.
export function rowsOf(list, isShown, isFolded, unfolded, part = -1) {
  const seen = [], rows = [];
  for (let index = 0; index < list.length; index += 1) if (isShown(list[index])) seen.push(index);
  const isSame = (one, other) => list[seen[one]].text === list[seen[other]].text;
  for (let from = 0; from < seen.length;) {
    let size = 1, times = 1;
    for (let step = 1; isFolded && step <= 4 && times === 1 && !unfolded.has(seen[from]); step += 1) {
      if (from + step > seen.length || list[seen[from + step - 1]].run !== list[seen[from]].run) break;
      let to = from + step;
      while (to < seen.length && isSame(to, to - step) && !(seen[from] < part && part <= seen[to])) to += 1;
      if (to - from >= 3 * step) { size = step; times = Math.floor((to - from) / step); }
    }
    const last = from + size * times - 1;
    rows.push({ first: seen[from], last: seen[last], size, times, seen: seen.slice(from, from + size) });
    from = last + 1;
  }
  return rows;
}

// The answers of the page's model, without a browser: node answers.mjs FOLDER < texts as JSON > answers as JSON.
import { readFileSync } from "node:fs";
import { pathToFileURL } from "node:url";

const folder = `${pathToFileURL(process.argv[2]).href}/`;
const from = name => import(`${folder}${name}.mjs`);
const { VERDICTS } = await from("reading"), { alike, partings, readHistories } = await from("cases"), { lastAt, openCase } = await from("lanes");
const { countAsked, filterOf, rowsOf } = await from("rows"), { orderOf, tableRows, tallies } = await from("nights");
const { shapeOf } = await from("shapes"), { mermaidOf } = await from("mermaid");

// After the first `count` entries: phase, local verdict and wait of each component.
function statesOf({ lanes }, count) {
  const there = [...lanes.values()].filter(lane => lane.phases[0].at < count);
  return Object.fromEntries(there.map(({ number, phases, locals, waits }) => {
    const { phase, run } = lastAt(phases, count - 1), open = waits.filter(wait => wait.at < count && wait.to >= count);
    const local = VERDICTS[lastAt(locals, count - 1).rank];
    return [number, [phase === "running" ? `running ${run}` : phase, local, open.map(wait => wait.operation).join()]];
  }));
}
// The rows of a chart that shows everything, with repeats folded: the place of each, and how often its run asked there.
function askedIn(game) {
  const isShown = filterOf(game, { focus: null, questions: true, ended: true, remarks: true, isFolded: true }, new Set());
  const rows = game.list.filter(isShown).map(entry => ({ first: entry.at, times: 1 }));
  countAsked(game.list, isShown, rows);
  // The same by the entries before each: one that asks for a verdict, as the last of its run did with the same answer, is not shown.
  const wanted = new Map(), lasts = new Map();
  for (const [at, { run, text, said }] of game.list.entries()) {
    const last = lasts.get(run), isAgain = !said && text.includes(" getverdict ") && last?.text === text;
    if (!said) lasts.set(run, { text, first: isAgain ? last.first : at });
    wanted.set(isAgain ? last.first : at, (wanted.get(isAgain ? last.first : at) ?? 0) + 1);
  }
  return [[...wanted], rows.map(({ first, asked }) => [first, asked])];
}
// The table of files, each a list of names with verdicts: what is wanted of each row and of each order, by hand, and what is there.
function nightsOf(given) {
  const nights = JSON.parse(given), ranks = ["error", "unfinished", "fail", "inconc", "missing", "none", "pass"];
  const block = ([name, end]) => `history 2 ${name} 1\n` + (end === "error" ? "0 stopcase -> ok\n" : end === "unfinished" ? "" :
    `0 setverdict ${end} -> ok\n0 finish -> ok\n`) + `end ${end === "unfinished" ? "none" : end}\n`;
  const files = nights.map(night => readHistories(night.map(block).join("")));
  const cases = files.flatMap(file => file.cases.map(one => ({ ...one, source: file }))).map((one, id) => ({ ...one, id }));
  const rows = tableRows(cases, files), times = tallies(cases), flat = nights.flatMap((night, at) => night.map(([name, end]) => [name, end, at]));
  const names = [...new Set(flat.map(([name]) => name))], all = flat.map((_, id) => id), isOne = nights.length === 1;
  const groups = isOne ? all.map(id => [id]) : names.map(name => all.filter(id => flat[id][0] === name));
  const inFile = (group, at) => { const ends = group.filter(id => flat[id][2] === at).map(id => flat[id][1]); return ends.length ? ends : ["missing"]; };
  const rank = ends => Math.min(...ends.map(end => ranks.indexOf(end)));
  const wanted = groups.map(group => {
    const name = flat[group[0]][0], last = group.at(-1), before = group.slice(0, -1), ends = nights.flatMap((_, at) => inFile(group, at));
    const other = before.filter(id => flat[id][1] !== flat[last][1]).at(-1) ?? before.at(-1), count = {};
    for (const [one, end] of flat) if (one === name) count[end] = (count[end] ?? 0) + 1;
    return [name, ranks[rank(ends)], ends, ends.some(end => end !== ends[0]), other === undefined ? [last] : [other, last], Object.entries(count)];
  });
  const keys = { name: group => Number(flat[group[0]][0].slice(2)), verdict: group => rank(nights.flatMap((_, at) => inFile(group, at))),
    ...Object.fromEntries(nights.map((_, at) => [at, group => rank(inFile(group, at))])),
    ...isOne && { components: () => 1, entries: ([id]) => ({ error: 1, unfinished: 0 })[flat[id][1]] ?? 2 } };
  const inOrder = (key, sign) => groups.map((group, place) => [sign * key(group), place, group[0]]).sort((one, other) => one[0] - other[0] || one[1] - other[1])
    .map(([, , id]) => id);
  const ordered = (column, isDown) => [...rows].sort(orderOf(column, isDown)).map(row => row.cases[0].id), columns = Object.keys(keys);
  return [[wanted, columns.map(column => [inOrder(keys[column], 1), inOrder(keys[column], -1)])],
    [rows.map(row => [row.name, row.status, row.statuses, row.isChanged, row.opened.map(one => one.id), [...times.get(row.name)]]),
      columns.map(column => [ordered(column, false), ordered(column, true)])]];
}
const allRows = game => rowsOf(game.list, () => true, true, new Set());
const plain = cases => cases.map(summary => ({ ...summary, names: Object.fromEntries(summary.names) }));
const asked = {
  faults: text => { const { cases, fault } = readHistories(text); return { cases: plain(cases), fault: fault && [fault.line, fault.kind] }; },
  games: text => {
    const { cases, fault } = readHistories(text), games = cases.map(summary => openCase(text, summary));
    return { cases: plain(cases), fault: fault && [fault.line, fault.kind], texts: games.map(game => game.list.map(entry => entry.text)),
      ends: games.map(game => game.overAt), shapes: games.map(game => game.list.map((entry, index) => shapeOf(game, entry, index))),
      alike: games.map(game => alike(games[0], game)), partings: games.map(game => partings(games[0], game)), ran: games.map(game => [...game.lanes.keys()].map(number => [number, game.ran(number)])),
      states: games.map(game => Array.from({ length: game.list.length + 1 }, (_, count) => statesOf(game, count))),
      rows: games.map(game => allRows(game).map(row => row.last)), asked: games.map(askedIn),
      mermaid: games.map(game => mermaidOf(game, allRows(game), [...game.lanes.keys()])) };
  },
  nights: nightsOf,
  rows: text => {
    const list = [...text].map(letter => ({ text: letter, run: letter === "c" ? 1 : 0 })), part = Math.floor(text.length / 2);
    return [part, rowsOf(list, () => true, true, new Set(), part)];
  },
};
const { what, texts } = JSON.parse(readFileSync(0, "utf8"));
console.log(JSON.stringify(texts.map(asked[what])));

// Mermaid: the rows of a chart as a sequence diagram in its language, for documents and tickets.
import { VERDICTS } from "./reading.mjs";
import { lastAt } from "./lanes.mjs";
import { shapeOfRow } from "./shapes.mjs";
const ARROWS = { dashed: "-->>", kill: "-x" };
// Words that Mermaid takes as they are: a character that may mean something to it is written as its number.
const plain = words => words.replace(/[^\w ,./():\u00d7\u2192\u201c\u201d-]|:(?! )/g, letter => `#${letter.charCodeAt()};`);
export function mermaidOf(game, rows, numbers) {
  const lines = ["sequenceDiagram", `%% test case ${game.name}, ${game.status}`], running = new Set();
  const turn = at => numbers.forEach(number => {
    const isRunning = lastAt(game.lanes.get(number).phases, at)?.phase === "running";
    if (isRunning === running.has(number)) return;
    lines.push(`${isRunning ? "activate" : "deactivate"} c${number}`);
    if (isRunning) running.add(number); else running.delete(number);
  });
  for (const number of numbers)
    lines.push(`participant c${number} as ${[game.who(number), game.ran(number)].filter(Boolean).join(", ")}`);
  turn(-1);
  for (const row of rows) {
    const { form, from, to, label, look } = shapeOfRow(game, row), isArrow = form === "arrow" || form === "create";
    lines.push(isArrow ? `c${from}${ARROWS[look] ?? "->>"}c${to}: ${plain(label)}` :
      `Note over c${numbers.includes(from) ? from : numbers[0]}: ${plain(label)}`);
    turn(row.last);
  }
  const ends = [...new Set([numbers[0], numbers.at(-1)])].map(number => `c${number}`).join(",");
  lines.push(`Note over ${ends}: ${game.isOver ? "" : "not over, "}verdict ${VERDICTS[game.overall]}`);
  return `${lines.join("\n  ")}\n`;
}

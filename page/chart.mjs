// The chart: one case as a scalable picture. Only the visible part is drawn.
import { VERDICTS } from "./reading.mjs";
import { countWhile, nameOf } from "./lanes.mjs";
import { countAsked, filterOf, isDeciding, rowsOf } from "./rows.mjs";
import { meaningOf, shapeOfRow } from "./shapes.mjs";
import { cut, escaped, lookOf, svg, twoLines, widthOf } from "./drawing.mjs";
export const ROW = 28, HEAD = 56;
const GUTTER = 66, FOOT = 90, LOW = 20;  // the least room for the numbers of lines; how far below the top of a row its arrow is
export class Chart {
  // options: questions, ended, remarks, isFolded (what is shown), focus (a component or null)
  constructor(game, options) {
    Object.assign(this, { game, options, unfolded: new Set(), chosen: 0, room: 900 });
    this.layout();
  }
  // Which rows and lanes are shown: all, or those of the entries about the component in focus.
  layout() {
    const { game, options, unfolded } = this, { focus } = options, met = new Set([focus]);
    const isShown = filterOf(game, options, unfolded);
    this.rows = rowsOf(game.list, isShown, options.isFolded, unfolded, game.part);
    countAsked(game.list, isShown, this.rows);
    const widest = this.rows.reduce((most, row) => Math.max(most, this.numberOf(row).length), 0);
    this.gutter = Math.max(GUTTER, 24 + Math.ceil(widthOf("0".repeat(widest)) * 11 / 12));
    const seen = focus === null ? [] : this.rows.flatMap(row => row.seen).map(index => game.list[index]);
    for (const { on, target, made } of seen) met.add(on).add(target).add(made);
    this.lanes = [...game.lanes.values()].filter(lane => focus === null || met.has(lane.number));
    this.left = this.gutter + (game.list.some(entry => entry.on === null && isShown(entry)) ? 130 : 0);
    this.place(this.room);
  }
  place(room) {
    const pitch = Math.max(132, Math.min(200, Math.floor((room - this.left - 16) / this.lanes.length)));
    const width = this.left + pitch * this.lanes.length + 16;
    this.xs = new Map(this.lanes.map((lane, place) => [lane.number, this.left + pitch * (place + 0.5)]));
    const more = this.game.list.length > this.game.places.length ? 420 : 180;  // room on the right of the last life line
    Object.assign(this, { room, pitch, width: Math.max(width, Math.min(room, width + more)) });
    this.window = { left: 0, right: this.width };  // what is visible of it
  }
  numberOf({ first, last, times }) {
    const { list } = this.game;
    return times > 1 ? `${list[first].line}\u2013${list[last].line}` : `${list[first].line}`;
  }
  isSeen(x) { return x >= this.window.left + this.gutter - 8 && x <= this.window.right; }
  get height() { return this.rows.length * ROW + FOOT; }
  rowAt(index) { return countWhile(this.rows, row => row.first <= index) - 1; }  // the last one that begins there or before
  isNear(x, left, right) { return x > left - this.pitch && x < right + this.pitch; }
  lanesBetween(left, right) { return this.lanes.filter(lane => this.isNear(this.xs.get(lane.number), left, right)); }
  heads(left = 0, right = this.width) {
    const width = this.pitch - 10, { focus } = this.options;
    return this.lanesBetween(left, right).map(({ number, name, alive }) => {
      const x = this.xs.get(number), ran = this.game.ran(number), isAlone = focus === number, most = Math.floor(width / 6.6) - 1;
      const title = [this.game.who(number), alive && "alive-type", ran].filter(Boolean).join(", ");
      const lines = [nameOf(number), ...twoLines(name ?? "", most), cut(ran, width - 6)].filter(Boolean);
      const line = (words, place) => svg.text(x, HEAD * (place + 1) / (lines.length + 1), words, place ? "small" : "strong");
      return `<g class="head" data-lane="${number}" role="button" aria-pressed="${isAlone}"><title>${title}</title>` +
        svg.rect(x - width / 2, 4, width, HEAD - 8, isAlone ? "box selected" : "box", 5) + lines.map(line).join("") + "</g>";
    }).join("") + (this.left > this.gutter ? svg.text(this.gutter + 55, HEAD / 2, "not started", "dim") : "");
  }
  // The rows from one to another, with row `from` at the top, and only what is between left and right.
  draw(from, to, left = 0, right = this.width) {
    const { rows, game, gutter } = this, bottom = (to - from) * ROW, parts = [], lanes = this.lanesBetween(left, right);
    this.window = { left, right };
    const across = (y, look, x) => svg.line(x, y, this.width, y, look), shown = rows.slice(from, to);
    shown.forEach((row, place) => {
      if (from + place === this.chosen) parts.push(svg.rect(0, place * ROW, this.width, ROW, "selected"));
      if (isDeciding(game, row)) parts.push(svg.rect(gutter - 8, place * ROW, this.width, ROW, "why"));
    });
    for (const lane of lanes) parts.push(this.life(lane, from, bottom));
    shown.forEach((row, place) => parts.push(this.row(row, from + place, place * ROW)));
    const part = this.rowAt(game.part - 1) + 1, over = this.rowAt(game.overAt ?? -1);
    if (game.part >= 0 && from <= part && part <= to) parts.push(across((part - from) * ROW, "part", 0));
    if (from <= over && over < to) for (const low of [27.5, 25.5]) parts.push(across((over - from) * ROW + low, "over", gutter));
    return parts.join("") + (to === rows.length ? this.foot(bottom, lanes) : "");
  }
  // How far below the top of row `from` an entry is. A hidden entry is between two rows.
  yOf(index, from) {
    const place = index === Infinity ? this.rows.length : this.rowAt(index), isShown = index <= this.rows[place]?.last;
    return (place - from) * ROW + (isShown ? LOW : index === Infinity ? 0 : ROW);
  }
  // A life line: thick while a run is running, otherwise thin, with a cross at its kill and brackets around its waits.
  life(lane, from, bottom) {
    const x = this.xs.get(lane.number), y = index => this.yOf(index, from), parts = [];
    const near = height => Math.max(-2 * ROW, Math.min(height, bottom + 2 * ROW));
    lane.phases.forEach(({ at, phase, by }, place) => {
      const top = near(y(at)), end = phase === "killed" ? top : near(y(lane.phases[place + 1]?.at ?? Infinity));
      if (end <= -ROW || top >= bottom + ROW) return;
      if (phase === "killed") parts.push(by === "kill" ? svg.cross(x, top) : svg.line(x - 9, top, x + 9, top, "over"));
      else if (phase === "running") parts.push(svg.rect(x - 5, top, 10, Math.max(end - top, 1), "run"));
      else parts.push(svg.line(x, top, x, end, `life ${phase}`));
    });
    const over = countWhile(lane.waits, wait => y(wait.to) < -ROW);
    const begun = countWhile(lane.waits, wait => y(wait.at) < bottom + ROW);
    for (const { at, to, how } of lane.waits.slice(over, begun)) {
      const top = near(y(at) - 6), end = near(y(to) - 6);
      if (top < end) parts.push(`<path d="M${x - 6},${top} h-7 V${end} ${how === "open" ? "" : "h7"}" class="wait ${how}"/>`);
    }
    return parts.join("");
  }
  foot(y, lanes) {
    const { status, overall, isOver } = this.game, begin = this.window.left + this.gutter;
    const width = Math.max(0, this.window.right - begin - 16);
    const local = lane => VERDICTS[lane.locals.at(-1).rank];
    const told = isOver ? `verdict ${status}` : `not over; verdict so far ${VERDICTS[overall]}`;
    const seen = lanes.filter(({ number }) => this.isSeen(this.xs.get(number)));
    return seen.map(lane => this.box(this.xs.get(lane.number), y + 24, `local ${local(lane)}`, lookOf(local(lane)))).join("") +
      `<g class="${lookOf(status)}">${svg.rect(begin, y + 44, width, 24, "box", 4)}` +
      `${svg.text(begin + width / 2, y + 56, told, "strong")}</g>`;
  }
  // A row: its picture, its lines in the text, and its words at the edge if its life line is not visible.
  row(row, place, y) {
    const { list, names, who } = this.game, { gutter } = this, { left, right } = this.window, entry = list[row.first];
    const x = this.xs.get(entry.on) ?? left + gutter, number = this.numberOf(row);
    const tint = isDeciding(this.game, row) ? "on-why" : place === this.chosen ? "on-selected" : "";
    const lines = row.seen.flatMap(index => [list[index].text, meaningOf(names, list[index])]).filter(Boolean).join("\n");
    const shape = shapeOfRow(this.game, row);
    const label = shape.form === "create" ? `${shape.label} ${who(shape.to)}` : shape.label;
    const say = cut(`${who(entry.on)}: ${label}`, right - left - gutter - 24);
    const edge = x > right ? svg.text(right - 8, y + 9, `${say} \u203a`, "halo dim small", "end")
      : x < left + gutter - 8 ? svg.text(left + gutter, y + 9, `\u2039 ${say}`, "halo dim small", "start") : "";
    const drawn = edge && /note|box/.test(shape.form) ? "" : this.shape(shape, x, y, !edge);
    return `<g data-row="${place}" class="${tint}" role="option" aria-selected="${place === this.chosen}">` +
      `<title>line ${number}: ${escaped(lines)}</title>${svg.rect(0, y, this.width, ROW, "hit")}${drawn}` +
      (left > 0 ? svg.rect(left, y, gutter - 8, ROW, "cover") : "") + svg.rect(left, y, 4, ROW, "edge") +
      `${edge}${svg.text(left + gutter - 14, y + 14, number, "gutter", "end")}</g>`;
  }
  // The picture of an entry. It has words if its life line is visible: at the edge are others.
  shape({ form, from, to, label, look }, x, y, hasWords) {
    const { left, right } = this.window, words = hasWords ? cut(label, Math.min(420, right - left - this.gutter - 24)) : "";
    if (form === "note") return this.note(x, y + 14, label, look);
    if (form === "box") return this.box(x, y + 14, words, look);
    if (form === "arrow") return this.arrow(x, this.xs.get(from), this.xs.get(to), y, words, look);
    if (form === "create") {
      const made = this.xs.get(to), who = this.game.who(to), aside = Math.min(right - made, made - left - this.gutter) - 13;
      const free = Math.min(Math.abs(made - x) - widthOf(words) - 29, aside), hasBox = hasWords && free > 16;
      const name = cut(who, Math.min(this.pitch - 32, 2 * free));
      if (!hasBox) return this.arrow(x, x, made, y, words && `${words} ${who}`, look);
      return this.arrow(x, x, made, y, words, look, widthOf(name) / 2 + 9) + this.box(made, y + 16, name, "head");
    }
    const ends = to.filter(number => this.xs.has(number)).map(number => this.xs.get(number)), low = y + LOW;
    const tip = end => svg.tip(end - 6 * Math.sign(end - x), low, Math.sign(end - x), look);
    const spoken = words && this.note(x, y + 9, words);
    return svg.line(Math.min(x, ...ends), low, Math.max(x, ...ends), low, `arrow ${look}`) + spoken +
      ends.filter(end => this.isNear(end, left, right)).map(tip).join("");
  }
  box(x, y, label, look) {
    const { left: from, right } = this.window, words = cut(label, right - from - this.gutter - 16), width = widthOf(words) + 18;
    const left = Math.max(from + this.gutter - 6, Math.min(x - width / 2, right - width - 4));
    return `<g class="${look}">${svg.rect(left, y - 10, width, 20, "box", 5)}${svg.text(left + width / 2, y, words)}</g>`;
  }
  // a label to the right of a life line, or to its left if it fits only there; if it fits nowhere, it is cut
  note(x, y, label, look = "") {
    const { left, right } = this.window, after = right - x - 18, before = x - 18 - left - this.gutter;
    const words = cut(label, Math.max(after, before));
    const isAfter = widthOf(words) <= after;
    return svg.text(isAfter ? x + 12 : x - 18, y, words, `halo ${look}`, isAfter ? "start" : "end");
  }
  // an arrow that ends a little before the life line, with its label next to the caller's life line
  arrow(caller, begin, end, y, label, look, gap = 6) {
    const { left, right } = this.window, way = Math.sign(end - begin), tip = end - gap * way, half = widthOf(label) / 2;
    const beside = caller + (half + 14) * (caller === begin ? way : -way);
    return svg.line(begin + 6 * way, y + LOW, tip - 5 * way, y + LOW, `arrow ${look}`) + svg.tip(tip, y + LOW, way, look) +
      (label ? svg.text(Math.max(half + left + this.gutter, Math.min(beside, right - half - 4)), y + 9, label, "halo") : "");
  }
  // Some rows as one picture below a title, and of them what is between left and right, for a file or a sheet of paper.
  picture(style, title, from = 0, to = this.rows.length, left = 0, right = this.width) {
    const { chosen } = this, width = right - left, top = title ? ROW : 0, isEnd = to === this.rows.length;
    const height = (to - from) * ROW + (isEnd ? FOOT - 14 : 0), all = top + HEAD + height;
    this.chosen = -1;
    const rows = this.draw(from, to, left, right), size = `width="${width}" height="${all}"`;
    this.chosen = chosen;
    const part = (y, tall, drawn) =>
      `<svg y="${y}" width="${width}" height="${tall}" viewBox="${left} 0 ${width} ${tall}">${drawn}</svg>`;
    return `<svg xmlns="http://www.w3.org/2000/svg" class="chart" viewBox="0 0 ${width} ${all}" ${size}>${style}` +
      svg.rect(0, 0, width, all, "cover") + (title ? svg.text(this.gutter + 4, ROW / 2, title, "strong", "start") : "") +
      part(top, HEAD, this.heads(left, right)) + part(top + HEAD, height, rows) + "</svg>";
  }
}

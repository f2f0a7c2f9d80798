// Drawing: the parts of a picture, as SVG, and how wide words are in it.
export const escaped = text => String(text).replace(/[&<>"]/g, letter => `&#${letter.charCodeAt()};`);
export const lookOf = status => `v-${status === "unfinished" ? "error" : status}`;  // the class of a verdict
const pen = document.createElement("canvas").getContext("2d"), widths = new Map();
pen.font = '12px system-ui, "Segoe UI", Helvetica, Arial, sans-serif';
export function widthOf(text) {
  if (widths.size > 10000) widths.clear();
  if (!widths.has(text)) widths.set(text, pen.measureText(text).width);
  return widths.get(text);
}
// The text, cut to the room that there is.
export const cut = (text, room) => widthOf(text) <= room || text.length < 2 ? text : cut(`${text.slice(0, -2)}\u2026`, room);
// A name in one line or two, split after a `_` if it has one there.
export function twoLines(name, room) {
  if (name.length <= room) return [name];
  const at = name.lastIndexOf("_", room - 1) + 1, parting = at > 0 && name.length - at <= room ? at : room;
  return [name.slice(0, parting), name.slice(parting)];
}
export const svg = {
  text: (x, y, words, look = "", anchor = "middle") =>
    `<text x="${x}" y="${y + 4}" class="${look}" text-anchor="${anchor}">${escaped(words)}</text>`,
  line: (x1, y1, x2, y2, look) => `<line x1="${x1}" y1="${y1}" x2="${x2}" y2="${y2}" class="${look}"/>`,
  rect: (x, y, width, height, look, round = 0) =>
    `<rect x="${x}" y="${y}" width="${width}" height="${height}" rx="${round}" class="${look}"/>`,
  tip: (x, y, way, look) => `<path d="M${x},${y} l${-9 * way},-4.5 v9 z" class="tip ${look}"/>`,
  cross: (x, y) => `<path d="M${x - 7},${y - 7} l14,14 m0,-14 l-14,14" class="cross"/>`,
};

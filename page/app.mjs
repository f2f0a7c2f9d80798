// The app: what is open and shown, its addresses, and the short words with which the views are written.
import { lookOf } from "./drawing.mjs";
export const $ = (selector, within = document) => within.querySelector(selector);
export const $$ = (selector, within = document) => [...within.querySelectorAll(selector)];
export const on = (element, type, act) => element.addEventListener(type, act);
export const when = (isSo, text) => isSo ? text : "";
export const counted = (number, one, more = `${one}s`) => `${number.toLocaleString("en")} ${number === 1 ? one : more}`;
export const chip = status => `<span class="chip ${lookOf(status)}">${status}</span>`;
// What an address shows: `#` the table, `#/NAME` a case, `#/NAME.2` the second one of that name, `#/NAME/NAME.2` two. A number
// is the place of a case among all.
export const hashOf = cases => `#${cases.map(({ address }) => `/${address}`).join("")}`;
export const goTo = (...cases) => { location.hash = hashOf(cases); };
export function casesAt(hash) {
  const words = hash.split("/").slice(1, 3), isAt = word => one => one.address === word;
  return words.map(word => /^\d+$/.test(word) ? app.cases[word] : app.cases.find(isAt(word))).filter(Boolean);
}
// `found` are the rows that the table shows, `at` is the marked one of them, `last` the id of the case that was shown last.
// `only` are the verdicts that the table shows, all if there are none, `sort` is the column that it is sorted by, `isDown`
// whether backwards. `panes` are the charts on the page, `pane` is the one that the keys move.
export const app = { sources: [], cases: [], found: [], only: new Set(), sort: "verdict", isDown: false, isChangedOnly: true,
  search: "", at: 0, last: null, panes: [], pane: null, options: { questions: true, ended: true, remarks: true, isFolded: true,
  focus: null }, moveTo: null, showMore: null };

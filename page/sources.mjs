// The sources: histories in the page, files opened or dropped, a pasted text, and the message for one that cannot be read.
import { $, app, counted, on, when } from "./app.mjs";
import { MOST_BYTES } from "./reading.mjs";
import { readHistories } from "./cases.mjs";
import { escaped } from "./drawing.mjs";
// The date and time of a file, as its place on the earth has it.
const dated = time => new Date(time - new Date(time).getTimezoneOffset() * 60000).toISOString().slice(0, 16).replace("T", " ");
export function addSource(name, text, time = null) {
  const source = { name, text, date: time === null ? "" : dated(time), ...readHistories(text) }, met = new Map();
  for (const one of app.cases) met.set(one.name, (met.get(one.name) ?? 0) + 1);
  app.sources.push(source);
  for (const summary of source.cases) {
    const nth = (met.get(summary.name) ?? 0) + 1;
    met.set(summary.name, nth);
    app.cases.push({ ...summary, source, id: app.cases.length, address: summary.name + when(nth > 1, `.${nth}`) });
  }
}
// Files are shown next to what is open, so that two nights can be compared. Each byte is read as one character, so a byte
// that is not ASCII is refused as `check` refuses it.
async function openFiles(files) {
  for (const file of [...files]) {
    const bytes = await file.slice(0, MOST_BYTES + 1).arrayBuffer().catch(() => alert(`${file.name} cannot be read.`));
    if (bytes) addSource(file.name, new TextDecoder("windows-1252").decode(bytes), file.lastModified);
  }
  if (location.hash.length > 1) location.hash = ""; else app.show();
}
export function listenForFiles() {
  for (const type of ["dragover", "dragleave", "drop"]) on(document, type, event => {
    event.preventDefault();
    document.body.classList.toggle("dragged", type === "dragover");
    if (type === "drop" && event.dataTransfer.files.length) openFiles(event.dataTransfer.files);
  });
  on($("#open"), "click", () => { $("#file").value = ""; $("#file").click(); });
  on($("#file"), "change", event => openFiles(event.target.files));
}
export function showStart() {
  $("#main").innerHTML = `<div class="start">
    <div class="drop">Drop files here, of histories or evidence, or open them. More are shown beside them, to be compared.</div>
    <textarea id="paste" aria-label="histories" spellcheck="false"
      placeholder="Or paste histories:\n\nhistory 2 t_pumps 4\n0 create alive named inlet_pump -> made 1\n..."></textarea>
    <div><button id="read" title="shows the pasted text">Show</button></div></div>`;
  on($("#read"), "click", () => { addSource("pasted text", $("#paste").value); app.show(); });
}
const inHex = letter => `\\x${letter.charCodeAt().toString(16).padStart(2, "0")}`;
const visible = text => (text.length > 200 ? `${text.slice(0, 200)}..` : text).replace(/[^ -~]/g, inHex);
export function faults() {
  return app.sources.filter(source => source.fault).map(({ name, fault, cases }) => `<div class="fault" role="alert">
    <b>${escaped(name)}: ${when(fault.line !== null, `line ${fault.line}: `)}${fault.kind}</b>
    ${when(fault.text !== null, `<code>${escaped(visible(fault.text ?? ""))}</code>`)}
    <div>This is no text of histories and evidence, and <code>ttrun check</code> prints nothing about it but a fault.
      ${cases.length ? `Shown are the ${counted(cases.length, "whole test case")} above that line, and nothing from there on.`
      : "Nothing of it is shown."}</div></div>`).join("");
}

// The address: after its `#` is a view of the cases, as `/0/1`, or the text of a link.
const MOST_LINKED = 100000;  // letters
export const isView = () => location.href.endsWith("#") || location.hash.startsWith("#/");
export const setAddress = after => history.replaceState(null, "", location.href.split("#")[0] + after);
// The text of the link that the address holds: undefined if it holds none, null if it cannot be read.
export function linked() {
  if (isView() || !location.hash) return undefined;
  try { return decodeURIComponent(location.hash.slice(1).replaceAll("+", " ")); } catch { return null; }
}
// Puts a text into the address, and copies that; what there is to say of it.
export async function link(text) {
  const spelled = encodeURIComponent(text.replace(/[\ud800-\udfff]/gu, "\ufffd")).replaceAll("%20", "+");
  if (!spelled) return "There is no text to link.";
  if (spelled.length > MOST_LINKED) return "The text is too long for a link: send it as a file.";
  setAddress(`#${spelled}`);
  const isCopied = await navigator.clipboard?.writeText(location.href).then(() => true, () => false);
  return isCopied ? "The link is copied. It is the address of this page, and holds the text." :
    "The link is the address of this page now, and holds the text: copy it from there.";
}

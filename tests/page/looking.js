// What the tests ask a page: code that is evaluated in each page that a test opens.
var looking = (() => {
  const textOf = one => one.textContent;
  // The table of test cases; and of the entries of a chart the first lines of their titles, and the chosen one.
  const rows = () => $$(".cases tbody tr").map(row => [...row.cells].map(cell => cell.innerText.replace(/\s+/g, " ").trim()));
  const titles = () => $$(".rows title").map(title => textOf(title).split("\n")[0]), chosen = () => $(".state code").textContent;
  // What the panel says of each component: who it is, what it is doing and waits for, and its local verdict.
  const panel = () => $$(".state tbody tr").map(row => [...row.cells].flatMap(cell => cell.innerText.trim().split(/\n+/)));
  // The texts of the chart that are not within its width, or lie over the numbers of lines.
  const outside = () => $$(".rows text:not(.gutter)").filter(one => {
    const { x, width } = one.getBBox();
    return x < app.pane.chart.gutter - 8 || x + width > app.pane.chart.width;
  }).map(textOf);
  // What is drawn over another thing: words over words or over a box that is not theirs, a button over a button. Of what is
  // scrolled only what is in sight is there. And words of a chart that are cut at its edge.
  function overlaps() {
    const things = [], isLarge = box => box.right - box.left > 1.5 && box.bottom - box.top > 1.5;
    const common = (one, other) => ({ left: Math.max(one.left, other.left), top: Math.max(one.top, other.top),
      right: Math.min(one.right, other.right), bottom: Math.min(one.bottom, other.bottom) });
    const inSight = (element, box) => {
      for (let at = element; at; at = at.parentElement)
        if (/auto|scroll|hidden/.test(getComputedStyle(at).overflow)) box = common(box, at.getBoundingClientRect());
      const rows = element.closest(".rows"), body = element.closest("tbody"), top = rows ? $(".heads", rows.closest(".pane")) : body?.closest(".cases") && $("thead");
      return top ? common(box, { ...common(box, box), top: top.getBoundingClientRect().bottom }) : box;
    };
    const add = (element, box, what, group) => { const seen = inSight(element, box); if (isLarge(seen)) things.push({ element, seen, what, group }); };
    const walker = document.createTreeWalker(document.body, NodeFilter.SHOW_TEXT), range = document.createRange();
    for (let text; (text = walker.nextNode());) {
      const element = text.parentElement;
      if (!text.data.trim() || element.closest("svg, option, script, style, .unseen, dialog, textarea") || !element.checkVisibility()) continue;
      range.selectNodeContents(text);
      for (const box of range.getClientRects()) add(element, box, text.data.trim(), element.closest("button, .chip, .mark") ?? element);
    }
    for (const one of $$("button, input, select, .chip, .mark")) if (one.checkVisibility()) add(one, one.getBoundingClientRect(), one.outerHTML.slice(0, 50), one);
    for (const one of $$("svg.chart text, svg.chart rect.box")) {
      const { left, top, right, bottom } = one.getBoundingClientRect();
      add(one, { left, top: top + 2, right, bottom: bottom - 2 }, one.textContent || "a box", one.parentElement.matches("[data-row]") ? one : one.parentElement);
    }
    const pairs = $$(".rows text").filter(one => {
      const { left, right } = one.getBoundingClientRect(), pane = one.closest(".scroll").getBoundingClientRect();
      return left < pane.left - 1 || right > pane.right + 1;
    }).map(one => `cut: ${one.textContent}`);
    things.forEach((one, at) => things.slice(at + 1).forEach(other => {
      if (one.group !== other.group && isLarge(common(one.seen, other.seen))) pairs.push(`${one.what} / ${other.what}`);
    }));
    return [things.length, pairs.slice(0, 9)];
  }
  // How often the head of each component is whole on paper.
  function onPaper() {
    const found = new Map();
    dispatchEvent(new Event("beforeprint"));
    for (const head of $$("#paper [data-lane]")) {
      const { x, width } = head.ownerSVGElement.viewBox.baseVal, box = $("rect", head), from = box.x.baseVal.value, { lane } = head.dataset;
      if (x <= from && from + box.width.baseVal.value <= x + width) found.set(lane, (found.get(lane) ?? 0) + 1);
    }
    dispatchEvent(new Event("afterprint"));
    return [...found.values()];
  }
  // The least contrast of what is written, and where it is.
  function contrast() {
    const light = colour => {
      const parts = colour.match(/[\d.]+/g).slice(0, 3).map(part => part / 255)
        .map(part => part <= 0.03928 ? part / 12.92 : ((part + 0.055) / 1.055) ** 2.4);
      return 0.2126 * parts[0] + 0.7152 * parts[1] + 0.0722 * parts[2];
    };
    const ratio = (one, other) => (Math.max(one, other) + 0.05) / (Math.min(one, other) + 0.05);
    const ground = element => {
      for (let at = element; at; at = at.parentElement) {
        const colour = getComputedStyle(at).backgroundColor;
        if (!/, 0\)$|transparent/.test(colour)) return colour;
      }
    };
    return $$(".chip, a, code, .dim, th, td, h1, h2, button, label").filter(element => element.innerText && element.offsetWidth)
      .map(element => [ratio(light(getComputedStyle(element).color), light(ground(element))), element.outerHTML.slice(0, 80)])
      .sort((one, other) => one[0] - other[0])[0];
  }
  // Opens all cases, chooses each row, looks at each component by itself, and makes what can be saved; how many rows there were.
  function walk() {
    let count = 0;
    const plain = text => { if (/NaN|undefined|null/.test(text)) throw new Error(text.match(/.{0,60}(NaN|undefined|null).{0,20}/)[0]); };
    for (const one of app.cases) {
      history.replaceState(null, "", `#/${one.id}`), app.show();
      const { chart } = app.pane;
      for (let at = 0; at < chart.rows.length; at += 1, count += 1) {
        choose(app.pane, at), plain($(".state").innerHTML), plain($(".rows").innerHTML);
        if (!$(".on-selected, .on-why")) throw new Error(`row ${at} of ${one.name} is not chosen`);
      }
      for (const number of chart.game.lanes.keys()) focusOn(number), plain(fileOf(chart));
      focusOn(null), plain(fileOf(chart)), showMermaid(), plain($("textarea").value), $("dialog").remove();
    }
    return count;
  }
  // Of the page to try: each test case that was searched, with its verdicts and how the search ended.
  const chips = () => $$("#rows tr").map(row => [row.cells[0].textContent, [...row.cells[1].querySelectorAll(".chip")].map(textOf),
    row.cells[2].querySelector("span").textContent]);
  // What is shown as soon as the witnesses are searched for, and then an act.
  const again = act => new Promise(done => {
    const timer = setInterval(() => {
      if (!$("#took").textContent.includes("again for the witnesses, for ")) return;
      clearInterval(timer);
      done([chips(), $("#head").textContent, $$("#rows a").length]);
      act();
    }, 5);
  });
  // The letter of its line at which the mark is.
  function column() {
    const one = $("#letters").getBoundingClientRect(), area = $("#text"), letter = one.width / widthIn(fault);
    return 1 + Math.round((one.x - area.getBoundingClientRect().x - 8 + area.scrollLeft) / letter);
  }
  // Drops files, each a name and its bytes in letters.
  function drop(files) {
    const held = new DataTransfer(), bytes = text => Uint8Array.from(atob(text), letter => letter.charCodeAt());
    for (const [name, text] of files) held.items.add(new File([bytes(text)], name));
    for (const type of ["dragover", "drop"])
      document.body.dispatchEvent(new DragEvent(type, { dataTransfer: held, bubbles: true, cancelable: true }));
  }
  // Pastes a text into the editor. Firefox keeps the data of a made ClipboardEvent back.
  function paste(text) {
    const held = new DataTransfer(), event = new Event("paste", { bubbles: true, cancelable: true });
    held.setData("text/plain", text);
    Object.defineProperty(event, "clipboardData", { value: held });
    $("#text").dispatchEvent(event);
  }
  return { overlaps, onPaper, rows, titles, chosen, panel, outside, contrast, walk, chips, again, column, drop, paste };
})();

"""Tests of the page in a browser: what is on it, next to what the program says of the same histories."""
import base64
import csv
import hashlib
import json
import os
import random
import re
import shutil
import sys
import xml.dom.minidom
from collections import Counter
from typing import Dict, List

from browser import Browser
from harness import TOP, Skipped, call, hold, same, wait_for, write
from histories import (EXAMPLES, KINDS, KINDS_OF_EVIDENCE, MOST_BYTES, MOST_COMPONENTS, Case, campaign, evidence_of, fullest, legal_case, random_block,
                       random_legal, read_cases, states, tables, widest_case)
from model import STATEMENT, Context, blocks_of, checked, legal_evidence
from table import VERDICTS

sys.path.append(os.path.join(TOP, "page"))

import make

# Each look of the page: width and height in points, and whether the theme is dark.
LOOKS = ((1280, 800, False), (800, 800, True), (1280, 800, True), (800, 800, False))


def page_of(context: Context, name: str, text: str) -> str:
    """Writes the page of a text, with U+2039 instead of each `<` of it, as the sources of the page are."""
    return write(os.path.join(context.room, f"{name}.html"), make.page().replace(make.MARK, make.MARK + text.replace("<", "\u2039")))


def hold_apart(text: str, most: int, scripts: int) -> str:
    """Holds a page to that many bytes at most, to its scripts, and to nothing from elsewhere."""
    loading = re.search(r"https?://(?!www\.w3\.org/2000/svg)|@import|url\(|\beval\(|\bfetch\(|XMLHttpRequest|import\(| src=", text)
    hold(loading is None and "default-src 'none'" in text and len(text) <= most, (loading, len(text)))
    hold(text.count("<script") == text.count("</script>") == scripts and "<!--" not in text, "markup that is none")
    return f"{len(text)} bytes"


def page_of_kinds(context: Context) -> str:
    return page_of(context, "kinds", "".join(map(EXAMPLES.get, ("supervisor", "pumps", "verdicts", "restart", "workers"))) + KINDS)


def open_files(context: Context, browser: Browser, files: Dict[str, bytes]) -> None:
    """Opens the page with no history in it, and in it these files."""
    browser.open(page_of(context, "viewer", ""))
    browser.open_files(*(write(os.path.join(context.room, name), data) for name, data in files.items()))


def csv_of(context: Context, text: str) -> List[Dict[str, str]]:
    """The records of `ttrun report --csv`, by the names of their columns."""
    ran = call([context.program, "report", "--csv"], text)
    same("", ran.errors)
    return list(csv.DictReader(ran.output.splitlines()))


# Whether a remark of kinds.evidence was taken as markup.
MARKUP = "[$$('img').length, $$('b').some(one => one.textContent === 'ready')]"
# The order of the table.
STATUSES = ("error", "unfinished", "fail", "inconc", "missing", "none", "pass")


def reason(case: Case) -> str:
    """What the table of test cases says of why."""
    why = case.why()
    if why is None:
        return "no verdict was set"
    line, entries = case.lines[why["index"]], "\n".join(case.entries())
    if " error " not in line.text and "stopcase" not in line.text and line.text.split()[2] in ("none", "pass"):
        return ""
    made = {made: name for name, made in re.findall(r"create(?: alive)?(?: named (\w+))? -> made (\d+)", entries)}
    on = {"0": "mtc"}
    for component, run in re.findall(r"(?m)^\d+ start (\d+) (\d+)(?: \d+)* -> ok$", entries):
        on.setdefault(run, f"{component} {made.get(component, '')}".rstrip())
    who = f"{line.run} {why['behaviour'] or ''}".rstrip()
    before, behind = (f"\u201c{it}\u201d" if it else "" for it in (why["before"], why["behind"]))
    return " ".join(f"run {who} on {on[str(line.run)]}: {before} {line.text} {behind} line {line.number}".split())


def wanted_rows(context: Context, text: str, records: List[Dict[str, str]], cases: List[Case]) -> List[List[str]]:
    """The rows of the table, by what `report --csv` and `check` print of a legal text, and by the tests' own reading."""
    ran = checked(context.program, text.encode())
    same((b"", 0), (ran.errors, ran.status))
    same([f"legal {it.name} {len(it.entries())} {it.verdict}" for it in cases], ran.output.decode().splitlines())
    same([(it.name, it.verdict) for it in cases], [(it["testcase"], it["verdict"]) for it in records])
    found = [[it.verdict, it.name, record["components"], str(len(it.entries())), reason(it)] for it, record in zip(cases, records)]
    return sorted(found, key=lambda row: STATUSES.index(row[0]))


def shown_rows(browser: Browser) -> List[List[str]]:
    """The rows of the table, all of which are brought into sight first."""
    for _ in range(browser.js("app.found.length") // 500 + 2):
        browser.js("$('.list').scrollTop = 1e9")
        browser.settle()
    return [[cells[0], cells[1].split()[0], *cells[2:]] for cells in browser.js("looking.rows()")]


def fits(browser: Browser, dark: bool) -> None:
    """Holds the page to its window and its theme, and its words to a contrast that can be read."""
    width, room = browser.js("[document.documentElement.scrollWidth, innerWidth]")
    hold(width <= room, f"{width} points in a window of {room}")
    ground = browser.js("getComputedStyle(document.body).backgroundColor")
    hold((max(map(int, re.findall(r"\d+", ground)[:3])) < 80) == dark, ground)
    least, what = browser.js("looking.contrast()")
    hold(least >= 4.5, f"a contrast of {least:.1f}: {what}")


def each_case(browser: Browser, cases: List[Case], records: List[Dict[str, str]], places: List[int]) -> int:
    """Opens cases, and holds what is chosen, and the states at the end, to the entries and to the table of the program."""
    for at in places:
        browser.go(f"#/{at}")
        case, record = cases[at], records[at]
        browser.holds(record["testcase"], "$('h2').textContent")
        if VERDICTS.index(record["verdict"]) >= 2:
            line = case.lines[case.why()["index"]]
            same(line.text, browser.js("looking.chosen()"), record)
            same(str(line.number), browser.js("$('.rows .on-why title').textContent.match(/^line (\\d+)/)[1]"), record)
            hold(browser.js("(mark => mark.getBoundingClientRect().y < innerHeight && mark.getBoundingClientRect().y > 0)($('.on-why'))"), record)
            hold(f"After this entry the verdict is {record['verdict']}." in browser.js("$('.state').textContent"), record)
        browser.key("End")
        verdicts = Counter(browser.js("app.pane.chart.lanes.map(lane => VERDICTS[lane.locals.at(-1).rank])"))
        same({it: int(record[it]) for it in VERDICTS}, {it: verdicts[it] for it in VERDICTS}, record)
        shown = Counter(browser.js("$$('.state tbody .chip').map(chip => chip.textContent)"))
        hold(shown == verdicts if sum(verdicts.values()) <= 200 else sum(shown.values()) == 200, record)
        browser.holds(int(record["components"]), "app.pane.chart.lanes.length")
        hold(f"verdict {record['verdict']}" in browser.js("$('.rows').textContent"), record)
    return len(places)


def each_state(browser: Browser, block: str) -> int:
    """Chooses each entry of the case that is open, none of which is folded: what the panel says of each component is what the table has."""
    found = browser.js("app.pane.chart.rows.map((_, at) => (choose(app.pane, at), looking.panel()))")
    wanted = [[list(filter(None, it)) for it in states(table).values()] for table in tables(block)][1:]
    same([[[phase, *waits, local] for phase, local, *waits in row] for row in wanted], [[it[1:] for it in row] for row in found], block)
    return len(found)


def it_shows_the_examples(context: Context, browser: Browser) -> str:
    """Every case of examples/, in each look, and the states at each of its entries."""
    text, count = "".join(EXAMPLES.values()), 0
    records, (cases, _), blocks = csv_of(context, text), read_cases(text.encode()), blocks_of(text)
    rows = wanted_rows(context, text, records, cases)
    for width, height, dark in LOOKS:
        browser.open(page_of(context, "examples", text), width, height, dark)
        same(rows, shown_rows(browser))
        fits(browser, dark)
        count += each_case(browser, cases, records, list(range(len(records))))
        fits(browser, dark)
        browser.go("#/0")
        browser.js("app.options.isFolded = false; layOutAgain()")
        browser.holds([f"line {it.number}: {it.text}" for it in cases[0].lines], "looking.titles()")
    points = sum(each_state(browser, block) for at, block in enumerate(blocks) if not browser.go(f"#/{at}"))
    hold(count >= 4 * 9 and points >= 60, (count, points))
    return f"{count} cases in {len(LOOKS)} looks, at {points} entries"


def it_shows_large_histories(context: Context, browser: Browser) -> str:
    """A thousand cases; as many components as there may be; as many bytes as there may be."""
    told = []
    for name, text in (("1,000 cases", campaign(1000, 900_000)), ("1,000 components", widest_case("t_wide") + legal_case("t_next", 3, 2, "fail")),
                       ("16 MiB", fullest())):
        records, (cases, _) = csv_of(context, text), read_cases(text.encode())
        rows = wanted_rows(context, text, records, cases)
        for width, height, dark in LOOKS[:2] if len(text) == MOST_BYTES else LOOKS:
            browser.open(page_of(context, name.replace(" ", "_"), text), width, height, dark)
            same(rows, shown_rows(browser), name)
            fits(browser, dark)
            each_case(browser, cases, records, sorted({*range(min(4, len(records))), len(records) - 1}))
            fits(browser, dark)
        digest = "crypto.subtle.digest('SHA-256', new TextEncoder().encode($('#history').textContent)).then(sum => [...new Uint8Array(sum)])"
        same(list(hashlib.sha256(text.encode()).digest()), browser.js(digest), name)
        told.append(f"{name}: {len(records)} cases, {text.count(chr(10))} lines")
        hold(name != "1,000 components" or int(records[0]["components"]) == MOST_COMPONENTS, records[0])
    return "; ".join(told)


def it_shows_the_kinds(context: Context, browser: Browser) -> str:
    """Cases that are not legal, or not over: the table, filters, the search, the way there and back by keys."""
    browser.open(page_of_kinds(context))
    browser.holds([f"{it} chip v-{it.split()[0].replace('unfinished', 'error')}" for it in ("error 5", "unfinished 1", "fail 3", "inconc 2", "none 2", "pass 5")],
                  "$$('[data-verdict]').map(one => `${one.textContent} ${one.className}`)")
    browser.holds(["Verdict", "Test case", "Components", "Entries"], "$$('th button').map(one => one.textContent)")
    rows = shown_rows(browser)
    by_name = {row[1]: row for row in rows}
    same(["inconc", "t_supervised", "4", "16", "run 2 on 3: 2 setverdict inconc -> ok line 13"], by_name["t_supervised"])
    same(["unfinished", "no entry ends the test case; verdict so far pass"], by_name["t_open"][::4])
    browser.holds(by_name["t_wrong"][4], "`line ${app.cases.find(one => one.name === 't_wrong').end} says fail, the entries make pass: ttrun check judges`")
    hold("This page shows and does not judge: ttrun check does." in browser.js("$('header').textContent"), "it does not say so")
    each_filter(browser, rows)
    browser.holds(["t_race", "t_race"], "$$('.cases tbody td:nth-child(2) a:first-child').map(link => link.textContent)", "/", *"RACE")
    browser.holds(["t_race", "none"], "[$('h2').textContent, app.pane.chart.game.status]", "Escape", "j", "Enter")
    browser.holds(["", "RACE"], "[location.hash, app.search]", "Escape")
    browser.js("app.search = ''; app.show()"), browser.go("#/t_fail")
    before, after = (browser.js(f"app.found[app.found.findIndex(row => row.name === 't_fail') + {step}].cases[0].address") for step in (-1, 1))
    browser.holds(f"#/{after}", "location.hash", "]")
    browser.holds(f"#/{before}", "location.hash", "[", "[")
    browser.holds(before.split(".")[0], "$('[aria-current=true] a').textContent", "Escape")
    return f"{len(rows)} rows"


def each_filter(browser: Browser, rows: List[List[str]]) -> None:
    """A click on a verdict shows only that one, a second one all, with Ctrl one more; a click on a head sorts, a second one backwards."""
    shown = "$$('.cases tbody tr').map(row => row.cells[0].innerText.trim())"
    for verdicts, word, more in ((["fail"] * 3, "fail", ""), (["fail"] * 3 + ["none"] * 2, "none", "ctrlKey: true"), (["none"] * 2, "fail", "ctrlKey: true"),
                                 (["fail"] * 3, "fail", ""), ([row[0] for row in rows], "fail", "")):
        browser.js(f"$('[data-verdict={word}]').dispatchEvent(new MouseEvent('click', {{ bubbles: true, {more} }}))")
        browser.holds(verdicts, shown)
        told = "" if len(verdicts) == len(rows) else f"{len(verdicts)} of {len(rows)} test cases shown"
        browser.holds([told, sorted(set(verdicts)) if told else []],
                      "[$('#shown').textContent, $$('[data-verdict][aria-pressed=true]').map(one => one.dataset.verdict).sort()]")
    for column, at, key in (("name", 1, str.lower), ("entries", 3, int), ("verdict", 0, STATUSES.index)):
        for backwards, named in ((False, "ascending"), (True, "descending")):
            browser.click(f"[data-sort={column}] button")
            same(sorted((row[at] for row in rows), key=key, reverse=backwards), [row[at] for row in shown_rows(browser)])
            browser.holds(named, f"$('[data-sort={column}]').ariaSort")
    browser.click("[data-sort=verdict] button")


def it_shows_one_case(context: Context, browser: Browser) -> str:
    """What is chosen, the states, keys, the search, folding, what is hidden, only one component."""
    browser.open(page_of_kinds(context)), browser.go("#/t_kinds")
    browser.holds("168", "$('.on-why .gutter').textContent")
    browser.holds("1 setverdict pass -> ok", "looking.chosen()", "Home", *"jjjjj")
    browser.holds([["mtc", "running 0", "none"], ["1 a_component_with_a_long_name_abc", "running 1", "pass"], ["2 end", "running 2", "none"],
                   ["3 spare_one", "inactive", "none"]], "looking.panel()")
    browser.holds(["", "changed", "", ""], "$$('.state tbody tr').map(row => row.className)")
    browser.holds(30, "app.pane.chart.rows[app.pane.chart.chosen].first", "w")
    browser.holds("line 168, mtc: 0 start 0 1 -> error start-main", "$('#said').textContent")
    browser.holds("2 setverdict inconc -> ok", "looking.chosen()", "/", *"inconc", "Enter")
    browser.holds("2 getverdict -> inconc", "looking.chosen()", "Escape", "n")
    rows = browser.js("app.pane.chart.rows.length")
    browser.holds([[1, 3], [2, 3]], "app.pane.chart.rows.filter(row => row.times > 1).map(row => [row.size, row.times])")
    browser.js("choose(app.pane, app.pane.chart.rows.findIndex(row => row.size === 2))")
    browser.holds(rows + 5, "app.pane.chart.rows.length", "Enter")
    for option, left in (("isFolded", 32), ("questions", 22), ("ended", 19)):
        browser.click(f"[data-option={option}]")
        browser.holds([option, left], f"['{option}', app.pane.chart.rows.length]")
    for option in ("isFolded", "questions", "ended"):
        browser.click(f"[data-option={option}]")
    browser.js("$('#focus').value = '3'; $('#focus').dispatchEvent(new Event('change'))"), browser.settle()
    about = ["0 create alive named spare_one -> made 3", "0 start 1 1 0 2 3 -> ok", "0 stop all -> ok", "0 kill all -> ok", "0 start 0 1 -> error start-main"]
    browser.holds(about, "app.pane.chart.rows.map(row => app.pane.chart.game.list[row.first].text)")
    browser.js("$('.heads [data-lane=\"3\"]').dispatchEvent(new MouseEvent('click', { bubbles: true }))"), browser.settle()
    browser.holds(["", True], "[$('#focus').value, app.pane.chart.rows.length > 20]")
    # an entry that is not shown changes the life lines between two rows, and not in one that says something else
    browser.go("#/t_pumps"), browser.js("focusOn(2)"), browser.settle()
    browser.holds(["30", "36", "37", "38", "39", "40", "41", "49"], "$$('.rows .gutter').map(one => one.textContent)")
    runs = browser.js("$$('.rows .run').map(one => ['x', 'y', 'height'].map(name => Number(one.getAttribute(name))))")
    x = [browser.js(f"app.pane.chart.xs.get({it})") - 5 for it in (0, 1, 2)]
    same(sorted([[x[0], 0, 7 * 28 + 20], [x[1], 28, 1], [x[2], 28 + 20, 4 * 28], [x[1], 7 * 28, 1]]), sorted(runs))
    for name in ("t_supervised", "t_stopcase", "t_open", "t_wrong", "t_odd"):
        browser.go(f"#/{name}")
        lines = browser.js("app.pane.chart.game.list.map(entry => entry.line)")
        browser.holds(lines, "$$('.rows .gutter').map(one => Number(one.textContent))")
        browser.holds([len(lines), 1], "['.rows[role=listbox] [role=option] title', '[role=option][aria-selected=true]'].map(one => $$(one).length)")
    # the entry that made the verdict is shown, whatever is not
    browser.go("#/t_supervised"), browser.js("focusOn(1)")
    shown = "[game.why.index, game.overAt].map(at => chart.rows.some(row => row.first <= at && at <= row.last))"
    browser.holds([True, True], f"(({{ chart, chart: {{ game }} }}) => {shown})(app.pane)")
    said = "evidence 1 t 2\n0 # begun\n0 getverdict -> none\n0 running 9 -> error no-component\n0 # ended\n0 finish -> ended\nend error\n"
    browser.open(page_of(context, "hidden", said)), browser.go("#/t")
    for option in ("questions", "ended", "remarks"):
        browser.click(f"[data-option={option}]")
    browser.holds(["0 running 9 -> error no-component"], "app.pane.chart.rows.map(row => app.pane.chart.game.list[row.first].text)")
    for option in ("questions", "ended", "remarks"):
        browser.click(f"[data-option={option}]")
    return f"{rows} rows"


# A behaviour that is started again, and a component too many.
ERRONEOUS = ("evidence 1 t_again 3\n0 create alive named pump -> made 1\nbehaviour 2 fill\n0 start 1 2 -> ok\n2 finish -> ok\n"
             "0 start 1 2 0 1 -> error no-behaviour\nend error\n"
             f"history 2 t_crowd 1\n{''.join(f'0 create -> made {it}{chr(10)}' for it in range(1, MOST_COMPONENTS))}0 create -> error too-many\nend error\n")


def it_says_what_errors_mean(context: Context, browser: Browser) -> str:
    """The words of the program, as a title in the table and the chart, and in the panel."""
    text = ERRONEOUS + "".join(random_legal(random.Random(it), f"t_{it}") for it in range(250))
    summary = call([context.program, "report", "--summary"], text).output
    wanted = dict(re.findall(r"(?m)^(\w+): error\n  run .* -> error [\w-]+: (.*)$", summary))
    browser.open(page_of(context, "errors", text))
    same(wanted, browser.js("Object.fromEntries($$('.cases tbody tr').map(row => [$('a', row).innerText, $('code', row)?.title]).filter(it => it[1]))"))
    for meaning, name in {meaning: name for name, meaning in wanted.items()}.items():
        browser.js(f"history.replaceState(null, '', '#/{name}'), app.show()")
        browser.holds([meaning, True], f"[$('.on-why title').textContent.split('\\n')[1], $('.state').innerText.includes('Dynamic error: {meaning}.')]")
    browser.go("#/t_again"), hold("start 1 pump run 2 fill with mtc 1 pump \u2192 error" in browser.js("$('.on-why').textContent"), "it has no names")
    same(9, len(set(wanted.values())), summary)
    return f"{len(wanted)} errors"


def it_draws_what_no_table_makes(context: Context, browser: Browser) -> str:
    """Histories and evidence that can be read, hardly one of them legal: each line is drawn, and nothing breaks."""
    rng = random.Random(context.seed + 3)
    texts = [random_block(rng, it % 2 == 0)[0] for it in range(60)]
    texts[30:] = [evidence_of(rng, it) for it in texts[30:]]
    browser.open(page_of(context, "random", "".join(texts))), browser.js("app.options.isFolded = false")
    rows = browser.js("looking.walk()")
    same(sum(len(case.lines) for text in texts for case in read_cases(text.encode())[0]), rows)
    hold(rows >= 600, rows)
    # a case that ends within entries that share a row
    browser.open(page_of(context, "folded", "history 2 t 1\n" + "0 getverdict -> none\n0 stop 0 -> ok\n" * 3 + "end none\n")), browser.go("#/0")
    browser.holds([1, True], "[app.pane.chart.rows.length, $('.state').innerText.includes('This entry ends the test case.')]")
    return f"{len(texts)} cases, {rows} rows"


def it_gives_pictures_and_mermaid(context: Context, browser: Browser) -> str:
    """A picture is whole XML with its colours, names and remarks in it, and is saved; Mermaid's text is shown."""
    text, count = KINDS_OF_EVIDENCE + KINDS + EXAMPLES["verdicts"], 0
    browser.open(page_of(context, "pictures", text)), browser.js("app.options.isFolded = false")
    cases = read_cases(text.encode())[0]
    for at, case in enumerate(cases):
        browser.go(f"#/{at}")
        picture = browser.js("fileOf(app.pane.chart)")
        hold("var(" not in picture and '"selected"' not in picture and picture.count("fill: rgb") + picture.count("fill: #") > 10, picture[:900])
        parts = xml.dom.minidom.parseString(picture)
        titles, words = (["".join(it.data for it in element.childNodes) for element in parts.getElementsByTagName(tag)] for tag in ("title", "text"))
        same(["svg", len(case.lines)], [parts.documentElement.tagName, picture.count("data-row=")], case.name)
        titles = [it.split("\n")[0] for it in titles]
        hold(all(f"line {it.number}: {it.text}" in titles for it in case.lines), titles)
        browser.click("#mermaid")
        lines = browser.js("$('dialog textarea').value").splitlines()
        hold(lines[0] == "sequenceDiagram" and len(lines) > 4 and all(STATEMENT.fullmatch(line) for line in lines[1:]), lines)
        browser.holds([None, f"#/{at}"], "[$('dialog'), location.hash]", "Escape")
        notes = [re.sub(r"#(\d+);", lambda found: chr(int(found[1])), it) for it in lines if it.startswith("  Note over ")]
        for line in (it for it in case.lines if it.said):
            hold(any(line.said[:30] in it for it in words) and any(line.said in it for it in notes), line)
            count += 1
        hold(not any("\u2039" in it for it in words + notes), "a sign that stands for another")
    hold(count >= 14, count)
    browser.call("Page.setDownloadBehavior", behavior="allow", downloadPath=context.room)
    browser.click("#save")
    path = os.path.join(context.room, f"{cases[-1].name}.svg")
    wait_for(lambda: os.path.exists(path) and os.path.getsize(path) > 0, "the picture is saved")
    same("svg", xml.dom.minidom.parse(path).documentElement.tagName)
    return f"{len(cases)} cases, {count} remarks"


def it_compares(context: Context, browser: Browser) -> str:
    """Two cases side by side: where they part, scrolled together, and back to one."""
    browser.open(page_of_kinds(context)), browser.go("#/t_race/t_race.2")
    hold("alike for 2 entries" in browser.js("$('.bar').textContent"), "it does not say where they part")
    browser.holds([2, 1], "[$$('.pane .part').length, new Set($$('.pane .part').map(one => one.getBoundingClientRect().y)).size]")
    browser.holds(["0 finish -> ok", "1 setverdict fail -> ok"],
                  "app.panes.map(pane => pane.chart.game.list[pane.chart.rows[pane.chart.chosen].first].text)")
    browser.js("$('#other').value = ''; $('#other').dispatchEvent(new Event('change'))"), browser.settle()
    browser.holds(["#/t_race", 1], "[location.hash, app.panes.length]")
    # of cases that are odd the table's words are above both, and the rows are side by side
    browser.open(page_of_kinds(context), 800), browser.go("#/t_open/t_wrong")
    hold("no entry ends the test case" in browser.js("$$('h3')[0].textContent") and "says fail" in browser.js("$$('h3')[1].textContent"), "no word")
    browser.holds(1, "new Set($$('.pane .scroll').map(one => one.getBoundingClientRect().y)).size")
    # what a run asks over and over shares a row, but not past the place where two cases part
    sleep = "history 2 t_sleep 2\n0 create -> made 1\n0 start 1 1 -> ok\n" + "1 getverdict -> none\n0 getverdict -> none\n" * 2 + "%s\n1 finish -> ok\nend none\n"
    browser.open(page_of(context, "sleep", sleep % "1 getverdict -> none" + sleep % "1 setverdict none -> ok")), browser.go("#/t_sleep")
    browser.js("choose(app.pane, 2)"), browser.holds([5, True], "[app.pane.chart.rows.length, $('.state').innerText.includes('asked 3 times')]")
    browser.holds(7, "app.pane.chart.rows.length", "Enter")
    browser.go("#/t_sleep/t_sleep.2")
    browser.holds(["1 getverdict -> none", "1 setverdict none -> ok"], "app.panes.map(({ chart }) => chart.game.list[chart.rows[chart.chosen].first].text)")
    # remarks are not compared
    browser.open(page_of(context, "said", KINDS_OF_EVIDENCE), 800), browser.go("#/t_again/t_again.2")
    hold("alike for 5 entries" in browser.js("$('.bar').textContent"), browser.js("$('.bar').textContent"))
    browser.holds(["2 finish -> ok", "2 setverdict pass -> ok"], "app.panes.map(({ chart }) => chart.game.list[chart.game.part].text)")
    # a longer one next to a shorter one: both scroll to the end of the longer
    three = legal_case("t_two", 2, 3, "pass") + legal_case("t_two", 2, 40, "fail") + legal_case("t_two", 2, 3, "none")
    browser.open(page_of(context, "two", three), height=600)
    browser.holds(["#/t_two.2/t_two.3", "#/t_two/t_two.3", "#/t_two/t_two.2"], "$$('td a.dim').map(link => link.hash)")
    browser.holds(["of this name: pass 1, fail 1, none 1"] * 3, "$$('.mark').map(one => one.title)")
    browser.go("#/t_two/t_two.2"), browser.js("app.panes[1].scroll.scrollTop = 1e6"), browser.settle(), browser.settle()
    hold(browser.js("Number($$('[data-row]', app.panes[1].rows).at(-1).dataset.row) === app.panes[1].chart.rows.length - 1"), "it does not end")
    one, other = browser.js("app.panes.map(pane => pane.scroll.scrollTop)")
    hold(one == other > 100, (one, other))
    return "3 comparisons"


def it_opens_files(context: Context, browser: Browser) -> str:
    """Files that are opened, dropped or pasted, several at a time: a row for each name, a column for each file, and what changed."""
    good = EXAMPLES["pumps"].encode() + b"history 2 t_same 1\n0 finish -> ok\nend none\n"
    worse = good.replace(b"2 setverdict pass", b"2 setverdict fail").replace(b"end pass", b"end fail")
    less = worse.replace(worse[worse.index(b"history 2 t_spare"):worse.index(b"history 2 t_same")], b"")
    open_files(context, browser, {"monday.history": good, "tuesday.history": worse, "friday.history": less})
    browser.holds(["Test case", *(f"{it}.history" for it in ("monday", "tuesday", "friday"))], "$$('th button').map(one => one.textContent)")
    rows = [["t_pumps 2 verdicts", "pass", "fail", "fail"], ["t_spare", "none", "none", "missing"], ["t_same", "none", "none", "none"]]
    browser.holds(rows[:2], "looking.rows().map(cells => cells.slice(0, -1))")
    browser.holds(["fail 1", "missing 1", "none 2", "pass 1", "only what changed: 2 of 3"], "$$('[data-verdict], .bar label').map(one => one.innerText.trim())")
    browser.click("[data-verdict=none]"), browser.holds(["t_spare"], "$$('.cases .name a').map(one => one.textContent)"), browser.click("[data-verdict=none]")
    browser.holds(["of this name: pass 1, fail 2", 3], "[$('.mark').title, $$('th div').filter(one => /^20..-..-.. ..:..$/.test(one.innerText)).length]")
    browser.holds("2 times run 2 on 2 outlet_pump: 2 setverdict fail -> ok line 12", "looking.rows()[0].at(-1)")
    hold(re.search(r"monday.history of 20\d\d-\d\d-\d\d \d\d:\d\d, .*ttrun \d+\.", browser.js("document.title")), browser.js("document.title"))
    browser.click("#changed"), browser.holds(rows, "looking.rows().map(cells => cells.slice(0, -1))")
    for column, order in (("0", [1, 2, 0]), ("0", [0, 1, 2]), ("2", [0, 1, 2]), ("name", [0, 2, 1])):
        browser.click(f"[data-sort='{column}'] button")
        browser.holds([rows[at][0].split()[0] for at in order], "$$('.cases .name a').map(one => one.textContent)")
    browser.js("document.activeElement.blur()"), browser.holds("#/t_spare/t_spare.2", "location.hash", "j", "j", "Enter")
    browser.go("#"), browser.click("[data-row='0']"), browser.holds("#/t_pumps/t_pumps.3", "location.hash")
    hold("alike for 10 entries" in browser.js("$('.bar').textContent"), "it does not say where they part")
    browser.holds("run 2: call 2: setverdict pass -> ok | setverdict fail -> ok", "$('.partings').innerText")
    open_files(context, browser, {f"{it}.history": worse.replace(b"outlet_pump", b"pump_%d" % it) for it in range(5)})
    browser.holds([0, "why"], "[$$('.cases tbody tr').length, $$('th')[1].className]"), browser.click("#changed")
    browser.holds("".join(f"{it}.history run 2 on 2 pump_{it}: 2 setverdict fail -> ok line 12" for it in (2, 3, 4)), "looking.rows()[0][1].replaceAll('12 ', '12')")
    browser.open(page_of(context, "viewer", ""))
    browser.drop({"dropped <b>.history": EXAMPLES["workers"].encode()}), browser.until("app.cases.length > 1")
    browser.holds("dropped <b>.history: 2", "$('#source').textContent.replace(/ of .*:/, ':').slice(0, 22)")
    browser.open(page_of(context, "viewer", "")), browser.js("$('#paste').value = %s" % json.dumps(EXAMPLES["restart"])), browser.click("#read")
    browser.holds(1, "$$('.cases tbody tr').length")
    return "5 files"


def it_tells_faults(context: Context, browser: Browser) -> str:
    """The fault of a refused file is shown as the program prints it, and nothing of the file from there on. Each byte is as it is, and
    nothing but `<` means anything in the element of the histories."""
    any_text = "\n\n" + "".join(map(chr, range(32, 127))).replace("<", "") + "\n--> &lt; &amp; &#60; ]]> /script> !-- \n -- >\n\n"
    browser.open(page_of(context, "any", any_text)), browser.holds([any_text, 0], "[$('#history').textContent, $$('.cases tbody tr').length]")
    hold("line 1: bad first line" in browser.js("$('.fault').textContent"), "no fault is told")
    good, said = EXAMPLES["pumps"].encode(), KINDS_OF_EVIDENCE.encode()
    texts = [good[:200], b"", good + b"history 2 t 1\n", b"\xef\xbb\xbf" + good, good.replace(b"\n", b"\r\n"), good + b"<img src=x onerror=alert(1)>\n", b"\x00\xff",
             b"x" * (MOST_BYTES + 1), good[:-1] + b"\xff\n", said, said.replace(b"<b>", b"\x8bb>"), said.replace(b"<b>", "\u2039b>".encode()),
             said.replace(b"behaviour 4 ", b"behaviour 3 "), good + said, said.replace(b"closing", b"\x7flosing")]
    for at, text in enumerate(texts):
        open_files(context, browser, {f"bad_{at}.history": text})
        told = " ".join("".join(browser.js("$$('.fault').map(one => one.textContent)")).split())
        errors = checked(context.program, text).errors.decode().replace("ttrun: ", "").strip()
        hold(f"bad_{at}.history: {errors}" in told if errors else not told, (told, errors))
        browser.holds([len(read_cases(text)[0]) if len(text) <= MOST_BYTES else 0, 0], "[$$('.cases tbody tr').length, $$('img').length]")
    for count, ending in ((199, ""), (200, ""), (201, "..")):
        open_files(context, browser, {"bad.history": b"x" * count})
        browser.holds("x" * min(count, 200) + ending, "$('.fault code').textContent")
    open_files(context, browser, {"good.evidence": said}), browser.go("#/0"), browser.js("choose(app.pane, 1)")
    browser.holds('0 # the device says <b>ready</b> & "ok"', "looking.chosen()")
    return f"{len(texts)} texts"


def printed(context: Context, browser: Browser) -> List[str]:
    """The pages of what the browser prints, as pdftotext reads them: each has a text."""
    if not shutil.which("pdftotext"):
        raise Skipped("there is no pdftotext")
    data = base64.b64decode(browser.call("Page.printToPDF")["data"])
    ran = call(["pdftotext", "-layout", write(os.path.join(context.room, "printed.pdf"), data), "-"])
    pages = [" ".join(it.split()) for it in ran.output.split("\f")[:-1]]
    hold(all(pages) and browser.js("[document.body.className, $('#paper').innerHTML].join('')") == "", "a page is empty")
    return pages


def it_prints(context: Context, browser: Browser) -> str:
    """All rows of a table, and of a case why, all that fits, and of a long one what is around the deciding entry."""
    version, count = call([context.program, "--version"]).output.strip(), 0
    good, bad = legal_case("t_NAME", 2, 2, "pass"), legal_case("t_NAME", 2, 2, "fail")
    browser.open(page_of(context, "campaign", "".join((bad if it % 150 == 77 else good).replace("NAME", str(it)) for it in range(800))))
    pages = printed(context, browser)
    text = " ".join(pages)
    same([f"t_{it}" for it in (77, 227, 377, 527, 677)], re.findall(r"fail (t_\d+)", text))
    same({f"t_{it}" for it in range(800)}, set(re.findall(r"t_\d+", text)))
    hold(re.match(rf"{version} campaign of 20\d\d-.*: 800 test cases This page .* fail 5 pass 795 ", pages[0]), pages[0][:300])
    open_files(context, browser, {f"{it}.history": (bad if it == 3 else good).encode() for it in range(5)})
    text = printed(context, browser)[0]
    hold(all(f"{it}.history {'fail' if it == 3 else 'pass'}" in text for it in range(5)), text)
    browser.open(page_of(context, "two", good + bad)), browser.go("#/t_NAME/t_NAME.2")
    hold("run 2: call 3: setverdict pass -> ok | setverdict fail -> ok" in printed(context, browser)[0], "it does not print where they part")
    for runs, steps in ((2, 4), (11, 3), (3, 400)):
        case = legal_case("t_print", runs, steps, "fail").replace("getverdict -> none", "alive 0 -> true")
        browser.open(page_of(context, "printed", case)), browser.go("#/t_print")
        pages = printed(context, browser)
        text, lines = " ".join(pages), case.split("\n")
        hold("t_print fail" in pages[0] and reason(read_cases(case.encode())[0][0]) in pages[0] and version in pages[0], pages[0][:400])
        hold(all(f"{it} worker_{it} " in text for it in range(1, runs + 1)) and "mtc" in text, "a component is not printed")
        heads = browser.js("looking.onPaper()")
        same([heads[0]] * (runs + 1), heads, "the head of a component is lost")
        hold("After this entry the verdict is fail." in text and text.count("Component Phase Local") == 1, text[-900:])
        is_left, count = re.search(r"Left out: ([\d,]+) rows above line (\d+)", text), count + len(pages)
        hold((is_left is None) == (steps < 400) and ("columns 2 of 2" in text) == (runs > 9), text[:900])
        there = [at for at, line in enumerate(lines, 1) if re.match(r"\d+ (finish|start)", line) and (not is_left or at > int(is_left[2]))]
        hold(all(re.search(rf"(?:^|\D){it}(?:\D|$)", text) for it in there) and len(pages) <= 9, (there, len(pages)))
    return f"{count} pages of cases"


def it_draws_nothing_over_another_thing(context: Context, browser: Browser) -> str:
    """At each width, of the table, a case, two of them, and the empty page; each button has a title."""
    long = "history 2 t_long 2\n0 create -> made 1\n0 start 1 1 -> ok\n" + "1 alive 0 -> true\n" * 12000 + "1 setverdict fail -> ok\n0 finish -> ok\nend fail\n"
    files, count = {"one.evidence": KINDS_OF_EVIDENCE.encode(), "two.history": (KINDS + long).encode()}, 0
    for width in (400, 700, 1280):
        browser.open(page_of(context, "viewer", ""), width)
        views = [None, lambda: browser.open_files(*(write(os.path.join(context.room, name), data) for name, data in files.items()))]
        for address in ("#/t_heater", "#/t_again", "#/t_again/t_again.2", "#/t_race/t_race.2", "#/t_kinds", "#/t_long", "#/t_open/t_wrong"):
            views += [lambda to=address: browser.go(to), lambda: browser.key("Home"), lambda: browser.key("End"),
                      lambda: browser.click("#more") if width <= 700 else None,
                      lambda: (browser.js("for (const { scroll } of app.panes) scroll.scrollLeft = 1e4"), browser.settle(),
                               browser.holds(True, "$('#search').checkVisibility()"))]
        for view in filter(None, views):
            view()
            things, pairs = browser.js("looking.overlaps()")
            same([[], 0], [pairs, browser.js("$$('button:not([title])').length")], width)
            count += things
    hold(count >= 3000, count)
    browser.open(page_of_kinds(context), 400), browser.go("#/t_kinds"), browser.key("Home"), browser.js("app.pane.scroll.scrollLeft = 1e4"), browser.settle()
    browser.holds(True, "$$('.rows text').some(one => one.textContent.startsWith('\u2039 mtc: create alive 1 a_component'))")
    return f"{count} things"


def it_shows_evidence(context: Context, browser: Browser) -> str:
    """The table and each chart: every line in its place, reasons, and nothing in a remark that is taken as markup."""
    blocks, count = legal_evidence(context, 1), 0
    text = KINDS_OF_EVIDENCE + "".join(blocks)
    cases = read_cases(text.encode())[0]
    wanted = sorted([[it.verdict, it.name, str(len(it.entries())), reason(it)] for it in cases], key=lambda row: STATUSES.index(row[0]))
    for width, height, dark in LOOKS:
        browser.open(page_of(context, "evidence", text), width, height, dark)
        browser.holds(text, "app.sources[0].text")
        same(wanted, [[row[0], row[1], *row[3:]] for row in shown_rows(browser)])
        browser.holds([0, False], MARKUP)
        fits(browser, dark), browser.js("app.options.isFolded = false")
        for at, case in enumerate(cases):
            browser.go(f"#/{at}")
            browser.js("app.pane.rows.innerHTML = app.pane.chart.draw(0, app.pane.chart.rows.length)")
            browser.holds([f"line {it.number}: {it.text}" for it in case.lines], "looking.titles()")
            browser.holds([], "looking.outside()")
            count += sum(bool(it.said) for it in case.lines)
            browser.holds([0, False], MARKUP)
        fits(browser, dark)
    hold(count >= 4 * 100, count)
    return f"{len(cases)} cases in {len(LOOKS)} looks, {count} remarks"


def it_shows_a_case_of_evidence(context: Context, browser: Browser) -> str:
    """Names in heads, starts and states; remarks by the chart, the panel, the search and the box that hides them."""
    cases = read_cases(KINDS_OF_EVIDENCE.encode())[0]
    browser.open(page_of(context, "kinds_of_evidence", KINDS_OF_EVIDENCE)), browser.go("#/t_heater")
    browser.holds(["mtc, run 0 bench", "1 heater, run 1 probe"], "$$('.heads title').map(title => title.textContent)")
    browser.holds(["mtc", "run 0 bench", "1", "heater", "run 1 probe", "not started"], "$$('.heads text').map(text => text.textContent)")
    labels = browser.js("$$('.rows [data-row] text:not(.gutter)').map(text => text.textContent)")
    for label in ("start run 1 probe with mtc", "\u201cthe device says <b>ready</b> & \"ok\"\u201d", "refused: bad move", "finish run 1 probe",
                  "\u201ctoo hot: 85 > 80, and 80 <= limit\u201d", "run 2: \u201cfrom a run that was never started\u201d"):
        hold(label in labels, (label, labels))
    hold(any(it.startswith("\u201cthe log of the valve") and it.endswith("\u2026") for it in labels), labels)
    browser.holds("1 setverdict fail -> ok", "looking.chosen()")
    browser.key("k")
    browser.holds(["line 9", "1 # too hot: 85 > 80, and 80 <= limit"], "[$('.state b').textContent, $('.state code').textContent]")
    browser.holds("line 9, 1 heater: 1 # too hot: 85 > 80, and 80 <= limit", "$('#said').textContent")
    hold("run 1 probe on 1 heater" in browser.js("$('.state').textContent"), "the panel names no behaviour")
    browser.holds("\u201ctoo hot: 85 > 80, and 80 <= limit\u201d \u201cclosing the valve\u201d", "$('.state .reason').innerText.trim()", "w"), browser.key("k")
    same([["mtc", "running 0 bench"], ["1 heater", "running 1 probe"]], [it[:2] for it in browser.js("looking.panel()")])
    browser.holds("1 setverdict fail -> ok", "looking.chosen()", "/", *"PROBE", "Enter")
    for word, found in (("heater", "0 wait done 1 -> parked"), ("<b>", '0 # the device says <b>ready</b> & "ok"'), ("bench", "0 start 1 1 0 -> ok")):
        browser.js(f"$('#search').value = '{word}'; find(1)"), browser.settle()
        same(found, browser.js("looking.chosen()"), word)
    browser.key("Escape"), browser.click("[data-option=remarks]")
    browser.holds([f"line {it.number}: {it.text}" for it in cases[0].lines if not it.said], "looking.titles()")
    browser.click("[data-option=remarks]"), browser.go("#/t_again")
    same(["mtc", "1 a_component_with_a_long_name_abc, alive-type, run 1 probe, run 3 probe_of_a_valve_with_long_name", "2, run 4 bystander"],
         browser.js("$$('.heads title').map(title => title.textContent)"))
    browser.holds(3, "app.pane.chart.rows.find(row => row.times > 1).times")
    labels += browser.js("$$('.rows text').map(text => text.textContent)")
    hold(any("<img src=x onerror=alert(1)>\u201d  \u00d73" in it for it in labels), "not folded")
    return f"{len(labels)} labels"


TESTS = (it_shows_the_examples, it_shows_the_kinds, it_shows_one_case, it_says_what_errors_mean,
         it_draws_what_no_table_makes, it_gives_pictures_and_mermaid, it_compares, it_opens_files, it_prints,
         it_draws_nothing_over_another_thing, it_tells_faults, it_shows_evidence, it_shows_a_case_of_evidence, it_shows_large_histories)

"""The page in a browser, as one who tries it: what it shows is what the built program answers. And misused: files and links of any kind
and size, and a user in haste."""
import json
import os
import random
import re
import tempfile
import time
from typing import Dict, List, Tuple

from beside import TOP, Context, program_answer, texts
from browser import Browser
from harness import hold, same, write
from histories import campaign, fullest, legal_case
from shown import LOOKS, fits
from sizes import many_behaviours, padded_script
from table import VERDICTS

FAULTY = "testcase t\nbehaviour main\n  setverdct pass\nend\nend\n"
PASSES = [["t", ["pass"], "complete"]]
NOTED = "testcase t\nbehaviour main\n  setverdict pass\nend\nend\n"
FAULT, PRINTED, CASES = "$('#fault pre').textContent", "$('#rows pre').textContent", "$$('.cases tbody tr').length"


def tangled(cases: int, count: int, steps: int) -> str:
    """Test cases whose behaviours halt one another, so that a search takes seconds for each."""
    rng, lines = random.Random(0), []
    calls = ("kill a", "stop b", "setverdict fail", "setverdict pass", "running a", "alive b", "wait done a", "setverdict inconc")
    for case in range(cases):
        lines += [f"testcase t{case}", "behaviour main", *(f"create p{at} alive" for at in range(count))]
        lines += [f"start p{at} w{at} p{(at + 1) % count} p{(at + 3) % count}" for at in range(count)] + ["wait done any", "end"]
        for at in range(count):
            lines += [f"behaviour w{at} a b", *(rng.choice(calls) for _ in range(steps)), "end"]
        lines.append("end")
    return "\n".join([*lines, ""])


def answered(page: Browser) -> None:
    page.until("state.later === null && state.answered === state.turn")


def opened(context: Context, page: Browser, look: Tuple[int, int, bool] = LOOKS[0], after: str = "") -> None:
    """Opens the page again, with this at the end of its address, and waits for its first answer."""
    page.open(context.page, *look, after=after)
    answered(page)


def put(page: Browser, text: str, states: str = "") -> None:
    """Puts a text into the editor, as a paste does, with a limit of states."""
    page.js(f"$('#states').value = '{states}'; $('#text').value = {json.dumps(text)}; $('#text').dispatchEvent(new Event('input'))")


def give(page: Browser, text: str, states: str = "") -> None:
    """Puts a text into the editor, and waits until it is answered."""
    put(page, text, states), answered(page)


def choose(page: Browser, name: str) -> str:
    """Chooses an example, and returns its text."""
    page.js(f"$('#example').value = {json.dumps(name)}; $('#example').dispatchEvent(new Event('change'))"), answered(page)
    return page.js("$('#text').value")


def explained(context: Context, data: bytes) -> str:
    """What the program prints with --explain of a text that it refuses, by what the text begins with."""
    words = ("check",) if data.startswith(b"h") else ("replay",) if data.startswith(b"b") else ("run",)
    return program_answer(context, (*words, "--explain"), data)[2].decode().rstrip()


def checked(context: Context, text: str) -> str:
    return program_answer(context, ("check",), text.encode())[1].decode().strip()


def explored(context: Context, text: str, *words: str) -> Tuple[List[list], str]:
    """Each test case by the program's own answer, and all that it prints of them."""
    output = program_answer(context, ("explore", "--details", *words), text.encode())[1].decode()
    rows = [line.split() for line in output.splitlines() if not line.startswith(" ")]
    return [[row[0], [it for it in row[1:] if it in VERDICTS], " ".join(it for it in row[1:] if it not in VERDICTS)] for row in rows], output


def witnesses(context: Context, text: str, *words: str) -> List[List[str]]:
    """The entries of each witness, as the program writes them."""
    written = program_answer(context, ("explore", "--history", *words), text.encode())[1].decode()
    return [block.split("\n")[1:-1] for block in re.split(r"(?m)^end \w+\n", written)[:-1]]


def hold_lines(page: Browser, script: List[List[str]]) -> None:
    """Each entry that is shown has the line of the script with its step, and its run the name of the behaviour there."""
    lasts: Dict[int, int] = {}
    for run, entry, line, name in page.js("(game => game.list.map(({ run, text, line }) => [run, text, line, game.names.get(run)]))(app.pane.chart.game)"):
        verb = entry.split()[1].replace("wake", "wait").replace("finish", "end")
        hold(lasts.get(run, 0) < line or " wake " in entry and lasts[run] == line, (entry, line, lasts))
        same([verb, name], [script[line - 1][0], next(it[1] for it in reversed(script[:line]) if it[:1] == ["behaviour"])], (entry, line))
        lasts[run] = line


def each_witness(context: Context, page: Browser, text: str, *words: str) -> int:
    """Opens each witness, and holds its entries, its verdict, its end and the words next to it to the program's."""
    script = [it.split() for it in text.split("\n")]
    rows, details = explored(context, text, *words)
    number, wanted = 0, witnesses(context, text, *words)
    same(sum(len(verdicts) for _, verdicts, _ in rows), len(wanted))
    for name, verdicts, _ in rows:
        for verdict in verdicts:
            page.go(f"#/{number}")
            page.holds([name, verdict], "[$('h2').textContent, app.panes[0].chart.game.status]")
            page.holds(wanted[number], "app.panes[0].chart.game.list.map(entry => entry.text)")
            hold(f"verdict {verdict}" in page.js("(app.panes[0].chart.picture(''))"), name)
            hold_lines(page, script)
            number += 1
    stuck = [line[9:] for line in details.splitlines() if line.startswith("  stuck: ")]
    shown = [it for at in range(number) for it in (page.go(f"#/{at}"), page.js("$$('#why li').map(one => one.textContent)"))[1]]
    hold(all(it in shown for it in stuck), f"{stuck} are not all shown")
    return number


def every_example_in_each_look(context: Context, page: Browser) -> str:
    """Scripts, histories and moves, in both themes and widths."""
    count, drawn = 0, 0
    for look in LOOKS:
        opened(context, page, look)
        page.holds(True, "$('#text').clientWidth > .8 * $('.editor').clientWidth")
        for name in page.js("[...$('#example').options].map(one => one.textContent)"):
            text, count = choose(page, name), count + 1
            fits(page, look[2])
            if name.endswith(".history"):
                page.holds(checked(context, text), PRINTED)
            elif name.endswith(".moves"):
                page.holds(program_answer(context, ("replay",), text.encode())[1].decode(), "$('#main pre').textContent")
            else:
                page.holds(explored(context, text)[0], "looking.chips()")
                drawn += each_witness(context, page, text)
            fits(page, look[2])
    hold(count >= 4 * 18 and drawn >= 4 * 18, (count, drawn))
    return f"{count} examples, {drawn} witnesses"


def two_verdicts_side_by_side(context: Context, page: Browser) -> str:
    """A race is shown at once: two charts up to where they part; each verdict leads to its own, and back."""
    opened(context, page)
    page.holds(["none", "fail"], "app.panes.map(pane => pane.chart.game.status)")
    page.holds(["alike for 2 entries", "none", "fail"], "[$('#main .bar span'), ...$$('.pane h3')].map(one => one.innerText.trim())")
    page.js("choose(app.panes[1], 2)"), page.holds("141px", "$('#row').style.top")  # line 8
    page.holds(2, "$$('.rows .part').length")
    page.click("#rows a:nth-of-type(2)")
    page.holds(["#/1", "fail"], "[location.hash, ...app.panes.map(pane => pane.chart.game.status)]")
    page.click("#rows td:last-child a")
    page.holds("#/0/1", "location.hash")
    page.js("history.back()"), page.until("location.hash === '#/1'")
    page.click("#why summary")
    hold("none and fail: alike for 2 entries" in page.js("$('#why pre').innerText"), "the details are not shown")
    page.click("#main .bar a")
    page.holds([["fail", "run 1 worker on 1: 1 setverdict fail -> ok line 8"], ["none", "no verdict was set"]], "looking.rows().map(cells => [cells[0], cells[4]])")
    race = page.js("$('#text').value").split("\n", 1)[1].replace("  setverdict", "  # worse\n\n  setverdict")
    both = race + race.replace("testcase t", "testcase u").replace("setverdict fail", "setverdict pass")
    give(page, both)
    page.holds(explored(context, both)[0], "looking.chips()")
    page.holds([["#/0", "#/1", "#/0/1"], ["#/2", "#/3", "#/2/3"]], "$$('#rows tr').map(row => [...row.querySelectorAll('a')].map(link => link.hash))")
    count = each_witness(context, page, both)
    # if no test case has two verdicts, one that can get stuck is shown
    give(page, NOTED + choose(page, "a circle of waits"))
    page.holds(["t_circle", "fill, line 16: wait killed other"], "[$('h2'), $$('#why li').at(-1)].map(one => one.textContent)")
    return f"2 charts, {count} witnesses"


def a_fault_is_marked_while_typing(context: Context, page: Browser) -> str:
    """Its line, its letters and all that --explain prints; the nearest word is put there by a button."""
    opened(context, page)
    page.js("$('#text').value = ''; $('#text').focus()")
    page.type(FAULTY), answered(page)
    page.holds(explained(context, FAULTY.encode()), FAULT)
    line, letters = page.js("[$('#mark'), $('#letters')].map(one => (r => [r.x, r.y, r.width, r.height])(one.getBoundingClientRect()))")
    left, top, letter = page.js("(r => [r.x, r.y, $('#letters').getBoundingClientRect().width / 9])($('#text').getBoundingClientRect())")
    hold(abs(line[1] - top - 8 - 2 * 19) < 1 and abs(letters[0] - left - 8 - 2 * letter) < 1 and 60 < letters[2] < 90, (line, letters, left, top))
    hold(page.js("$('#rows').classList.contains('stale') && $('#text').getAttribute('aria-invalid') === 'true'"), "what was found before looks new")
    page.click("#there")
    page.holds("setverdct", "$('#text').value.slice($('#text').selectionStart, $('#text').selectionEnd)")
    page.click("#nearest"), answered(page)
    page.holds([NOTED, PASSES, ""], "[$('#text').value, looking.chips(), $('#fault').textContent]")
    texts_with_faults = (" testcase t\nbehaviour main\nend\n", "history 2 t 1\n0 creat -> made 1\nend none\n", "behaviours 3\n0 crate\n", "",
                         "x\u00e9\n", "testcase t\nbehaviour main\n  setverdict p\u00e4ss\nend\nend\n", "testcase t\t\n")
    for text in texts_with_faults:
        give(page, text)
        page.holds(explained(context, text.encode()), FAULT)
    return f"{len(texts_with_faults) + 1} faults"


def a_history_is_checked_and_drawn(context: Context, page: Browser) -> str:
    """A legal one, one that is not, many, and one from a file."""
    opened(context, page)
    text = texts(".history")[1].decode()
    give(page, text)
    page.holds([checked(context, text), "legal"], f"[{PRINTED}, $('#head').textContent.slice(-5)]")
    wrong = text.replace("setverdict fail -> ok", "setverdict fail -> ended", 1).replace("getverdict -> fail", "getverdict -> pass", 1)
    hold(wrong != text, "nothing is wrong")
    give(page, wrong)
    printed = checked(context, wrong)
    page.holds(["Not legal", printed, printed.splitlines()[-1]], f"[$('#head').textContent, {PRINTED}, {FAULT}]")
    hold(page.js("!$('#mark').hidden && app.cases.length > 0"), "it is not marked, or not drawn")
    for count, more in ((201, "\n.."), (200, ""), (30, "")):
        many = "".join(legal_case(f"t_{at}", 2, 2) for at in range(count))
        give(page, many)
        page.holds([f"{count} histories, each legal", count], f"[$('#head').textContent, {CASES}]")
        page.holds("\n".join(checked(context, many).splitlines()[:200]) + more, PRINTED)
    page.js("document.activeElement.blur()")
    page.holds("t_2", "$('h2').textContent", "j", "j", "Enter")
    page.choose_files([os.path.join(TOP, "examples", "workers.history")]), answered(page)
    page.holds(texts(".history")[-1].decode(), "$('#text').value")
    hold(page.js("app.panes.length + $$('.cases').length") == 1, "nothing is drawn of the file")
    return "7 texts"


def a_model_is_explored(context: Context, page: Browser) -> str:
    """That of what is shown, by its button: of all histories, or of the one that is open. Those that have none are named, with why."""
    opened(context, page)
    race, other = page.js("$('#text').value"), NOTED.replace("testcase t", "testcase u")
    texts_of = [program_answer(context, ("run", "--evidence"), it.encode())[1].decode() for it in (race, other)]
    cut = "evidence 1 cut 1\n0 setverdict pass -> ok\nend pass\n"
    hold(page.js("$('#model').hidden"), "a script has a model")
    for shown, words in (("", ()), ("#/1", ("--only", "u"))):
        text = "".join([*texts_of, cut])
        give(page, text)
        if shown:
            page.go(shown)
        page.click("#model"), page.until("$('#model').hidden"), answered(page)
        _, output, errors = program_answer(context, ("model", *words), text.encode())
        model = output.decode()
        page.holds([model, True], "[$('#text').value, $('#model').hidden]")
        page.holds(explored(context, model)[0], "looking.chips()")
        page.holds(errors.decode().rstrip(), "$('#notice').textContent")
        hold(bool(errors) != bool(words), errors)
        same(choose(page, "your text"), text)
        same(choose(page, "the model"), model)
    give(page, cut)
    page.click("#model"), page.until("$('#notice').textContent !== ''")
    page.holds([cut, "no model of cut"], "[$('#text').value, $('#notice').textContent.match(/no model of cut/)[0]]")
    return "2 models"


def begin_long_search(page: Browser) -> None:
    """Gives a script whose search takes minutes, and waits until the page says that it searches."""
    put(page, tangled(20, 10, 10), "1000000")
    page.until("$('#head').textContent === 'Searching' && !$('#stop').disabled")


def a_search_is_told_and_stopped(context: Context, page: Browser) -> str:
    """The page says that it searches; the button or another text ends the search, and the next one is answered."""
    opened(context, page)
    page.js("window.ended = 0; const terminate = Worker.prototype.terminate; Worker.prototype.terminate = function () "
            "{ window.ended += 1; return terminate.call(this); }; 1")
    for end in ("button", "text"):
        begin_long_search(page)
        hold(re.fullmatch(r"for \d+\.\d s", page.js("$('#took').textContent")), "it does not tell for how long")
        if end == "button":
            page.click("#stop")
            page.holds(["Stopped: nothing is known of the verdicts", 0, 0], "[$('#head').textContent, $$('#rows tr').length, app.cases.length]")
        began = time.monotonic()
        give(page, NOTED)
        hold(time.monotonic() - began < 15, f"{time.monotonic() - began:.0f} seconds: the search before was not ended")
        page.holds(PASSES, "looking.chips()")
    long = tangled(4, 9, 9)
    for end in ("", "$('#stop').click()"):
        put(page, long)
        rows, head, links = page.js(f"looking.again(() => {{ {end} }})")
        same([explored(context, long)[0], 0], [rows, links])
        answered(page)
        page.holds([rows, head, True], "[looking.chips(), $('#head').textContent, $('#stop').disabled]")
        told = r"status [013], in [\d.]+ m?s" + ("; stopped before the witnesses came" if end else "")
        hold(re.fullmatch(told, page.js("$('#took').textContent")), page.js("$('#took').textContent"))
        page.holds(0 if end else sum(len(verdicts) for _, verdicts, _ in rows), "app.cases.length")
    for states in ("1000", ""):
        give(page, many_behaviours(6).decode(), states)
        page.holds(explored(context, many_behaviours(6).decode(), *("--states", states) * bool(states))[0], "looking.chips()")
    hold(page.js("window.ended") >= 3, f"{page.js('window.ended')} workers were ended")
    return "3 searches ended"


def a_link_holds_the_script(context: Context, page: Browser) -> str:
    """The address of a link shows the same script to another, and leaves nothing to a server."""
    script = "# 100 % of a+b, #1?\ntestcase t\nbehaviour main\n  setverdict inconc\nend\nend\n"
    opened(context, page)
    give(page, script), page.click("#link")
    page.until("location.hash !== '' && $('#notice').textContent !== ''")
    address = page.js("location.href")
    hold("#" in address and page.js("$('#notice').textContent").startswith("The link is "), address)
    page.holds([["t", ["inconc"], "complete"]], "looking.chips()")
    opened(context, page, LOOKS[1], address.split("#", 1)[1])
    page.holds([script, [["t", ["inconc"], "complete"]], address], "[$('#text').value, looking.chips(), location.href]")
    page.js("$('#text').focus()"), page.key("x"), answered(page)
    hold("#" not in page.js("location.href"), "another text under the old address")
    opened(context, page, LOOKS[0], "/99")
    page.holds("t", "$('#rows b').textContent")
    return f"{len(address)} letters"


def buttons_and_keys(context: Context, page: Browser) -> str:
    """The words about what is proved, the buttons of a chart, and the keys."""
    opened(context, page)
    page.click("#about")
    words = page.js("$('#proved').innerText")
    hold(all(word in words for word in ("Not proved:", "build.py", "heap.c", "helpers.c", "WebAssembly", "does not judge", "rattle-kit")), words)
    fits(page, False)
    page.holds(False, "$('#proved').open", "Escape")
    page.click("#about"), page.click("#proved form button")
    page.holds(False, "$('#proved').open")
    page.js("$('#text').focus()"), page.press("Enter", with_control=True), page.settle(), answered(page)
    page.holds("BODY", "document.activeElement.tagName", "Escape")
    for act in (lambda: page.key("Escape"), lambda: page.click("#main .bar a")):
        opened(context, page), act()
        page.holds(2, CASES)
    page.go("#/1")
    page.holds(1, "app.pane.chart.chosen", "Home", "j")
    page.holds("1 setverdict fail -> ok", "$('.state code').textContent", "w")
    page.click("#mermaid")
    hold(page.js("$('dialog textarea').value").startswith("sequenceDiagram"), "no diagram")
    page.key("Escape")
    page.js("window.saved = new Promise(done => { const make = URL.createObjectURL; URL.createObjectURL = made => { URL.createObjectURL = make; "
            "done(made.text()); return make(made); }; }), 1")
    page.click("#save")
    hold(page.js("window.saved").startswith('<svg xmlns="http://www.w3.org/2000/svg" class="chart"'), "no picture is saved")
    page.holds("t, ttrun in a page", "document.title")
    keys_of_cases(page)
    for text, name in (("# one\n \t# two\n\n" + NOTED, "Explore"), ("# one\n\nhistory 2 t 1\n", "Check"), ("\n\nbehaviours 3\n", "Replay"),
                       ("evidence 1 t 1\n0 finish -> ok\nend none\n", "Check"), ("# history\nevidences", "Explore"), ("", "Explore")):
        give(page, text)
        page.holds([name, name != "Explore"], "[$('#go').textContent, $('#states').disabled]")
    page.click("#go"), answered(page)
    return f"{places_by_tab(page)} places by Tab"


def keys_of_cases(page: Browser) -> None:
    """The keys that the words next to a chart name, over the cases of the first example."""
    page.go("#/0")
    page.holds("#/t.2", "location.hash", "]")
    page.holds("#/t", "location.hash", "]", "[")
    page.holds("search", "document.activeElement.id", "/")
    page.type("start")
    page.holds(True, "app.pane.chart.chosen >= 1", "Enter", "Escape", "Home", "n")
    page.holds([2, "ttrun in a page"], f"[{CASES}, document.title]", "N", "Escape")
    page.holds("search", "document.activeElement.id", "/")
    page.holds("#/t.2", "location.hash", "Escape", "k", "Enter")
    page.js("$('#other').value = '0', $('#other').dispatchEvent(new Event('change'))"), page.settle()
    page.holds(["#/t.2/t", 2], "[location.hash, $$('.pane').length]")
    for option in ("questions", "ended", "isFolded"):
        page.click(f"[data-option={option}]"), page.click(f"[data-option={option}]")
    page.js("$('#focus').value = '1', $('#focus').dispatchEvent(new Event('change'))"), page.settle()
    page.holds(1, "app.options.focus")
    page.key("Escape")


def places_by_tab(page: Browser) -> int:
    """The places that Tab reaches. Nothing was loaded by then."""
    reached = []
    for _ in range(14):
        page.key("Tab")
        reached.append(page.js("document.activeElement.id || document.activeElement.tagName"))
    hold(len(set(reached)) >= 6, reached)
    page.holds([], "performance.getEntriesByType('resource').map(one => one.name).filter(name => !name.startsWith('blob:'))")
    return len(set(reached))


# Seconds that the page has for any text at most.
MOST = 20
NOTICE = "$('#notice').textContent"
MARKUP = "<img src=x onerror=alert(1)> & \"it\" </textarea></script><b>x</b>"
EVIDENCE = f"evidence 1 t 1\nbehaviour 0 main\n0 # {MARKUP}\n0 ! <i>no</i> {MARKUP}\n0 setverdict fail -> ok\n0 finish -> ok\nend fail\n"


def drop(page: Browser, files: Dict[str, bytes]) -> None:
    """Drops files on the page, and waits until they are answered."""
    turn = page.js("state.turn")
    page.drop(files), page.until(f"state.turn > {turn}"), answered(page)


def open_file(page: Browser, data: bytes) -> None:
    """Opens a file by the button, and waits until it is answered."""
    turn = page.js("state.turn")
    with tempfile.TemporaryDirectory(prefix="play-file-") as room:
        page.choose_files([write(os.path.join(room, "given.txt"), data)])
        page.until(f"state.turn > {turn}"), answered(page)


def judged(page: Browser, text: str, before: str = "") -> None:
    """Lets the page judge a text, after some code of another kind."""
    page.js(f"{before}judge({json.dumps(text)}), 1"), answered(page)


def is_refused_so(context: Context, page: Browser, data: bytes, column: int = 0) -> None:
    """Opens a file that is refused: what is shown is what the program prints, and the mark is at this letter of the line."""
    began = time.monotonic()
    open_file(page, data)
    hold(time.monotonic() - began < MOST, f"{time.monotonic() - began:.0f} seconds for {data[:40]!r}")
    wanted = explained(context, data)
    page.holds([wanted, "The text is refused"], f"[{FAULT}, $('#head').textContent]")
    page.holds([wanted.startswith("ttrun: line "), "true"], "[!$('#mark').hidden, $('#text').getAttribute('aria-invalid')]")
    if column:
        found = page.js("looking.column()")
        hold(abs(found - column) <= column // 100, f"the mark is at {found}, and not at {column}: {data[:40]!r}")


def files_that_are_refused(context: Context, page: Browser) -> str:
    """Empty, not UTF-8, with carriage returns or a mark of the byte order, too long, and with a fault far on the right."""
    opened(context, page)
    noted = NOTED.encode()
    rows = ((b"", 0), (b"\xff", 1), (b"\xef\xbb\xbf" + noted, 1), (noted.replace(b"\n", b"\r\n"), 11), (noted.replace(b"pass", b"p\xc3\xa4ss"), 15),
            (noted.replace(b"pass", b"p\xe4ss"), 15), (b"testcase t # \xf0\x9f\x98\x80\xc3\xa9 \n", 14), (b"testcase \xc3\xa9\xff\n", 10),
            (b"history 2 t 1\r\n0 finish -> ok\r\nend none\r\n", 14), (b"history 2 t 1\n0 finish \xfe-> ok\nend none\n", 10),
            (b"behaviours 3\r\n0 create\r\n", 13), (b"\0\n", 1), (b"testcase t\0\n", 11), (b" " * 1_000_000 + b"frob\n", 1_000_001),
            (b"\n" * 1_000_000, 0), (padded_script((1 << 20) + 1), 0), (b"x" * 1_500_000, 0), (b"\n" * (1 << 24), 0),
            (b"history 2 t 1\n" + b"0 finish -> ok\n" * 1_200_000, 0))
    for data, column in rows:
        is_refused_so(context, page, data, column)
    drop(page, {"lines.script": noted.replace(b"\n", b"\r\n")})
    page.click("#plain"), answered(page)
    page.holds([PASSES, NOTED], "[looking.chips(), $('#text').value]")
    drop(page, {"one.script": noted, "two.script": b"x"})
    page.holds(["One file at a time: this is one.script.", NOTED], f"[{NOTICE}, $('#text').value]")
    page.js("takeFile([{ name: 'a folder', slice: () => ({ arrayBuffer: () => Promise.reject(new Error()) }) }])")
    page.holds(["a folder cannot be read.", NOTED], f"[{NOTICE}, $('#text').value]")
    return f"{len(rows)} files"


def markup_is_only_text(context: Context, page: Browser) -> str:
    """What looks like the page's own language is shown as it is, in remarks and in faults."""
    opened(context, page)
    drop(page, {"a.evidence": EVIDENCE.encode()})
    page.holds(checked(context, EVIDENCE), PRINTED)
    page.holds(f"\u201c{MARKUP}\u201d", "shapeOfRow(app.pane.chart.game, app.pane.chart.rows[0]).label")
    page.js("choose(app.pane, 0)")
    page.holds([f"0 # {MARKUP}", f"line 3: 0 # {MARKUP}"], "[$('.state code'), $('.rows title')].map(one => one.textContent)")
    page.key("Escape")
    hold(page.js("$('.cases').textContent").count(f"\u201c{MARKUP}\u201d") == 1, page.js("$('.cases').textContent"))
    for text in (f"testcase {MARKUP}\n", f"{MARKUP}\n", f"history {MARKUP}\n", f"behaviours {MARKUP}\n"):
        give(page, text)
        page.holds(explained(context, text.encode()), FAULT)
    page.holds([0, 0], "[$$('img').length, $$('body script').length - 1]")
    return "5 texts"


def texts_too_long_to_edit(context: Context, page: Browser) -> str:
    """They are checked and drawn whole, opened or pasted, up to the largest; then the page is as before."""
    opened(context, page)
    told = []
    for text in (campaign(40, 2_000_000), fullest()):
        began = time.monotonic()
        open_file(page, text.encode())
        told.append(f"{len(text)} bytes in {time.monotonic() - began:.1f} seconds")
        lines = checked(context, text).split("\n")
        page.holds(lines[:200], f"{PRINTED}.split('\\n').slice(0, 200)")
        page.holds([len(lines), False, True, ""], "[app.cases.length, $('#large').hidden, $('#text').disabled, $('#text').value]")
        hold(f"{len(text):,} letters" in page.js("$('#large').innerText"), page.js("$('#large').innerText"))
    page.click("#go"), answered(page)
    page.holds(len(lines), "app.cases.length")
    page.click("#close"), answered(page)
    page.holds([True, False, "a race"], "[$('#large').hidden, $('#text').disabled, $('#example').value]")
    page.js("looking.paste('short')")
    page.holds(True, "$('#large').hidden")
    page.js(f"looking.paste({json.dumps(campaign(40, 2_000_000))})"), answered(page)
    page.holds([40, False], "[app.cases.length, $('#large').hidden]")
    page.click("#link"), page.until(f"{NOTICE} !== ''")
    hold("too long for a link" in page.js(NOTICE), page.js(NOTICE))
    return ", ".join(told)


def a_user_in_haste(context: Context, page: Browser) -> str:
    """Two edits at once, a key while a search is under way, a stop after a stop, another text in each moment of a search."""
    opened(context, page)
    turn = page.js("state.turn")
    page.js(f"for (const text of {json.dumps([FAULTY, NOTED])}) {{ $('#text').value = text; $('#text').dispatchEvent(new Event('input')); }} 1")
    answered(page)
    page.holds([turn + 1, "", PASSES], "[state.turn, $('#fault').textContent, looking.chips()]")
    begin_long_search(page)
    hold(page.js("$('#rows').classList.contains('stale')"), "what was found before looks as if it were of this text")
    page.js("stop(), stop()"), page.click("#stop")
    page.holds("Stopped: nothing is known of the verdicts", "$('#head').textContent")
    begin_long_search(page)
    page.js(f"for (let at = 0; at < 30; at += 1) judge({json.dumps(FAULTY)} + at), judge({json.dumps(NOTED)}), 1"), answered(page)
    page.holds(PASSES, "looking.chips()")
    turn = page.js("state.turn")
    page.js(f"$('#text').value = {json.dumps(FAULTY)}; $('#text').dispatchEvent(new Event('input')); $('#text').dispatchEvent("
            "new KeyboardEvent('keydown', { key: 'Enter', ctrlKey: true, bubbles: true })); 1")
    answered(page)
    time.sleep(0.4), answered(page)
    page.holds([turn + 1, "The text is refused"], "[state.turn, $('#head').textContent]")
    for wait in (0, 1, 5, 20, 60, 200):
        page.js(f"judge({json.dumps(tangled(2, 4, 4))}), new Promise(done => setTimeout(done, {wait})).then(() => stop())")
        give(page, NOTED)
        page.holds([PASSES, True, "Each test case has one verdict"], "[looking.chips(), $('#stop').disabled, $('#head').textContent]")
    return "2 searches and 70 texts"


def what_was_typed_is_kept(context: Context, page: Browser) -> str:
    """An example can be chosen again after it was changed, and the user's own text after an example."""
    opened(context, page)
    names, first = page.js("[[...$('#example').options].map(one => one.textContent), $('#text').value]")
    for own, choices in ((NOTED, (names[0], "your text", names[0])), (FAULTY, (names[0], "your text"))):
        give(page, own)
        page.holds(["your text", "your text", *names], "[$('#example').value, ...[...$('#example').options].map(one => one.textContent)]")
        for name in choices:
            same(own if name == "your text" else first, choose(page, name), name)
    return f"{len(names)} examples"


def links_of_any_kind(context: Context, page: Browser) -> str:
    """The page says of a link that it cannot be read, and of a text that it has no link."""
    for after in ("%E0%A4%A", "%", "testcase+t%0"):
        opened(context, page, after=after)
        page.holds([True, "t"], f"[{NOTICE}.includes('cannot be read'), $('#rows b').textContent]")
        page.go(after + "%")
        hold("cannot be read" in page.js(NOTICE), after)
    give(page, NOTED)
    page.holds(["", ""], f"[{NOTICE}, location.hash]")
    for after, text in (("x%0D%0Ay", "x\r\ny"), ("%F0%9F%98%80", "\U0001f600"), ("a%2Bb+c", "a+b c"), ("<img>", "<img>")):
        opened(context, page, after=after)
        page.holds([text, "your text", ""], f"[state.text, $('#example').value, {NOTICE}]")
    for text, word in (("", "no text"), ("x" * 100_001, "too long"), ("x\ud800", "link"), (NOTED, "link")):
        judged(page, text)
        page.js(f"{NOTICE} = ''"), page.click("#link"), page.until(f"{NOTICE} !== ''")
        hold(word in page.js(NOTICE), text[:20])
    hold(page.js("location.hash").startswith("#testcase+t%0A"), page.js("location.hash"))
    return "10 links"


def an_engine_that_breaks_off(context: Context, page: Browser) -> str:
    """The page says so, and marks no fault of the text; the next text has an answer again."""
    opened(context, page)
    broken = "[$('#head').textContent, $('#text').getAttribute('aria-invalid'), $('#mark').hidden, $('#stop').disabled]"
    wanted, source = ["The engine gave no answer", "false", True, True], page.js("$('#worker').textContent")
    judged(page, NOTED, "end(), compiled = Promise.reject(new Error('it is not taken')), ")
    page.holds(wanted, broken)
    hold("it is not taken" in page.js("$('#fault').textContent"), page.js("$('#fault').textContent"))
    judged(page, NOTED, "end(), compiled = null, ")
    page.holds(PASSES, "looking.chips()")
    fault = "words[0] === 'explore' ? { status: 3, output: new Uint8Array(), errors: new TextEncoder().encode('ttrun: no memory') } " \
            ": engine.answer(words, given)"
    for worker, why in (('throw new Error("no such worker")', "no such worker"),
                        *((source.replace("engine.answer(words, given)", it), why) for it, why in (("null.x", "null"), (fault, "no memory")))):
        judged(page, NOTED, f"end(), $('#worker').textContent = {json.dumps(worker)}, ")
        page.holds(wanted, broken)
        hold(why in page.js("$('#fault').textContent"), page.js("$('#fault').textContent"))
    judged(page, NOTED, f"end(), $('#worker').textContent = {json.dumps(source)}, ")
    page.holds(PASSES, "looking.chips()")
    page.errors.clear()  # (which were meant)
    return "3 times"


TESTS = (every_example_in_each_look, two_verdicts_side_by_side, a_fault_is_marked_while_typing, a_history_is_checked_and_drawn,
         a_model_is_explored, a_search_is_told_and_stopped, a_link_holds_the_script, buttons_and_keys, files_that_are_refused, markup_is_only_text,
         texts_too_long_to_edit, a_user_in_haste, what_was_typed_is_kept, links_of_any_kind, an_engine_that_breaks_off)

"""page PROGRAM [FOLDER]: makes pages of the examples and of large basins, and clicks through them in a browser.

The browser is a headless Chromium. The account of each right that is short, in each month, has to be what the program's
`why` writes, its core what `where` does, and who is curtailed what `calls` does. No text that a page is made of may run
as a script in it. With a FOLDER the pages and pictures of them stay there. What isn't installed is named as not tried.
"""
import os
import re
import shutil
import sys
import time

from beside.common import write_text
from checks import browser, large
from checks import harness
from checks.harness import files_of, names_of, not_tried, ran, read, script, tried

LIBRARY = "/usr/share/javascript/dygraphs/dygraph.min.js"
JULY = "#month=1982-07&right=oldfields"
HOSTILE, FILES, NAMES_OF, KEYS, ACCOUNTS, CORES, FIRSTS, CALLS = harness.table(
    "page", "HOSTILE FILES NAMES_OF KEYS ACCOUNTS CORES FIRSTS CALLS")
# Changes of the valley's result that are no result any more, made behind a fault at which `check` stops reading.
FORGED = ("deliver town 0 380", "deliver town 100 380")
SVG = "</title></script><svg/onload=window.hit=1>"
# A basin in which no amount depends on the month, and a result whose month is hostile.
BARE = b"""format = 1
first_month = "2000-01"
months = 1
node = [{name = "spring", inflow = 5}, {name = "sea", outlet = true}]
link = [{name = "river", from = "spring", to = "sea"}]
"""
BARE_RESULT = f"river-result 1\nrun 2000-01 1\nmonth {SVG}\nflow river 5\nout sea 5\nend\ndone 1\n".encode()
# What is put into a page raw, to see that its policy stops it.
INJECTED = (b"<script>window.hit=1</script><img src=x onerror=window.hit=1><svg onload=window.hit=1></svg>"
            b"<script src='data:text/javascript,window.hit=1'></script>")
UNSEEN = {b"a\nb": "a\\nb", "txt.\u202elmth".encode(): "txt.\\u202elmth", b"\xff\xfe": "\\udcff\\udcfe",
          b"\x1b[2J": "\\x1b[2J", "\u2028'".encode(): "\\u2028'"}
TEXT = "document.getElementById('{}').innerText"
NAMES = "[...document.querySelectorAll('{}')].map(it => it.textContent).join('|')"

def made(program, files, out, **more):
    """Makes a page, and answers the status and what was said."""
    _, err, status = script("page", *files, out, program=program, env=more)
    return status, "".join(line + "\n" for line in err)

def said(*words):
    """What the program writes."""
    return ran(*words)[0]

def accounts(program, page, files, name):
    """Whether each account of the open page is what `why` writes, and each core what `where` does."""
    ats = re.compile(r"^at .*\n", re.MULTILINE)
    for word, asked, part in (("why", ACCOUNTS, str), ("where", CORES, lambda text: "".join(ats.findall(text)))):
        told = page.value(asked)
        wrong = [it for it in told if part(said(program, word, *files[:2], *it[:2])) != it[2]]
        tried(f"{name}: {len(told)} shortages are shown as by {word}", not wrong)
        for it in wrong[:1]:
            print(*it)

def calls(program, page, files, name, step=1):
    """Whether the open page has the next and the curtailed of `calls`, and in each so many months also by its cores."""
    lines, months = [], []
    for line in said(program, "calls", *files[:2]).splitlines():
        months += [line[6:]] if line.startswith("month ") else []
        lines += [f"{months[-1]} {line}"] if line.startswith(("next ", "curtailed ")) else []
    kept = set(months[::step])
    firsts = [line for line in lines if " next " in line and line[:7] in kept]
    is_right = page.value(CALLS) == lines and page.value(FIRSTS.replace("STEP", str(step))) == firsts
    tried(f"{name}: {len(lines)} lines of calls are shown", is_right)

def july(page):
    """What the valley's page shows of July 1982, as its address asks."""
    headline = "July 1982: oldfields of 1898-05-01 (diversion at fields) is delivered 1,459 of 2,600: 1,141 short"
    tried("the address chooses month and right", page.value(TEXT.format("headline")) == headline)
    account = page.value("[...document.querySelectorAll('#account tr')].map(it => it.innerText).join('|')")
    rows = ["water at upper (inflow 790)\t+ 790", "water at lake (stored 1,987, less evaporated 213)\t+ 1,774",
            "water at creek (inflow 95)\t+ 95", "taken by deadpool (senior: zone of 1890)\t\u2212 1,200",
            "left for oldfields, and delivered\t1,459"]
    tried("the account stands line by line", account == "|".join(rows))
    lists = [page.value(f"document.querySelector('#account .{kind}').textContent") for kind in ("curtailed", "called")]
    tried("who is curtailed is named, and apart who is only called",
          lists == ["carryover of 1934 (9,000) newfields of 1961 (1,000) ", "town of 1926 (380) "])
    core = ["upper", "lake", "creek", "weir", "fields"]
    told = page.value("document.querySelector('#account .at').textContent")
    tried("where water would have helped is told", told.split() == core)
    for kind, due in (("core", core), ("in", [*core, "town"])):
        marks = page.value(NAMES.format(f"#map .node.{kind} text:first-of-type"))
        tried(f"the nodes of kind {kind} are marked", sorted(marks.split("|")) == sorted(due))
    labels = page.value(NAMES.format("#map text")).split("|")
    due = {"gorge 790", "canal 1,459", "town 0 of 380", "\u2190 carryover 0 of 9,000"}
    tried("flows and deliveries stand on the map", due <= set(labels))
    answer = page.value(TEXT.format("head"))
    sums = [line.split()[0] for line in said("sha256sum", *files_of("valley")).splitlines()]
    tried("the files' sums and the answer of check stand on top", all(it in answer for it in [*sums, "checked 120"]))

def at(page, month, right):
    """Whether the page has this choice, and its address too, after a moment."""
    page.wait(f"location.hash === '#month={month}&right={right}'", 5)
    return page.value(TEXT.format("month")) == month and f": {right} of " in page.value(TEXT.format("headline"))

def clicks(page):
    """Keys, slider, grid, map and names, each from the choice that the one before left."""
    for key, month, right in KEYS:
        page.press(key)
        tried(f"key {key}", at(page, month, right))
    page.click_on("document.getElementById('slider')")
    month = page.value("months[chosen.month]")
    tried(f"the slider's middle is {month}", "1986-01" <= month <= "1987-02" and at(page, month, "oldfields"))
    page.press("ArrowRight")
    on = page.value("months[chosen.month]")
    tried("a key at the slider goes one month", on == page.value(f"months[months.indexOf('{month}') + 1]"))
    x, y = page.value("[(9.5) * column / at('grid').clientWidth, 3.5 * row / at('grid').clientHeight]")
    page.click_on("document.getElementById('grid')", x, y)
    tried("a cell of the grid", at(page, "1982-07", "town"))
    answers = 'The line "called town oldfields" of the result says that town takes in the set of oldfields'
    tried("a called right names its caller", answers in page.value(TEXT.format("account")))
    page.click_on("document.querySelector('#account a')")
    tried("the caller's name", at(page, "1982-07", "oldfields"))
    page.value("choose(chosen.month, rights.findIndex(([name]) => name === 'carryover'))")
    curtailed = "carryover is curtailed for oldfields of 1898-05-01"
    tried("a curtailed right names its senior", curtailed in page.value(TEXT.format("account")))
    page.click_on("[...document.querySelectorAll('#map text')].find(it => it.textContent.startsWith('trout'))")
    tried("a right on the map", at(page, "1982-07", "trout"))
    page.click_on("document.getElementById('on')")
    tried("the button for the next month", at(page, "1982-08", "trout"))
    page.click_on("document.querySelector('#right-plot canvas:last-of-type')", 0.99, 0.5)
    tried("the end of a plot", at(page, "1991-09", "trout"))
    page.value("location.hash = '#month=1984-08&right=town'")
    tried("another address in the open page", at(page, "1984-08", "town"))

def looks(page):
    """That lacks are told by their height and darkness, without colours."""
    def light(month, right, part):
        x, y = f"({month} + 0.4) * column", f"({right} + {part}) * row"
        return page.value(f"((d) => 0.3 * d[0] + 0.59 * d[1] + 0.11 * d[2] - 255 * (d[3] === 0))([...at('grid')"
                          f".getContext('2d').getImageData(Math.floor({x}), Math.floor({y}), 1, 1).data])")
    # (in July 1982 the old fields lack 44 of 100, the dead pool nothing; in January the new fields want nothing)
    dark, grey = light(9, 1, 0.8), light(9, 1, 0.2)
    tried("a part that lacks is dark, the rest is light", dark < 80 and grey > 180 and light(9, 0, 0.8) > 180)
    tried("what isn't wanted is blank", light(3, 5, 0.8) < 0)

def pages_in(pdf):
    return len(re.findall(rb"/Type\s*/Page\b", pdf))

def valley(program, page, room):
    tried("a page is made", made(program, files_of("valley"), os.path.join(room, "valley.html")) == (0, ""))
    page.open(f"file://{room}/valley.html")
    tried("without an address it begins with a shortage", " short" in page.value(TEXT.format("headline")))
    page.open(f"file://{room}/valley.html{JULY}")
    july(page)
    page.picture(os.path.join(room, "valley-july.png"), whole=True)
    pdf = page.printed()
    write_text(os.path.join(room, "valley-july.pdf"), pdf)
    tried("a choice prints as one page", pages_in(pdf) == 1)
    looks(page)
    clicks(page)
    tried("the page asks for nothing but itself", [it for it in page.requests if not it.startswith("data:")] ==
          [f"file://{room}/valley.html{JULY}"] or page.requests == [f"file://{room}/valley.html"])

def examples(program, page, room):
    for name in [*names_of(), os.path.join("weights", "ladder-5")]:
        out = os.path.join(room, os.path.basename(name) + ".html")
        tried(f"{name}: a page", made(program, files_of(name), out) == (0, ""))
        page.open(f"file://{out}")
        accounts(program, page, files_of(name), name)
        calls(program, page, files_of(name), name)

def no_page(program, what, files, out):
    status, told = made(program, files, out)
    is_told = re.fullmatch(r"page: (refuted \d+ \w+: it is no result of this basin, and makes no page"
                           r"|line \d+ is none of a result)\n", told)
    tried(f"no page of {what}: {told.strip()}", is_told and status == 1 and not os.path.exists(out))

def no_pages(program, room):
    """What is said of a result that is refuted or isn't one, and where a tool is missing."""
    files, out, forged = files_of("valley"), os.path.join(room, "refused.html"), os.path.join(room, "forged.txt")
    text = read(files[2]).replace(*FORGED, 1)
    for what, (line, hostile) in HOSTILE.items():
        head, found, tail = text.rpartition(line)
        write_text(forged, (head + found.replace(line, hostile) + tail).encode())
        no_page(program, what, [*files[:2], forged], out)
        assert found, f"{what} is not in the text"
    bare = os.path.join(room, "bare.toml")
    write_text(bare, BARE)
    write_text(forged, BARE_RESULT)
    no_page(program, "a month on which nothing depends", [bare, "-", forged], out)
    write_text(forged, text.encode())
    status, told = made(program, [*files[:2], forged], os.path.join(room, "forged.html"))
    tried(f"a refuted result: {told.strip()}", status == 1 and told.startswith("page: refuted 309 Balance: "))
    tools = os.path.join(room, "tools")
    os.mkdir(tools)
    os.symlink(sys.executable, os.path.join(tools, "python3"))
    status, told = made(program, files, out, PATH=tools)
    tried(f"without graphviz: {told.strip()}", status == 2 and "apt-get install graphviz" in told)

def refuted(page, room):
    """That the page of a refuted result says so wherever one looks, and gives no reasons."""
    page.open(f"file://{room}/forged.html{JULY}")
    page.value("window.scrollTo(0, 1e6)")
    seen = page.value("document.elementFromPoint(300, 12).closest('#answer').innerText")
    says = "basin check answered refuted 309 Balance: THIS RESULT IS REFUTED: what follows is no run of this basin with"
    tried("a refuted result's page says so at the top of the window", seen.startswith(says))
    heads = [page.value(it) for it in ("document.title", TEXT.format("headline"))]
    tried("its title and headline say so", heads[0].startswith("REFUTED: ") and heads[1].startswith("REFUTED. The"))
    account, marks = page.value(TEXT.format("account")), page.value(NAMES.format("#map .in, #map .core, #map .enter"))
    tried("it gives no reasons", account.startswith('basin check answered "refuted') and marks == "" and
          "\n" not in account.strip())

def is_harmless(page, address):
    """Whether no hostile script ran in a page, which shows its headline."""
    page.open(address)
    time.sleep(0.2)
    return page.value("window.hit === undefined && document.getElementById('headline').innerText !== ''")

def file_names(program, page, room):
    """That the names of files stand on a page as they are, and do nothing else."""
    out, folder = os.path.join(room, "names.html"), os.path.join(room, "names").encode()
    os.mkdir(folder)
    for raw, shown in (UNSEEN | {name.encode(): name for name in FILES}).items():
        names = [os.path.join(folder, raw + b".%d" % at) for at in range(3)]
        for name, copy in zip(files_of("weir"), names):
            shutil.copyfile(name, copy)
        is_made, is_calm = made(program, names, out) == (0, ""), is_harmless(page, f"file://{out}")
        told, title = page.value(TEXT.format("files")), page.value("document.title")
        is_shown = all(f"\t{shown}.{at}\t" in told for at in range(3)) and title.startswith(f"{shown}.2, 1960-07")
        tried(f"a file's name is shown: {shown}", is_made and is_calm and is_shown)

def entry_names(program, page, room):
    """That names of a basin's entries which mean something elsewhere mean nothing to the page."""
    changed = [os.path.join(room, f"renamed-{at}") for at in range(3)]
    a_name = re.compile(rf'(?<=["\s,])({"|".join(NAMES_OF)})(?=["\s,])')
    for name, copy in zip(files_of("weir"), changed):
        write_text(copy, a_name.sub(lambda found: NAMES_OF[found[1]], read(name)))
    out = os.path.join(room, "renamed.html")
    is_made, is_calm = made(program, changed, out) == (0, ""), is_harmless(page, f"file://{out}")
    labels = {label.split()[0] for label in page.value(NAMES.format("#map text")).split("|")}
    tried("odd names of entries are shown", is_made and is_calm and labels >= set(NAMES_OF.values()))
    accounts(program, page, changed, "odd names")

def policy(page, room):
    """That no script runs in a page but its own, even if one should get into it."""
    text = read(room, "valley.html").encode().replace(b"<main>", INJECTED + b"<main>")
    out = os.path.join(room, "injected.html")
    write_text(out, text)
    tried("no script runs in a page but its own", is_harmless(page, f"file://{out}"))
    write_text(out, re.sub(rb'<meta http-equiv="Content-Security-Policy"[^>]*>', b"", text))
    tried("without its policy it would", not is_harmless(page, f"file://{out}"))
    page.errors.clear()

def sizes(program, page, room, which):
    """That large basins have pages which open and answer keys within seconds."""
    for nodes, months in which:
        files, result = large.write(nodes, months, room), os.path.join(room, f"large-{nodes}.txt")
        write_text(result, said(program, "run", *files))
        out, began = os.path.join(room, f"large-{nodes}.html"), time.monotonic()
        is_made = made(program, [*files, result], out) == (0, "")
        took, began = time.monotonic() - began, time.monotonic()
        page.open(f"file://{out}")
        opened = time.monotonic() - began
        calls(program, page, files, f"{nodes} nodes", step=months // 10)
        began = time.monotonic()
        for key in ("ArrowRight", "ArrowDown", "End"):
            page.press(key)
        keys = (time.monotonic() - began) / 3
        page.picture(os.path.join(room, f"large-{nodes}.png"))
        pdf = page.printed()
        what = f"{nodes} nodes, {months} months: made in {took:.1f} s, {os.path.getsize(out) / 1e6:.1f} MB, "
        what += f"opened in {opened:.1f} s, {keys:.2f} s a key, prints {pages_in(pdf)} pages"
        tried(what, is_made and page.value("chosen.month") == months - 1 and keys < 3 and pages_in(pdf) == 1)

def main(room, program, folder=""):
    lacks = {"graphviz": not shutil.which("dot"), "libjs-dygraphs": not os.path.exists(LIBRARY)}
    if any(lacks.values()):
        return not_tried("pages", " or ".join(name for name in lacks if lacks[name]))
    folder = os.path.abspath(folder or room)
    os.makedirs(folder, exist_ok=True)
    no_pages(program, folder)
    if browser.installed() is None:
        return not_tried("the pages in a browser", "Chromium")
    with browser.Browser() as page:
        valley(program, page, folder)
        refuted(page, folder)
        file_names(program, page, folder)
        entry_names(program, page, folder)
        policy(page, folder)
        examples(program, page, folder)
        sizes(program, page, folder, ((60, 1200), (400, 120)))
        tried("no script of a page has a fault", page.errors == [], page.errors[:3])

"""Tests of the page of tools/survey --html in a browser, beside the tables that the survey prints."""
import csv
import gzip
import hashlib
import io
import re
import sys
from html import unescape

from browsers import PALE, TRACE, Mistake
from checks import call, expect

POLICIES = ["lru", "arc", "sieve", "s3-fifo", "wtinylfu", "clairvoyant"]
NAMED = [word for it in POLICIES for word in ("--policy", it)]
ROWS = """
const title = [...document.querySelectorAll("h2")].find(it => it.textContent === arguments[0]);
return [...title.nextElementSibling.querySelectorAll("tr")].map(row => [...row.cells].map(cell => cell.textContent))"""
SHOWN = """const isShown = it => getComputedStyle(it).display !== "none";
return [...document.querySelectorAll("svg [data-policy=arc]")].map(isShown)"""


def report(tools, program, folder, *words, trace=TRACE):
    """The page of a trace, and what the survey prints as CSV."""
    page = folder / "report.html"
    out, error, status = call(sys.executable, "-SE", tools / "survey", "--program", program, "--csv", "--html", page,
                              *NAMED, *words, trace)
    expect("its end", (status, [it for it in error.splitlines() if "also measured" not in it]), (0, []))
    return page, list(csv.reader(io.StringIO(out)))


def check_tables(browser, tools, program, folder):
    """The tables are those that are printed, the facts those of the file, and nothing is fetched."""
    page, rows = report(tools, program, folder, "--percent", "10", "--percent", "30", "--table", "policies")
    browser.open(page.as_uri())
    found = browser.run(ROWS, "Hit ratios in percent")
    expect("the head", found[0], rows[0][1:])
    low_high = re.compile(r"^[\d.]+-([\d.]+)$")
    expect("capacities and best", [(row[1], row[-1]) for row in found[1:]], [(row[2], row[-1]) for row in rows[1:]])
    for shown, row in zip(found[1:], rows[1:]):
        expect("rates", [it for it, other in zip(shown[2:-3], row[3:-3]) if it != other and not low_high.match(it)], [])
    facts = dict(zip(browser.texts("dt"), browser.texts("dd")))
    expect("the checksum", facts["SHA-256 of it"], hashlib.sha256(TRACE.read_bytes()).hexdigest())
    expect("the accesses", (facts["Accesses"], facts["Footprint"]), ("84,333", "979 blocks"))
    expect("the program", facts["Program"].startswith(call(program, "--version")[0].split("\n")[0]), True)
    expect("sources from elsewhere", re.findall(r"(?:src|href)=\"(?!data:,)|url\(|@import|https?://", page.read_text()),
           [])
    expect("what was fetched", browser.run("return performance.getEntriesByType('resource').length"), 0)
    expect("what the browser says", browser.complaints(), [])


def check_looks(browser, tools, program, folder, pictures):
    """At both widths all of the page of a survey with all its tables is there, and its texts stand out."""
    page = folder / "report.html"
    call(sys.executable, "-SE", tools / "survey", "--program", program, "--html", page, TRACE.name, cwd=TRACE.parent)
    browser.open(page.as_uri())
    browser.picture(folder / "narrow.png", 400)
    browser.picture(pictures / "report.png", 1400, 1800)
    expect("pale texts", browser.run(PALE), [])


def check_curves(browser, tools, program, folder):
    """A curve and its values are the program's, a policy is switched off and on, and arrow keys read the values."""
    page, _ = report(tools, program, folder, "--capacity", "200", "--table", "policies")
    browser.open(page.as_uri())
    charts = browser.run("return JSON.parse(document.getElementById('data').textContent)")
    places = [int(it.split()[0].replace(",", "")) for it in charts[0]["labels"]]
    swept = call(program, "sweep", *NAMED, *places, stdin=TRACE.open("rb"))[0].splitlines()[1:]
    rates = {(it.split(",")[0], int(it.split(",")[1])): int(it.split(",")[3]) * 100 / int(it.split(",")[2])
             for it in swept}
    expect("the curves", charts[0]["values"], {policy: [round(rates[policy, it], 4) for it in places]
                                               for policy in POLICIES})
    lines = call(program, "intervals", "--capacity", 200, "--every", 500, *POLICIES,
                 stdin=TRACE.open("rb"))[0].splitlines()[1:]
    of_arc = [100 * int(it.split(",")[4]) / (int(it.split(",")[3]) - int(it.split(",")[2]) + 1) for it in lines
              if it.startswith("arc,")]
    expect("over time", charts[1]["values"]["arc"], [round(it, 4) for it in of_arc])
    expect("a curve in both pictures", browser.run(SHOWN), [True, True])
    browser.run("document.querySelector('li[data-policy=arc] input').click()")
    expect("switched off", browser.run(SHOWN), [False, False])
    browser.run("document.getElementById('capacity').focus()")
    browser.driver.switch_to.active_element.send_keys("\ue014\ue014")
    said = browser.find("capacity-value").text
    expect("the value by a key", (said.startswith(f"{places[1]:,} entries: "), "arc" in said,
                                  f"lru {rates['lru', places[1]]:.2f}" in said), (True, False, True))
    browser.run("document.querySelector('li[data-policy=arc] input').click()")
    expect("switched on", browser.run(SHOWN), [True, True])


def check_without_scripts(browser, tools, program, folder):
    """Where scripts are not allowed, tables and both pictures are there."""
    page, rows = report(tools, program, folder, "--capacity", "97", "--table", "misses")
    browser.driver.execute_cdp_cmd("Emulation.setScriptExecutionDisabled", {"value": True})
    try:
        browser.open(page.as_uri())
        shown = browser.driver.find_element("tag name", "body").text
    finally:
        browser.driver.execute_cdp_cmd("Emulation.setScriptExecutionDisabled", {"value": False})
    expect("a row", " ".join(rows[1][1:]) in shown, True)
    text = page.read_text().partition("<script")[0]
    expect("the pictures", [text.count(f'<g data-policy="{it}"><path d="M') for it in POLICIES], [2] * len(POLICIES))


def check_hostile_name(browser, tools, program, folder):
    """A name with marks of HTML and of the page's own template shows as text."""
    trace = folder / "<img src=x onerror=\"document.title='made'\">@data@<script>document.title='made'.lirs"
    trace.write_text("1\n2\n3\n1\n2\n" * 9)
    page, _ = report(tools, program, folder, "--capacity", "2", trace=trace)
    browser.open(page.as_uri())
    expect("the title", (browser.driver.title, browser.texts("h1")),
           (f"Survey of {trace.name}", [f"Survey of {trace.name}"]))
    expect("the trace", browser.texts("dd")[0], str(trace))
    expect("what the browser says", browser.complaints(), [])


def check_commands(tools, program, folder):
    """The commands that look further have the options of the survey, and read its packed trace as they stand."""
    trace = folder / "a trace.gz"
    trace.write_bytes(gzip.compress("".join(f"{it * it % 61 % 17}\n" for it in range(200)).encode()))
    words = "--capacity", "5", "--main", "50", "--spread", "plain", "--table", "policies"
    lines = re.findall("<pre>(.*?)</pre>", report(tools, program, folder, *words, trace=trace)[0].read_text())
    expect("without the options", [it for it in lines if " --main 50 --spread plain " not in it], [])
    called = [unescape(it).partition(" | tools/plot")[0] for it in lines if "./cachesim" in it]
    expect("calls of compare", sum("./cachesim compare" in it for it in called), 1)
    for line in called:
        _, error, status = call("/bin/sh", "-c", line.replace("./cachesim", str(program)))
        expect(line, (error, status), ("", 0))


def check_own(tools, program, folder):
    """Of a policy of one's own a page says that it is not proved, and that it is in no picture over time."""
    (folder / "mine.py").write_text("class Mine:\n    def __init__(self, capacity):\n        pass\n"
                                    "    def access(self, key):\n        return 'rejected', key\n")
    trace = folder / "trace"
    trace.write_text("1\n2\n1\n" * 9)
    page, _ = report(tools, program, folder, "--own", folder / "mine.py", "--policy", "own:mine", "--capacity", "2",
                     "--table", "traces", trace=trace)
    text = unescape(page.read_text())
    expect("what it says", [it for it in ("own:mine, not proved", "Policies of one's own are left out.")
                            if it not in text], [])
    expect("its curve", text.count('<g data-policy="own:mine">'), 1)


def check_refusals(tools, program, folder):
    """No page of several traces, none of no accesses, and none in the place of its trace."""
    empty = folder / "empty"
    empty.write_text("")
    for words, says in (((empty,), "there are no accesses to draw"), ((TRACE, empty), "draws one trace")):
        error, status = call(sys.executable, "-SE", tools / "survey", "--program", program, "--html", folder / "page",
                             *NAMED, *words)[1:]
        expect(f"{words}", (status != 0, says in error, (folder / "page").exists()), (True, True, False))
    error, status = call(sys.executable, "-SE", tools / "survey", "--program", program, "--html", empty, *NAMED,
                         empty)[1:]
    expect("its own trace", (status != 0, "is the trace" in error), (True, True))


MISTAKES = {
    "the checksum of nothing": Mistake(check_tables, "lib/mailed.py", "        digest.update(piece)\n", ""),
    "a source from elsewhere": Mistake(check_tables, "lib/report.html", '<link rel="icon" href="data:,">',
                                       '<link rel="icon" href="https://example.org/">'),
    "a table of another width": Mistake(check_looks, "lib/report.html", ".scroll { overflow-x: auto;", ".scroll {"),
    "a curve of hits of another policy": Mistake(check_curves, "lib/mailed.py", "100 * rows[policy, it].hits /",
                                                 "100 * rows[survey.policies[0], it].hits /"),
    "a curve that stays": Mistake(check_curves, "lib/report.html", "document.querySelectorAll(\"[data-policy]\")",
                                  "document.querySelectorAll(\"li[data-policy]\")"),
    "pictures by a script": Mistake(check_without_scripts, "lib/mailed.py",
                                    '<path d="{steps}"', "<path"),
    "a name as HTML": Mistake(check_hostile_name, "lib/mailed.py",
                              '"title": escape(f"Survey of {Path(survey.trace.name).name}")',
                              '"title": f"Survey of {Path(survey.trace.name).name}"'),
    "a name in the template": Mistake(check_hostile_name, "lib/mailed.py",
                                      "lambda it: filled[it[1]], text)", "lambda it: filled[it[1]], text).replace("
                                      '"@data@", filled["data"])'),
    "commands without options": Mistake(check_commands, "lib/mailed.py", "if is_told)", "if False)"),
    "a packed trace as it is": Mistake(check_commands, "lib/mailed.py", "packer = trace.file.packed_by", "packer = None"),
    "own ones that are missed": Mistake(check_own, "lib/mailed.py", "any(map(is_own, survey.policies))", "False"),
    "a page of nothing": Mistake(check_refusals, "survey", "    if not survey.accesses:", "    if False:"),
}

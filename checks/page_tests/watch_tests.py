"""Tests of tools/watch in a browser: each cell beside what the program answers to the same questions."""
import http.client
import os
import random
import signal
import subprocess
import sys
from concurrent.futures import ThreadPoolExecutor
from pathlib import Path
from urllib.parse import parse_qs, urlsplit

from browsers import KEYS, NAMELESS, PALE, TRACE, Mistake, dialogue, watched
from checks import becomes, call, expect
from lib import sessions
from lib.traces import TraceFile

PAIR = "--first", "s3-fifo", "--second", "arc"
SMALL = TRACE, "--capacity", "20", *PAIR
HOSTILE = "<img src=x onerror=\"document.title='made'\">&amp;'`<script>document.title='made'<\\script>.lirs"
# Each cell of each queue of a policy: its key and number, and which of the marks it has.
CELLS = """
const marksOf = it => ["now", "new", "only", "ghost"].filter(mark => it.classList.contains(mark)).join(" ");
const cellOf = it => [it.firstChild.data, it.querySelector("sup")?.textContent ?? "", marksOf(it)];
const queueOf = it => [it.querySelector("h3").firstChild.data, [...it.querySelectorAll(".cell")].map(cellOf)];
return [...document.querySelectorAll(".side")].map(side => [...side.querySelectorAll(".queue")].map(queueOf))"""
# The lists of a concurrent run: their names, and their items, with a colon before a node.
LISTS = """
const itemOf = it => it.firstChild.data + (it.querySelector("sup") ? ":" + it.querySelector("sup").textContent : "");
return [...document.querySelectorAll(".queue")].map(it => [it.querySelector("h3").firstChild.data,
  [...it.querySelectorAll(".cell")].map(itemOf)])"""
# The first cell of each line of a block's life, and those of both policies.
LIFE = """
const rows = [...document.querySelectorAll("#life tbody tr")];
return rows.map(row => [0, 2, 3].map(it => row.cells[it].textContent))"""
CELLS_OF_SECOND = "return [...document.querySelectorAll('.side:last-child .cell')].map(it => it.firstChild.data)"


def answers_at(program, at, words=SMALL):
    """What the program says at a position: the queues of both sides as the page has them, and of each its outcome and
    counts."""
    trace, *words = words
    call_words = ["debug", "--trace", trace, *words]
    lines = dialogue(program, call_words, *([f"goto {at - 1}", "queues", f"goto {at}"] if at else []),
                     *(["queues", "last", "show"] if at else ["queues", "show"]))
    lines = [it.split() for it in lines if not it.startswith("at ")]
    show, lines = lines[-4:], lines[:-4]
    last = lines[-2:] if at else []
    block, lines = (lines[-3][3], lines[:-3]) if at else (None, lines)
    queues = lines[len(lines) // 2:] if at else lines
    before = {(it[0], key.split(":")[0]): it[2] for it in lines[:len(lines) // 2] for key in it[3:]
              if it[2] != "target"} if at else {}
    held = [set(it[2:]) for it in show[1::2]]

    def cell(side, name, item):
        key, _, number = item.partition(":")
        if name == "target":
            return [key, "", ""]
        own, other = held["ab".index(side)], held["ba".index(side)]
        marks = [("now", key == block), ("new", at and before.get((side, key)) != name),
                 ("only", key in own and key not in other), ("ghost", key not in own)]
        return [key, "" if number == "0" else number, " ".join(mark for mark, is_so in marks if is_so)]

    cells = [[[name, [cell(side, name, it) for it in keys]] for letter, _, name, *keys in queues if letter == side]
             for side in "ab"]
    return {"cells": cells, "outcomes": [it[2:] for it in last], "counts": [it[2:] for it in show[::2]], "block": block}


def expect_page(browser, program, at, words=SMALL):
    """The page is at a position, and has all that the program says there."""
    wanted = answers_at(program, at, words)
    expect("the position", browser.position(), at)
    browser.until("return location.hash === arguments[0]", f"#at={at}")
    expect(f"the cells at {at}", browser.run(CELLS), wanted["cells"])
    for number, counts in enumerate(wanted["counts"]):
        text = browser.texts(".side header")[number]
        named = [f"{int(count):,} {name}" for name, count in zip(counts[::2], counts[1::2])]
        expect(f"the counts at {at}", [it for it in named[:3] if it not in text], [])
    for number, (outcome, *left) in enumerate(wanted["outcomes"]):
        said = browser.texts(".out")[number]
        words_of = {"hit": "✓ hit", "kept": "✗ miss, came in",
                    "evicted": f"✗ miss, came in for {left and left[0]}, which left",
                    "rejected": f"✗ miss, not let in: {left and left[0]}"}
        expect(f"the outcome at {at}", said, words_of[outcome])


def check_parting(browser, tools, program):
    """To a parting by the button, a step back by the key, on again, to the one before, and behind the last."""
    trace, *words = SMALL
    parting = int(call(program, "part", *words, stdin=trace.open("rb"))[0].split()[1])
    with watched(tools, program, *SMALL) as (address, _):
        browser.show(address)
        expect_page(browser, program, 0)
        browser.click("next")
        expect_page(browser, program, parting)
        browser.press(KEYS["left"])
        expect_page(browser, program, parting - 1)
        browser.press(KEYS["right"])
        browser.press("n")
        second = browser.position()
        expect_page(browser, program, second)
        expect("the second parting", dialogue(program, ["debug", "--trace", trace, *words], "break part", "run",
                                              "run")[-1], f"at {second}")
        browser.press("p")
        expect("the parting before", browser.position(), parting)
        browser.click("previous")
        expect("no parting before", (browser.position(), "There is no earlier parting." in browser.find("said").text),
               (parting, True))
        expect("what the browser says", browser.complaints(), [])


def check_link(browser, tools, program):
    """A link names the position, and an input goes there; the end is an end."""
    with watched(tools, program, *SMALL) as (address, _):
        browser.show(address, 60000)
        expect_page(browser, program, 60000)
        browser.run("location.hash = '#at=59998'")
        browser.until("return document.getElementById('at').value === '59998'")
        browser.quiet()
        expect_page(browser, program, 59998)
        for typed, at in (("84,333", 84333), ("99999999", 84333), ("7", 7)):
            field = browser.find("at")
            field.clear()
            field.send_keys(typed, "\n")
            browser.until("return document.getElementById('at').value === arguments[0]", str(at))
            browser.quiet()
            expect(f"where {typed} leads", browser.position(), at)
        expect_page(browser, program, 7)


def check_previous(browser, tools, program):
    """The parting before a position, from near and from far."""
    trace, *words = SMALL
    lines = dialogue(program, ["debug", "--trace", trace, *words], "break part", *["run"] * 300)
    partings = [int(it.removeprefix("at ")) for it in lines if it.startswith("at ")]
    with watched(tools, program, *SMALL) as (address, _):
        for at in (partings[0] + 1, partings[299], partings[200] - 1, partings[120] + 1):
            browser.show(address, at)
            browser.press("p")
            expect(f"before {at}", browser.position(), max(it for it in partings if it < at))


def check_quick_clicks(browser, tools, program):
    """200 quick clicks, and then some here and there, leave page and process at one position."""
    with watched(tools, program, *SMALL) as (address, _):
        browser.show(address, 1400)
        browser.run("for (let it = 0; it < 200; it++) document.querySelector('[data-by=\"1\"]').click()")
        browser.quiet()
        expect_page(browser, program, 1600)
        rng, at = random.Random(1), 1600
        moves = [rng.choice(["1", "-1", "100", "-100"]) for _ in range(200)]
        browser.run("for (const by of arguments[0]) document.querySelector(`[data-by=\"${by}\"]`).click()", moves)
        browser.quiet()
        expect_page(browser, program, at + sum(map(int, moves)))


def check_life(browser, tools, program):
    """The lines of a block's life: each access to it, and each access at which it left, with what came of it."""
    trace, *words = SMALL
    block = "627"
    own = [at for at, line in enumerate(trace.read_text().split(), 1) if line == block]
    lines = dialogue(program, ["debug", "--trace", trace, *words], f"break evict {block}", *["run"] * 1000)
    left = [int(place.removeprefix("at ")) for stop, place in zip(lines, lines[1:]) if stop == "stop evict"]
    places = sorted({*own, *left})[:500]
    answers = dialogue(program, ["debug", "--trace", trace, *words], *(f"goto {at}\nlast" for at in places))
    outcomes = [it.split()[2:] for it in answers if it[:2] in ("a ", "b ")]

    def shown(at, outcome, other=None):
        if at in own:
            return {"hit": "✓ hit"}.get(outcome, "✗ miss, came in")
        return "left: evicted" if other == block else ""

    wanted = [[f"{at:,}", *(shown(at, *it) for it in pair)] for at, *pair in zip(places, outcomes[::2], outcomes[1::2])]
    with watched(tools, program, *SMALL) as (address, _):
        browser.show(address)
        browser.find("block").send_keys(block, "\n")
        browser.until("return document.querySelector('#life tbody tr')")
        rows = browser.run(LIFE)
        expect("the life of a block", rows, wanted)
        browser.run("document.querySelectorAll('#life tbody button')[3].click()")
        browser.until("return document.getElementById('at').value === arguments[0]", str(places[3]))
        browser.quiet()
        expect_page(browser, program, places[3])
        for wrong in ("-1", "x", str(1 << 64)):
            browser.run("document.getElementById('life').replaceChildren()")
            browser.find("block").clear()
            browser.find("block").send_keys(wrong, "\n")
            browser.until("return document.querySelector('#life .miss')?.textContent.includes('No answer')")


def asked(address, method="POST", path=None, body='{"ask":"facts"}', **headers):
    """The status of a request, which is that of the page but for what is named, and the text; None leaves a header out, and is
    the status where no answer comes."""
    parts = urlsplit(address)
    given = {"Host": parts.netloc, "Origin": f"http://{parts.netloc}", "X-Token": parse_qs(parts.query)["token"][0],
             "Content-Length": str(len(body)),
             **{name.replace("_", "-"): value for name, value in headers.items()}}
    link = http.client.HTTPConnection(parts.hostname, parts.port, timeout=60)
    link.putrequest(method, path or f"/?{parts.query}", skip_host=True, skip_accept_encoding=True)
    for name, value in given.items():
        if value is not None and (method == "POST" or name in ("Host", *headers)):
            link.putheader(name, value)
    link.endheaders(body.encode() if method == "POST" else None)
    try:
        answer = link.getresponse()
        return answer.status, answer.read().decode()
    except http.client.RemoteDisconnected as fault:
        return None, str(fault)
    finally:
        link.close()


def check_refused(browser, tools, program):
    """Nobody without the token gets in, no other host or page, no other path, and no question that is none or too
    long."""
    with watched(tools, program, *SMALL) as (address, _):
        token = parse_qs(urlsplit(address).query)["token"][0]
        expect("the page asks", (asked(address)[0], asked(address, "GET")[0]), (200, 200))
        port = urlsplit(address).port
        for refused in ({"X_Token": None}, {"X_Token": token[:-1]}, {"X_Token": token + "x"},
                        {"Host": f"example.org:{port}"}, {"Host": "127.0.0.1"},
                        {"Host": None}, {"Host": f"localhost:{port}"}, {"Origin": "http://example.org"},
                        {"Origin": "null"}, {"Origin": None}):
            expect(f"asked with {refused}", asked(address, **refused)[0], 403)
        for path in ("/", "/?token=", f"/?token={token[:-1]}", f"/?t={token}", "/favicon.ico"):
            expect(f"opened by {path}", asked(address, "GET", path)[0], 403)
        expect("a foreign host", asked(address, "GET", Host="example.org")[0], 403)
        expect("a foreign page", asked(address, "GET", Origin="http://example.org")[0], 403)
        for path in ("/watch.html", "/../watch", "/etc/passwd", "//etc/passwd", "/%2e%2e/watch", "http://[/",
                     "http://example.org/"):
            expect(f"the file {path}", asked(address, "GET", f"{path}?token={token}")[0], 404)
        for status, body, more in ((400, "[]", {}), (400, "{", {}), (400, '{"ask":"state"}', {}),
                                   (400, '{"ask":"state","at":-1}', {}),
                                   (400, '{"ask":"state","at":true}', {}), (400, '{"ask":"state","at":1,"more":1}', {}),
                                   (400, '{"ask":"ask"}', {}), (400, '{"ask":[]}', {}), (400, '{"ask":{}}', {}),
                                   (400, '{"ask":"life","block":"1\\nquit"}', {}),
                                   (400, '{"ask":"life","block":"18446744073709551616"}', {}),
                                   (400, '{"ask":"find","at":1,"forward":true,"what":"hit 1"}', {}),
                                   (400, "[" * 900, {}), (413, " " * 1001, {}),
                                   (411, "{}", {"Content_Length": None}), (411, "{}", {"Content_Length": "-1"}),
                                   (411, "{}", {"Content_Length": "9" * 30}),
                                   (411, "{}", {"Transfer_Encoding": "chunked"})):
            expect(f"the question {body[:50]} with {more}", asked(address, body=body, **more)[0], status)
        expect("a long address", asked(address, "GET", f"/?token={token}&{'x' * 2000}")[0], 414)
        for method in ("PUT", "DELETE", "OPTIONS", "HEAD"):
            expect(method, asked(address, method)[0], 501)
        browser.open(address.partition("?")[0])
        expect("a page without the token", browser.texts("body"), ["the address has another token"])
        browser.complaints()


def check_hostile_name(browser, tools, program, folder):
    """A name with marks of HTML shows as text."""
    trace = folder / HOSTILE
    trace.write_text("1\n2\n1\n")
    with watched(tools, program, trace, "--capacity", "2", *PAIR) as (address, _):
        browser.show(address)
        expect("the title", (browser.driver.title, browser.find("title").text),
               (f"s3-fifo and arc over {HOSTILE}",) * 2)
        expect("what the browser says", browser.complaints(), [])


def check_large(browser, tools, program, folder):
    """A cache of a hundred thousand entries: the ends of a queue, a strip between them, and how many there are."""
    trace, words = folder / "trace", ["--capacity", "100000", "--first", "s3-fifo", "--second", "lru"]
    trace.write_text("".join(f"{it % 130000}\n" for it in range(300000)))
    with watched(tools, program, trace, *words) as (address, _):
        browser.show(address, 250000)
        lines = dialogue(program, ["debug", "--trace", trace, *words], "goto 250000", "queues")
        queues = {tuple(it.split()[1:3]): [key.split(":")[0] for key in it.split()[3:]] for it in lines[1:]}
        keys = queues["lru", "queue"]
        cells = browser.run(CELLS_OF_SECOND)
        expect("both ends of lru", cells, keys[:20] + keys[-20:])
        expect("its length", browser.texts(".side:last-child h3 small"), [" 100,000 blocks"])
        strip = browser.run("return document.querySelector('.side:last-child .strip').getAttribute('aria-label')")
        only = len(set(keys) - set(queues["s3-fifo", "small"]) - set(queues["s3-fifo", "main"]))
        expect("the strip", strip, f"all 100,000 blocks: {only:,} held here alone, 0 with their number set")
        browser.press(KEYS["right"])
        expect("a step", browser.position(), 250001)


def check_ground(browser, tools, program):
    """The curves of the slider's ground are the rows of `compare`, as far as its line says them."""
    trace, *words = SMALL
    with watched(tools, program, *SMALL) as (address, _):
        browser.show(address, 1525)
        said = browser.until("return document.getElementById('there').textContent")
        rows = [it.split(",") for it in call(program, "compare", "--every", "500", *words,
                                             stdin=trace.open("rb"))[0].splitlines()[1:]]
        both, first, second = (int(it) for it in next(it for it in rows if int(it[4]) >= 1525)[5:8])
        rates = [f"{(both + it) * 10000 // 500 / 100:.2f} %" for it in (first, second)]
        expect("the interval", said,
               f"accesses 1,501 to 2,000: s3-fifo {rates[0]}, arc {rates[1]}, they part at {first + second}")
        expect("the curves", browser.run("return document.querySelectorAll('#ground path').length"), 2)


def check_estimates(browser, tools, program):
    """Beside a rejection, and beside an eviction, stand the estimates of the block that came, of the one that left, and
    of the one that was the oldest; and caffeine's window."""
    words = ["debug", "--trace", TRACE, "--capacity", "97", "--first", "caffeine", "--second", "tinylfu-lru"]
    lasts = dialogue(program, words, *(f"goto {at}\nlast" for at in range(20300, 20371)))
    with watched(tools, program, *words[2:]) as (address, _):
        for outcome in ("rejected", "evicted"):
            number = max(number for number, it in enumerate(lasts) if it.startswith(f"b tinylfu-lru {outcome}"))
            (_, place, _, came), left = lasts[number - 2].split(), lasts[number].split()[-1]
            at = int(place)
            oldest = dialogue(program, words, f"goto {at - 1}", "queues")[-1].split()[3]
            asked = [f"estimate {it}" for it in (came, left, oldest)]
            _, window, _, *estimates = dialogue(program, words, f"goto {at}", "window", *asked)
            *_, size, _, target = window.split()
            browser.show(address, at)
            heads = browser.texts(".side header")
            for key, what, said in zip((came, left, oldest), ("accessed", "left", "was oldest"), estimates[1::2]):
                part = f"{key} ({what}) {said.split()[-1]}"
                expect(f"{part} in {heads[1]}", part in heads[1], True)
            expect(f"the window in {heads[0]}", f"window {size}, going to {target}" in heads[0], True)


def check_journal(browser, tools, program, folder):
    """A concurrent run: each list beside `show` of `replay`, the workers' steps, and the finds beside the text."""
    cache = ["--capacity", "20", "--stripes", "2"]
    text = call(program, "drive", *cache, "--workers", "3", typed="".join(f"{it * it % 91}\n" for it in range(400)))[0]
    journal, steps = folder / "run.journal", text.splitlines()[1:-1]
    journal.write_text(text)
    with watched(tools, program, "--journal", journal, *cache) as (address, _):
        at = next(number for number, it in enumerate(steps, 1) if number > 300 and " = began" in it)
        browser.show(address, at - 1)
        browser.run("document.getElementById('what').value = 'turn at the maintenance'")
        browser.click("next")
        expect("the next turn", browser.position(), at)
        for at in (at, 0, len(steps)):
            browser.run("location.hash = `#at=${arguments[0]}`", at)
            browser.until("return document.getElementById('at').value === arguments[0]", str(at))
            browser.quiet()
            lines = dialogue(program, ["replay", "--journal", journal, *cache], f"goto {at}", "show")
            lists = browser.run(LISTS)
            for name, found in lists:
                start = {"write queue": "writes"}.get(name, name.replace("read buffer", "stripe"))
                line = next(it for it in lines if f"{it} ".startswith(f"{start} "))
                words = line.removeprefix(start).split()
                expect(f"{name} at {at}", found, [" ".join(it) for it in zip(words[::2], words[1::2])]
                       if start == "writes" else words)
            holder = next(it for it in lines if it.startswith("holder")).split()[1]
            expect("the holder", [it.split()[0] for it in browser.texts("tbody th") if "holds" in it],
                   [holder] * (holder != "none"))
        expect("what the browser says", browser.complaints(), [])


def check_end(tools, program):
    """An interrupt ends the server and its process, without a word; so does the signal of an end."""
    for number in (signal.SIGINT, signal.SIGTERM, signal.SIGHUP):
        with watched(tools, program, *SMALL) as (address, server):
            expect("an answer", asked(address)[0], 200)
            children = [int(it) for it in Path(f"/proc/{server.pid}/task/{server.pid}/children").read_text().split()]
            expect("its processes", len(children), 1)
            server.send_signal(number)
            expect("its end", server.wait(60), -number)
            expect("its process", becomes(lambda child=children[0]: not os.path.exists(f"/proc/{child}"), 10), True)


def check_faults(tools, program, folder):
    """What cannot be shown ends the script with what the program, or the script, says of it."""
    bad = folder / "bad"
    bad.write_text("1\nx\n")
    for words, status, says in (((bad, "--capacity", "2", *PAIR), 1, "BadNumber line 2"),
                                ((folder / "none", "--capacity", "2", *PAIR), 1, "No such file"),
                                ((TRACE, "--capacity", "2", "--first", "lru"), 2, "--second"),
                                (("--capacity", "2"), 2, "name a trace"),
                                ((TRACE, "--capacity", "0", *PAIR), 2, "--capacity"),
                                ((TRACE, "--capacity", "2", "--first", "2q:in=50", "--second", "LRU"), 1,
                                 "--second LRU is none of lru, "),
                                ((TRACE, "--capacity", "2", "--first", "2q:in=0", "--second", "lru"), 1,
                                 "--first 2q:in=0 is none of lru, "),
                                (("--journal", bad, "--capacity", "8"), 1, "Header")):
        out, error, found = call(tools / "watch", "--program", program, *words)
        expect(f"{words}: {error}", (found, out, says in error, "Traceback" in error), (status, "", True, False))


# It takes each word, and answers each command of `debug` by a line. The first `compare` waits behind its first access
# until a pipe is opened; each says how many accesses it read, and leaves a line in `begun`.
TWICE = """#!{python} -SE
import os, sys
from pathlib import Path
if sys.argv[1] == "debug":
    for line in sys.stdin:
        print("fault: Command" if line == ".\\n" else "a", flush=True)
    sys.exit()
if sys.argv[1] == "run":
    sys.exit()
text, begun = os.read(0, 2), Path({folder!r}) / "begun"
is_first = not begun.exists()
with begun.open("a") as lines:
    print("compare", file=lines)
if is_first:
    open(begun.parent / "pipe").read()
count = (text + sys.stdin.buffer.read()).count(b"\\n")
print(f"head\\na,b,2,1,{{count}},0,0,0,{{count}}")
"""


def check_opened_twice(tools, folder):
    """Where a page is opened twice, or again, each has the ground of the whole trace by one `compare`."""
    program, trace = folder / "program", folder / "trace"
    program.write_text(TWICE.format(python=sys.executable, folder=str(folder)))
    program.chmod(0o755)
    trace.write_text("1\n2\n3\n")
    os.mkfifo(folder / "pipe")
    with watched(tools, program, trace, "--capacity", "2", *PAIR) as (address, _), ThreadPoolExecutor() as pool:
        first = pool.submit(asked, address, body='{"ask":"ground"}')
        expect("the first begins", becomes((folder / "begun").exists, 60), True)
        second = pool.submit(asked, address, body='{"ask":"ground"}')
        (folder / "pipe").write_text("")
        found = [first.result(), second.result(), asked(address, body='{"ask":"ground"}')]
        expect("each ground", found, [(200, '{"every":1,"rows":[[3,0,0,0,3]]}')] * 3)
    expect("the calls", (folder / "begun").read_text(), "compare\n")


def check_packed(browser, tools, program, folder):
    trace, *words = SMALL
    packed = folder / "trace.gz"
    packed.write_bytes(subprocess.run(["gzip", "-c", trace], stdout=subprocess.PIPE, check=True).stdout)
    with watched(tools, program, packed, *words) as (address, _):
        browser.show(address, 1525)
        expect_page(browser, program, 1525)


def check_looks(browser, tools, program, folder, pictures):
    """At both widths all of it is on the page, each field has a name, and its texts stand out."""
    with watched(tools, program, *SMALL) as (address, _):
        browser.show(address, 1525)
        browser.until("return document.querySelector('#ground path')")
        browser.picture(folder / "narrow.png", 400)
        browser.picture(pictures / "watch.png", 1400)
        expect("pale texts", browser.run(PALE), [])
        expect("fields without a name", browser.run(NAMELESS), [])
        browser.run("document.querySelector('button').focus()")
        browser.press("\t")
        outline = browser.run("const it = getComputedStyle(document.activeElement); "
                              "return [it.outlineStyle, parseFloat(it.outlineWidth) >= 2]")
        expect("the focus", outline, ["solid", True])


def check_renewed(program, monkeypatch):
    """A session that has taken many commands goes on in another process, and answers the same."""
    trace, *words = SMALL
    monkeypatch.setattr(sessions, "RENEWED_AFTER", 1000)
    called, answers, processes = [str(it) for it in (program, "debug", "--trace", trace, *words)], set(), set()
    session = sessions.Session(called, TraceFile(trace))
    for _ in range(200):
        with session.turn() as ask:
            answers.add(str(ask("goto 1525", "queues", "last")))
            processes.add(session.process.pid)
    session.end()
    expect("the answers, and the processes", (len(answers), 3 <= len(processes) <= 20), (1, True))


MISTAKES = {
    "a token that nobody looks at": Mistake(check_refused, "lib/pages.py", "if not secrets.compare_digest(",
                                            "if False and secrets.compare_digest("),
    "any host": Mistake(check_refused, "lib/pages.py", 'if self.headers.get_all("Host") != [self.server.name]:',
                        "if False:"),
    "another page that asks": Mistake(check_refused, "lib/pages.py", "!= [self.server.origin]:", "is None:"),
    "a file beside the page": Mistake(check_refused, "lib/pages.py", 'if path != "/":', "if False:"),
    "a question of any length": Mistake(check_refused, "lib/pages.py", "if int(length) > MAX_QUESTION:", "if False:"),
    "a line for the program in a block": Mistake(check_refused, "watch",
                                                 " and text.isascii() and text.isdigit() and len(text) < 21 "
                                                 "and int(text) < 1 << 64", ""),
    "a name as HTML": Mistake(check_hostile_name, "lib/watch.html", 'find("title").textContent = title',
                              'find("title").innerHTML = title'),
    "marks of the other side": Mistake(check_parting, "lib/views.py", "held[number], held[1 - number]",
                                       "held[1 - number], held[number]"),
    "moves of two accesses": Mistake(check_parting, "lib/views.py", "self.queues_at(ask, at - 1) if at",
                                     "self.queues_at(ask, max(0, at - 2)) if at"),
    "a queue from its other end": Mistake(check_parting, "lib/views.py", "cells(slice(None))}",
                                          "cells(slice(None, None, -1))}"),
    "a position that is not the parting": Mistake(check_parting, "lib/sessions.py", "stop < at else None",
                                                  "stop <= at else None"),
    "a parting that is not the last one": Mistake(check_previous, "lib/sessions.py", "found = between(middle)",
                                                  "found = None"),
    "a click that is lost": Mistake(check_quick_clicks, "lib/watch.html",
                                    "while (finds.length || shown === null || shown.at !== wanted) {",
                                    "if (finds.length || shown === null || shown.at !== wanted) {"),
    "a link that names no position": Mistake(check_link, "lib/watch.html", "    go(inAddress());\n", "    go(0);\n"),
    "a life without its ends": Mistake(check_life, "lib/views.py", "{*left, *own[:LIVES]}", "{*own[:LIVES]}"),
    "both ends alike": Mistake(check_large, "lib/views.py", "cells(slice(-ENDS, None))", "cells(slice(ENDS))"),
    "curves of another interval": Mistake(check_ground, "lib/views.py", "both + first, both + second",
                                          "both + second, both + first"),
    "a ground for each page": Mistake(check_opened_twice, "lib/views.py", "if not self.compared:", "if True:"),
    "an estimate of another block": Mistake(check_estimates, "lib/views.py", '"left": other', '"left": block'),
    "a window without its target": Mistake(check_estimates, "lib/watch.html", "${size.target ?", "${size.goal ?"),
    "a step of another place": Mistake(check_journal, "lib/views.py", 'ask(f"goto {at}", "show")',
                                       'ask(f"goto {max(0, at - 1)}", "show")'),
    "a text that is pale": Mistake(check_looks, "lib/watch.html", ".quiet { color: #595959 }",
                                   ".quiet { color: #999 }"),
    "a field without a name": Mistake(check_looks, "lib/watch.html", ' aria-label="Position in the trace"', ""),
    "a page that is too wide": Mistake(check_looks, "lib/watch.html", "  .two { grid-template-columns: 1fr }",
                                       "  .two { grid-template-columns: 500px 1fr }"),
}

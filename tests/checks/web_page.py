"""The page of vadungsil.web in headless Chromium, beside tests/lib/reference.py; run by tests/checks/web.py. It needs chromium, chromium-driver and
python3-selenium. Chromium runs without its sandbox (--no-sandbox), since the gate runs as root, which Chromium's sandbox refuses; it opens
nothing but the pages of this test on 127.0.0.1."""
import contextlib
import datetime
import pathlib
import sys
import time

from selenium import webdriver
from selenium.webdriver.chrome.service import Service
from selenium.webdriver.common.by import By
from selenium.webdriver.common.keys import Keys
from selenium.webdriver.support.ui import Select

sys.path.append(str(pathlib.Path(__file__).resolve().parents[1] / "lib"))
from checks import differ, free_port, guarded, report, timed
from telling import Telling
from web_parts import FRAMES, LAST, LIMIT, STREAMS, Served, changes_of, fed, log_of, nodes, rows_at, va, waited, web_of

ALL = "kind=range&table=1&low=0&high=18446744073709551615"
HEX = f"{ALL}&view=hex"
ROWS = """return [...document.querySelectorAll('#answers article')].map(card => [...card.querySelectorAll('tbody tr')].map(
    line => [...line.children].map(cell => cell.textContent)))"""
CHANGES = "return [...document.querySelectorAll('#changes li')].map(line => [line.querySelector('b').textContent, line.textContent])"


@contextlib.contextmanager
def chromium(size="1180,1200"):
    options = webdriver.ChromeOptions()
    for word in ("--headless=new", "--no-sandbox", "--disable-gpu", "--disable-dev-shm-usage", "--hide-scrollbars", "--no-first-run", f"--window-size={size}"):
        options.add_argument(word)
    options.binary_location = "/usr/bin/chromium"
    options.set_capability("goog:loggingPrefs", {"browser": "ALL"})
    driver = webdriver.Chrome(service=Service("/usr/bin/chromedriver"), options=options)
    driver.set_page_load_timeout(LIMIT)
    try:
        yield driver
    finally:
        driver.quit()


class Page:
    """The page of a web server."""

    def __init__(self, driver, web, words=""):
        self.driver, self.web = driver, web
        driver.get(f"{web.address}/?{words}")

    def it(self, name):
        return self.driver.find_element(By.ID, name)

    def text(self, name):
        return self.driver.execute_script("return document.getElementById(arguments[0]).textContent", name)

    def write(self, name, word):
        box = self.it(name)
        box.send_keys(Keys.CONTROL, "a")
        box.send_keys(str(word))

    def choose(self, name, value):
        Select(self.it(name)).select_by_value(value)

    def at(self):
        """The time of the answers that are shown."""
        return self.driver.execute_script("return document.getElementById('told').dataset.at")

    def shows(self, at):
        waited(lambda: self.at() == str(at), 10)

    def rows(self):
        """The rows of each node's table, as texts."""
        return self.driver.execute_script(ROWS)

    def card(self, node):
        """The words of a node's card, and whether it is told as away."""
        return self.driver.execute_script("const it = document.querySelector(`#nodes [data-node=\"${arguments[0]}\"]`); return [it.textContent, it.classList.contains('away')]", node)


def as_texts(rows):
    return [[str(key), str(tag), body.hex() or "empty"] for key, tag, body in rows]


# ---------------------------------------------------------------- checks

def browser_slider(driver):
    """Moving the slider shows the rows that the reference has at that time, of two nodes that agree; the address keeps question and time."""
    problems = []
    with nodes(2) as two, web_of([it.port for it in two]) as web:
        page = Page(driver, web, HEX)
        page.shows(LAST)
        problems += differ([("at first", page.rows(), [as_texts(rows_at(LAST))] * 2)])
        slider = page.it("slider")
        for keys, at in ((Keys.HOME, 0), (Keys.ARROW_RIGHT, 1), (Keys.ARROW_RIGHT * 6, 7), (Keys.END, LAST), (Keys.ARROW_LEFT * 11, 29)):
            slider.send_keys(keys)
            page.shows(at)
            problems += differ([(f"at {at}", page.rows(), [as_texts(rows_at(at))] * 2), (f"the box at {at}", page.it("at").get_property("value"), str(at)),
                                (f"two nodes at {at}", "The 2 nodes that answered are equal" in page.text("told"), True)])
        page.it("on").click()
        page.shows(30)
        page.write("at", 12)
        page.shows(12)
        problems += differ([("typed", page.rows(), [as_texts(rows_at(12))] * 2), ("the address", f"{ALL}&at=12" in driver.current_url, True)])
        link = page.it("link").get_attribute("href")
        driver.get("about:blank")
        driver.get(link)
        page.shows(12)
        problems += differ([("the link", page.rows(), [as_texts(rows_at(12))] * 2), ("it stays", page.it("follow").is_selected(), False)])
    report("the slider shows the reference's rows, and a link to a moment keeps it", problems)


def browser_text(driver):
    """Whatever a row holds is text: nothing of it becomes an element or runs; bodies as text, JSON and hexadecimal."""
    problems = []
    with nodes(1) as (node,), web_of([node.port]) as web:
        page = Page(driver, web, f"{ALL}&at=20&view=text")
        page.shows(20)
        cells = {row[0]: row[2] for row in page.rows()[0]}
        for key, _, body in rows_at(20):
            text = body.decode("utf-8", "replace") if body else "empty"
            problems += differ([(f"key {key} as text", cells[str(key)], text if body != b"\xff\x00\xfe" else "\ufffd\x00\ufffdnot UTF-8")])
        marked = [it for it in cells.values() if "<script>" in it or "<img" in it]
        found = driver.execute_script("return [document.querySelectorAll('#answers script, #answers img').length, document.title, document.scripts.length]")
        problems += differ([("there are such rows", len(marked) >= 2, True), ("nothing runs", found, [0, "Vadungsil", 1])])
        page.choose("view", "json")
        waited(lambda: any("\n" in row[2] for row in page.rows()[0]), 10)
        told = [row[2] for row in page.rows()[0] if row[2].startswith("{")]
        problems += differ([("JSON", set(told), {'{\n  "id": 18446744073709551615,\n  "in": [\n    1,\n    {\n      "a": "{,}"\n    }\n  ]\n}'}),
                            ("not JSON", any(row[2].endswith("not JSON") for row in page.rows()[0]), True)])
        page.choose("view", "hex")
        waited(lambda: page.rows()[0] == as_texts(rows_at(20)), 10)
        # a page of the check before may still tell that its own server has gone
        said = [it["message"] for it in driver.get_log("browser") if it["message"].startswith(web.address) or "/api/events" not in it["message"]]
        problems += differ([("what the browser says", said, [])])
    report("a row with <script> is text; bodies as text, JSON and hexadecimal", problems)


def browser_away(driver):
    """A killed node is told within three seconds, and found again; the other one goes on."""
    problems, port = [], free_port()
    with nodes(1) as (node,), Served(8, streams=STREAMS, port=port) as other:
        fed(port)
        name = f"127.0.0.1:{port}"
        with web_of([node.port, port]) as web:
            page = Page(driver, web, f"{HEX}&at=9")
            page.shows(9)
            waited(lambda: "equal" in page.text("told"), 10)
            other.child.kill()
            took = waited(lambda: page.card(name)[1], 10)
            problems += differ([("told within 3 s", took < 3, True), ("words", "away" in page.card(name)[0] and "trying again" in page.card(name)[0], True)])
            waited(lambda: [len(rows) for rows in page.rows()] == [len(rows_at(9)), 0], 10)
            other.child.communicate()
            with Served(8, streams=STREAMS, port=port):
                took = waited(lambda: not page.card(name)[1], 10)
                fed(port)
                problems += differ([("found within 3 s", took < 3, True)])
                waited(lambda: f"resolved time {LAST}" in page.card(name)[0] and not page.card(name)[1], 10)
                page.write("at", 11)
                waited(lambda: "The 2 nodes that answered are equal" in page.text("told") and page.at() == "11", 10)
                problems += differ([("rows", page.rows(), [as_texts(rows_at(11))] * 2)])
    report("a killed node is told within three seconds, and found again", problems)


def browser_unequal(driver):
    """Two nodes that differ are told as such."""
    with Served(8, streams=STREAMS) as one, Served(8, streams=STREAMS) as two:
        fed(one.port)
        fed(two.port, log_of(seed=2)[0])
        with web_of([one.port, two.port]) as web:
            page = Page(driver, web, f"{ALL}&at=40")
            waited(lambda: "NOT EQUAL" in page.text("told"), 10)
            report("two nodes that differ are told", [])


def browser_changes(driver):
    """What came, went and became between two moments; the other questions; a refusal in words."""
    problems = []
    with nodes(1) as (node,), web_of([node.port]) as web:
        page = Page(driver, web, f"{HEX}&at=30&with=10")
        waited(lambda: page.driver.execute_script(CHANGES), 10)
        found = [(int(line.split("key ")[1].split(" ")[0]), what) for what, line in driver.execute_script(CHANGES)]
        problems += differ([("changes", found, changes_of(10, 30)), ("between", "From time 10 to time 30" in page.text("changes-told"), True)])
        page.choose("kind", "tag")
        page.write("tag", 1)
        waited(lambda: page.rows()[0] == as_texts([it for it in rows_at(30) if it[1] == 1]), 10)
        page.choose("kind", "count")
        waited(lambda: f"{len(rows_at(30))} rows" in page.text("answers"), 10)
        page.choose("kind", "get")
        key = rows_at(30)[0][0]
        page.write("key", key)
        waited(lambda: page.rows()[0] == as_texts(rows_at(30)[:1]), 10)
        page.write("at", 99)
        waited(lambda: "refused 26" in page.text("answers"), 10)
        problems += differ([("words", va.REASONS[26].meaning in page.text("answers") and f"readable {LAST}" in page.text("answers"), True)])
    report("changes, the other questions, and a refusal", problems)


def browser_more(driver):
    """A table with more rows than are shown: `go on` shows the next, and the address keeps from where."""
    problems, writer = [], va.LogWriter(7, 1)
    entries = [writer.commit([(1, key, 0, b"x") for key in range(low, low + 600)]) for low in (0, 600)]
    with nodes(1, [va.encode(it) for it in [*entries, *writer.marks()]], 1) as (node,), web_of([node.port], limit=LIMIT) as web:
        page = Page(driver, web, HEX)
        page.shows(2)
        rows = page.rows()[0]
        problems += differ([("the first", (len(rows), rows[0][0], rows[-1][0]), (1000, "0", "999"))])
        driver.execute_script("document.querySelector('#answers button').click()")
        waited(lambda: page.rows()[0] and page.rows()[0][0][0] == "1000", 10)
        problems += differ([("the rest", (len(page.rows()[0]), page.it("low").get_property("value"), "low=1000" in driver.current_url), (200, "1000", True)),
                            ("no more", driver.execute_script("return document.querySelectorAll('#answers button').length"), 0)])
    report("more rows than are shown", problems)


def browser_live(driver):
    """The page follows the resolved time; its event stream ends while the tab is hidden; a web server that goes away is told."""
    problems = []
    with nodes(1, FRAMES[:20]) as (node,), web_of([node.port]) as web:
        page = Page(driver, web, HEX)
        mark = web.node()["readable"]
        page.shows(mark)
        fed(node.port)
        page.shows(LAST)
        problems += differ([("it follows", page.rows(), [as_texts(rows_at(LAST))])])
        first = driver.current_window_handle
        waited(lambda: web.metric("vadungsil_web_event_streams") == 1.0, 10)
        driver.switch_to.new_window("tab")
        waited(lambda: web.metric("vadungsil_web_event_streams") == 0.0, 10)
        driver.close()
        driver.switch_to.window(first)
        waited(lambda: web.metric("vadungsil_web_event_streams") == 1.0, 10)
        web.server.stop()
        waited(lambda: "doesn't answer" in page.text("live"), 10)
        driver.get_log("browser")
    report("the page is live, stops while it is hidden, and tells of a web server that is gone", problems)


def browser_wide(driver):
    """Times and keys up to their greatest: the slider goes over a window of 2^62 times, and no number loses a digit."""
    last, problems = 2 ** 62 - 1, []
    writer = va.LogWriter(7, 1)
    entries = [writer.commit([(1, 2 ** 64 - 1, 2 ** 32 - 1, b"%d" % at)], time=at) for at in (1, 2 ** 53 + 1, last)]
    with nodes(1, [va.encode(it) for it in [*entries, *writer.marks()]], 1) as (node,), web_of([node.port]) as web:
        page = Page(driver, web, HEX)
        page.shows(last)
        row = lambda at: [[["18446744073709551615", "4294967295", (b"%d" % at).hex()]]]
        problems += differ([("at the last", page.rows(), row(last))])
        page.it("slider").send_keys(Keys.HOME)
        page.shows(0)
        page.write("at", 2 ** 53)
        page.shows(2 ** 53)
        problems += differ([("before 2^53 + 1", page.rows(), row(1))])
        page.it("on").click()
        page.shows(2 ** 53 + 1)
        problems += differ([("at 2^53 + 1", page.rows(), row(2 ** 53 + 1))])
        page.it("slider").send_keys(Keys.END)
        page.shows(last)
        page.write("at", "12x")
        problems += differ([("no number", (page.it("at").get_attribute("aria-invalid"), "12x" in driver.current_url), ("true", False))])
    report("times and keys up to their greatest", problems)


# ---------------------------------------------------------------- the overview, names, widths

READ = {b"\xff\x00\xfe": "\\xff00fe", b"": "empty"}
LONG = '{"id":18446744073709551615,"in":[%s]}' % ",".join("1" * 30)
MORE_BODIES = ((b"[1]", "[1]"), (LONG.encode(), '{\n  "id": 18446744073709551615,\n  "in": [\n%s\n  ]\n}' % ",\n".join(["    1"] * 30)), ((LONG + "}").encode(), LONG + "}"), (b"{", "{"), (b"12", "12"), ("Zo\u00eb \u6771".encode(), "Zo\u00eb \u6771"), (b"a\nb", "\\x610a62"), ("a\u202eb".encode(), "\\x61e280ae62"),
               ('["\u202e"]'.encode(), "\\x" + '["\u202e"]'.encode().hex()), (b'{\n "a":1}', '{\n  "a": 1\n}'), (b"\xc3", "\\xc3"))
# the columns of what a node tells of itself
TOLD = ("memory", "connections", "version", "guarded", "up since")
OVERVIEW = "return [...document.querySelectorAll('#overview tbody tr')].map(line => [...line.children].map(cell => [cell.dataset.name ?? 'node', cell.textContent]))"
# of each text that is shown: how high its letters are, in points of the window
SIZES = """const found = []; const walk = document.createTreeWalker(document.body, NodeFilter.SHOW_TEXT);
    while (walk.nextNode()) {
        const text = walk.currentNode, of = text.parentElement;
        if (text.data.trim() === '' || of.closest('title, script, noscript, [hidden], option') || !of.getClientRects().length) continue;
        const svg = of.closest('svg'), scale = svg && svg.viewBox.baseVal.width ? svg.getBoundingClientRect().width / svg.viewBox.baseVal.width : 1;
        found.push([parseFloat(getComputedStyle(of).fontSize) * scale, text.data.trim().slice(0, 30)]);
    }
    return found"""
# texts of drawings that go beyond them
BEYOND = """return [...document.querySelectorAll('#nodes svg')].flatMap(svg => [...svg.querySelectorAll('text')].filter(text => {
    const box = text.getBoundingClientRect(), all = svg.getBoundingClientRect(); return box.left < all.left - 1 || box.right > all.right + 1; }).map(text => text.textContent))"""


def browser_read(driver):
    """By default a body is JSON in lines where it is a long object or list, text where it is plain text, else hexadecimal."""
    problems, writer = [], va.LogWriter(7, 1)
    entry = writer.commit([(1, key, 0, body) for key, (body, _) in enumerate(MORE_BODIES)])
    with nodes(1) as (node,), nodes(1, [va.encode(it) for it in [entry, *writer.marks()]], 1) as (other,):
        with web_of([node.port]) as web:
            page = Page(driver, web, f"{ALL}&at=20")
            page.shows(20)
            problems += differ([("rows", page.rows(), [[[str(key), str(tag), READ.get(body, body.decode("latin-1"))] for key, tag, body in rows_at(20)]])])
        with web_of([other.port]) as web:
            page = Page(driver, web, ALL)
            page.shows(1)
            problems += differ([(f"{body}", row[2], wanted) for row, (body, wanted) in zip(page.rows()[0], MORE_BODIES)] + [("rows", len(page.rows()[0]), len(MORE_BODIES))])
    report("bodies as text and JSON where they are", problems)


def overview_of(driver):
    return [dict(line) for line in driver.execute_script(OVERVIEW)]


def browser_overview(driver):
    """A row a node: its times, how far it is behind, operations and pins, and a line of its last lags; names; another log."""
    problems, writer = [], va.LogWriter(7, 2)
    items = [writer.commit([(1, at, 0, b"%d" % at)], stream=at % 2 + 1) for at in range(1, 7)]
    marks = writer.marks()
    with contextlib.ExitStack() as stack:
        new, old = [stack.enter_context(Served(8, streams=2, words=("--messages", "2"))) for _ in range(2)]
        fed(new.port, [va.encode(it) for it in [*items, *marks]])
        fed(old.port, [va.encode(it) for it in [*items[:3], va.Mark(7, 1, 1, 3), va.Mark(7, 2, 2, 3)]])
        hold = stack.enter_context(va.Node(new.port)).hold(2)
        web = stack.enter_context(web_of([new.port, old.port], messages=2, every=0.2, names={"tables": {1: "orders"}, "streams": {1: "east", 2: "a very long name"}}))
        page = Page(driver, web, ALL)
        waited(lambda: overview_of(driver) and len(web.node(1)["lags"]) > 3, 10)
        first, second = [{name: text for name, text in line.items() if name not in ("seen up for", "lag lately", *TOLD)} for line in overview_of(driver)]
        wanted = lambda port, readable, lag, operations: {"node": f"127.0.0.1:{port}", "state": "up", "resolved time": str(readable), "oldest readable": "0", "lag": lag, "operations": str(operations)}
        problems += differ([("the newest", first, {**wanted(new.port, 6, "none", 3), "least pinned": "2"}),
                            ("the one behind", second, {**wanted(old.port, 3, "3 commits, lacks 3 entries of others", 2), "least pinned": ""}),
                            ("why", f"127.0.0.1:{old.port} can read no further; the newest is 6" in page.text("window"), True),
                            ("the lags, but for a first one that may be older than the other node's", [set([*web.node(place)["lags"]][1:]) for place in (0, 1)], [{"0"}, {"3"}]),
                            ("drawn", driver.execute_script("return [...document.querySelectorAll('.spark')].map(it => [it.getAttribute('aria-label').split(', ')[1], it.querySelectorAll('polyline').length])"),
                             [["0 commits at most", 1], ["3 commits at most", 1]]),
                            ("names of streams", driver.execute_script("return [...document.querySelectorAll('#nodes article:first-child li')].map(it => it.textContent.split(':')[0])"), ["east", "a very long name"]),
                            ("the legend", len(driver.find_elements(By.CSS_SELECTOR, ".legend .mark")), 5), ("one log", page.it("logs").is_displayed(), False)])
        page.write("table", "orders")
        waited(lambda: "table 1 (orders)" in page.text("told"), 10)
        page.write("table", "orderz")
        problems += differ([("told", (page.text("wrong"), "table=1&" in driver.current_url), (
            'Not asked: the table is a number from 0 to 65535, or a name: orders, and not "orderz". Below is the answer to what was asked before.', True))])
        page.write("table", "1")
        page.write("low", 9)
        page.write("high", 3)
        problems += differ([("upside down", "the first key, 9, is above the last, 3" in page.text("wrong"), True)])
        page.write("high", 9)
        problems += differ([("and mended", page.it("wrong").is_displayed(), False)])
        hold.release()
    with nodes(1) as (node,), Served(8, log=9) as other, web_of([node.port, other.port]) as web:
        page = Page(driver, web, ALL)
        waited(lambda: page.it("logs").is_displayed(), 10)
        problems += differ([("of two logs", f"127.0.0.1:{node.port} has log 7, 127.0.0.1:{other.port} has log 9" in page.text("logs"), True)])
    report("the overview, names, and what is wrong in a field", problems)


def browser_later(driver):
    """A time that can't be read yet is asked again once it can."""
    with nodes(1, FRAMES[:20]) as (node,), web_of([node.port]) as web:
        page = Page(driver, web, f"{HEX}&at={LAST}")
        waited(lambda: "refused 26" in page.text("answers"), 10)
        fed(node.port)
        waited(lambda: page.rows() and page.rows()[0], 10)
        report("a time that can be read later", differ([("rows", page.rows(), [as_texts(rows_at(LAST))])]))


def browser_clock(driver):
    """Where times are a clock's the lag is in seconds, and the time in words."""
    at, writer, problems = 1_795_698_000_000_000, va.LogWriter(7, 1), []
    items = [writer.commit([(1, 1, 0, b"%d" % it)], time=it) for it in (at, at + 2_500_000)]
    with contextlib.ExitStack() as stack:
        new, old = [stack.enter_context(Served(8)) for _ in range(2)]
        fed(new.port, [va.encode(it) for it in [*items, *writer.marks()]])
        fed(old.port, [va.encode(it) for it in [items[0], va.Mark(7, 1, 1, at)]])
        web = stack.enter_context(web_of([new.port, old.port]))
        Page(driver, web, ALL)
        waited(lambda: len(overview_of(driver)) == 2 and overview_of(driver)[1]["lag"], 10)
        # November 26 of 2026, 13:00:00, as `date -u -d @1795698000` has it
        problems += differ([("in seconds", overview_of(driver)[1]["lag"], "2.5 s, lacks 1 entry of others"), ("in words", overview_of(driver)[1]["resolved time"], f"{at} 2026-11-26 13:00:00 UTC")])
    report("the lag of a log by the clock is in seconds", problems)


# the middles of the slider and its two buttons, by height
ROW = "return ['back', 'slider', 'on'].map(name => { const box = document.getElementById(name).getBoundingClientRect(); return (box.top + box.bottom) / 2; })"
HELD = """return [...document.querySelectorAll('#held p')].map(line => [line.textContent, [...line.querySelectorAll('a')].map(it => it.getAttribute('href'))])"""


def browser_numbers(driver):
    """What a node tells of itself stands in its row, and its tables as links to their rows; of one of an earlier release nothing."""
    problems = []
    with nodes(1, words=("--messages", "2")) as (node,), Telling(node.port) as telling, Telling(node.port, None) as old, \
            web_of([telling.port, old.port], messages=2, every=0.2, names={"tables": {2: "orders"}}) as web:
        page = Page(driver, web, ALL)
        waited(lambda: overview_of(driver) and "memory" in overview_of(driver)[0] and driver.execute_script(HELD), 10)
        first, second = [{name: line.get(name) for name in TOLD} for line in overview_of(driver)]
        began = datetime.datetime.now(datetime.timezone.utc) - datetime.timedelta(seconds=7_260)
        since = first.pop("up since")
        problems += differ([("its numbers", first, {"memory": "45.0 MiB", "connections": "5, 11 at most", "version": "1.2.3", "guarded": "yes"}),
                            ("since when", abs((datetime.datetime.strptime(since, "%Y-%m-%d %H:%M UTC").replace(tzinfo=datetime.timezone.utc) - began).total_seconds()) < 120, True),
                            ("an earlier release", second, dict.fromkeys(TOLD, "")),
                            ("tables", driver.execute_script(HELD), [[f"127.0.0.1:{telling.port}: 3 tables: 1, orders, 65535", [f"/?kind=range&table={it}&view=auto" for it in (1, 2, 65535)]]])])
        link = driver.find_elements(By.CSS_SELECTOR, "#held a")[2]
        driver.execute_script("arguments[0].focus()", link)
        time.sleep(1.5)
        problems += differ([("a link keeps its focus", driver.execute_script("return document.activeElement === arguments[0]", link), True)])
        link.click()
        waited(lambda: "table=65535" in driver.current_url and page.at() == str(LAST), 10)
        problems += differ([("its rows", page.rows(), [[], []])])
    with nodes(1, words=("--messages", "2")) as (node,), Telling(node.port, None) as old, web_of([old.port], messages=2, every=0.2) as web:
        page = Page(driver, web, ALL)
        waited(lambda: overview_of(driver) and overview_of(driver)[0].get("operations"), 10)
        problems += differ([("all of an earlier release: no columns", set(overview_of(driver)[0]) & set(TOLD), set()), ("no tables", page.it("held").is_displayed(), False)])
    report("a node's numbers in its row, and its tables", problems)


LATELY = "return [...document.querySelectorAll('#overview [data-name=\"lag lately\"]')].map(cell => cell.children.length)"


def browser_widths(driver):
    """At 1180 and at 390 points no text is smaller than 11, none of a drawing goes beyond it, nothing scrolls sideways, and the slider is between its
    buttons; of a node that was never there no lag is drawn."""
    problems, late = [], [it for it in story()]
    with nodes(2, late, 3) as two, web_of([*(it.port for it in two), free_port()], names={"tables": {}, "streams": {2: "the second one of all"}}) as web:
        for width in (1180, 390):
            driver.execute_cdp_cmd("Emulation.setDeviceMetricsOverride", {"width": width, "height": 844, "deviceScaleFactor": 1, "mobile": False})
            page = Page(driver, web, "kind=range&table=1&low=100&high=199&at=30&with=24")
            page.shows(30)
            waited(lambda: driver.execute_script(CHANGES) and driver.execute_script("return document.querySelectorAll('#nodes svg').length") == 2, 10)
            sizes = driver.execute_script(SIZES)
            problems += differ([(f"small at {width}", [it for it in sizes if it[0] < 11], []), (f"texts at {width}", len(sizes) > 60, True), (f"beyond at {width}", driver.execute_script(BEYOND), []),
                                (f"in a row at {width}", max(driver.execute_script(ROW)) - min(driver.execute_script(ROW)) < 8, True),
                                (f"lags drawn at {width}", driver.execute_script(LATELY), [1, 1, 0]),
                                (f"sideways at {width}", driver.execute_script("return document.documentElement.scrollWidth - innerWidth") <= 0, True)])
        driver.execute_cdp_cmd("Emulation.clearDeviceMetricsOverride", {})
    report("the page at 1180 and at 390 points", problems)


CHECKS = (browser_slider, browser_text, browser_read, browser_away, browser_unequal, browser_changes, browser_wide, browser_more, browser_live, browser_later, browser_overview, browser_numbers, browser_clock, browser_widths)


def run(words):
    with chromium() as driver:
        for check in CHECKS:
            if not words or check.__name__ in words:
                (timed if words else guarded)(check, driver)
        drawn(driver)


def drawn(driver):
    """A picture of the page has something in it."""
    data = picture_of(driver)
    report("a picture of the page", [] if data.startswith(b"\x89PNG") and 20_000 < len(data) < 400_000 else [f"{len(data)} bytes"])


# ---------------------------------------------------------------- docs/page.png

def story():
    """A log of accounts in three streams, of which the third lacks an entry."""
    log, items, names = va.LogWriter(7, 3), [], ("ada", "bob", "cyd", "dan", "eve", "fay")
    for at in range(1, 49):
        key = 100 + (at * 5) % len(names)
        removes = [(1, key)] if at in (13, 26, 41) and log.born(1, key) else []
        puts = [] if removes else [(1, key, 3 + key % 2, b'{"name":"%s","balance":%d}' % (names[key - 100].encode(), 100 + at * at % 977))]
        items.append(log.commit(puts, removes, at % 3 + 1))
        if at % 6 == 0:
            items += log.marks()
    late = [it for it in items if isinstance(it, va.Entry) and it.stream == 3][-4]
    return [it for it in items if it != late]


def picture_of(driver):
    """The page of two nodes, one stream of which holds both back, as PNG."""
    items = story()
    with nodes(2, items[:30], 3) as two, web_of([it.port for it in two], every=0.1) as web:
        page = Page(driver, web, "kind=range&table=1&low=100&high=199&at=30&with=24")
        waited(lambda: len(web.node(1)["lags"]) > 20, 10)
        with va.Node(two[0].port) as one, va.Node(two[1].port) as other:
            one.items(items)
            time.sleep(1.5)
            other.items(items)
        page.shows(30)
        waited(lambda: driver.execute_script(CHANGES) and len(web.node(1)["lags"]) > 80, 30)
        time.sleep(0.5)
        return driver.get_screenshot_as_png()


def write_page(path):
    with chromium("1010,1600") as driver:
        path.write_bytes(picture_of(driver))

"""The page in a real browser, where Chromium and its driver are installed."""

import json
import pathlib
import shutil

import pytest
from viewing import HOSTILE, OTHER, SOURCE, edge, hostile_report, pair, report, ring, view, write

webdriver = pytest.importorskip("selenium.webdriver", reason="selenium isn't installed (Debian: python3-selenium)")
pytestmark = pytest.mark.skipif(
    None in (shutil.which("chromium"), shutil.which("chromedriver")),
    reason="chromium or its driver isn't installed (Debian: chromium, chromium-driver)",
)

WIDTHS = (390, 800, 1200)
BACKS = {"light": "rgb(255, 255, 255)", "dark": "rgb(20, 23, 27)"}


@pytest.fixture(scope="module")
def driver():
    from selenium.webdriver.chrome.service import Service

    options = webdriver.ChromeOptions()
    options.binary_location = shutil.which("chromium")
    options.set_capability("goog:loggingPrefs", {"browser": "ALL", "performance": "ALL"})
    for argument in ("--headless=new", "--no-sandbox", "--disable-gpu", "--hide-scrollbars"):
        options.add_argument(argument)
    made = webdriver.Chrome(service=Service(shutil.which("chromedriver")), options=options)
    yield made
    made.quit()


def report_for_looking():
    """What a page usually has, and the hostile names."""
    tame = [
        [edge(f"worker-{i % 8}", f"conn-{i}", "net/server.c:14<net/loop.c:8", "pool", "net/server.c:16<net/loop.c:8"),
         edge("reaper", "pool", "src/store/pool.c:10", f"conn-{i}", "src/store/pool.c:22", ["pool", "gate"])]
        for i in range(200)
    ]  # fmt: skip
    rings = [ring([f"shard-{i}" for i in range(size)], f"r{size}.c:1", f"r{size}.c:2") for size in (3, 4, 5, 7, 8, 12)]
    hostile = json.loads(hostile_report())["cycles"]
    return report(*tame, *rings, *hostile, more=True, length=16)


def show(driver, width, scheme="light", height=900):
    """Shows p.html and clears what the browser has told until then."""
    size = {"width": width, "height": height, "deviceScaleFactor": 1, "mobile": width < 600}
    driver.execute_cdp_cmd("Emulation.setDeviceMetricsOverride", size)
    features = [{"name": "prefers-color-scheme", "value": scheme}]
    driver.execute_cdp_cmd("Emulation.setEmulatedMedia", {"features": features})
    driver.get_log("browser")
    driver.get_log("performance")
    driver.get(pathlib.Path("p.html").resolve().as_uri())


def asked_urls(driver):
    """What the page asked for."""
    messages = [json.loads(entry["message"])["message"] for entry in driver.get_log("performance")]
    sent = [m["params"]["request"]["url"] for m in messages if m["method"] == "Network.requestWillBeSent"]
    return [url for url in sent if not url.startswith("file:") or not url.endswith("/p.html")]


def value(driver, expression):
    return driver.execute_script(f"return {expression}")


@pytest.mark.parametrize("scheme", BACKS)
@pytest.mark.parametrize("width", WIDTHS)
def test_the_page_fits_and_runs_nothing_but_its_own(driver, width, scheme):
    write("r.json", report_for_looking())
    lines = [f"    line({i}, a_rather_long_argument, another_one, and_one_more);\n" for i in range(1, 31)]
    write("src/net/server.c", "".join(lines))
    write("src/store/pool.c", SOURCE)
    write("src/net/loop.c", SOURCE)
    write("known", '[["r7.c:1","r7.c:2"]]\n')
    view("r.json", "-o", "p.html", "--source", "src", "--known", "known")
    show(driver, width, scheme)
    assert value(driver, "window.hit") is None
    assert value(driver, "document.scripts.length + document.images.length") == 1
    assert value(driver, "document.querySelectorAll('.finding').length") == 7 + len(HOSTILE)
    # Style and script were let through by the page's own policy, in the scheme that was asked for.
    assert value(driver, "getComputedStyle(document.body).backgroundColor") == BACKS[scheme]
    assert value(driver, "document.getElementById('tools').hidden") is False
    driver.execute_script("document.querySelectorAll('details').forEach(details => details.open = true)")
    # Nothing is wider than the screen, in the page as a whole or in one of the findings.
    assert value(driver, "document.documentElement.scrollWidth") == width
    parts = "[...document.querySelectorAll('#tools, .finding, .edge, .places, .what')]"
    assert value(driver, f"{parts}.filter(part => part.scrollWidth > part.clientWidth + 1).length") == 0
    # Text is apart from what it is on: the label of a lock isn't wider than its box.
    over = (
        "[...document.querySelectorAll('svg g')].filter(g => g.querySelector('text') && g.querySelector('rect') && "
        "g.querySelector('text').getBBox().width > g.querySelector('rect').getBBox().width).length"
    )
    assert value(driver, over) == 0
    assert asked_urls(driver) == []
    assert driver.get_log("browser") == []


def test_a_script_of_another_text_is_not_run(driver):
    write("r.json", report(pair(), pair(places=OTHER)))
    view("r.json", "-o", "p.html")
    page = pathlib.Path("p.html").read_text(encoding="utf-8")
    write("p.html", page.replace('"use strict";', '"use strict"; window.hit = 1;', 1))
    show(driver, 800)
    assert value(driver, "window.hit") is None
    assert value(driver, "document.getElementById('tools').hidden") is True
    assert any("Content Security Policy" in entry["message"] for entry in driver.get_log("browser"))


def many_findings():
    """Five drawn findings, and the known one in the table."""
    cycles = [pair(f"table-{i}", "index", ("writer", f"reader-{i}"), (f"t{i}.c:1", "2", "3", "4")) for i in range(4)]
    cycles += [ring(["left", "right", "top"], "ring.c:1", "ring.c:2")] * 7
    cycles += [pair("late", "index", ("writer", "last"), ("z.c:1", "2", "3", "4"))]
    write("r.json", report(*cycles))
    write("known", '[["t3.c:1","2"],["3","4"]]\n')
    write(
        "c.json", '{"outcome":"deadlocked","pairs":[["t1.c:1","2"],["3","4"]],"text":["deadlocked in try 1"],"tries":1}'
    )
    view("r.json", "-o", "p.html", "--known", "known", "--confirmed", "c.json", "--most", "5")


def shown(driver):
    """The front of each finding's places, in the order shown."""
    findings = "[...document.querySelectorAll('[data-cycles]')].filter(one => !one.hidden)"
    texts = value(driver, f"{findings}.map(one => one.querySelector('.places').textContent)")
    return [text.replace("3 → 4; ", "").split(".c:")[0] for text in texts]


def put(driver, name, text):
    """Types into the search, or chooses."""
    event = "input" if name == "search" else "change"
    script = "const e = document.getElementById(arguments[0]); e.value = arguments[1]; e.dispatchEvent(new Event(arguments[2]))"
    driver.execute_script(script, name, text, event)


def test_search_finds_threads_locks_and_places_by_all_words(driver):
    many_findings()
    show(driver, 1200)
    assert value(driver, "document.getElementById('shown').textContent") == "6 of 6 shown"
    put(driver, "search", "READER-2")
    assert shown(driver) == ["t2"]
    put(driver, "search", "index late")
    assert shown(driver) == ["z"]
    put(driver, "search", "left ring.c:2")
    assert shown(driver) == ["ring"]
    put(driver, "search", "index nowhere")
    assert shown(driver) == []
    assert value(driver, "document.getElementById('shown').textContent") == "0 of 6 shown"


def test_search_finds_the_middle_of_a_long_name(driver):
    """It is shown at the page's end alone. The third finding is one of the table."""
    hazel, birch = ("n" * 150 + middle + "n" * 150 for middle in ("Hazel", "Birch"))
    cycles = [
        pair(lock, "index", places=(f"t{i}.c:1", "2", "3", "4")) for i, lock in enumerate((hazel, "short", birch))
    ]
    write("r.json", report(*cycles))
    view("r.json", "-o", "p.html", "--most", "2")
    show(driver, 1200)
    put(driver, "search", "nHAZELn")
    assert shown(driver) == ["t0"]
    put(driver, "search", "index birch")
    assert shown(driver) == ["t2"]
    put(driver, "search", "hazel birch")
    assert shown(driver) == []


def test_search_finds_what_there_is_no_room_to_show(driver):
    """The first finding is drawn and has more locks than are listed; the second one is in the table, and has more pairs than are shown."""
    places = ("x.c:1", "x.c:2", "x.c:3", "x.c:4")
    many = [pair(f"lock-{i}", "index", ("T0", f"thread-{i}"), places) for i in range(1100)]
    fifth = ring([f"fork-{i}" for i in range(5)], "", "")
    for i, one in enumerate(fifth):
        one.update(held_at=f"y{i}.c:1", wanted_at="n" * 100 + f"y{i}.c:2" + "n" * 100)
    others = ring([f"spoon-{i}" for i in range(5)], "", "")
    for i, one in enumerate(others):
        one.update(thread=f"Q{i}", held_at=fifth[i]["held_at"], wanted_at=fifth[i]["wanted_at"])
    write("r.json", report(*many, fifth, others, length=5, most=2000))
    view("r.json", "-o", "p.html", "--most", "1")
    show(driver, 1200)
    assert shown(driver) == ["x", "y0"]
    for word in ("lock-7", "LOCK-1099", "thread-1099"):
        put(driver, "search", word)
        assert shown(driver) == ["x"], word
    for word in ("y0.c:1", "y4.c:1", "nY4.c:2n", "fork-4", "spoon-1", "q4"):
        put(driver, "search", word)
        assert shown(driver) == ["y0"], word
    put(driver, "search", "lock-1099 spoon-1")
    assert shown(driver) == []


def test_filters_and_order(driver):
    many_findings()
    show(driver, 1200)
    put(driver, "state", "known")
    assert shown(driver) == ["t3"]
    put(driver, "state", "new")
    assert len(shown(driver)) == 5
    put(driver, "state", "confirmed")
    assert shown(driver) == ["t1"]
    put(driver, "state", "")
    put(driver, "threads", "3")
    assert shown(driver) == ["ring"]
    put(driver, "threads", "")
    assert shown(driver) == ["t0", "t1", "t2", "z", "ring", "t3"]
    put(driver, "order", "cycles")
    assert shown(driver) == ["ring", "t0", "t1", "t2", "z", "t3"]
    put(driver, "order", "place")
    assert shown(driver) == ["t0", "t1", "t2", "z", "ring", "t3"]


def keys(driver, text):
    from selenium.webdriver.common.action_chains import ActionChains

    ActionChains(driver).send_keys(text).perform()


def test_the_keyboard_is_enough(driver):
    many_findings()
    show(driver, 1200)
    keys(driver, "/")
    assert value(driver, "document.activeElement.id") == "search"
    keys(driver, "t1.c")
    assert shown(driver) == ["t1"]
    keys(driver, "\ue00c")  # Escape
    assert len(shown(driver)) == 6
    driver.execute_script("document.activeElement.blur()")
    focused = "document.activeElement.textContent.replace(/\\s+/g, ' ').slice(0, 9)"
    keys(driver, "j")
    assert value(driver, focused) == "Finding 1"
    keys(driver, "jj")
    assert value(driver, focused) == "Finding 3"
    keys(driver, "k")
    assert value(driver, focused) == "Finding 2"
    is_open = "document.activeElement.parentNode.open"
    before = value(driver, is_open)
    keys(driver, "\ue007")  # Enter
    assert value(driver, is_open) is not before
    keys(driver, "a")
    assert value(driver, "document.querySelectorAll('details.finding:not([open])').length") == 0
    keys(driver, "a")
    assert value(driver, "document.querySelectorAll('details.finding[open]').length") == 0


def test_a_link_to_a_finding_opens_it(driver):
    many_findings()
    show(driver, 1200)
    name = value(driver, "document.querySelectorAll('.finding')[3].id")
    assert value(driver, f"document.getElementById('{name}').open") is False
    driver.get(pathlib.Path("p.html").resolve().as_uri() + "#" + name)
    assert value(driver, f"document.getElementById('{name}').open") is True


def test_a_link_to_no_finding_leaves_the_page_as_it_is(driver):
    many_findings()
    show(driver, 1200)
    for name in ("#50%", "#%ff", "#none", "#"):
        driver.get("about:blank")
        driver.get(pathlib.Path("p.html").resolve().as_uri() + name)
        assert value(driver, "document.getElementById('shown').textContent") == "6 of 6 shown", name
    assert driver.get_log("browser") == []


def test_on_paper_all_findings_are_open_and_dark_on_white(driver):
    many_findings()
    show(driver, 1200, "dark")
    assert value(driver, "document.querySelectorAll('details.finding:not([open])').length") > 0
    driver.execute_script(
        "window.addEventListener('beforeprint', () => {"
        " window.paper = document.querySelectorAll('details.finding:not([open])').length })"
    )
    driver.execute_cdp_cmd("Page.printToPDF", {})
    assert value(driver, "window.paper") == 0
    assert value(driver, "document.querySelectorAll('details.finding:not([open])').length") > 0  # as it was
    driver.execute_cdp_cmd("Emulation.setEmulatedMedia", {"media": "print"})
    assert value(driver, "getComputedStyle(document.body).backgroundColor") == BACKS["light"]
    assert value(driver, "getComputedStyle(document.getElementById('tools')).display") == "none"
    driver.execute_cdp_cmd("Emulation.setEmulatedMedia", {"media": ""})

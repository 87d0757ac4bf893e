#!/usr/bin/env python3
"""Tests the page in headless Chromium: its scripts, then the page as a reader uses it.

usage: web/test.py [FOLDER]    (FOLDER: where screenshots go; default: none are made)

web/examples.js is there (web/examples.py makes it). Where web/module.js is not, the program in the page isn't
tested, and a line says so.
"""

import pathlib
import shutil
import sys
import tempfile
import time

from browser import Browser

WEB = pathlib.Path(__file__).resolve().parent
EXAMPLES = WEB.parent / "examples"
MODULE = "module.js"

# The keys of the WebDriver protocol.
KEYS = {"down": "\ue015", "right": "\ue014", "end": "\ue010", "home": "\ue011", "escape": "\ue00c"}

# Documents with a fault, by command: the status, and what is printed.
PLAIN = "hosts = 2\nlinks = [[0, 1]]\nprotocol = 'sum'\n"
FAULTS = [
    ("bare", PLAIN + "schedule = '''\n# first\nfly 0\n'''\n", 7, "schedule: line 2: grammar\n"),
    ("bare", "hosts = 0\n", 3, "scenario: hosts: range\n"),
    ("replay", "hosts = \n", 3, "scenario: document: syntax\n"),
    ("check", PLAIN, 3, "scenario: epoch: missing\n"),
    ("bare", PLAIN.replace("sum", "machine") + "machine = 'var x = ;'\n", 4, "machine: line 1 column 9: expected\n"),
    ("verify", PLAIN + "run = '''\n0 receive 1 0\n'''\n", 1, "not a run: step 0: nothing sent 1 0 0\n"),
]

# How long a trace is that must not hold the page up, in bytes, and which share of the time that it takes is the most
# that a single pause may have: on a busy machine all of it takes longer.
LONG, MOST = 16_000_000, 0.25


class Page:
    """The page in a browser, with what was found wrong of it."""

    def __init__(self, browser, shots):
        self.browser, self.shots = browser, shots
        self.passed, self.failures = 0, []

    def expect(self, name, found, wanted):
        if found == wanted:
            self.passed += 1
        else:
            self.failures.append(f"{name}: {found!r:.300} and not {wanted!r:.300}")

    def open(self, place, waits="whole !== undefined"):
        self.browser.open(place)
        self.browser.wait(waits)

    def text(self, name):
        return self.browser.run(f"return document.getElementById('{name}').textContent")

    def shot(self, name):
        if self.shots:
            time.sleep(0.2)
            self.browser.picture(f"{self.shots}/{name}.png")

    def choose(self, example):
        """Chooses an example and waits for its answer and its picture."""
        self.browser.run(
            "const it = document.getElementById('examples'); it.value = arguments[0]; it.dispatchEvent(new Event('change'))", example
        )
        self.settle()

    def settle(self):
        self.browser.wait("!document.body.classList.contains('busy') && document.getElementById('status').textContent")

    def answer(self, command, scenario):
        """What the page answers to a scenario that is typed."""
        self.browser.run(
            "[at('scenario').value, at('command').value] = [arguments[1], arguments[0]]; at('run').click()", command, scenario
        )
        self.settle()
        return self.browser.run("return [shownText, at('status').textContent]")


def address(folder, file="index.html"):
    return (pathlib.Path(folder) / file).as_uri()


def test_scripts(page):
    page.open(address(WEB, "test.html"), "document.getElementById('result').textContent")
    *failures, last = page.text("result").split("\n")
    page.failures += failures
    page.passed += int(last.split()[1])


def test_stored(page):
    """Without the program the page lists the examples with their stored texts, and takes a text that is pasted."""
    with tempfile.TemporaryDirectory() as folder:
        for file in WEB.glob("*"):
            if file.is_file() and file.name != MODULE:
                shutil.copy(file, folder)
        page.open(address(folder))
        page.expect("no module is told", "No module" in page.text("how"), True)
        page.choose("an_input_among_four_guards")
        page.expect("a stored example is drawn", page.browser.run("return whole.arrows.length"), 48)
        test_pasting(page, "without the program")


def test_pasting(page, how):
    trace = (EXAMPLES / "a_trace_of_an_input.out").read_text()
    page.browser.run("at('answer').value = arguments[0]; at('answer').dispatchEvent(new Event('input'))", trace)
    page.browser.wait("at('status').textContent === 'drawn from this text'")
    page.expect(f"a pasted trace is drawn {how}", page.browser.run("return whole.arrows.length"), trace.count("\nstep "))


def test_drawing(page):
    """As many arrows are drawn as packets were given; drops have their cause; keys go from row to row."""
    run = page.browser.run
    page.choose("a_trace_of_an_input")
    given = (EXAMPLES / "a_trace_of_an_input.out").read_text().count("\nstep ")
    run("at('frame').style.height = '3000px'; at('frame').style.flex = 'none'; at('repeats').click()")
    page.browser.wait(f"document.querySelectorAll('g.arrow:not(.stub)').length === {given}")
    page.expect("arrows in the picture", run("return document.querySelectorAll('g.arrow').length"), given)
    run("at('frame').removeAttribute('style'); at('repeats').click(); at('frame').focus()")
    page.browser.press([KEYS["down"]])
    page.expect("a row by its key", page.text("row").startswith("event 0: input"), True)
    page.browser.press([KEYS["right"]])
    page.expect("an event by its key", page.text("row").startswith("event 1: "), True)
    page.browser.press([KEYS["end"]])
    page.expect("the last row", run("return drawing.selected === drawing.picture.rows.length - 1"), True)
    wide = run("return document.querySelector('svg').viewBox.baseVal.width")
    page.browser.press(["+", KEYS["escape"]])
    page.browser.wait(f"document.querySelector('svg').viewBox.baseVal.width < {wide}")
    page.expect("no row", run("return drawing.selected"), None)
    run("drawing.isZoomed = false")
    page.choose("noise_is_dropped")
    causes = run("return [...document.querySelectorAll('.marks text.cause')].map((it) => it.textContent)")
    page.expect("causes beside the drops", sorted(set(causes) & {"malformed", "no tag"}), ["malformed", "no tag"])


def test_link(page):
    scenario = (EXAMPLES / "one_message_lost.toml").read_text()
    page.browser.run("at('scenario').value = arguments[0]; at('command').value = 'bare'; at('link').click()", scenario)
    carried = page.browser.run("return location.href")
    page.browser.open("about:blank")
    page.open(carried)
    page.expect("a link carries the scenario", page.browser.run("return at('scenario').value"), scenario)


def test_writing(page):
    """A scenario that is written over is no example any more."""
    page.choose("one_message_lost")
    page.browser.run("at('scenario').focus()")
    page.browser.press(["#"])
    page.expect("an example that is written over", page.browser.run("return at('examples').value"), "")


def test_long(page):
    """A trace of 16 MB is read and drawn in pieces that don't hold the page up, and in part."""
    run = page.browser.run
    made = run(LONG_TRACE, LONG)
    page.browser.wait("at('status').textContent === 'drawn from this text'")
    pause, whole = run("return [longest / 1000, (performance.now() - begun) / 1000]")
    page.expect("arrows of a long trace", run("return whole.arrows.length"), made)
    run("drawing.select(Infinity)")
    page.browser.wait("document.querySelectorAll('g.arrow').length > 0 && drawing.top > 1000")
    page.expect(f"a long trace holds the page up for {pause:.2f} s of {whole:.2f} s", pause < MOST * whole, True)
    page.expect("it is drawn in part", run("return document.querySelectorAll('g.arrow').length < 500"), True)
    print(f"page: a trace of {LONG} bytes and {made} givings, drawn in {whole:.1f} s, the longest pause {pause:.2f} s")


# Makes a long trace of a short one, by repeating its packets and their givings under new numbers, and pastes it. Every
# few milliseconds it is noted how long the page didn't come to that.
LONG_TRACE = """
const short = EXAMPLES.flood_among_guards.trace;
const [packets, rest] = short.split("\\ninjected\\n");
const [givings, report] = rest.slice(rest.indexOf("steps\\n") + 6).split("\\nrun\\n");
const lines = packets.split("\\n").slice(1);
const given = givings.split("\\n");
const copies = Math.ceil(arguments[0] / short.length);
const again = [[], []];
for (let copy = 0; copy < copies; copy++) {
  for (const it of lines) again[0].push(it.replace(/^packet (\\d+)/, (all, k) => `packet ${+k + copy * lines.length}`));
  for (const it of given) {
    again[1].push(it.replace(/^step (\\d+) packet (\\d+)/, (all, e, k) => `step ${+e + copy * 1000} packet ${+k + copy * lines.length}`));
  }
}
const text = ["packets", ...again[0], "injected", "steps", ...again[1], "run", report].join("\\n");
[window.longest, window.begun] = [0, performance.now()];
let last = performance.now();
setInterval(() => {
  const now = performance.now();
  longest = Math.max(longest, now - last);
  last = now;
}, 5);
at("scenario").value = EXAMPLES.flood_among_guards.scenario;
setTimeout(() => {
  const pasted = new DataTransfer();
  pasted.setData("text", text);
  at("answer").dispatchEvent(new ClipboardEvent("paste", { clipboardData: pasted, bubbles: true, cancelable: true }));
}, 100);
return again[1].length;
"""


def test_program(page):
    """Every example, run in the page, gives the text of its file to the byte; faults show their status and line."""
    names = page.browser.run("return Object.keys(EXAMPLES)")
    for name in names:
        page.choose(name)
        text = (EXAMPLES / f"{name}.out").read_bytes().decode()
        page.expect(f"{name} in the page", page.browser.run("return shownText"), text)
        status = page.browser.run("return EXAMPLES[arguments[0]].status", name)
        page.expect(f"{name}: its status", page.text("status").startswith(f"status {status},"), True)
    for command, scenario, status, line in FAULTS:
        found, told = page.answer(command, scenario)
        page.expect(f"{command} of a fault: status", told.startswith(f"status {status},"), True)
        page.expect(f"{command} of a fault: line", found if line else None, line)
        page.expect(f"{command} of a fault: told", line is None or line.strip() in told, True)
    page.browser.run("at('run').click(); at('run').click()")
    page.settle()
    page.expect("a run that takes the place of one", page.text("status").startswith("status 1,"), True)
    print(f"page: {len(names)} examples run in the page")


def test_telephone(page):
    """On a telephone's width nothing stands past the edge or over another thing, and the picture is in view."""
    run = page.browser.run
    size = {"width": 390, "height": 844, "deviceScaleFactor": 1, "mobile": True}
    page.browser.command("Emulation.setDeviceMetricsOverride", size)
    page.open(address(WEB))
    page.choose("an_input_among_four_guards")
    page.browser.wait("document.querySelectorAll('g.arrow').length > 0")
    page.expect("nothing past the edge", run("return document.documentElement.scrollWidth <= innerWidth"), True)
    page.expect("the picture's height", run("return at('frame').clientHeight > 300"), True)
    parts = "['scenario', 'status', 'first', 'row', 'frame', 'replicas', 'answer'].map((id) => at(id).getBoundingClientRect())"
    page.expect("no part over another", run(f"return {parts}.every((it, k, all) => k === 0 || all[k - 1].bottom <= it.top)"), True)
    page.expect("all lanes in view", run("return drawing.wholeWidth() * drawing.scale <= at('frame').clientWidth"), True)
    page.shot("telephone")
    page.browser.command("Emulation.clearDeviceMetricsOverride", {})


def test_narrow(page):
    """Where the browser has no 64-bit memory the page says so, and takes a text."""
    hides = {"source": "WebAssembly.validate = () => false"}
    added = page.browser.command("Page.addScriptToEvaluateOnNewDocument", hides)
    page.open(address(WEB))
    page.expect("no 64-bit memory is told", "64-bit" in page.text("how"), True)
    test_pasting(page, "without 64-bit memory")
    page.browser.command("Page.removeScriptToEvaluateOnNewDocument", added)


def main():
    shots = sys.argv[1] if len(sys.argv) > 1 else None
    with Browser() as browser:
        page = Page(browser, shots)
        test_scripts(page)
        test_stored(page)
        page.open(address(WEB))
        test_drawing(page)
        page.shot("noise")
        test_link(page)
        page.shot("link")
        test_writing(page)
        test_telephone(page)
        page.open(address(WEB))
        test_long(page)
        page.shot("long")
        if (WEB / MODULE).is_file():
            page.open(address(WEB))
            test_program(page)
            page.shot("program")
            test_narrow(page)
        else:
            print("page: the program in the page isn't tested, since web/module.js wasn't built")
    print(*page.failures, f"page: {page.passed} passed, {len(page.failures)} failed", sep="\n")
    return 1 if page.failures else 0


if __name__ == "__main__":
    sys.exit(main())

"""Tries the page in headless Chromium, as a user would: types, waits for the answer, damages the model, sends the address.

Run by web/browser.sh, which builds the site. Pictures are left in target/web-browser.
"""

import functools
import http.server
import os
import threading
from pathlib import Path

from selenium import webdriver
from selenium.webdriver.chrome.service import Service
from selenium.webdriver.common.by import By
from selenium.webdriver.common.keys import Keys
from selenium.webdriver.support.ui import WebDriverWait

ROOT = Path(__file__).resolve().parents[1]
SITE = ROOT / "target" / "web"
PICTURES = ROOT / "target" / "web-browser"

ALL = ["cold", "hot", "speculated", "guard_failed", "interpreted", "retired"]
HOSTILE = '<img src=x onerror="document.title=1"> -> </textarea><script>alert(1)</script> 3'


class Quiet(http.server.SimpleHTTPRequestHandler):
    def log_message(self, *_):
        pass


class Page:
    def __init__(self, browser, address):
        self.browser = browser
        self.address = address

    def open(self, after=""):
        self.browser.get("about:blank")  # or a new # would not load the page anew
        self.browser.get(self.address + after)
        self.until(lambda: self.browser.execute_script("return document.body.dataset.answered"), "the page has answered")

    def until(self, holds, words):
        WebDriverWait(self.browser, 30).until(lambda _: holds(), words)

    def text(self, selector):
        return self.browser.find_element(By.CSS_SELECTOR, selector).text

    def count(self, selector):
        return len(self.browser.find_elements(By.CSS_SELECTOR, selector))

    def focus(self, name):
        self.browser.execute_script(f"document.querySelector('.of-{name}').CodeMirror.focus()")
        return self.browser.switch_to.active_element

    def type(self, name, words):
        """Everything in an editor is selected, and typed over."""
        field = self.focus(name)
        field.send_keys(Keys.CONTROL, "a")
        field.send_keys(Keys.BACKSPACE)
        field.send_keys(words)

    def put(self, name, words):
        """A long text, as if pasted."""
        self.browser.execute_script(f"document.querySelector('.of-{name}').CodeMirror.setValue(arguments[0])", words)

    def states(self):
        rows = self.browser.find_elements(By.CSS_SELECTOR, "#states tr")
        return {row.find_elements(By.TAG_NAME, "td")[0].text: row.find_elements(By.TAG_NAME, "td")[2].text for row in rows}

    def yes(self):
        return {name for name, word in self.states().items() if word == "yes"}

    def picture(self, name):
        self.browser.save_screenshot(str(PICTURES / f"{name}.png"))

    def theme(self, name):
        self.browser.execute_cdp_cmd("Emulation.setEmulatedMedia", {"features": [{"name": "prefers-color-scheme", "value": name}]})


def equal(found, expected, words):
    if found != expected:
        raise SystemExit(f"browser: {words}: found {found!r}, expected {expected!r}")
    print(f"browser: {words}")


def first_sight(page):
    page.open()
    equal(page.text("#verdict"), "guard_failed: yes", "the example of the formula's life stands there, and is answered")
    equal(list(page.states()), ALL, "the table has every state")
    equal(page.yes(), {"cold", "guard_failed", "interpreted"}, "and every answer")
    equal(page.count("svg .state"), 6, "the picture has a box for each state")
    equal(page.count("svg .arrow"), 11, "and an arrow for each two states with a transition")
    equal("90 #compile" in [weight.text for weight in page.browser.find_elements(By.CSS_SELECTOR, "svg .weight")], True, "with its weight and its action")
    equal(page.count("svg .state.yes"), 3, "the states that satisfy the formula are marked")
    equal(page.text("svg .state.asked .name"), "guard_failed", "the asked state is marked")
    equal(page.browser.execute_script("return document.querySelector('svg').lastChild.classList.contains('asked')"), True, "and in front")


def typing(page):
    page.type("formula", "A[true U<=41 interpreted]")
    page.until(lambda: page.text("#verdict") == "guard_failed: no", "the answer to a typed formula")
    equal(page.yes(), {"cold", "interpreted"}, "a typed formula is answered, for every state")
    page.type("formula", "E[true U<=41 onterpreted]")
    page.until(lambda: page.text("#mistakes"), "a mistake in the formula")
    equal(page.text("#mistakes"), "formula, line 1, column 14: no proposition or state has the name onterpreted (did you mean interpreted?)", "a mistake in the formula is told")
    equal(page.text(".of-formula .wrong"), "onterpreted", "and underlined at its place")
    equal(page.yes(), set(), "and nothing is answered")
    page.picture("formula-mistake")
    page.type("formula", "EX#discard cold")
    page.until(lambda: page.yes() == {"guard_failed"}, "the answer to a formula with an action")
    equal("Asked: EX#discard cold," in page.text("#about"), True, "a formula with an action is answered, and told by its name")
    page.type("formula", "EX#discrad cold")
    page.until(lambda: page.text("#mistakes"), "a mistake in an action")
    equal(page.text("#mistakes"), "formula, line 1, column 4: no transition has the action discrad (did you mean discard?)", "an action that no transition has is told")
    page.type("formula", "E[true U<=42 interpreted]")
    page.until(lambda: page.text("#verdict") == "guard_failed: yes", "the answer after a mistake")
    equal(page.yes(), set(ALL) - {"retired"}, "mended, it is answered again")


def damage(page):
    page.focus("model").send_keys(Keys.CONTROL, Keys.END)
    page.focus("model").send_keys(Keys.ENTER, "hot -> retired")
    page.until(lambda: page.text("#mistakes"), "a mistake in the model")
    behind = len((SITE / "examples" / "formula_life.otz").read_text().splitlines()) + 1
    equal(page.text("#mistakes"), f"model, line {behind}: not a transition: 'hot -> retired' (its weight is missing) (as: cold -> hot 12)", "a damaged model is told")
    equal(page.text(".of-model .wrong"), "hot -> retired", "and underlined")
    page.picture("model-mistake")
    page.focus("model").send_keys(" 5")
    page.until(lambda: not page.text("#mistakes"), "the mended model")
    equal([weight.text for weight in page.browser.find_elements(By.CSS_SELECTOR, "svg .weight") if "," in weight.text], ["6 #retire, 5"], "mended, the new transition is drawn")


def keyboard(page):
    page.focus("formula").send_keys(Keys.TAB)
    equal(page.browser.execute_script("return document.activeElement.closest('.CodeMirror') === null"), True, "Tab leaves the text")
    page.browser.find_element(By.CSS_SELECTOR, "label[for=model]").click()
    equal(page.browser.execute_script("return document.activeElement.closest('.of-model') !== null"), True, "a label leads to its text")
    row = page.browser.find_element(By.CSS_SELECTOR, "#states input:checked")
    row.send_keys(Keys.ARROW_DOWN)
    page.until(lambda: page.text("#verdict") == "interpreted: yes", "the next state by the arrow key")
    equal(page.text("svg .state.asked .name"), "interpreted", "the arrow keys ask about another state")
    page.browser.execute_script("document.querySelector('svg [data-state=\"5\"]').dispatchEvent(new MouseEvent('click'))")
    equal(page.text("#verdict"), "retired: no", "and so does a click on its box")


def address(page):
    page.type("formula", "(hot | EX<=30 interpreted)")
    page.until(lambda: "hot" in page.browser.current_url, "the address")
    page.until(lambda: page.text("#verdict") == "retired: no" and page.yes() == {"cold", "hot", "interpreted"}, "the answer")
    kept = page.browser.current_url
    page.open(kept[len(page.address):])
    equal(page.text("#verdict"), "retired: no", "the address opens with the same question")
    equal(page.yes(), {"cold", "hot", "interpreted"}, "and the same answers")


def hostile(page):
    before = page.count("img, script")
    for text in (HOSTILE, f"state a: {HOSTILE}", "a -> b 1\n" * 3 + "__proto__ -> constructor 1\nconstructor -> __proto__ 2\ntoString: hasOwnProperty, valueOf"):
        page.put("model", text)
        page.put("formula", "true")
        said = "toString: hasOwn" if "proto" in text else "<img src=x"
        page.until(lambda: page.text("#mistakes").count(said) or page.text("#verdict") == "a: yes", "an end")
        equal(page.count("img, script"), before, f"no markup comes of {text[:40]!r}")
    page.until(lambda: page.text("#verdict") == "a: yes", "names of the script's own objects")
    equal(list(page.states()), ["a", "b", "__proto__", "constructor", "toString"], "names of the script's own objects are names")
    page.put("formula", "(hasOwnProperty & toString)")
    page.until(lambda: page.yes() == {"toString"}, "propositions of such names")
    page.put("formula", HOSTILE)
    page.until(lambda: "'<' has no place" in page.text("#mistakes"), "a hostile formula")
    equal(page.count("img, script"), before, "no markup comes of a formula")
    page.put("formula", "EX<=1 b")
    page.put("model", "\n".join(f"s{i} -> s{(i + 1) % 256} {i}" for i in range(256)) + "\nb: x")
    page.until(lambda: "257 states: 1 to 256 are allowed" in page.text("#mistakes"), "too many states")
    page.put("model", "\n".join(f"s{i} -> s{(i + 1) % 60} {i}" for i in range(60)) + "\nb: x")
    page.until(lambda: page.text("#note").startswith("No picture: the model has 61 states"), "why there is no picture")
    equal(page.count("svg"), 0, "above 60 states there is no picture, and the page says why")
    equal(len(page.states()), 61, "but the table")
    page.put("formula", "E[true U E[true U E[true U E[true U EX b]]]]")
    page.put("model", "\n".join(f"s{i} -> s{j} {j}" for i in range(256) for j in range(200)))
    page.put("formula", "E[true U s1]")
    page.until(lambda: page.text("#verdict").startswith("refused 8, SIZE") or page.text("#verdict").endswith("yes"), "the largest models are answered or refused")
    equal(page.text("#verdict").split(":")[0] in ("refused 8, SIZE", "s0"), True, "the largest models are answered or refused")


def sights(page):
    """Pictures in both themes, wide and narrow, and that nothing is wider than a small screen."""
    for theme in ("light", "dark"):
        page.theme(theme)
        for name, size in (("wide", (1400, 1000)), ("narrow", (390, 1500))):
            page.browser.execute_cdp_cmd("Emulation.setDeviceMetricsOverride", {"width": size[0], "height": size[1], "deviceScaleFactor": 1, "mobile": name == "narrow"})
            page.open()
            page.picture(f"{theme}-{name}")
            wider = page.browser.execute_script("return document.documentElement.scrollWidth - document.documentElement.clientWidth")
            equal(wider, 0, f"{theme}, {name}: the page is as wide as the screen")


def main():
    PICTURES.mkdir(parents=True, exist_ok=True)
    server = http.server.ThreadingHTTPServer(("127.0.0.1", 0), functools.partial(Quiet, directory=str(SITE)))
    threading.Thread(target=server.serve_forever, daemon=True).start()
    options = webdriver.ChromeOptions()
    for word in ("--headless=new", "--window-size=1400,1000", "--disable-gpu", "--disable-dev-shm-usage", *(["--no-sandbox"] if os.geteuid() == 0 else [])):
        options.add_argument(word)
    options.set_capability("goog:loggingPrefs", {"browser": "ALL"})
    options.binary_location = "/usr/bin/chromium"
    browser = webdriver.Chrome(service=Service("/usr/bin/chromedriver"), options=options)
    try:
        page = Page(browser, f"http://127.0.0.1:{server.server_port}/")
        for part in (first_sight, typing, damage, keyboard, address, hostile, sights):
            part(page)
        said = [entry["message"] for entry in browser.get_log("browser")]
        equal(said, [], "the browser has nothing to complain of")
    finally:
        browser.quit()
        server.shutdown()
    print(f"browser: ok; pictures in {PICTURES.relative_to(ROOT)}")


if __name__ == "__main__":
    main()

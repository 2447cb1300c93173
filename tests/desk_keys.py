"""An evening at the desk by keys alone, in a real browser: no pointer, and nothing that the page is told but keys. Every control of the page is reached
by Tab and shows that it has the focus. The season is the keeper's, and the desk's user cannot write in it."""
import json
import tempfile
from pathlib import Path

from browser import LAPTOP, Page, led
from desks import Room, files_of
from meadow.counted import Checks
from meadow.programs import built

# so many Tabs lead round the page, whatever is on it
ROUND = 150
FOCUSED = "document.activeElement.id || document.activeElement.parentElement.id"
CONTROLS = """[...document.querySelectorAll('button,input,select,canvas,a[href]')].filter(e => !e.disabled && e.getClientRects().length && !e.closest('dialog'))
  .map(e => e.id || e.parentElement.id || e.className)
"""
# a key, and what it leads to, one after the other
LOOKS = [
    ("l", "desk.layer === 'highest'"),
    ("l", "desk.layer === 'wet'"),
    ("l", "desk.layer === 'depth'"),
    ("a", "desk.arrows"),
    ("f", "desk.figuresOn && !desk.arrowsOn"),
    ("f", "!desk.figuresOn"),
    ("g", "document.body.classList.contains('grey')"),
    ("g", "!document.body.classList.contains('grey')"),
]


class Keyboard:
    """A page with nothing but its keys."""

    def __init__(self, page):
        from selenium.webdriver import ActionChains
        from selenium.webdriver.common.keys import Keys

        self.page, self.names, self.chains = page, Keys, ActionChains

    def press(self, *keys):
        """Keys to whatever has the focus, by their names or as letters, each pressed and let go."""
        chain = self.chains(self.page.driver)
        for key in keys:
            chain.send_keys(getattr(self.names, key, key))
        chain.perform()

    def with_shift(self, key):
        """A key while Shift is held."""
        named = getattr(self.names, key)
        self.chains(self.page.driver).key_down(self.names.SHIFT).send_keys(named).key_up(self.names.SHIFT).perform()

    def to(self, name):
        """Tabs until a control has the focus; whether it came there."""
        for _ in range(ROUND):
            if self.page.js(FOCUSED) == name:
                return True
            self.press("TAB")
        return False

    def instead(self, text):
        """Types a text in the place of what a field has."""
        self.chains(self.page.driver).key_down(self.names.CONTROL).send_keys("a").key_up(self.names.CONTROL).perform()
        self.press(*text)


def hold_steps(checks, page, keys):
    """A trial begun, a hatch drawn by a typed rate, forty steps and back, a mark and back to it, all back."""
    keys.press("n")
    page.wait("document.getElementById('ask').open")
    keys.instead("by keys")
    keys.press("ENTER")
    page.wait("here() && here().name === 'by keys'")
    page.idle()
    checks.hold(keys.to("pace"), "the pace of the film is not reached by Tab")
    keys.press("ARROW_DOWN")
    page.wait("document.getElementById('pace').value === '0'")
    keys.press("ESCAPE", "4", "TAB", *"320", "ENTER")
    page.wait("here().rates[3] === 320")
    page.idle()
    checks.hold(page.js(FOCUSED) == "slide4", f"after a typed rate the focus is at {page.js(FOCUSED)}")
    water = page.js("here().water")
    keys.press(" ")
    page.made(40)
    page.idle()
    keys.press("m")
    page.wait("here().marks.length === 1")
    page.idle()
    marked = page.js("here().water")
    keys.press("ESCAPE", "ARROW_RIGHT")
    page.made(41)
    page.idle()
    keys.press("b")
    page.made(40)
    page.idle()
    checks.hold(page.js("here().water") == marked, "B does not go back to the mark")
    keys.with_shift("ARROW_LEFT")
    page.made(0)
    page.idle()
    checks.hold(page.js("here().water") == water and "never made" in page.text("what"), "forty steps taken back by a key leave other water")
    keys.press(" ")
    page.made(40)
    page.idle()
    keys.press("HOME")
    page.made(0)
    page.idle()
    checks.hold(page.js("here().water") == water, "Home leaves other water")


def hold_saved(checks, page, keys, folder):
    """On to a clock that a log can name, and the opening saved: the file has what the server gives."""
    page.driver.execute_cdp_cmd("Browser.setDownloadBehavior", {"behavior": "allow", "downloadPath": str(folder)})
    keys.press("u")
    page.wait("madeOf(here()) > 0 && lastOf(here()).clock % desk.ground.run.update === 0 && !desk.inLine")
    page.idle()
    keys.press("s")
    page.wait("desk.said.startsWith('Saved') && !isQueued")
    saved = folder / f"trial-{page.js('desk.current')}.log"
    page.until(saved.exists, "the log is saved nowhere")
    status, told = page.room.get(f"/api/trial/{page.js('desk.current')}/log")
    checks.hold(status == 200 and saved.read_text() == told and "\t4\t320\n" in told, "the file that S saves is not the trial's log")


def hold_named(checks, page, keys):
    """Another name, a copy of the trial, the two side by side, paper, and a trial dropped."""
    keys.press("r")
    page.wait("document.getElementById('ask').open")
    keys.instead("Ash bed")
    keys.press("ENTER")
    page.wait("here().name === 'Ash bed' && !document.getElementById('ask').open")
    page.idle()
    first, made = page.js("desk.current"), page.js("madeOf(here())")
    keys.press("n")
    page.wait("document.getElementById('ask').open")
    keys.press("TAB", "ARROW_DOWN", "ENTER")
    page.wait(f"here() && desk.current !== {json.dumps(first)} && !document.getElementById('ask').open")
    page.idle()
    checks.hold(page.js("madeOf(here())") == made and page.js("here().water") == page.room.water(first), "a copy by keys has not the trial's steps")
    keys.press("v")
    page.wait(f"desk.beside === {json.dumps(first)} && !document.getElementById('right').hidden && !desk.inLine")
    keys.press("v")
    page.wait("desk.beside === '' && document.getElementById('right').hidden && !desk.inLine")
    page.driver.execute_script("window.print = () => { window.onPaper = (window.onPaper || 0) + 1; }")
    keys.press("p")
    page.wait("window.onPaper === 1")
    for answer, left in ((("ENTER",), 2), (("TAB", "ENTER"), 1)):
        keys.press("d")
        page.wait("document.getElementById('sure').open")
        keys.press(*answer)
        page.wait(f"!document.getElementById('sure').open && desk.order.length === {left}")
        page.idle()
    checks.hold(page.js("desk.current") == first, "after a trial is dropped another one is open")


def hold_looks(checks, page, keys):
    """Layers, arrows, figures, grey and panels; the map's squares and boards; looking back, and from there taken back; the season's tab; the help."""
    for key, state in LOOKS:
        keys.press(key)
        page.wait(state)
        page.idle()
    panels = []
    while page.js("desk.panel") != "boards" or len(panels) < 3:
        keys.press("t")
        panels.append(page.js("desk.panel"))
    checks.hold(set(panels) == {"boards", "trials", "slips"}, f"T shows {panels}")
    checks.hold(keys.to("left"), "the map is not reached by Tab")
    keys.press("ARROW_UP", "ARROW_LEFT")
    page.wait("desk.cursor !== null && !document.getElementById('tip').hidden")
    keys.press("ENTER")
    page.wait("desk.boards.length === 1")
    page.idle()
    checks.hold(keys.to("mark-of-a"), "a board's mark is not reached by Tab")
    keys.press("1", "ENTER")
    page.wait("desk.boards[0].mark === 10000")
    page.idle()
    checks.hold(keys.to("down-a"), "a board's button is not reached by Tab")
    keys.press("ENTER")
    page.wait("desk.boards.length === 0")
    made = page.js("madeOf(here())")
    keys.press(",", ",")
    page.wait(f"desk.view === {made - 2}")
    keys.press(".")
    page.wait(f"desk.view === {made - 1}")
    checks.hold("Looking back" in page.text("what") and keys.to("take-here"), "what takes back to here is not reached by Tab")
    keys.press("ENTER")
    page.made(made - 1)
    page.idle()
    for name, rates in (("shut", "every(rate => rate === 0)"), ("as-season", "join() === here().frames[0].rates.join()")):
        checks.hold(keys.to(name), f"{name} is not reached by Tab")
        keys.press("ENTER")
        page.wait(f"here().rates.{rates} && !desk.inLine")
        page.idle()
    for key in ("season", page.js("desk.order[0]")):
        checks.hold(keys.to(f"tab-of-{key}"), f"the tab of {key} is not reached by Tab")
        keys.press("ENTER")
        page.wait(f"desk.current === {json.dumps(key)}")
        page.idle()
    keys.press("?")
    page.wait("document.getElementById('keys').open")
    keys.press("ESCAPE")
    page.wait("!document.getElementById('keys').open")


def hold_round(checks, page, keys):
    """Tab comes to every control that can be used, and each shows that it has the focus."""
    wanted, found, plain = set(page.js(CONTROLS)), set(), []
    for _ in range(ROUND):
        keys.press("TAB")
        name = page.js(FOCUSED)
        found.add(name or page.js("document.activeElement.className"))
        if page.js("getComputedStyle(document.activeElement).outlineStyle") == "none" and page.js("document.activeElement !== document.body"):
            plain.append(name)
        if wanted <= found:
            break
    checks.hold(wanted <= found and len(wanted) > 40, f"Tab does not come to {sorted(wanted - found)} of {len(wanted)} controls")
    checks.hold(plain == [], f"these do not show that they have the focus: {plain}")


def main():
    checks = Checks("desk_keys")
    webdriver = led(checks)
    built("desk")
    with tempfile.TemporaryDirectory() as name, Room(Path(name) / "desk") as room:
        saved = Path(name) / "saved"
        saved.mkdir()
        checks.hold(room.run_season().returncode == 0, "the sample season does not run")
        room.read_only()
        before = files_of(room.season)
        room.start()
        with Page(webdriver, room) as page:
            page.size(*LAPTOP)
            page.open()
            keys = Keyboard(page)
            hold_steps(checks, page, keys)
            hold_saved(checks, page, keys, saved)
            hold_named(checks, page, keys)
            hold_looks(checks, page, keys)
            hold_round(checks, page, keys)
        checks.hold(files_of(room.season) == before, "the season is not as it was, to the byte and the time")
    checks.end()


if __name__ == "__main__":
    main()

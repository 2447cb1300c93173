"""An evening at the desk in a real browser: trials made and taken back by keys and by hand, an engine and the server killed, two windows, a saved log
through `hatchlog`, likely slips, steps held at the shortest, three sizes of screen, grey, print; and the season as it was, to the byte. Every wait is
for a state of the page, none for a time. It is led by Debian's chromium-driver and python3-selenium, whatever python3 comes first on the path.

`bin/test desk_page --pictures FOLDER` also leaves pictures of the evening there."""
import base64
import re
import sys
import tempfile
from pathlib import Path

from browser import LAPTOP, Page, begin_trial, draw_hatch, led
from desks import SAMPLE, Room, files_of, one_square
from meadow.counted import Checks
from meadow.maps.shades import CLASSES, grey
from meadow.programs import built, printed_of_named
from meadow.sheets.lines import answer_text
from meadow.sheets.reading import read
from png import Picture

TABLET, TABLET_ACROSS = (820, 1180), (1180, 820)
FIRST_HATCH, FIRST_LITRES = 4, 320
# a step that is apart by so much from the next class of water in grey, of 255
APART = 12
# what a wall is painted with may be as near to a shade as this
NEAR = 12


# ---- parts of the evening


def hold_season(checks, page):
    """The season is open and read only; nothing scrolls on the laptop."""
    checks.hold(page.js("desk.current") == "season" and not page.find("forty").is_enabled(), "the season can be stepped")
    checks.hold("untouched" in page.text("season") and "10:00" in page.text("what"), f"the banner says {page.text('what')!r}")
    checks.hold("proved" in page.text("keeper"), "the keeper's run does not tell its steps")
    page.shot("season")


def hold_opening(checks, page):
    """A trial, hatches by keys and by number, boards by a click and by keys."""
    from selenium.webdriver import ActionChains
    from selenium.webdriver.common.keys import Keys

    begin_trial(page, "hatches 4 and 6")
    page.keys("6")
    checks.hold(page.js("document.activeElement.id") == "slide6", "the key 6 does not go to hatch 6")
    page.keys(Keys.ARROW_UP)
    page.wait("here().rates[5] === 10")
    page.idle()
    page.keys(Keys.PAGE_UP)
    page.wait("here().rates[5] === 110")
    page.idle()
    draw_hatch(page, FIRST_HATCH, FIRST_LITRES)
    checks.hold("Ash bed" in page.text("sliders"), "hatches have no names")
    canvas = page.driver.find_element("css selector", "#left canvas")
    spot = "(() => { const p = canvas.paper; return [p.x(8.5) - canvas.clientWidth / 2, p.y(10.5) - canvas.clientHeight / 2]; })()"
    x, y = page.driver.execute_script(f"const canvas = document.querySelector('#left canvas'); return {spot}")
    ActionChains(page.driver).move_to_element_with_offset(canvas, round(x), round(y)).click().perform()
    page.wait("desk.boards.length === 1 && desk.boards[0].square === 10 * 30 + 8")
    checks.hold("row 10, column 8" in page.text("tip") and "µm" in page.text("tip"), f"under the pointer it says {page.text('tip')!r}")
    canvas.send_keys(Keys.ARROW_UP, Keys.ARROW_UP, Keys.ENTER)
    page.wait("desk.boards.length === 2")
    page.away()
    page.idle()
    checks.hold(len(page.find("board-table").find_elements("tag name", "input")) == 2, "two boards are not in the table")


# Space again as soon as the film is under way, from within the page, so that no slow machine lets it end before
STOPS_THE_FILM = """
const watch = setInterval(() => {
  if (!desk.playing || desk.view < 12) return;
  clearInterval(watch);
  document.body.dispatchEvent(new KeyboardEvent('keydown', { key: ' ', bubbles: true }));
  window.filmStopped = true;
}, 5);
"""


def hold_forty(checks, page):
    """Forty steps by a key with their film, and back: every depth and the water's name as before; the same opening gives the same water."""
    from selenium.webdriver.common.keys import Keys

    first, water = page.depths(), page.js("here().water")
    page.driver.execute_script(STOPS_THE_FILM)
    page.keys(" ")
    page.wait("window.filmStopped && madeOf(here()) === 40")
    page.idle()
    seen = page.js("desk.view")
    checks.hold(0 < seen < 40 and "Looking back" in page.text("what"), f"the film does not stop where it is: {seen}, {page.text('what')!r}")
    checks.hold(not page.find("slide1").is_enabled(), "hatches can be drawn while looking back")
    page.shot("looking-back")
    page.keys(Keys.ESCAPE)
    page.wait("desk.view === 40")
    page.idle()
    page.shot("forty")
    after = page.depths()
    checks.hold(after != first, "no water moves")
    checks.hold(page.js("here().frames.every(f => f.depths.every((d, s) => (d < 0) === (desk.ground.marks[s] === 'x')))"), "water is in a wall")
    checks.hold(page.js("here().frames.every(f => f.account.off === 0)") and "✓" in page.text("balanced"), "an account is open")
    checks.hold(page.js("here().frames.every((f, k, all) => !k || f.clock > all[k - 1].clock)"), "clocks do not rise")
    checks.hold("40 can go back at once" in page.text("stands"), f"the timeline says {page.text('stands')!r}")
    page.keys(Keys.SHIFT, Keys.ARROW_LEFT)
    page.made(0)
    page.idle()
    checks.hold(page.depths() == first and page.js("here().water") == water, "forty steps taken back leave other water")
    checks.hold(page.js("here().rates")[FIRST_HATCH - 1] == FIRST_LITRES and "never made" in page.text("what"), "rates are not as before the steps")
    page.keys(" ")
    page.made(40)
    checks.hold(page.depths() == after, "the same opening gives other water")
    page.js("(document.getElementById('pace').value = '0')")
    page.keys(Keys.ESCAPE)
    page.idle()
    return first, water


def hold_mark(checks, page):
    """A mark, more steps by another opening, and back to the mark."""
    page.keys("m")
    page.wait("here().marks.length === 1")
    page.idle()
    water = page.js("here().water")
    draw_hatch(page, FIRST_HATCH, 0)
    draw_hatch(page, 9, 400)
    page.click("forty")
    page.made(80)
    page.idle()
    page.shot("eighty")
    page.click("to-mark")
    page.made(40)
    checks.hold(page.js("here().water") == water, "back at the mark the water is another")
    rates = page.js("here().rates")
    checks.hold((rates[FIRST_HATCH - 1], rates[8]) == (0, 400), "back at the mark hatches run otherwise than when the step after it began")
    return water


def hold_kills(checks, page, water):
    """An engine killed, the server killed: the page says so, and nothing is lost."""
    page.room.kill_engines()
    page.click("forty")
    page.made(80)
    page.idle()
    checks.hold("started again" in page.told(), "the page does not say that the engine was started again")
    killed = page.depths()
    page.click("back-forty")
    page.made(40)
    checks.hold(page.js("here().water") == water, "after a kill a take-back leaves other water")
    page.click("forty")
    page.made(80)
    checks.hold(page.depths() == killed, "with and without the kill the water is another")
    last = page.js("here().water")
    page.room.kill()
    page.wait("desk.offline && !document.getElementById('trouble').hidden")
    checks.hold("Nothing is lost" in page.told(), f"without a server the page says {page.told()!r}")
    page.room.start()
    page.wait("!desk.offline && here() && madeOf(here()) === 80 && !desk.inLine")
    page.idle()
    checks.hold(page.js("here().water") == last, "the journal gives other water")


def hold_windows(checks, page):
    """A step in one window is seen in the other, and a stale request is made once."""
    one = page.driver.current_window_handle
    page.driver.switch_to.new_window("tab")
    page.size(*LAPTOP)
    page.open()
    page.made(80)
    page.click("one")
    page.made(81)
    page.driver.switch_to.window(one)
    page.wait("madeOf(here()) === 81 && !desk.inLine")
    page.idle()
    page.driver.execute_script("here().serial -= 1; makeSteps(1)")
    page.wait("!desk.inLine && here().serial === here().latest")
    page.idle()
    checks.hold(page.js("madeOf(here())") == 81 and "another window" in page.told(), "a stale request is made, or not told")
    page.js("trouble('A message', 'that stays')")
    page.click("trouble")
    page.wait("document.getElementById('trouble').hidden")
    for handle in page.driver.window_handles:
        if handle != one:
            page.driver.switch_to.window(handle)
            page.driver.close()
    page.driver.switch_to.window(one)


WAS_WET = """
const square = arguments[0], trial = { frames: here().frames.slice(0, 2).map(frame => ({ ...frame, depths: frame.depths.slice() })) };
Object.assign(trial.frames[0], { clock: 30000 }).depths[square] = 26000;
trial.frames[1].depths[square] = 0;
return squareText(trial, trial.frames[1], square);
"""


def hold_layers(checks, page):
    """The other layers, arrows and figures, each told beside the map; a board that is dry now says how high the water was."""
    page.click("arrows")
    page.wait("desk.arrows && desk.arrows.length > 50")
    page.shot("arrows")
    page.keys("a")
    for layer in ("highest", "wet"):
        page.keys("l")
        page.wait(f"desk.layer === '{layer}' && !isQueued")
        checks.hold(page.js("document.querySelector('#legend h3').textContent") == page.js("layerNow().title"), f"the legend is not that of {layer}")
        dry = "layerNow().values(here(), frameInView(here())).every((value, square) => (value < 0) === (desk.ground.marks[square] === 'x'))"
        checks.hold(page.js(dry), f"a wall has {layer}")
        page.shot(layer)
    page.keys("l", "f")
    page.wait("desk.layer === 'depth' && desk.figuresOn && !isQueued")
    page.keys("f")
    dry = page.js("here().frames[0].depths.findIndex((d, s) => d >= 0)")
    said = page.driver.execute_script(WAS_WET, dry)
    checks.hold(said == "dry now; highest 2.6 cm at 0:30", f"a square that was wet is said to be {said!r}")


def hold_beside(checks, page):
    """A second trial beside the first, compared by the clock, and both in the table of trials."""
    begin_trial(page, "only hatch 9, wide, all the others shut")
    page.click("shut")
    page.idle()
    draw_hatch(page, 9, 900)
    for count in (40, 80):
        page.click("forty")
        page.made(count)
    page.driver.execute_script("const b = document.getElementById('beside'); b.value = 'A'; b.onchange({ target: b })")
    page.wait("desk.beside === 'A' && !document.getElementById('right').hidden")
    page.idle()
    clocks = page.js("[frameInView(here()).clock, frameInView(desk.trials.A).clock, lastOf(desk.trials.A).clock]")
    checks.hold(clocks[1] <= clocks[0] or clocks[1] == clocks[2], f"the trial beside is shown at another clock: {clocks}")
    page.shot("beside")
    page.away()
    page.keys("g")
    page.shot("beside-grey")
    page.keys("g")
    page.driver.execute_script("const b = document.getElementById('beside'); b.value = ''; b.onchange({ target: b })")
    page.wait("desk.beside === ''")
    page.idle()
    page.keys("t")
    page.wait("desk.panel === 'trials' && !isQueued")
    rows = page.text("trials").splitlines()
    checks.hold(len(rows) == 3 and all("m²" in row and "m³" in row for row in rows[1:]), f"the table of trials is {rows}")
    page.shot("trials")
    page.driver.execute_script("showPanel('boards')")


def hold_log(checks, page):
    """A saved log, by `hatchlog` from the sheet alone, gives the desk's depths."""
    begin_trial(page, "for a log")
    for litres in (200, 350):
        draw_hatch(page, 7, litres)
        page.keys("u")
        page.wait("lastOf(here()).clock % desk.ground.run.update === 0 && !desk.inLine && !desk.busy")
        page.idle()
    log = page.driver.execute_async_script(
        "const done = arguments[0]; call(`/api/trial/${desk.current}/log`).then(a => a.text()).then(done, e => done(JSON.stringify(e)))"
    )
    path = page.room.folder / "saved.log"
    path.write_text(log)
    frame = page.js("(({ out, soaked, steps, clock }) => ({ outflow: out, soaked, steps, clock }))(lastOf(here()))")
    columns = page.js("desk.ground.columns")
    depths = {divmod(square, columns): depth for square, depth in enumerate(page.depths()) if depth >= 0}
    told = printed_of_named("hatchlog", page.room.season / "season.sheet", path)
    checks.hold(told.endswith(answer_text(depths, frame)), "hatchlog gives a saved log other depths than the page shows")
    page.click("save")
    page.wait("desk.said.startsWith('Saved') && !isQueued")
    page.idle()
    page.driver.execute_script("takeBack(1e6)")
    page.made(0)
    page.idle()


def hold_far(checks, page, first, water):
    """More steps than are kept: warned before, and all taken back."""
    kept = page.js("here().frames[0].room")
    made = 0
    while made <= kept:
        warned = page.text("stands")
        page.click("forty")
        made += 40
        page.made(made)
        page.idle()
    checks.hold("forgotten" in warned and "more step" in warned, f"before the oldest is forgotten the page says {warned!r}")
    checks.hold("worked again" in page.text("stands"), f"after the oldest is forgotten the page says {page.text('stands')!r}")
    page.shot("far")
    page.click("all-back")
    page.made(0)
    page.idle()
    checks.hold(page.depths() == first and page.js("here().water") == water, "all taken back leave other water than the season's")


# ---- what is seen


# the edges of the walls on the screen; where the legend's shades are
WALLS = """
const canvas = document.querySelector('#left canvas'), { left, top } = canvas.getBoundingClientRect(), { x, y } = canvas.paper;
const walls = [...desk.ground.marks].map((mark, square) => mark === 'x' ? square : -1).filter(square => square >= 0);
const rows = walls.map(rowOf), columns = walls.map(columnOf);
const last = [left + x(Math.max(...columns) + 1) - 2, top + y(Math.max(...rows) + 1) - 2];
return [left + x(Math.min(...columns)) + 2, top + y(Math.min(...rows)) + 2, ...last];
"""
SWATCHES = """
const boxes = [...document.querySelectorAll('#legend .classes svg')].map(swatch => swatch.getBoundingClientRect());
return boxes.map(({ left, top }) => [left + 4, top + 4]);
"""


def shades_in(picture, box):
    """The colours of a part of a picture."""
    left, top, right, foot = (round(edge) for edge in box)
    return {picture.at(x, y) for x in range(left, right) for y in range(top, foot)}


def hold_walls(checks, page):
    """No pixel of a wall has a shade of water; in grey each class of water is darker than the one before by a clear step."""
    box = page.driver.execute_script(WALLS)
    water = [tuple(int(colour[at : at + 2], 16) for at in (1, 3, 5)) for _, colour, _ in CLASSES]
    found = shades_in(Picture(page.shot("colour")), box)
    near = [shade for shade in found for other in water if max(abs(a - b) for a, b in zip(shade, other)) <= NEAR and max(shade) - min(shade) > NEAR]
    checks.hold(found and not near, f"a wall has pixels in shades of water: {near[:3]}")
    page.away()
    page.keys("g")
    page.wait("document.body.classList.contains('grey')")
    swatches = page.driver.execute_script(SWATCHES)
    picture = Picture(page.shot("grey"))
    shades = [picture.at(round(x), round(y)) for x, y in swatches]
    checks.hold(all(max(shade) - min(shade) <= 2 for shade in shades), f"grey is not grey: {shades}")
    levels = [shade[0] for shade in shades[1:]]
    checks.hold(all(a - b >= APART for a, b in zip(levels, levels[1:])), f"classes of water are not apart in grey: {levels}")
    checks.hold(all(abs(level - grey(colour)) < 30 for level, (_, colour, _) in zip(levels[1:], CLASSES)), "the page's grey is not the map's")
    page.keys("g")
    page.wait("!document.body.classList.contains('grey')")


CONTRAST = """
const linear = part => part / 255 <= .03928 ? part / 255 / 12.92 : ((part / 255 + .055) / 1.055) ** 2.4;
const light = ([red, green, blue]) => .2126 * linear(red) + .7152 * linear(green) + .0722 * linear(blue);
const numbers = colour => (colour.match(/[\\d.]+/g) || []).map(Number);
const behind = e => {
  for (; e; e = e.parentElement) {
    const colour = numbers(getComputedStyle(e).backgroundColor);
    if (colour.length === 3 || colour[3] > .9) return colour;
  }
  return [255, 255, 255];
};
const found = [];
for (const e of document.querySelectorAll('body *')) {
  const own = [...e.childNodes].some(n => n.nodeType === 3 && n.textContent.trim()), style = getComputedStyle(e);
  if (!own || !e.getClientRects().length || style.visibility === 'hidden' || e.closest(':disabled,option,svg,.skip,script')) continue;
  const [a, b] = [light(numbers(style.color)), light(behind(e))].sort((x, y) => y - x), ratio = (a + .05) / (b + .05);
  if (ratio < 4.5) found.push(`${e.tagName}#${e.id}.${e.className} ${ratio.toFixed(2)} ${e.textContent.trim().slice(0, 20)}`);
}
return found;
"""
UNNAMED = """
return [...document.querySelectorAll('button,input,select,canvas,[role=tab],[role=progressbar]')].filter(e =>
  !(e.getAttribute('aria-label') || e.textContent.trim() || (e.labels && e.labels.length) || e.title)).map(e => e.outerHTML.slice(0, 90));
"""


def hold_for_all(checks, page):
    """Text is seen against what is behind it, every control has a name, and the focus stays where a key was pressed."""
    from selenium.webdriver.common.keys import Keys

    checks.hold(page.driver.execute_script(CONTRAST) == [], f"text of too little contrast: {page.driver.execute_script(CONTRAST)}")
    checks.hold(page.driver.execute_script(UNNAMED) == [], f"controls without a name: {page.driver.execute_script(UNNAMED)}")
    for key in ("A", "B"):
        page.find(f"tab-of-{key}").send_keys(Keys.ENTER)
        page.wait(f"desk.current === '{key}'")
        page.idle()
        checks.hold(page.js("document.activeElement.id") == f"tab-of-{key}", "a tab that is opened by Enter loses the focus")
    page.away()
    page.keys("?")
    page.wait("document.getElementById('keys').open")
    checks.hold("never made" in page.text("keys") and "What is not" in page.text("keys"), "the help does not say what is proved and what is not")
    checks.hold(page.driver.execute_script(CONTRAST) == [], "the help has text of too little contrast")
    page.shot("help")
    page.driver.execute_script("document.getElementById('keys').close()")


def hold_sizes(checks, page):
    """Nothing scrolls on the laptop; on a tablet, either way up, nothing scrolls sideways and buttons can be hit by a finger."""
    wide, high = LAPTOP
    scrolled = page.js("[document.documentElement.scrollWidth, document.documentElement.scrollHeight]")
    checks.hold(scrolled == [wide, high], f"the page scrolls on the laptop: {scrolled}")
    checks.hold(page.js("(e => e.scrollWidth <= e.clientWidth)(document.querySelector('#what > span'))"), "the banner's sentence is cut")
    for name, (wide, high) in (("tablet", TABLET), ("tablet-across", TABLET_ACROSS)):
        page.size(wide, high, mobile=True)
        page.wait(f"innerWidth === {wide} && !isQueued")
        page.idle()
        checks.hold(page.js("document.documentElement.scrollWidth") <= wide, f"the page scrolls sideways on a {name}")
        heights = page.js("[...document.querySelectorAll('#transport button, header button')].map(e => e.getBoundingClientRect().height)")
        low = [height for height in heights if height < 36]
        checks.hold(low == [], f"buttons of a {name} are low: {low}")
        page.shot(name)
    page.size(*LAPTOP)
    page.wait(f"innerWidth === {LAPTOP[0]} && !isQueued")


def hold_print(checks, page):
    """A printed sheet has its date, the sheet's hash and the settings."""
    told = page.driver.execute_cdp_cmd("Page.printToPDF", {"preferCSSPageSize": True, "printBackground": True})
    paper = base64.b64decode(told["data"])
    page.driver.execute_cdp_cmd("Emulation.setEmulatedMedia", {"media": "print"})
    page.wait("getComputedStyle(document.getElementById('paper-head')).display === 'block'")
    words = page.text("paper-head")
    dated = re.search(r"Printed \d\d/\d\d/\d{4}", words)
    checks.hold(page.js("desk.ground.sheet") in words and "update time" in words and dated, f"a printed sheet says {words!r}")
    checks.hold("Ash bed" in words and page.js("here().water") in words, "a printed sheet has no hatches, or no water's name")
    sheets = len(re.findall(rb"/Type\s*/Page\b", paper))
    checks.hold(1 <= sheets <= 2, f"a printed map with its boards takes {sheets} sheets")
    if page.folder:
        (Path(page.folder) / "desk-print.pdf").write_bytes(paper)
    page.driver.execute_cdp_cmd("Emulation.setEmulatedMedia", {"media": ""})
    page.wait("getComputedStyle(document.getElementById('paper-head')).display === 'none'")


def hold_motion(checks, page):
    """Who wants little motion sees no film."""
    page.driver.execute_cdp_cmd("Emulation.setEmulatedMedia", {"features": [{"name": "prefers-reduced-motion", "value": "reduce"}]})
    page.js("(document.getElementById('pace').value = '4')")
    page.click("forty")
    page.made(40)
    checks.hold(page.js("desk.playing === null && desk.view === 40"), "there is a film where none is wanted")
    page.driver.execute_cdp_cmd("Emulation.setEmulatedMedia", {"features": []})
    page.js("(document.getElementById('pace').value = '0')")
    page.idle()


def slipped_season(room):
    """The season with a hole in its survey and a shortest step that is too long, and no run yet."""
    sheet, end = read((SAMPLE / "season.sheet").read_text())
    sheet.squares[20, 10]["bed"] = 0
    sheet.run["shortest"] = 5_000
    (room.season / "season.sheet").write_text(sheet.text(end))


def hold_slips(checks, page):
    """Likely slips stand on the page before the first step, on the map too; steps held at the shortest are told in red."""
    page.open()
    checks.hold("bed 0 at row 20, column 10" in page.text("slips"), "a hole in the survey is not told before the first step")
    begin_trial(page, "with a slip")
    checks.hold(page.find("slips").is_displayed() and "likely a slip" in page.text("legend"), "likely slips are not told before a trial's first step")
    page.shot("slips")
    draw_hatch(page, 5, 900)
    page.js("(document.getElementById('pace').value = '0')")
    page.click("forty")
    page.made(40)
    page.wait("desk.cautions && !isQueued")
    checks.hold("held at the shortest" in page.text("held") and page.find("boards").is_displayed(), "steps held at the shortest are not told")
    checks.hold(page.js("getComputedStyle(document.getElementById('held')).backgroundColor") == "rgb(176, 0, 32)", "they are not told in red")
    page.shot("held")


def hold_refused(checks, page):
    """A refused step is said in words, with what to do, and Esc puts the message away."""
    from selenium.webdriver.common.keys import Keys

    page.open()
    begin_trial(page, "too much")
    draw_hatch(page, 1, 60_000)
    page.js("(document.getElementById('pace').value = '0')")
    page.click("forty")
    page.made(1)
    page.idle()
    said = page.told()
    checks.hold("number 8" in said and "100 m deep" in said and "draw the hatches less" in said, f"of a refused step the page says {said!r}")
    page.shot("refused")
    page.js("trouble('A message', 'that stays')")
    page.keys(Keys.ESCAPE)
    page.wait("document.getElementById('trouble').hidden")


def evening(checks, webdriver, folder, pictures):
    """The whole evening over one season, and a short one over a season with slips."""
    with Room(Path(folder) / "desk") as room:
        checks.hold(room.run_season().returncode == 0, "the sample season does not run")
        room.read_only()
        checks.hold(room.lets_write() == [], f"the desk's user can write in the season's folder by {room.lets_write()}")
        before = files_of(room.season)
        room.start()
        with Page(webdriver, room, pictures) as page:
            page.size(*LAPTOP)
            page.open()
            hold_season(checks, page)
            hold_opening(checks, page)
            first, water = hold_forty(checks, page)
            marked = hold_mark(checks, page)
            hold_kills(checks, page, marked)
            hold_windows(checks, page)
            hold_layers(checks, page)
            hold_beside(checks, page)
            hold_walls(checks, page)
            hold_for_all(checks, page)
            hold_print(checks, page)
            hold_sizes(checks, page)
            hold_log(checks, page)
            hold_far(checks, page, first, water)
            hold_motion(checks, page)
            checks.hold("untouched" in page.text("season"), "the page does not say that the season is untouched")
            checks.hold(files_of(room.season) == before, "the season is not as it was, to the byte and the time")
            logged = [entry["message"] for entry in page.driver.get_log("browser") if entry["level"] == "SEVERE"]
            faults = [message for message in logged if "net::ERR_" not in message and " 409 " not in message]
            checks.hold(faults == [], f"the browser complains: {faults[:3]}")
    with Room(Path(folder) / "slips") as room:
        slipped_season(room)
        room.start()
        with Page(webdriver, room, pictures) as page:
            page.size(*LAPTOP)
            hold_slips(checks, page)
    with Room(Path(folder) / "refused", one_square(Path(folder) / "one")) as room:
        room.start()
        with Page(webdriver, room, pictures) as page:
            page.size(*LAPTOP)
            hold_refused(checks, page)


def main():
    checks = Checks("desk_page")
    webdriver = led(checks)
    pictures = sys.argv[2] if sys.argv[1:2] == ["--pictures"] else None
    built("desk", "hatchlog")
    with tempfile.TemporaryDirectory() as folder:
        evening(checks, webdriver, folder, pictures)
    checks.end()


if __name__ == "__main__":
    main()

"""tools/boards.py and the display panel that it draws: a staff for each board in the list's order, whose water, mark and pointer stand where the
depths say and whose figures say the same; large enough and in clear shades of grey; at every number of boards; and what is no answer to this
sheet and these boards is refused in words."""
import re
import subprocess
import sys
import tempfile
from pathlib import Path
from xml.etree import ElementTree as tree

from damaged import BASES, field
from meadow.boards.answers import Shown, answered, shown_in, shown_of
from meadow.boards.texts import boards_in, written
from meadow.boards.watching import MOST_BOARDS, Board
from meadow.counted import Checks
from meadow.maps.shades import grey
from meadow.maps.staffs import ACROSS, BOLD, EDGE, HIGH, INK, LABEL, PAPER, WATER, WIDE, staffs_svg, top_of
from meadow.programs import TOP
from meadow.sheets.grounds import worked
from meadow.sheets.lines import Unreadable, refused_text
from meadow.sheets.pairs import pair_of
from meadow.sheets.reading import read
from meadow.words.units import graduation

TOOL = TOP / "tools" / "boards.py"
SHEET, BOARDS = (TOP / "samples" / "winter" / f"3-christmas.{kind}" for kind in ("sheet", "boards"))
DOCUMENT = BASES["document 01"]
# shades of grey that are told apart from two metres differ by so much of 255
CLEAR = 60
# figures of the sample, by hand: the place of a board in the list, and its texts
FIGURES = {
    0: ["0, 1", "now", "3.2 mm", "highest", "10 cm", "mark", "9.0 cm", "at the start"],
    4: ["6, 1", "now", "44 cm", "highest", "63 cm", "mark", "40 cm", "5 min 20 s"],
    10: ["7, 6", "now", "9.4 cm", "highest", "21 cm", "mark", "25 cm", "never"],
    15: ["4, 6", "now", "8.6 mm", "highest", "2.1 cm", "mark", "2.5 cm", "never"],
}
# the least of a staff's round tops that leaves room above the deepest of its depths
TOPS = {0: 1, 1: 2, 9: 10, 10: 20, 95_238: 100_000, 95_239: 200_000, 900_000: 1_000_000, 1_000_000: 2_000_000, 100_000_000: 200_000_000}
GRADUATIONS = {0: "0", 5: "5 µm", 25: "25 µm", 2_500: "2.5 mm", 10_000: "1 cm", 500_000: "50 cm", 1_000_000: "1 m", 2_500_000: "2.5 m"}


def drawn(*words):
    """What the tool does."""
    return subprocess.run([sys.executable, TOOL, *words], capture_output=True, text=True)


def panel_of(sheet, boards):
    """The panel of a sheet and boards by documents 01 and 02 in Python."""
    text = written(boards)
    told = answered(sheet.encode("ascii"), text.encode("ascii"))
    return staffs_svg(shown_of(sheet, text, told), pair_of(*read(sheet), worked(sheet)), "a")


def staffs_in(svg):
    """The staffs of a panel, in their order."""
    return [part for part in tree.fromstring(svg).iter() if part.get("class") == "staff"]


def part_of(staff, kind):
    """The part of a staff of a class."""
    (found,) = [part for part in staff.iter() if part.get("class") == kind]
    return found


def texts_in(staff):
    """The texts of a staff, but for its graduation."""
    return [part.text for part in staff.iter() if part.tag.endswith("}text") and part.get("class") != "scale"]


def height_of(part):
    """Where a path begins, or where a box does."""
    return float(part.get("y") or re.match(r"M[\d.]+ ([\d.]+)", part.get("d"))[1])


def hold_sample(checks):
    """The tool's picture of the sample is the one of the pages; its figures and heights are those of the answers."""
    made = drawn(SHEET, BOARDS)
    stored = (TOP / "docs" / "pictures" / "boards.svg").read_text(encoding="utf-8")
    checks.hold(made.returncode == 0 and made.stdout == stored, f"tools/boards.py does not draw docs/pictures/boards.svg: {made.stderr!r}")
    shown, now = shown_in(Path(f"{BOARDS}.out").read_text()), worked(SHEET.read_text()).depths
    staffs = staffs_in(stored)
    if not checks.hold(len(staffs) == len(shown.boards) == MOST_BOARDS, f"the sample has {len(staffs)} staffs"):
        return
    for at, (staff, board) in enumerate(zip(staffs, shown.boards)):
        depth, top = now[board[:2]], top_of((board.mark, board.highest, now[board[:2]]))
        foot = height_of(part_of(staff, "water")) + float(part_of(staff, "water").get("height"))
        for kind, amount in (("water", depth), ("mark", board.mark), ("highest", board.highest)):
            wanted = foot - HIGH * amount / top
            checks.hold(abs(height_of(part_of(staff, kind)) - wanted) < 0.2, f"board {at + 1}: its {kind} stands elsewhere")
        dark = [part.get("class") for part in staff.iter() if part.get("class") in ("over", "under")]
        checks.hold(dark == ["over" if depth >= board.mark else "under"], f"board {at + 1}: its head is {dark}")
        scale = [part.text for part in staff.iter() if part.get("class") == "scale"]
        checks.hold(scale == [graduation(top), graduation(top / 2), "0"], f"board {at + 1}: its graduation is {scale}")
    for at, wanted in FIGURES.items():
        checks.hold(texts_in(staffs[at]) == wanted, f"board {at + 1} says {texts_in(staffs[at])}, not {wanted}")
    told = [staff[0].text for staff in staffs]
    wanted = "board 5, row 6, column 1: now 44 cm, highest 63 cm, mark 40 cm, first reached: 5 min 20 s"
    checks.hold(told[4] == wanted, f"board 5 tells a pointer {told[4]!r}")


def hold_tops(checks):
    """Graduations, by hand: their tops, and how their heights are said."""
    for deepest, top in TOPS.items():
        checks.hold(top_of((0, deepest, 0)) == top, f"a staff for {deepest} µm has the top {top_of((0, deepest, 0))}, not {top}")
    for amount, words in GRADUATIONS.items():
        checks.hold(graduation(amount) == words, f"{amount} µm on a staff are said {graduation(amount)!r}, not {words!r}")


def hold_letters(checks):
    """Figures of the sample are large, and every text of any panel stays within its staff's place."""
    sample = panel_of(SHEET.read_text(), boards_in(BOARDS.read_text()))
    wide = panel_of(DOCUMENT, [(0, 0, 100_000_000), (0, 1, 99), (0, 0, 12_345), (0, 1, 12_345_678)])
    for svg, least in ((sample, 26), (wide, LABEL)):
        for staff in staffs_in(svg):
            for part in (part for part in staff.iter() if part.get("font-weight") == "bold"):
                size = int(part.get("font-size"))
                checks.hold(size >= least, f"{part.text} has letters of {size}")
                checks.hold(BOLD * size * len(part.text) <= WIDE - 2 * EDGE, f"{part.text} is wider than its place")
    for one, other in ((WATER, PAPER), (WATER, INK), (INK, PAPER)):
        checks.hold(abs(grey(one) - grey(other)) >= CLEAR, f"in grey {one} and {other} are hard to tell apart")


def hold_many(checks):
    """Panels of every number of boards: as many staffs, in rows of eight, within the panel; one of sixteen is as large as a screen."""
    for many in range(MOST_BOARDS + 1):
        panel = tree.fromstring(panel_of(DOCUMENT, [(0, at % 2, at) for at in range(many)]))
        size = int(panel.get("width")), int(panel.get("height"))
        heads = [part for part in panel.iter() if part.get("class") in ("over", "under")]
        columns = {float(part.get("x")) for part in heads}
        checks.hold((len(heads), len(columns)) == (many, min(many, ACROSS)), f"{many} boards: {len(heads)} staffs in {len(columns)} columns")
        right = max((float(part.get("x")) + float(part.get("width")) for part in heads), default=0)
        low = max(float(part.get("y")) for part in panel.iter() if part.tag.endswith("}text"))
        checks.hold(right <= size[0] and low <= size[1], f"{many} boards go beyond a panel of {size}")
    checks.hold(size == (1920, 1080), f"a panel of sixteen is {size}")


def hold_dry(checks):
    """Dry boards, and a name that has letters of its own in SVG."""
    sheet = field(3, "depth", 0)(DOCUMENT)
    (staff,) = staffs_in(panel_of(sheet, [(0, 0, 0)]))
    checks.hold(texts_in(staff) == ["0, 0", "now", "dry", "highest", "0 mm", "mark", "0 mm", "at the start"], f"a dry board says {texts_in(staff)}")
    shown = shown_in(answered(DOCUMENT.encode("ascii"), b""))
    titled = staffs_svg(shown, pair_of(*read(DOCUMENT), worked(DOCUMENT)), "<a & b>")
    texts = [part.text for part in tree.fromstring(titled).iter() if part.get("class") == "title"]
    checks.hold(texts == ["<a & b>: 0 boards after 1 s"], f"the panel's title is {texts}")


def refusal_of(call):
    """What a call refuses in words; nothing where it does not."""
    try:
        call()
    except Unreadable as fault:
        return str(fault)
    return ""


def hold_pairs(checks):
    """What is no answer to these boards, or to this sheet, or not of the same run as the water at the end."""
    text = written([(0, 1, 31), (0, 0, 2_000)])
    told = answered(DOCUMENT.encode("ascii"), text.encode("ascii"))
    line, rest = told.split("\n", 1)
    wrong = {
        "that of other boards": [told.replace("\t31\t31\t", "\t30\t31\t"), told.replace("board\t0\t1", "board\t0\t0"), rest],
        "a line is missing": [told.replace("steps\t1\n", ""), told[:-1], told + line + "\n", told + "clock\t1000\n"],
        "no line of what boards prints": [told + "out\t5\n", told.replace("steps\t1", "steps"), "x\n" + told],
        "no number of what boards prints": [told.replace("\t31\t31\t", "\t31\tx\t"), told.replace("clock\t1000", "clock\t-")],
        "cannot be": [told.replace("\t1000\t-\n", "\t1000\t7\n"), *(told.replace("\t31\t31\t1000", f"\t31\t31\t{first}") for first in ("-", "1001"))],
        "its clock is 2000, the sheet's end 1000": [told.replace("clock\t1000", "clock\t2000")],
        "boards refuses this: refused\t13\t0; tools/why.py SHEET --boards BOARDS says why": [refused_text(13, 0)],
    }
    checks.hold(refusal_of(lambda: shown_of(DOCUMENT, text, told)) == "", "the answer to these boards is refused")
    for why, answers in wrong.items():
        for answer in answers:
            said = refusal_of(lambda: shown_of(DOCUMENT, text, answer))
            checks.hold(why in said, f"{answer!r} is taken, or refused otherwise: {said!r}")
    pair = pair_of(*read(DOCUMENT), worked(DOCUMENT))
    boards = shown_of(DOCUMENT, text, told).boards
    low = [Board(0, 1, 31, 30, None), *boards[1:]]
    for shown, why in ((Shown(boards, 2, 1_000), "their steps or clocks differ"), (Shown(low, 1, 1_000), "square 0 1 ends above its highest")):
        said = refusal_of(lambda: staffs_svg(shown, pair, "a"))
        checks.hold(why in said, f"{why}: {said!r}")


def hold_tool(checks):
    """The tool says what is wrong in one line, after a line of usage where its words are wrong, with its status."""
    with tempfile.TemporaryDirectory() as folder:
        bad = Path(folder) / "bad.boards"
        bad.write_text("0\t9\t5\n")
        for words, status, why in (
            ((SHEET, bad), 1, "boards: boards refuses this: refused\t13\t0; tools/why.py SHEET --boards BOARDS says why\n"),
            ((SHEET, Path(folder) / "none"), 1, "No such file"),
            ((SHEET,), 2, "usage: boards.py [-h] SHEET BOARDS\n"),
        ):
            made = drawn(*words)
            right = made.returncode == status and made.stdout == "" and why in made.stderr and made.stderr.count("\n") == status
            checks.hold(right, f"{words}: status {made.returncode}, {made.stderr!r}")


def main():
    checks = Checks("staffs")
    hold_sample(checks)
    hold_tops(checks)
    hold_letters(checks)
    hold_many(checks)
    hold_dry(checks)
    hold_pairs(checks)
    hold_tool(checks)
    checks.end()


if __name__ == "__main__":
    main()

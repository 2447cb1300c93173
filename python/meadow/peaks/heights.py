"""What the program `highest` prints of a sheet: how deep each square ever was, and when first; then the totals as `meadow` prints them."""
from ..rule.refusals import Refused, check
from ..sheets.lines import ANSWER_LINES, DEPTH, TOTALS, Field, Unreadable, line_of, refused_text, values_of
from ..sheets.pairs import hold_squares
from ..sheets.reading import begun, meadow_of, read
from .runs import Peak, peaks_over

# an answer's lines, but for a square's: its highest depth, and the clock of the first state that had it
HEIGHT_LINES = {**ANSWER_LINES, DEPTH: [Field("row"), Field("column"), Field("highest"), Field("reached")]}


def heights_text(peaks, totals):
    """The text of peaks by place and totals by name."""
    squares = ({"row": row, "column": column, "highest": peak.depth, "reached": peak.clock} for (row, column), peak in sorted(peaks.items()))
    lines = [*(line_of(DEPTH, values, HEIGHT_LINES) for values in squares), *(line_of(kind, totals, HEIGHT_LINES) for kind in TOTALS)]
    return "".join(line + "\n" for line in lines)


def answered(text):
    """What `highest` prints of a text of bytes."""
    try:
        meadow, end = begun(text)
        peaks, steps = peaks_over(meadow, end)
    except Refused as refused:
        return refused_text(refused.number, refused.line)
    return heights_text(peaks, {"outflow": meadow.outflow, "soaked": meadow.soaked, "steps": steps, "clock": meadow.clock})


class Heights:
    """What `highest` printed of a sheet, read back: peaks by place, the same depths alone, and the totals by name. A refusal is none."""

    def __init__(self, text):
        self.peaks, self.totals = {}, {}
        for line in text.splitlines():
            kind, *fields = line.split("\t")
            if kind not in (DEPTH, *TOTALS) or len(fields) != len(HEIGHT_LINES[kind]) or not all(field.isdecimal() for field in fields):
                raise Unreadable(f"this is no line of what highest prints: {line}")
            values = values_of(kind, fields, HEIGHT_LINES)
            if kind == DEPTH:
                self.peaks[values["row"], values["column"]] = Peak(values["highest"], values["reached"])
            else:
                self.totals.update(values)
        if len(self.totals) != len(TOTALS) or text != heights_text(self.peaks, self.totals):
            raise Unreadable("this is not what highest prints: a line is missing, doubled, out of order or not ended")
        self.depths = {place: peak.depth for place, peak in self.peaks.items()}


def heights_of(text, told):
    """What `highest` printed of a sheet's text; what was printed of another sheet is refused."""
    sheet, end = read(text)
    check(meadow_of(sheet), end)
    heights = Heights(told)
    hold_squares(sheet, heights)
    if heights.totals["clock"] != end:
        raise Unreadable(f"the answer is another sheet's: its clock is {heights.totals['clock']}, the sheet's end {end}")
    return heights

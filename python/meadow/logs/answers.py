"""Document 02, #107: what the program `hatchlog` prints, of the texts of a sheet and a log and of the two names at its standard input."""
from ..rule.refusals import Refused, check
from ..sheets.files import both_opened
from ..sheets.lines import refused_text
from ..sheets.reading import MOST_BYTES, meadow_of, read
from .entries import entries_in
from .evening import Evening


def evening_of(sheet_text):
    """The evening of a sheet's text before the log's first line; or a refusal, as `meadow` reads a sheet."""
    sheet, end = read(sheet_text)
    check(meadow_of(sheet), end)
    return Evening(sheet)


def answered(sheet_bytes, log_bytes):
    """What is printed of the bytes of two files: what was printed before a refusal stands."""
    told = []
    try:
        if len(sheet_bytes) > MOST_BYTES or len(log_bytes) > MOST_BYTES:
            raise Refused(12, 0)
        evening = evening_of(sheet_bytes.decode("latin-1"))
        for line, entry in entries_in(log_bytes.decode("latin-1")):
            told.append(evening.take(line, entry))
    except Refused as refused:
        told.append(refused_text(refused.number, refused.line))
    return "".join(told)


def named(given):
    """What is printed of the bytes at the standard input: both files are opened first."""
    texts = both_opened(given)
    return answered(*texts) if texts else refused_text(12, 0)

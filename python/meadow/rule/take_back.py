"""Document 01, "The record", with request #106's soaking: the newest step taken back by its record alone."""
from .ranges import fine
from .refusals import depths_wrong, lasts_wrong, marks_wrong, refuse_if, run_wrong, shape_wrong
from .world import ADDED_WORD, HEAD_WORDS, LAST_WORD, SOAKED_WORD, WORDS_A_SQUARE, rows_of


def times_wrong(held, lasted):
    """Of 11: a length or a duration that no step has."""
    return not (fine("length", held) and fine("lasted", lasted))


def take_back(m):
    """Depths, P, clock, length, outflow and the total soaked as they were before the newest step kept; the record room is not written."""
    refuse_if(shape_wrong(m, [m.marks, m.depths, m.lasts]), 1)
    refuse_if(marks_wrong(m), 2)
    refuse_if(depths_wrong(m) or lasts_wrong(m), 3)
    refuse_if(run_wrong(m), 6)
    refuse_if(m.kept == 0, 10)
    held, lasted = m.newest_record()[:HEAD_WORDS]
    refuse_if(times_wrong(held, lasted) or lasted > m.clock, 11)
    words = rows_of(m.newest_record()[HEAD_WORDS:], WORDS_A_SQUARE)
    leaves = {square: words[square][:LAST_WORD] for square in m.ground()}
    before = {}
    for square in m.ground():
        held_and_gone = m.depths[square] + sum(leaves[square]) + words[square][SOAKED_WORD]
        before[square] = held_and_gone - m.came(leaves, square) - words[square][ADDED_WORD]
        refuse_if(not fine("depth", before[square]) or not fine("last", words[square][LAST_WORD]), 11)
    sank = sum(words[square][SOAKED_WORD] for square in m.ground())
    refuse_if(m.off(leaves) > m.outflow or sank > m.soaked, 11)
    for square in m.ground():
        m.depths[square], m.lasts[square] = before[square], words[square][LAST_WORD]
    m.clock, m.length, m.outflow, m.soaked = m.clock - lasted, held, m.outflow - m.off(leaves), m.soaked - sank
    m.kept -= 1
    m.newest = (m.newest - 1) % m.slots()

"""Document 02, #107, the hatch log, written from the document alone:

    entries      the fields of each kind of line, in one table; a log's lines written and read
    evening      what a log's lines do, and when one is refused
    answers      what the program `hatchlog` prints of a sheet and a log, and of their names
    nights       a sheet, a log and what was printed of them, held together
"""

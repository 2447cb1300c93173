"""Sheets and answers:

    lines        the fields of each kind of line, in one table; sheets and answers written and read
    reading      a sheet's text judged, and what the program `meadow` answers to it
    holes        beds that the survey could not see, filled in rounds, and what the program `repair` prints
    guesses      what `repair` printed, held to its sheet, and the side file that says which ground was guessed
    files        files by their names, as programs open them
    pairs        a sheet and its answer, held together
    account      the water account of an answer
    standing     the standing squares of an answer
    grounds      the grounds that samples and validation share
"""

"""Document 02, #114, which squares drown and how deep each ever was, written from the document alone:

    runs         the highest depth of each square over all states of a run, and the clock of the first state that had it
    heights      what the program `highest` prints of a sheet, written and read back
    hours        what the program `hours_wet` prints of a sheet: for how long each square was 1 cm deep or deeper, written and read back
    lists        the list at the standard input of `drowned`: a depth and sheets' names
    tally        how often each square drowned in the sheets of a list, how deep, and by which sheet; what `drowned` prints of it, and read back
    winters      a list's sheets one after the other, accepted or refused

And of one run, read from what the programs print of it:

    courses      looks at the run from time to time: steps held at the shortest
    wholes       the run seen whole: its end, how high the water ever stood, for how long squares were wet, and its course
"""

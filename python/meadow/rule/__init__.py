"""Document 01, and what requests of document 02 change in it, a module for each of its rules, written from the documents alone:

    ranges         units' ranges
    refusals       the table of refusals, and what a refusal is
    world          all that the calls are lent, and which square lies beside which
    weighing       the drops of a square and what leaves through its sides
    step_length    how long a step may be
    steps          a fresh run, a step, a run to an end
    take_back      a step taken back
    bounds         the most and the least steps of a run
    sights         flow arrows and wet rows
    worked_square  the square that docs/METHOD.md works by hand
"""

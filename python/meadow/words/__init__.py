"""What people are told of sheets and answers:

    units        amounts as people say them
    sense        one line about an answer
    cautions     what a reader of an answer must mind
    drownings    one line about a winter's sheets, and one about how high one sheet's water stood
    levels       one line about level boards, and when a mark was first reached
    guessing     which beds were guessed, and from which neighbours
    hatches      the hatches of a sheet
    pace         how long a run may take
    telling      a sheet in a person's units
    doubts       what in a sheet is likely a slip
    relief       ground that is likely none: pits and spikes
    holes        closed squares that are likely holes in a survey, and gaps in walls
    run_lines    which run line suits which meadow, and what is wrong with one that does not
    enclosed     ground that is walled in
    reasons      why a sheet is refused: faults (the places of 1 to 5), misplaced (the line of 12), slips (inside that line)
    opening      why a file cannot be opened, and whether a refusal is the sheet's own
    log_reasons  why a hatch log is refused, and which of the two files it is about
    list_reasons why a list of sheets is refused, or a sheet of one
    board_reasons why boards are refused, and which of the two files it is about
"""

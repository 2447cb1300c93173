"""The desk: a page in a browser over the program `desk`, for the warden's trials, and the keeper's run of the season. Standard library only.

    engine       the program as a child process, asked by lines
    frames       a state as the engine told it
    files        a file written whole or not at all, and a file read within a size
    refusals     what the engine refuses, in a warden's words
    stands       a saved state with what is known of it
    logs         a season's hatch log: its lines, and how far a run has used them
    season       the season's folder, which the desk only reads
    ground       what the page draws below the water, and what in the sheet is likely a slip
    account      what rain and hatches gave, from tables and clocks alone
    journal      a trial's lines on the disk, written before the engine has them
    trials       one trial: an engine, a journal, the frames of its standing steps
    evening      all trials of an evening
    requests     what a request may ask for
    server       the desk for a browser on this computer
    opening      bin/desk: a season opened, or the sample
    keeper       bin/season: the season's run in slices, and a trial's log adopted

Nothing here computes a depth: each comes out of the program. What is worked here is the right side of the water account, as a second witness.
"""

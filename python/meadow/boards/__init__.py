"""Document 02, #101, level boards, written from the document alone:

    texts        the boards' text, written and read
    watching     what each board shows over a run to an end, and when the boards are refused
    answers      what the program `boards` prints of a sheet and boards, and of their names; written and read back
"""

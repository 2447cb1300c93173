"""What the project's own scripts share, in plain Python and apart from the proved library. Each package may look at those above it:

    rule         document 01, a module for each of its rules
    sheets       sheets and answers: their lines, written, read and judged
    logs         the hatch log: its lines, what they do, and what is printed of them
    peaks        how deep each square ever was, in one run and in a winter's sheets
    words        what people are told of them
    surveys      from what people have measured to a sheet, and back
    maps         the map of an answer

And beside them:

    programs     the built programs, alone and side by side, and scripts that end quietly
    counted      tests that say how many checks they made
"""

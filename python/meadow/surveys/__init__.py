"""From what people have measured to a sheet, and from its answer back to their maps:

    grids        ESRI and CSV grids, written and read
    no_data      beds that are likely no heights
    places       where a sheet lies
    making       a sheet made of beds, a plan and tables
    mouths       the edge slope of exits, from the ditch's own bed
    asking       what is asked of a sheet on a command line, judged
    depths       an answer taken back to a map
    office       a grid in the survey office's form
    bringing     a map program's grid brought into that form, and taken back
    sets         a sheet moved to the office's set of grids with a note, and back
"""

"""Level boards in words: one line of sense about what `boards` printed, and when a mark was first reached."""
from .drownings import about
from .units import depth, square, steps, time


# what is shallower is said in µm
SHALLOW = 100


def level(amount):
    """A depth in µm, to be told from its neighbours however shallow it is."""
    return f"{amount} µm" if 0 < amount < SHALLOW else depth(amount)


def boards_many(count):
    """So many boards."""
    return f"{count} board{'' if count == 1 else 's'}"


def first_words(board):
    """When a board's mark was first reached."""
    if board.first is None:
        return "never"
    return about(board.first) if board.first else "at the start"


def reached_words(boards):
    """How many marks were reached, and the last of them to be."""
    reached = [board for board in boards if board.first is not None]
    if not reached:
        return f"no mark of {boards_many(len(boards))} reached"
    last = max(reached, key=lambda board: board.first)
    when = f"after {first_words(last)}" if last.first else "at the start"
    return f"{len(reached)} of {len(boards)} mark{'' if len(boards) == 1 else 's'} reached, the last at {square(last[:2])} {when}"


def boards_sense(shown):
    """The line."""
    end = f"of a run of {time(shown.clock)}; {steps(shown.steps)}"
    if not shown.boards:
        return f"no boards, {end}"
    top = max(shown.boards, key=lambda board: board.highest)
    return f"{reached_words(shown.boards)}; highest {level(top.highest)} at {square(top[:2])}, {end}"

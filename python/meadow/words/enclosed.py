"""Ground that is walled in: squares that no water can leave or reach over the ground, since closed squares part them from the meadow.

The meadow itself is the largest piece of ground that hangs together; another piece without an exit is walled in on all sides, as a house
is whose outline alone is closed.
"""
from ..sheets.reading import meadow_of


def pieces(m, joined=lambda one, other: True):
    """The pieces of a meadow's ground that hang together, each as its squares in their order; two squares side by side do where they are joined."""
    left, found = set(m.ground()), []
    for first in m.ground():
        if first not in left:
            continue
        left.remove(first)
        piece = [first]
        for square in piece:
            near = [other for other in m.beside(square) if other in left and joined(square, other)]
            left.difference_update(near)
            piece += near
        found.append(sorted(piece))
    return found


def walled_in(sheet):
    """The places of each piece that has no exit, but for the largest piece."""
    m = meadow_of(sheet)
    found = pieces(m)
    largest = max(found, key=len, default=None)
    places = [[divmod(square, m.columns) for square in piece] for piece in found if piece is not largest]
    return [piece for piece in places if not set(sheet.exits()).intersection(piece)]

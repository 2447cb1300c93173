"""What the engine refuses, in words for the warden and the keeper: what is wrong, and what to do."""

GO_BACK = "take steps back, or end the trial here"
UNKNOWN = "for a reason that the desk does not know", "please show it to those who look after the program"
# of a change of a trial, by the number of its refusal: what is wrong, and what to do. What a request has out of range, 4 and 5, is said before the
# engine has it.
OF_A_CHANGE = {
    6: ("more water was given than can be counted", GO_BACK),
    7: ("the next step would end after a week, and no run lasts longer", GO_BACK),
    8: ("the next step would leave a square more than 100 m deep", "draw the hatches less, or take steps back"),
    9: ("the next step would leave more water gone by the exits than can be counted", GO_BACK),
    10: ("there are not so many steps to take back", "Home goes back to where the trial began"),
    12: ("the season’s log names no hatch of this number", "take one that stands on the page"),
    15: ("the next step would leave more water soaked into the ground than can be counted", GO_BACK),
}
# of the saved state that a trial, or the keeper's run, begins with
OF_A_BEGINNING = {
    3: "a depth in it is above 100 m",
    4: "a hatch in it stands on a wall or beside the meadow, or gives more than 100,000 litres a second",
    6: "a clock, a length or a sum in it is out of range",
    12: "it cannot be read",
}
ANEW = "the keeper can run the season again with bin/season --anew"


def what_words(refused):
    """What a refused change would have done."""
    return OF_A_CHANGE.get(refused.number, UNKNOWN)[0]


def change_words(refused):
    """Why a change of a trial was refused, and what to do."""
    return "; ".join(OF_A_CHANGE.get(refused.number, UNKNOWN))


def beginning_words(refused):
    """Why nothing can begin from a saved state."""
    at = f", line {refused.line}" if refused.line else ""
    why = OF_A_BEGINNING.get(refused.number, UNKNOWN[0])
    return f"the saved state that it begins with is refused by {refused.number}{at}: {why}; {ANEW}"

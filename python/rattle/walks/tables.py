"""The functions that are walked, each in a short table: its parameters in order, its calls, and the laws that what they give is what its contract
says."""
from rattle.walks.loops import Each, Keeps, Puts
from rattle.walks.straight import Call, Straight
from rattle.walks.values import NOTHING, U8, U32, U64, USIZE, mutable, shared, struct

BOARD, BOARDS, SHOWN = (struct("display", "boards", name) for name in ("Board", "Boards", "Shown"))
SHAPE, RULES = struct("grid", "squares", "Shape"), struct("rule", "rules", "Rules")
RUN, RAN = struct("ledger", "runs", "Run"), struct("flood", "run", "Ran")
BOARDED = struct("display_exports", "boards", "Boarded")

# what a run is lent, to be read and to be written, and in the exported call besides
READ = {"marks": shared(U8)} | {name: shared(U32) for name in ("beds", "roughness", "rates", "rain", "inflow")}
WRITTEN = {name: mutable(U32) for name in ("depths", "lasts", "records")}
TOLD_IN = {name: mutable(U64) for name in ("run", "steps")}

# the same in the words of the specifications: plan, given, end and world, then the boards
PLACE = "(marks₀ .now)"
TABLES = "(beds₀ .now) (roughness₀ .now) (rates₀ .now)) (rain₀ .now) (inflow₀ .now))"
STARTS = f"(plan shape₀ {PLACE}) (given (ground rules₀ {TABLES} end₀ (world depths₀ lasts₀ records₀ run₀)"
GIVEN_TOLD = f"(plan (shapeFrom rows₀ columns₀) {PLACE}) (given (ground (rulesFrom (rules₀ .now)) {TABLES} end₀"
STARTS_TOLD = f"{GIVEN_TOLD} (world depths₀ lasts₀ records₀ (runValueFrom run₀))"
TOLD_BEFORE = "(rules₀ .now) run₀ steps₀"
SPOKEN = [("ledger", "specs.Runs.{plan, world}"), ("checks", "specs.Given.{given, ground}")]
SPOKEN_TOLD = [*SPOKEN, ("exports", "specs.Numbers.{rulesFrom, runValueFrom, shapeFrom}")]


def written(names):
    return (f"{name}!" for name in names)


def round_run(run, boards_of, last):
    """The calls round a run of boards by value: taken up before it, put back after it, and what is given back."""
    return [Call("display::lent::held_of", ("boards?",), BOARDS, "r₁ ≡ heldOf boards₀"), run,
            Call(boards_of, ("r2",), BOARDS, "r₃ ≡ r₂ .boards"),
            Call("display::lent::put_back", ("boards!", "r3"), NOTHING, "boards₄ ≡ backIn r₃ boards₀"), last]


def alone(name, walk, fact, law, uses):
    """A function that makes one walked call and nothing else: its name, the call, the call's fact (what it gives is `r₁`, the list of x becomes
    `x₁`), and the law that its own contract follows from the fact, `got₁`."""
    args = tuple(f"{x}!" if x in walk.written else x for x in walk.params)
    return Straight(name, walk.params, [Call(walk.name, args, walk.result, fact)], law, uses)


HELD_OF = Keeps(
    "display::lent::held_of", {"boards": shared(BOARD)},
    before=Each("display::boards::no_boards", (), BOARDS, "noBoards"),
    each=Each("display::boards::with_board", ("kept", "element"), BOARDS, "withBoard (heldTo boards₀ @) h",
              asks="held-fits boards₀ less (room-boards .0)"),
    after="heldTo", none="held-none", more="held-more", all_done="held-all", default="noBoard",
    uses=[("display", "specs.Boards.{noBoard, noBoards, withBoard}"),
          ("display", "proofs.LentLaws.{heldTo, held-none, held-more, held-all, held-fits}")])

PUT_BACK = Puts(
    "display::lent::put_back", {"boards": mutable(BOARD), "held": BOARDS},
    each=Each("display::lent::board_at", ("held", "place", "element"), BOARD, "boardAt held₀ @ h"),
    after="backTo held₀", whole="backIn held₀ boards₀", default="noBoard",
    laws=("back-none held₀", "back-long held₀", "back-more held₀", "back-all held₀", "backed-long held₀ boards₀"),
    uses=[("display", "specs.Boards.{noBoard}"), ("display", "specs.inner.Lent.{backIn, boardAt}"),
          ("display", "proofs.LentLaws.{backTo, back-none, back-long, back-more, back-all, backed-long}")])

RUN_TO_BOARDS = Straight(
    "display::lent::run_to_boards", {"boards": mutable(BOARD), "shape": SHAPE, "rules": RULES, "run": RUN, "end": U64} | READ | WRITTEN,
    round_run(
        Call("display::watch::run_boards", ("r1", "shape", "rules", "run", "end", *READ, *written(WRITTEN)), SHOWN,
             f"WatchesHeld {STARTS} r₁ r₂ depths₂ lasts₂ records₂"),
        "display::lent::boards_of", Call("display::lent::ran_of", ("r2",), RAN, "r₅ ≡ r₂ .ran")),
    law=f"watched-back {STARTS} boards₀ got₁ got₂ got₃ got₄ got₅",
    uses=[*SPOKEN, ("display", "specs.Watch.{WatchesHeld}"), ("display", "specs.inner.Lent.{backIn, heldOf}"),
          ("display", "proofs.LentLaws.{watched-back}")])

FLOOD_RUN_TO_BOARDS = Straight(
    "display_exports::boards::flood_run_to_boards",
    {"rows": USIZE, "columns": USIZE, "rules": shared(U64), "end": U64} | READ | WRITTEN | TOLD_IN | {"boards": mutable(BOARD)},
    round_run(
        Call("display_exports::boards::run_told", ("r1", "rows", "columns", "rules", "end", *READ, *written(WRITTEN), *written(TOLD_IN)), BOARDED,
             f"TellsHeld {STARTS_TOLD} r₁ {TOLD_BEFORE} r₂ depths₂ lasts₂ records₂ run₂ steps₂"),
        "display_exports::boards::boards_of", Call("display_exports::boards::number_of", ("r2",), U32, "r₅ ≡ r₂ .number")),
    law=f"exported-back {STARTS_TOLD} boards₀ {TOLD_BEFORE} got₁ got₂ got₃ got₄ got₅",
    uses=[*SPOKEN_TOLD, ("display", "specs.inner.Lent.{backIn, heldOf}"), ("display_exports", "specs.inner.Held.{TellsHeld}"),
          ("display_exports", "proofs.HeldLaws.{exported-back}")])

AFTER_RUN_TO_BOARDS = alone(
    "calls::watched::after_run_to_boards", RUN_TO_BOARDS,
    f"Watches {STARTS} (length boards₀) boards₀ r₁ depths₁ lasts₁ records₁ boards₁",
    law=f"after-boards {STARTS} (length boards₀) boards₀ got₁",
    uses=[*SPOKEN, ("display", "specs.Watch.{Watches}"), ("calls", "proofs.WatchedLaws.{after-boards}")])

AFTER_FLOOD_RUN_TO_BOARDS = alone(
    "calls::watched::after_flood_run_to_boards", FLOOD_RUN_TO_BOARDS,
    f"ExportsBoards {STARTS_TOLD} (length boards₀) boards₀ {TOLD_BEFORE} r₁ depths₁ lasts₁ records₁ run₁ steps₁ boards₁",
    law=f"after-flood-boards {GIVEN_TOLD} {TOLD_BEFORE} boards₀ got₁",
    uses=[*SPOKEN_TOLD, ("display_exports", "specs.Boards.{ExportsBoards}"), ("calls", "proofs.WatchedLaws.{after-flood-boards}")])

WALKS = [HELD_OF, PUT_BACK, RUN_TO_BOARDS, FLOOD_RUN_TO_BOARDS, AFTER_RUN_TO_BOARDS, AFTER_FLOOD_RUN_TO_BOARDS]

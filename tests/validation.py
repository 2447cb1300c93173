"""The short form of the validation: the built programs give the figures that docs/FIGURES.md has."""
from meadow.programs import ended
from run import main

if __name__ == "__main__":
    ended(main, "validation")

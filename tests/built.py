"""Where the built programs stand, for the scripts that run them."""
import pathlib

CRATES = pathlib.Path(__file__).resolve().parent.parent / "crates"


def built(name):
    """The program that `rt run` leaves in its crate's folder."""
    return CRATES / name / "out" / name

"""Where the program mapf is, where no option says so."""
import os
import pathlib

HERE = pathlib.Path(__file__).resolve().parent


def usual_program() -> str:
    """That of this checkout; where this folder was copied alone, the one on the path."""
    own = HERE.parent.parent / "mapf"
    return str(own) if os.access(own, os.X_OK) and own.is_file() else "mapf"

"""Where the programs of this repository are."""
import os
import shutil
import sys

TOP = os.path.dirname(os.path.dirname(os.path.abspath(__file__)))


def find(name):
    """The path of `strsolve` or `strcheck`: what the environment's STRSOLVE or STRCHECK names, the proved program, one that
    `make quick` made, or one on the path, the first that is there."""
    named = os.environ.get(name.upper())
    if named:
        return named
    for folder in (os.path.join("crates", name, "out"), os.path.join("build", "quick")):
        path = os.path.join(TOP, folder, name)
        if os.access(path, os.X_OK):
            return path
    path = shutil.which(name)
    if path is None:
        print(f"{os.path.basename(sys.argv[0])}: there is no {name}: make quick, or name it by {name.upper()}=PATH", file=sys.stderr)
        sys.exit(2)
    return path

"""The text of the repository, as the checks on its shape read it."""
import os
import pathlib

TOP = pathlib.Path(__file__).resolve().parent.parent
CEILINGS = TOP / "checks" / "ceilings.txt"
LEFT_OUT = {"out", "build", "__pycache__"}


def files(*suffixes: str) -> dict[str, list[str]]:
    """The lines of each file with such a suffix, by its path from the top, in order of the paths."""
    found = {}
    for folder, folders, names in os.walk(TOP):
        folders[:] = sorted(each for each in folders if each not in LEFT_OUT and not each.startswith("."))
        for name in names:
            if name.endswith(suffixes):
                path = pathlib.Path(folder, name)
                found[str(path.relative_to(TOP))] = path.read_text().splitlines()
    return dict(sorted(found.items()))


def ceilings() -> dict[str, float]:
    """What is allowed today, by its name."""
    lines = (line.split() for line in CEILINGS.read_text().splitlines() if line and not line.startswith("#"))
    return {name: float(most) for name, most in lines}

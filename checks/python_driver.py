#!/usr/bin/env python3
"""The Python driver of the examples: what it prints by itself, from another folder, and the replies of each example through it."""
import pathlib
import shutil
import subprocess
import sys
import tempfile

from tally import Tally

TOP = pathlib.Path(__file__).resolve().parent.parent
EXAMPLES = TOP / "examples"
sys.path.insert(0, str(EXAMPLES))
import driver  # noqa: E402

PRINTED = "boxes: 3\narea of their union: 64\nperimeter: 44\n"


def through_driver(script: pathlib.Path) -> str:
    """The replies to an example; it runs in a copy of the folder, since it may save files."""
    with tempfile.TemporaryDirectory() as folder:
        shutil.copytree(EXAMPLES, folder, dirs_exist_ok=True)
        try:
            pairs = list(driver.replies(script.read_text().splitlines(), folder))
        except RuntimeError as fault:
            return f"{fault}\n"
    return "".join(f"{line}\n" for _, reply in pairs for line in reply)


def main() -> int:
    tally = Tally("driver")
    done = subprocess.run([sys.executable, str(EXAMPLES / "driver.py")], cwd="/", capture_output=True, text=True)
    trials = [("examples/driver.py", done.stdout + done.stderr, PRINTED)]
    for script in sorted(EXAMPLES.glob("*.evm")):
        trials.append((f"examples/{script.name} through the driver", through_driver(script), script.with_suffix(".out").read_text()))
    # More than the pipes hold, in both directions.
    many = [f"toggle a {2 * k} 0 {2 * k + 1} 1" for k in range(2000)]
    rows = sum(len(reply) - 1 for _, reply in driver.replies(["input a 2", *many, *["show a"] * 4]))
    trials.append(("a long script through the driver", f"{rows} rows\n", f"{4 * 4 * 2000} rows\n"))
    for name, got, wanted in trials:
        tally.compare(name, got, wanted)
    return tally.status()


if __name__ == "__main__":
    sys.exit(main())

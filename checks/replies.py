#!/usr/bin/env python3
"""Runs the examples of this repository through the launcher and compares what they print.

- each `examples/NAME.evm` with the replies stored beside it in `examples/NAME.out`;
- each block of the documents that is fenced as ```evm: lines at the margin are a script, indented lines their replies.
"""
import pathlib
import re
import shutil
import subprocess
import sys
import tempfile

from tally import Tally

TOP = pathlib.Path(__file__).resolve().parent.parent
DOCUMENTS = [TOP / "README.md", *sorted((TOP / "docs").glob("*.md"))]
BLOCK = re.compile(r"^```evm\n(.*?)^```", re.M | re.S)


def replies(script: str) -> str:
    """What `evm run` writes for a script; it runs in a copy of the folder of the examples, so that it finds their files and may save its own."""
    with tempfile.TemporaryDirectory() as folder:
        shutil.copytree(TOP / "examples", folder, dirs_exist_ok=True)
        done = subprocess.run([str(TOP / "evm"), "run"], input=script.encode(), capture_output=True, cwd=folder)
    if done.returncode not in (0, 1):
        return f"exit status {done.returncode}: {done.stderr.decode(errors='replace')}"
    return done.stdout.decode()


def cases():
    for script in sorted((TOP / "examples").glob("*.evm")):
        yield script.name, script.read_text(), script.with_suffix(".out").read_text()
    for document in DOCUMENTS:
        for number, block in enumerate(BLOCK.findall(document.read_text()), 1):
            lines = block.splitlines(keepends=True)
            script = "".join(line for line in lines if not line.startswith("  "))
            wanted = "".join(line[2:] for line in lines if line.startswith("  "))
            yield f"{document.name}, example {number}", script, wanted


def main() -> int:
    tally = Tally("examples")
    for name, script, wanted in cases():
        tally.compare(name, replies(script), wanted)
    return tally.status()


if __name__ == "__main__":
    sys.exit(main())

#!/usr/bin/env python3
"""The input files of the examples are those that examples/make_inputs.py makes."""
import pathlib
import sys

from tally import Tally

EXAMPLES = pathlib.Path(__file__).resolve().parent.parent / "examples"
sys.path.insert(0, str(EXAMPLES))
from make_inputs import inputs  # noqa: E402


def main() -> int:
    tally = Tally("inputs")
    for name, data in inputs().items():
        same = (EXAMPLES / name).is_file() and (EXAMPLES / name).read_bytes() == data
        tally.count(same, f"examples/{name} is not what examples/make_inputs.py makes")
    return tally.status()


if __name__ == "__main__":
    sys.exit(main())

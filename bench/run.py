#!/usr/bin/env python3
"""Measures the program beside plain C++ yardsticks, and says where it loses. No part of the gate; takes less than two minutes.

    python3 bench/run.py                   the program of this repository, built first where it is not
    EVM=path/to/evm python3 bench/run.py   another program of the same language

It needs g++ (another compiler: CXX). The yardsticks are built in bench/build: `voxels` answers the same scripts by dense arrays of cells,
`merge` is the loop that the exclusive or of two lists can not do without. All workloads come from one small generator with a fixed
seed. A time is that of a whole process, less that of an empty script, the best of three runs, or of one where it takes more
than a second. `growth` is the exponent between the last two sizes. The replies of both programs are compared.
"""
import array
import math
import os
import pathlib
import subprocess
import sys
import time

HERE = pathlib.Path(__file__).resolve().parent
BUILD = HERE / "build"
TOP = HERE.parent
ENDS = time.monotonic() + 105   # seconds: what would start later is left out
LONGEST = 20                    # seconds: a process that takes longer is stopped


class Draw:
    """A linear congruential generator modulo 2 ** 64 of which the upper bits are used."""

    def __init__(self, seed):
        self.state = seed

    def __call__(self, below):
        self.state = (self.state * 6364136223846793005 + 1442695040888963407) % 2 ** 64
        return (self.state >> 33) % below


# Workloads: each makes a script, and the files that it loads in BUILD

def boxes(draw, dim, count, side):
    """Boxes within 0 to side whose contents add up to about that of the whole."""
    longest = max(2, round(2 * side / count ** (1 / dim)))
    for _ in range(count):
        size = [1 + draw(min(longest, side)) for _ in range(dim)]
        low = [draw(side - length + 1) for length in size]
        yield low + [a + b for a, b in zip(low, size)]


def words(numbers):
    return " ".join(map(str, numbers))


BOOLEANS = [line for word in ("or", "and", "sub", "xor") for line in (f"def {word}1 {word} a b", f"content {word}1", f"boundary {word}1")]


def booleans(count, side=64, scale=1):
    draw = Draw(1)
    edits = [f"add {name} {words(number * scale for number in box)}" for name in "ab" for box in boxes(draw, 3, count, side)]
    return ["input a 3", "input b 3"] + edits + BOOLEANS


def room(side):
    return booleans(60, 32, side // 32)


def edits(count):
    draw, script = Draw(2), [f"input {name} 3" for name in "abc"]
    script += ["def u or a b", "def v sub u c", "def p proj v 3", "def s shift v 1 2 3", "def w xor u s"]
    for _ in range(count):
        command, name, low = ("toggle", "add", "cut")[draw(3)], "abc"[draw(3)], [draw(56) for _ in range(3)]
        script.append(f"{command} {name} {words(low)} {words(number + 1 + draw(4) for number in low)}")
    return script + [f"{question} {name}" for name in "upw" for question in ("content", "boundary")]


WATCHED = ("a", "b", "c", "u", "v", "w")


def watched(count):
    """The same edits under the six meters of the program."""
    script = edits(count)
    return script[:8] + [f"meter {slot} {name}" for slot, name in enumerate(WATCHED)] + script[8:]


def asked(count):
    """The same edits, with both measures of six names asked after each."""
    script = edits(count)
    questions = [f"{question} {name}" for name in WATCHED for question in ("content", "boundary")]
    return script[:8] + [line for edit in script[8:-6] for line in [edit] + questions] + script[-6:]


def beside(count):
    """Toggles of one cell beside 51,200 separate cells, under two formulas."""
    with open(BUILD / "checker.pgm", "wb") as file:
        for z in range(100):
            file.write(b"P5 64 64 255\n" + bytes(0 if x % 2 or y % 2 or z % 2 else 255 for y in range(64) for x in range(64)))
    script = ["input a 3", "load a pgm 128 checker.pgm", "input b 3", "def c or a b", "def d and c a"]
    return script + ["toggle b 100 0 0 101 1 1"] * count + ["content c", "content d"]


def plan(count):
    """Small edits of a plan of 8,000 boxes under one formula."""
    draw, script = Draw(5), plane(8000)[:4] + ["def c sub a b"]
    for _ in range(count):
        command, name, low = ("add", "cut")[draw(2)], "ab"[draw(2)], [draw(499000) for _ in range(2)]
        script.append(f"{command} {name} {words(low)} {words(number + 1 + draw(900) for number in low)}")
    return script + ["content a", "content c"]


def scan(side):
    """A stack of smooth waves, thresholded at the middle."""
    wave = lambda k, n: [math.sin(2 * math.pi * (k * x / side + n)) for x in range(side)]
    across, down, through = wave(3, 0.1), wave(4, 0.3), wave(2, 0.7)
    with open(BUILD / f"scan{side}.pgm", "wb") as file:
        for z in range(side):
            file.write(b"P5 %d %d 255\n" % (side, side))
            for y in range(side):
                file.write(bytes(int(128 + 40 * (across[x] + down[y] * through[z])) for x in range(side)))
    return ["input a 3", f"load a pgm 140 scan{side}.pgm", "content a", "boundary a"]


def parts(side):
    """The smooth stack, and all that is to be said of it, among it the number of its parts."""
    return scan(side)[:2] + ["report a"]


def separate(images):
    """Separate cells, one in each block of eight, as a stack of images of 64 by 64 samples."""
    with open(BUILD / f"separate{images}.pgm", "wb") as file:
        for z in range(images):
            file.write(b"P5 64 64 255\n" + bytes(0 if x % 2 or y % 2 or z % 2 else 255 for y in range(64) for x in range(64)))
    return ["input a 3", f"load a pgm 128 separate{images}.pgm", "report a"]


def plane(count):
    draw = Draw(3)
    for name in "ab":
        lines = [words(box) for box in boxes(draw, 2, count, 500000)]
        (BUILD / f"plane{count}{name}.boxes").write_text("evm-boxes 1 2\n" + "\n".join(lines) + "\n")
    return [line for name in "ab" for line in (f"input {name} 2", f"load {name} boxes plane{count}{name}.boxes")] + BOOLEANS


def lists(rows):
    """Two EVM files of separate unit cells at even places, eight rows a cell, half of them at the same places."""
    draw, side = Draw(4), round((rows / 2) ** (1 / 3)) + 2
    shared = {(2 * draw(side), 2 * draw(side), 2 * draw(side)) for _ in range(rows // 16)}
    for name in "ab":
        cells = shared | {(2 * draw(side), 2 * draw(side), 2 * draw(side)) for _ in range(rows // 16)}
        corners = sorted((x + i, y + j, z + k) for x, y, z in cells for i in (0, 1) for j in (0, 1) for k in (0, 1))
        numbers = array.array("i", [number for corner in corners for number in corner])
        if sys.byteorder == "little":
            numbers.byteswap()
        head = b"NEVM" + bytes([1, 3, 0, 0]) + len(corners).to_bytes(8, "big")
        (BUILD / f"rows{rows}{name}.evm").write_bytes(head + numbers.tobytes())
    return [line for name in "ab" for line in (f"input {name} 3", f"load {name} evm rows{rows}{name}.evm")]


# Running

def timed(command, script):
    """The best time of a command on a script, and its output; None where it did not end in time or with a status other than 0 and 1."""
    best, output = None, None
    for _ in range(3):
        start = time.perf_counter()
        try:
            done = subprocess.run(command, input=script, capture_output=True, cwd=BUILD, timeout=LONGEST)
        except subprocess.TimeoutExpired:
            return None
        took = time.perf_counter() - start
        if done.returncode not in (0, 1):
            return None
        best, output = min(took, best or took), done.stdout
        if took > 1:
            break
    return best, output


def exponent(found, which):
    """The growth of the times of one side between the last two sizes; None where one of them is no time."""
    if len(found) < 2:
        return None
    (size1, *first), (size2, *last) = found[-2:]
    a, b = first[which], last[which]
    return math.log(b / a) / math.log(size2 / size1) if isinstance(a, float) and isinstance(b, float) else None


def told(value):
    return value if isinstance(value, str) else f"{value * 1000:.1f} ms" if value > 0.01 else f"{value * 1000:.2f} ms"


def rounded(value):
    return "-" if value is None else f"{value:.2f}"


class Bench:
    def __init__(self, evm):
        self.evm = str(evm)
        self.losses, self.gains, self.different = [], [], 0
        self.empty = {self.evm: timed([evm, "run"], b"")[0], "./voxels": timed(["./voxels", "8"], b"")[0]}
        print("An empty script takes " + ", ".join(f"{pathlib.Path(name).name} {seconds * 1000:.1f} ms" for name, seconds in self.empty.items()))

    def answer(self, command, script):
        """The time that a program takes for a script, less that of an empty one, or why there is none; and its replies."""
        measured = timed(command, "".join(line + "\n" for line in script).encode())
        if not measured:
            return "not done", b""
        refused = [line for line in measured[1].decode().splitlines() if line.startswith("no ")]
        return (f"`{refused[0]}`" if refused else measured[0] - self.empty[command[0]]), measured[1]

    def table(self, title, unit, sizes, measure, peer, shortest=0.001):
        """One workload. `measure(size)` gives both times, or words in their place, and whether the answers are equal, or None.
        Less than the shortest time is not told from the start of a process."""
        print(f"\n## {title}\n\n| {unit} | `evm run` | {peer} | ratio | answers |\n|---|---|---|---|---|")
        found = []
        for size in sizes:
            if time.monotonic() > ENDS:
                print(f"| {size} | left out, the time is up | | | |")
                continue
            *times, equal = measure(size)
            ours, theirs = ("too short" if isinstance(each, float) and each < shortest else each for each in times)
            self.different += equal is False
            ratio = ours / theirs if isinstance(ours, float) and isinstance(theirs, float) else None
            print(f"| {size} | {told(ours)} | {told(theirs)} | {rounded(ratio)} | {'DIFFER' if equal is False else 'equal' if equal else '-'} |", flush=True)
            found.append((size, ours, theirs))
        growth = exponent(found, 0), exponent(found, 1)
        print(f"| growth | {rounded(growth[0])} | {rounded(growth[1])} | | |")
        compared = [each for each in found if isinstance(each[1], float) and isinstance(each[2], float)]
        if compared:
            size, ours, theirs = compared[-1]
            words = (f"{title}, at {size} {unit}: {max(ours / theirs, theirs / ours):.1f} times {{}} than {peer}; "
                     f"growth {rounded(growth[0])} against {rounded(growth[1])}")
            (self.losses if ours > theirs else self.gains).append(words)

    def voxels(self, make, side):
        def measure(size):
            script = make(size)
            ours, said = self.answer([self.evm, "run"], script)
            theirs, wanted = self.answer(["./voxels", str(side or size)], script)
            return ours, theirs, None if isinstance(ours, str) or isinstance(theirs, str) else said == wanted
        return measure

    def alone(self, make):
        return lambda size: (self.answer([self.evm, "run"], make(size))[0], "no room", None)

    def other(self, make, way):
        """One script beside another of the same program."""
        return lambda size: (self.answer([self.evm, "run"], make(size))[0], self.answer([self.evm, "run"], way(size))[0], None)

    def merges(self, rows):
        """One `def x xor a b` beside one call of the merge loop: what thirty more of them take, each with a `drop`."""
        load, pair = lists(rows), ["def x xor a b", "drop x"]
        short, _ = self.answer([self.evm, "run"], load + pair + ["def x xor a b", "show x"])
        long, said = self.answer([self.evm, "run"], load + pair * 31 + ["def x xor a b", "show x"])
        done = subprocess.run(["./merge", f"rows{rows}a.evm", f"rows{rows}b.evm", "20"], capture_output=True, text=True, cwd=BUILD, timeout=LONGEST)
        answer, seconds = done.stdout.split()
        if isinstance(short, str) or isinstance(long, str):
            return short, float(seconds), None
        return (long - short) / 30, float(seconds), f"\nok 3 {answer}\n".encode() in said


def program():
    if os.environ.get("EVM"):
        return pathlib.Path(os.environ["EVM"]).resolve()
    subprocess.run([TOP / "evm", "run"], stdin=subprocess.DEVNULL, check=True)
    return TOP / "crates" / "evm_tool" / "out" / "evm_tool"


def main():
    global ENDS
    BUILD.mkdir(exist_ok=True)
    for name in ("voxels", "merge"):
        subprocess.run([os.environ.get("CXX", "g++"), "-O3", "-std=c++17", "-Wall", "-o", BUILD / name, HERE / f"{name}.cpp"], check=True)
    evm = program()
    ENDS = time.monotonic() + 100
    bench = Bench(evm)
    bench.table("Exclusive or of two lists in space", "rows in each", (10000, 80000, 640000), bench.merges, "the merge loop", 0.00002)
    bench.table("Unions of random boxes in a cube of 64, four Booleans, measures", "boxes in each", (40, 160, 640), bench.voxels(booleans, 64), "dense arrays")
    bench.table("The same sixty boxes in ever larger cubes", "cells a side", (64, 128, 256), bench.voxels(room, None), "dense arrays")
    bench.table("Small edits under five formulas in a cube of 64", "edits", (1000, 4000, 16000), bench.voxels(edits, 64), "dense arrays")
    bench.table("The same edits under six meters", "edits", (1000, 10000), bench.other(watched, edits), "no meters")
    bench.table("The same edits under six meters, and asked", "edits", (250, 1000), bench.other(watched, asked), "content and boundary asked")
    bench.table("Toggles beside a scan of 409,600 vertices, two formulas", "toggles", (20, 200, 2000), bench.voxels(beside, 128), "dense arrays")
    bench.table("Small edits of a plan of 8000 boxes, one formula", "edits", (100, 1000, 10000), bench.alone(plan), "dense arrays")
    bench.table("A scan read and measured", "samples a side", (48, 96, 192), bench.voxels(scan, None), "dense arrays")
    bench.table("A scan read, measured, and its parts counted", "samples a side", (64, 128, 256), bench.voxels(parts, None), "dense arrays")
    bench.table("Separate cells read, measured, and their parts counted", "images of 64 by 64", (25, 50, 100), bench.voxels(separate, 128), "dense arrays")
    bench.table("Unions of boxes in a plane of 500000, four Booleans, measures", "boxes in each", (500, 2000, 8000), bench.alone(plane), "dense arrays")
    print("\n## Where the program loses\n")
    print("".join(f"- {each.format('slower')}\n" for each in bench.losses) or "- Nowhere here.\n")
    print("## Where it wins\n")
    print("".join(f"- {each.format('faster')}\n" for each in bench.gains) or "- Nowhere here.\n")
    if bench.different:
        print(f"{bench.different} sizes with replies that differ")
    return 1 if bench.different else 0


if __name__ == "__main__":
    sys.exit(main())

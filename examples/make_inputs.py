#!/usr/bin/env python3
"""Makes the three inputs of the examples, always the same bytes, with the standard library alone.

    python3 examples/make_inputs.py [FOLDER]      writes scan.pgm, mask.y4m and plan.boxes; without words, beside this script
"""
import pathlib
import sys

# Blobs of the scan: the middle in x, y and z, the radius, and the height of the sample in the middle.
BLOBS = [(11, 12, 11, 10, 210), (20, 18, 12, 11, 230), (22, 9, 6, 6, 120), (9, 23, 17, 7, 160), (20, 18, 12, 4, -150)]
SIDE, SLICES = 32, 24


def sample(x: int, y: int, z: int) -> int:
    """The blobs added up; each falls smoothly from its middle to 0 at its radius. In whole numbers, so it is exact everywhere."""
    total = 20 + (x * 7 + y * 5 + z * 3) % 9
    for at_x, at_y, at_z, radius, height in BLOBS:
        square = (x - at_x) ** 2 + (y - at_y) ** 2 + (z - at_z) ** 2
        if square < radius ** 2:
            total += height * (radius ** 2 - square) ** 2 // radius ** 4
    return max(0, min(255, total))


def scan() -> bytes:
    """A stack of 24 raw PGM images of 32 by 32 samples, 0 to 255: smooth blobs, one of them hollow."""
    images = []
    for z in range(SLICES):
        samples = bytes(sample(x, y, z) for y in range(SIDE) for x in range(SIDE))
        images.append(b"P5\n# slice %d\n%d %d\n255\n" % (z, SIDE, SIDE) + samples)
    return b"".join(images)


def mask() -> bytes:
    """A grey Y4M video of 20 frames of 32 by 24 samples: a disc that falls, bounces and drifts to the right, with a soft edge."""
    stream = [b"YUV4MPEG2 W32 H24 F10:1 Ip A1:1 Cmono\n"]
    for t in range(20):
        # The middle in eighths of a sample, so that the disc may move by less than a sample a frame.
        at_x = 40 + 9 * t
        at_y = 48 + 26 * t ** 2 // 25 if t < 10 else 92 + 12 * (t - 15) ** 2 // 5
        samples = bytearray()
        for y in range(24):
            for x in range(32):
                square = (8 * x + 4 - at_x) ** 2 + (8 * y + 4 - at_y) ** 2
                samples.append(max(16, min(235, 128 + (40 ** 2 - square) // 8)))
        stream.append(b"FRAME\n" + bytes(samples))
    return b"".join(stream)


PLAN = """\
evm-boxes 1 2
# The ground plan of a house, 48 by 36, in units of 25 cm: x to the east, y to the north.
# Each line is a piece of wall; pieces overlap in the corners. What is left free is the floor of the rooms.

# Outer walls. The front door is the gap from 21 to 25 in the south wall.
0 0 21 1
25 0 48 1
0 35 48 36
0 0 1 36
47 0 48 36

# Between kitchen (west), hall and study (east): two walls, each with a door.
17 0 18 6
17 10 18 16
28 0 29 6
28 10 29 16

# North of these three rooms; a wide opening leads from the hall to the living room.
0 15 20 16
26 15 48 16

# East of the living room, with the doors of the bath and of the bedroom; and the wall between these two.
30 15 31 17
30 20 31 26
30 30 31 36
30 23 48 24

# A chimney between kitchen and living room.
6 13 11 18
"""


def inputs() -> dict:
    """The name and the bytes of each file."""
    return {"scan.pgm": scan(), "mask.y4m": mask(), "plan.boxes": PLAN.encode()}


if __name__ == "__main__":
    folder = pathlib.Path(sys.argv[1]) if len(sys.argv) > 1 else pathlib.Path(__file__).resolve().parent
    for name, data in inputs().items():
        (folder / name).write_bytes(data)
        print(f"{name}: {len(data)} bytes")

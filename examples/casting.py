"""A page for a notebook: a casting's drawing, a raster of lines through it, its walls, and the thinnest of them and where it is.

The casting is a bearing block: a foot with two bolt holes, a pillar on it with a bore through it, and an oil channel from the top into
the bore; all of it is cut off at the height where the machined face will be. Lengths are in millimetres, walls in micrometres.

It prints:

    below Face, Foot and Pillar less four holes: 7 names, 7 leaves
    120 x 60 lines from above: 32520 crossings, 8820 walls
    thickness of the walls from above: 5.0 to 68.0 mm
    the thinnest is 5.0 mm, from Face to Bore, on the line at x = 43.5, y = 0.5
    2004 walls are below 8 mm, for x from 43.5 to 76.5 and y from 0.5 to 59.5
    a list that overlooks Channel is wrong, first at x = 57.5, y = 27.5
"""

import numpy as np

import kressedach
from kressedach import Box, HalfSpace

foot, pillar, left, right, bore, channel, face = kressedach.shapes("Foot", "Pillar", "BoltLeft", "BoltRight", "Bore", "Channel", "Face")
sheet = kressedach.Sheet.of(((foot | pillar) - (left | right | bore | channel)) & face)
drawing = kressedach.Drawing(
    sheet,
    {
        "Foot": Box((0, 0, 0), (120, 60, 12)),
        "Pillar": Box((35, 0, 5), (85, 60, 72)),
        "BoltLeft": Box((12, 22, -1), (24, 38, 13)),
        "BoltRight": Box((96, 22, -1), (108, 38, 13)),
        "Bore": Box((43, -1, 25), (77, 61, 63)),
        "Channel": Box((57, 27, 60), (63, 33, 75)),
        "Face": HalfSpace(2, 68.0),
    },
)
print(f"below Face, Foot and Pillar less four holes: {len(sheet.names)} names, {sheet.leaves} leaves")


def raster(columns, rows, origin, across, up, direction):
    """Lines in one direction, through the middle of every field of a raster that begins at an origin."""
    i, j = (axis.reshape(-1, 1) + 0.5 for axis in np.meshgrid(np.arange(columns), np.arange(rows)))
    lines = np.empty((columns * rows, 6))
    lines[:, :3] = np.array(origin) + i * np.array(across) + j * np.array(up)
    lines[:, 3:] = direction
    return lines


above = raster(120, 60, (0, 0, 100), (1, 0, 0), (0, 1, 0), (0, 0, -1))
crossed = kressedach.cross(drawing, above)
walls = kressedach.walls(sheet, crossed)
print(f"120 x 60 lines from above: {len(crossed.lines)} crossings, {len(walls)} walls")
print(f"thickness of the walls from above: {walls['thickness'].min() / 1000} to {walls['thickness'].max() / 1000} mm")

thinnest = walls[walls["thickness"].argmin()]
first, last = sheet.named([thinnest["start_shape"], thinnest["end_shape"]])
x, y, _ = above[thinnest["line"], :3]
print(f"the thinnest is {thinnest['thickness'] / 1000} mm, from {first} to {last}, on the line at x = {x}, y = {y}")

thin = walls[walls["thickness"] < 8000]
places = above[thin["line"], :2]
least, greatest = places.min(axis=0), places.max(axis=0)
print(f"{len(thin)} walls are below 8 mm, for x from {least[0]} to {greatest[0]} and y from {least[1]} to {greatest[1]}")

overlooked = kressedach.Sheet.of(((foot | pillar) - (left | right | bore)) & face, sheet.names)
theirs = kressedach.walls(overlooked, crossed)
opinion = kressedach.judge(sheet, crossed, theirs)
x, y, _ = above[theirs[opinion.index]["line"], :3]
print(f"a list that overlooks Channel is {'right' if opinion.right else 'wrong'}, first at x = {x}, y = {y}")

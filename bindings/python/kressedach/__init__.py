"""Where is there metal? Wall lists of castings, by a proved library.

A sheet names shapes and combines them by a formula; lines go through it, and wall lists come out. The work is done by a library whose
every function is proved to meet its contract, to touch no memory but what it is lent, and to end. This package is a thin face of it over
numpy's arrays: no array is copied unseen, a job answers or raises :class:`Refused`, and other threads run during a call.

>>> import kressedach, numpy
>>> block, bore = kressedach.shapes("Block", "Bore")
>>> sheet = kressedach.Sheet.of(block - bore)
>>> drawing = kressedach.Drawing(sheet, {
...     "Block": kressedach.Box((0, 0, 0), (100, 40, 40)),
...     "Bore": kressedach.Box((40, 10, -1), (60, 30, 41)),
... })
>>> line = numpy.array([[-10.0, 20, 20, 1, 0, 0]])
>>> walls = kressedach.walls(sheet, kressedach.cross(drawing, line))
>>> walls["thickness"]
array([40000, 40000])
>>> sheet.named(walls["start_shape"])
array(['Block', 'Bore'], dtype='<U5')

:mod:`kressedach.lent` has the jobs with lent answer lists, as the header has them, and :mod:`kressedach.dask` lines in partitions, for
many processors and many machines.
"""

from . import lent
from .drawings import BOX, Box, Drawing, HalfSpace, Row, cross, cross_balls, cross_line
from .formula import Formula, Operation, shapes
from .lent import Beside, Opinion, Size
from .lines import OPEN_END, OPEN_START, OPEN_THICKNESS, WALL, Crossed, is_open, judge, walls
from .refused import Refused, Which
from .sheets import OPEN_SHAPE, Sheet, fittings_names, fittings_of
from .toggles import MOST_NODES, NODE, Edited, Ran, Tree, build, run, run_both, run_edited

__version__ = "0.1.0"

__all__ = [
    "BOX",
    "Beside",
    "Box",
    "Crossed",
    "Drawing",
    "Edited",
    "Formula",
    "HalfSpace",
    "MOST_NODES",
    "NODE",
    "OPEN_END",
    "OPEN_SHAPE",
    "OPEN_START",
    "OPEN_THICKNESS",
    "Operation",
    "Opinion",
    "Ran",
    "Refused",
    "Row",
    "Sheet",
    "Size",
    "Tree",
    "WALL",
    "Which",
    "build",
    "cross",
    "cross_balls",
    "cross_line",
    "fittings_names",
    "fittings_of",
    "is_open",
    "judge",
    "lent",
    "run",
    "run_both",
    "run_edited",
    "shapes",
    "walls",
]

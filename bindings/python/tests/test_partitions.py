"""Lists cut between lines give what one call gives: on cases from a seed, of every kind, in partitions of every size."""

import dask
import dask.array as da
import dask.bag as db
import numpy as np
import pytest
from cases import cases
from test_agree import arguments, lists_of_one_length

import kressedach
import kressedach.dask
from kressedach import Beside, Crossed, Refused


@pytest.fixture(autouse=True)
def here():
    """In this thread."""
    with dask.config.set(scheduler="synchronous"):
        yield


def told(call):
    try:
        return call()
    except Refused as refused:
        return refused.number, refused.sheet, refused.place


def read(sheet):
    return kressedach.Sheet(sheet.sheet, sheet.fittings) if isinstance(sheet, Beside) else kressedach.Sheet(sheet)


def line_cases(path, job, count):
    """Sheets and crossed lines of so many cases, and the other lists of the call."""
    for case in cases(path):
        if case.job != job or count == 0:
            continue
        sheet, rows, lines, positions, shapes, *others = arguments(case)
        try:
            sheet = read(sheet)
        except Refused:
            continue
        if len(rows) % len(sheet.names) or not lists_of_one_length(lines, positions, shapes):
            continue
        count -= 1
        yield sheet, Crossed(rows.reshape(-1, len(sheet.names)), lines, positions, shapes), others


def test_walls_and_refusals_of_every_partition_size(peer_cases):
    seen = {"given": 0, "11": 0, "other": 0}
    for sheet, crossed, _ in line_cases(peer_cases, "classify", 300):
        due = told(lambda: kressedach.walls(sheet, crossed))
        for size in {1, 3, max(1, len(crossed.rows) // 2)} if len(crossed.rows) < 60 else {20, 33}:
            parts = kressedach.dask.cut(crossed, size)
            got = told(lambda: kressedach.dask.walls(sheet, parts).compute())
            if isinstance(due, np.ndarray):
                assert got.tobytes() == due.tobytes()
                seen["given"] += 1
                continue
            refused = kressedach.dask.refused(sheet, parts).compute()
            assert (refused.number, refused.sheet, refused.place) == due and isinstance(got, tuple)
            if due[0] in (10, 11, 15):
                assert refused.line == crossed.lines[due[2]]
            seen["11" if due[0] == 11 else "other"] += 1
    assert min(seen.values()) > 20, seen


def test_opinions(peer_cases):
    seen = {"right": 0, "wrong": 0, "refused": 0}
    for sheet, crossed, theirs in line_cases(peer_cases, "judge", 300):
        if not lists_of_one_length(*theirs):
            continue
        entries = np.zeros(len(theirs[0]), kressedach.WALL)
        entries["line"], entries["start"], entries["end"] = theirs
        due = told(lambda: kressedach.judge(sheet, crossed, entries))
        for size in (2, 7) if len(crossed.rows) < 60 else (25,):
            parts = kressedach.dask.cut(crossed, size)
            got = told(lambda: kressedach.dask.judge(sheet, parts, kressedach.dask.cut_walls(entries, parts)).compute())
            assert got == due
            seen["refused" if isinstance(due, tuple) else "right" if due.right else "wrong"] += 1
    assert min(seen.values()) > 20, seen


DRAWN = {"Block": kressedach.Box((0, 0, 0), (100, 40, 40)), "Bore": kressedach.Box((40, 10, -1), (60, 30, 41))}


def raster(count):
    lines = np.zeros((count, 6))
    lines[:, 0], lines[:, 1], lines[:, 2], lines[:, 3] = -10, np.linspace(-5, 45, count), 20, 1
    return lines


def test_arrays_of_lines(block):
    drawing, lines = kressedach.Drawing(block, DRAWN), raster(101)
    whole = kressedach.cross(drawing, lines)
    crossed = kressedach.dask.cross(drawing, da.from_array(lines, chunks=(17, 6)))
    assert crossed.rows.chunks == ((17,) * 5 + (16,), (2,))
    assert [array.tobytes() for array in dask.compute(*crossed)] == [array.tobytes() for array in whole]
    assert kressedach.dask.walls(block, crossed).compute().tobytes() == kressedach.walls(block, whole).tobytes()
    drawn = kressedach.dask.drawn_walls(block, drawing, da.from_array(lines, chunks=(17, 6)))
    assert drawn.compute().tobytes() == kressedach.walls(block, whole).tobytes()
    walls = kressedach.dask.walls(block, crossed)
    assert kressedach.dask.judge(block, crossed, walls).compute() == kressedach.Opinion(True, len(walls.compute()))


def test_bags_of_partitions(block):
    drawing, lines = kressedach.Drawing(block, DRAWN), raster(101)
    bag = db.from_sequence(np.split(lines, [10, 10, 50, 51, 90]), npartitions=3)
    crossed = kressedach.dask.cross(drawing, bag)
    due = kressedach.walls(block, kressedach.cross(drawing, lines))
    walls = kressedach.dask.walls(block, crossed)
    assert walls.npartitions == crossed.npartitions == 3
    assert np.concatenate(kressedach.dask.drawn_walls(block, drawing, bag).compute()).tobytes() == due.tobytes()
    assert np.concatenate(walls.compute()).tobytes() == due.tobytes()
    assert kressedach.dask.judge(block, crossed, walls).compute() == kressedach.Opinion(True, len(due))
    here = [array.copy() for array in walls.compute()]
    here[4]["end"][2] += 1
    wrong = kressedach.dask.judge(block, crossed, db.from_sequence(here, npartitions=3)).compute()
    assert wrong == kressedach.judge(block, kressedach.cross(drawing, lines), np.concatenate(here)) and not wrong.right
    here[4]["end"][2] -= 1
    beyond = np.array([(5000, 0, 1, 0, 0, 1)], kressedach.WALL)
    wrong = kressedach.dask.judge(block, crossed, db.from_sequence([*here[:-1], beyond], npartitions=3)).compute()
    assert wrong == kressedach.Opinion(False, len(due))


def test_a_refused_line_in_the_whole(block):
    drawing, lines = kressedach.Drawing(block, DRAWN), raster(50)
    lines[33, 3] = 0
    for given in (da.from_array(lines, chunks=(20, 6)), db.from_sequence([lines[:20], lines[20:40], lines[40:]], npartitions=2)):
        crossed, drawn = kressedach.dask.cross(drawing, given), kressedach.dask.drawn_walls(block, drawing, given)
        with pytest.raises(Refused) as refused:
            dask.compute(crossed)
        assert pytest.raises(Refused, drawn.compute).value == refused.value
        assert (refused.value.number, refused.value.place, refused.value.line, refused.value.partition) == (16, 65535, 33, 1)


def test_a_refused_element_of_a_bag_in_the_whole(block):
    drawing, lines = kressedach.Drawing(block, DRAWN), raster(50)
    parts = [kressedach.cross(drawing, part) for part in np.split(lines, [20, 40])]
    parts[1].shapes[7] = 2
    due = len(parts[0].lines) + 7
    bag = db.from_sequence(parts, npartitions=2)
    for refused in (kressedach.dask.refused(block, bag).compute(), pytest.raises(Refused, kressedach.dask.walls(block, bag).compute).value):
        assert (refused.number, refused.place, refused.line, refused.partition) == (10, due, 20 + parts[1].lines[7], 1)


def test_what_is_refused_before_anything_is_sent(block):
    parts = kressedach.dask.cut(kressedach.cross(kressedach.Drawing(block, DRAWN), raster(10)), 4)
    with pytest.raises(ValueError, match="^lines: 2 blocks, and rows has 3"):
        kressedach.dask.walls(block, parts._replace(lines=parts.lines.rechunk((20, -1))))
    with pytest.raises(TypeError, match="^positions: an array of int32 is needed, and this one is of int64"):
        kressedach.dask.walls(block, parts._replace(positions=parts.positions.astype(np.int64)))
    with pytest.raises(ValueError, match="^rows: 2 columns in one block are needed"):
        kressedach.dask.walls(block, parts._replace(rows=parts.rows[:, :1]))
    with pytest.raises(TypeError, match="^rows: a dask array or a bag is needed, and this is a ndarray"):
        kressedach.dask.walls(block, parts._replace(rows=parts.rows.compute()))
    with pytest.raises(TypeError, match="^crossed: a Crossed of dask arrays, or a bag, is needed"):
        kressedach.dask.walls(block, [1, 2])
    with pytest.raises(ValueError, match="^theirs: 1 blocks, and rows has 3"):
        kressedach.dask.judge(block, parts, da.zeros(3, dtype=kressedach.WALL, chunks=3))
    with pytest.raises(TypeError, match="^theirs: a structured array, .* is needed, and there is no start"):
        kressedach.dask.judge(block, parts, da.zeros(3, dtype=[("line", "u4")], chunks=1))
    with pytest.raises(TypeError, match="^theirs: a dask array, as crossed is of them, is needed, and this is a ndarray"):
        kressedach.dask.judge(block, parts, np.zeros(3, kressedach.WALL))
    for call in (kressedach.dask.walls, kressedach.dask.refused, lambda *given: kressedach.dask.judge(*given, parts)):
        with pytest.raises(TypeError, match="^sheet: a Sheet is needed, and this is a bytes"):
            call(block.data, parts)
    with pytest.raises(TypeError, match="^drawing: a Drawing is needed, and this is a NoneType"):
        kressedach.dask.cross(None, da.zeros((4, 6)))
    with pytest.raises(ValueError, match="^drawing: 2 shapes, and the sheet has 1"):
        one = kressedach.Sheet.of(kressedach.Formula("A"))
        kressedach.dask.drawn_walls(one, kressedach.Drawing(block, DRAWN), da.zeros((4, 6)))
    with pytest.raises(TypeError, match="^lines: a whole number is needed, and this is a float"):
        kressedach.dask.cut(Crossed(*dask.compute(*parts)), 2.5)
    with pytest.raises(ValueError, match="^rows: an array of 2 dimensions is needed, and this one has 1"):
        kressedach.dask.cut(Crossed(*dask.compute(*parts))._replace(rows=np.zeros(20, np.uint8)), 4)
    with pytest.raises(TypeError, match="^theirs: a structured array is needed, and this is a dict"):
        kressedach.dask.cut_walls({}, parts)
    with pytest.raises(TypeError, match="^crossed: a Crossed of dask arrays is needed, and this is a Bag"):
        kressedach.dask.cut_walls(np.zeros(0, kressedach.WALL), db.from_sequence([1]))
    with pytest.raises(ValueError, match="^lines: a partition has one line at least"):
        kressedach.dask.cut(Crossed(*dask.compute(*parts)), 0)
    crowded = kressedach.Drawing.of_lists(np.zeros(257, np.uint8), np.zeros((257, 6)))
    assert pytest.raises(Refused, kressedach.dask.cross, crowded, da.zeros((4, 6))).value.place == 256
    with pytest.raises(Refused) as refused:
        kressedach.dask.cross(kressedach.Drawing(block, DRAWN), da.zeros((2**32 + 1, 6), chunks=(2**28, 6)))
    assert (refused.value.number, refused.value.place) == (14, 0)


def test_blocks_that_are_not_cut_between_lines(block):
    """A line in two blocks: no cut, and no wrong wall."""
    parts = kressedach.dask.cut(kressedach.cross(kressedach.Drawing(block, DRAWN), raster(10)), 4)
    sizes = list(parts.lines.chunks[0])
    sizes[0], sizes[1] = sizes[0] - 1, sizes[1] + 1
    moved = {name: getattr(parts, name).rechunk((tuple(sizes),)) for name in ("lines", "positions", "shapes")}
    with pytest.raises(ValueError, match="^lines: the block for lines 4 to 7 has others: blocks are cut between lines"):
        kressedach.dask.walls(block, parts._replace(**moved)).compute()


def test_blocks_that_are_not_as_long_as_their_array_says(block):
    """The numbers of later lines rest on it."""
    drawing, lines = kressedach.Drawing(block, DRAWN), raster(30)

    def said(array, *shape):
        return da.from_delayed(dask.delayed(lambda: array)(), shape, array.dtype)

    for heights in ((9, 20), (11, 20)):
        blocks = da.concatenate([said(lines[:10], heights[0], 6), said(lines[10:], heights[1], 6)])
        for made in (kressedach.dask.drawn_walls(block, drawing, blocks), kressedach.dask.cross(drawing, blocks).lines):
            with pytest.raises(ValueError, match=f"^lines: the block from line 0 on has 10 entries, and its array says {heights[0]}"):
                made.compute()
    whole = kressedach.cross(drawing, lines)
    for change in ({"rows": said(whole.rows, 29, 2)}, {"lines": said(whole.lines, len(whole.lines) + 1)}):
        (name,) = change
        parts = Crossed(*(said(array, *array.shape) for array in whole))._replace(**change)
        for made in (kressedach.dask.walls(block, parts), kressedach.dask.refused(block, parts)):
            with pytest.raises(ValueError, match=f"^{name}: the block from line 0 on has {len(getattr(whole, name))} entries"):
                made.compute()


def test_bags_of_walls_that_do_not_go_with_the_lines(block):
    """An element that is lacking is no opinion on fewer lines, and a number that 32 bits do not hold no other line."""
    drawing, parts = kressedach.Drawing(block, DRAWN), np.split(raster(30), [10, 20])
    elements = [kressedach.cross(drawing, part) for part in parts]
    own = [kressedach.walls(block, element) for element in elements]
    crossed = db.from_sequence(elements, npartitions=1)
    walls = kressedach.dask.walls(block, crossed).compute()

    def judged(theirs, partitions=1, of=crossed):
        return kressedach.dask.judge(block, of, db.from_sequence(theirs, npartitions=partitions)).compute()

    assert judged(walls) == kressedach.Opinion(True, sum(map(len, walls)))
    as_dicts = [{field: np.ascontiguousarray(one[field]) for field in ("line", "start", "end")} for one in walls]
    assert judged(as_dicts) == judged(walls)
    for wrong in (walls[:2], [*walls, walls[0]]):
        with pytest.raises(ValueError, match=f"^theirs: a partition has {len(wrong)} elements, and that of crossed has 3"):
            judged(wrong)
    with pytest.raises(ValueError, match="^theirs: 3 partitions, and crossed has 1"):
        judged(walls, 3)
    with pytest.raises(TypeError, match="^theirs: a bag, as crossed is one, is needed, and this is a list"):
        kressedach.dask.judge(block, crossed, walls)
    for moved in (own, [walls[0][:-1], np.concatenate([walls[0][-1:], walls[1]]), walls[2]]):
        with pytest.raises(ValueError, match="^theirs: the block for lines 10 to 19 has others: blocks are cut between lines"):
            judged(moved)
    later = [one.astype([(name, np.int64) for name in one.dtype.names]) for one in walls]
    assert judged(later) == judged(walls)
    later[1]["line"][3] += 2**32
    with pytest.raises(ValueError, match="^theirs.*: entry 3 is 429496.*, which is no uint32"):
        judged(later)
    wide = db.from_sequence([element._replace(lines=element.lines.astype(np.int64) + 2**32) for element in elements], npartitions=1)
    for made in (lambda: judged(walls, of=wide), kressedach.dask.refused(block, wide).compute, kressedach.dask.walls(block, wide).compute):
        with pytest.raises(TypeError, match="^lines: an array of uint32 is needed, and this one is of int64"):
            made()


def test_no_task_changes_what_another_has(block):
    """Lists that are given and answers that wait stay as they are; what has come over the network may be read-only."""
    drawing, lines = kressedach.Drawing(block, DRAWN), raster(40)
    whole = kressedach.cross(drawing, lines)
    kept, due = [array.tobytes() for array in whole], kressedach.walls(block, whole).tobytes()
    for array in whole:
        array.flags.writeable = False
    parts = kressedach.dask.cut(whole, 15)
    assert kressedach.dask.walls(block, parts).compute().tobytes() == due
    assert kressedach.dask.judge(block, parts, kressedach.dask.walls(block, parts)).compute().right
    assert [array.tobytes() for array in whole] == kept
    element = kressedach.cross(drawing, lines[:15])
    waiting = kressedach.dask._walls_element(block, element)
    waiting.answer.flags.writeable = False
    before = kressedach.dask._Sizes(1, 100)
    once, again = (kressedach.dask._raised(waiting, before, kressedach.dask._on_later_lines) for _ in range(2))
    assert once.tobytes() == again.tobytes() and once["line"].min() == 100 + waiting.answer["line"].min()


def test_more_lines_than_their_numbers_hold():
    """In bags, whose lines are counted where they are: as one call, 14 before any crossing at fault."""
    sizes = kressedach.dask._Sizes(1, 2**31, 8)
    fault = kressedach.dask._Part(Refused(10, 0, 3, 5), sizes), 0
    good = kressedach.dask._Part(kressedach.Opinion(True, 0), sizes), 0
    assert kressedach.dask._first_refusal([[good, good]]) is None
    assert kressedach.dask._first_refusal([[good], [fault]]) == Refused(10, 0, 11, 2**31 + 5, 1)
    assert kressedach.dask._first_refusal([[fault, good], [good]]) == Refused(14, 0, 0)
    with pytest.raises(Refused) as refused:
        kressedach.dask._raised(good[0], kressedach.dask._Sizes(2, 2**32), kressedach.dask._kept)
    assert refused.value == Refused(14, 0, 0, None, 2)

"""Sheets and formulas: names in, names out."""

import pickle

import numpy as np
import pytest

import kressedach
from kressedach import Box, Drawing, Formula, HalfSpace, Operation, Refused, Sheet, Which, lent, shapes


def test_the_operators(root):
    block, bore, port, rib = shapes("Block", "Bore", "Port", "rib")
    formula = (block - bore) | (port & rib) ^ block
    assert formula.postfix == (
        "Block", "Bore", Operation.DIFFERENCE, "Port", "rib", Operation.INTERSECTION, "Block", Operation.EXCLUSIVE, Operation.UNION,
    )  # fmt: skip
    assert Sheet.of(formula).formula == formula
    assert Sheet.of(block - bore) == Sheet.from_file(root / "examples/block.sheet")
    assert Sheet.of(bore - block) != Sheet.of(block - bore, ["Bore", "Block"])


def test_every_example_sheet_is_read_and_made_again(root):
    alone = [path for path in sorted((root / "examples").glob("*.sheet")) if path.name not in ("fittings.sheet",)]
    made = 0
    for path in alone:
        try:
            sheet = Sheet.from_file(path)
        except Refused:
            sheet = Sheet.from_file(path, root / "examples/fittings.sheet")
        own = sheet.names if sheet.fittings is None else sheet.names[len(kressedach.fittings_names(sheet.fittings)) :]
        again = Sheet.of(sheet.formula, own, fittings=sheet.fittings, edition=sheet.edition)
        assert again == sheet
        made += 1
    assert made >= 5


def test_names_that_differ_in_case_are_two():
    sheet = Sheet.of(Formula("Port") - Formula("PORT"))
    assert sheet.names == ("Port", "PORT") and sheet.number("PORT") == 1
    with pytest.raises(KeyError, match="port: the sheet has no shape of this name"):
        sheet.number("port")


def test_a_sheet_that_would_be_wrong_is_refused():
    block, bore = shapes("Block", "Bore")
    with pytest.raises(Refused) as refused:
        Sheet.of(block - bore, ["Block", "Bore", "Block"])
    assert (refused.value.number, refused.value.sheet, refused.value.place) == (5, Which.CUSTOMERS, 20)
    for name in ("", "a b", "é", "x" * 33):
        with pytest.raises(Refused) as refused:
            Sheet.of(Formula(name))
        assert refused.value.number == 4
    with pytest.raises(Refused) as refused:
        Sheet.of(Formula("0"), map(str, range(257)))
    assert refused.value.number == 6
    with pytest.raises(Refused) as refused:
        Sheet.of(Formula.of_postfix(["A"] * 1025 + [Operation.UNION] * 1024))
    assert refused.value.number == 6
    with pytest.raises(ValueError, match="^names: there is no Bore, which the formula has"):
        Sheet.of(block - bore, ["Block"])


def test_the_deepest_formulas():
    for postfix in (["A"] * 1024 + [Operation.DIFFERENCE] * 1023, ["A"] + ["B", Operation.DIFFERENCE] * 1023):
        formula = Formula.of_postfix(postfix)
        for edition in (1, 2):
            assert Sheet.of(formula, edition=edition).formula == formula


def test_what_is_no_formula():
    with pytest.raises(ValueError, match="UNION has fewer than two operands"):
        Formula.of_postfix(["A", Operation.UNION])
    with pytest.raises(ValueError, match="2 operands are left"):
        Formula.of_postfix(["A", "B"])
    with pytest.raises(TypeError):
        Formula("A") - "B"
    with pytest.raises(TypeError, match="^name: a str is needed, and this is an int"):
        Formula(7)
    for wrong in (["A", "B", 0xFFF2], [7], [None], [b"A"]):
        with pytest.raises(TypeError, match="^postfix: a name or an Operation is needed, and this is a"):
            Formula.of_postfix(wrong)
    for wrong in (None, 7, "AB"):
        with pytest.raises(TypeError, match="^postfix: names and operations are needed, and this is a"):
            Formula.of_postfix(wrong)
    with pytest.raises(ValueError, match="0 operands are left"):
        Formula.of_postfix([])
    with pytest.raises(TypeError, match="^formula: a Formula is needed, and this is a str"):
        Sheet.of("A - B")
    with pytest.raises(TypeError, match="^names: a str for each is needed, and this is an int"):
        Sheet.of(Formula("A"), ["A", 7])
    for wrong in ("AB", 7):
        with pytest.raises(TypeError, match="^names: names are needed, and this is a"):
            Sheet.of(Formula("A"), wrong)
    with pytest.raises(TypeError, match="^names: a str for each is needed"):
        kressedach.fittings_of("Lug", None)


def test_a_long_formula_takes_no_long_time():
    """It is too long for any sheet, and that is said at once."""
    long = Formula.of_postfix(["A", *["B", Operation.UNION] * 200_000])
    with pytest.raises(Refused) as refused:
        Sheet.of(long)
    assert refused.value.number == 6


def test_editions():
    sheet = Sheet.of(Formula("A") - Formula("B"), edition=2)
    assert sheet.edition == 2 and sheet.data[-9:].hex() == "040006fff200000001"
    with pytest.raises(Refused) as refused:
        Sheet.of(Formula("A") ^ Formula("B")).moved()
    assert str(refused.value) == "refused 19 at byte 20 of the customer's sheet: a move to edition 2 of a sheet with an exclusive union"
    with pytest.raises(ValueError, match="^edition: 1 or 2 is needed, and this is 3"):
        Sheet.of(Formula("A"), edition=3)


def test_fittings():
    fittings = kressedach.fittings_of("Lug", "Boss")
    sheet = Sheet.of(Formula("Plate") | Formula("Boss"), fittings=fittings)
    assert sheet.names == ("Lug", "Boss", "Plate") and sheet.named([2, 1, 65535]).tolist() == ["Plate", "Boss", ""]
    with pytest.raises(Refused) as refused:
        Sheet.of(Formula("Lug"), ["Lug"], fittings=fittings)
    assert (refused.value.number, refused.value.place) == (17, 5)
    with pytest.raises(Refused) as refused:
        kressedach.fittings_of()
    assert (refused.value.number, refused.value.sheet) == (1, Which.FITTINGS)
    with pytest.raises(Refused):
        Sheet(sheet.data)
    with pytest.raises(Refused, match="of the fittings sheet"):
        Sheet(sheet.data, b"")


def test_numbers_that_no_name_has(block):
    for number in (2, -1, 65534):
        with pytest.raises(IndexError, match=f"numbers: no name has the number {number}"):
            block.named([0, number])
    for wrong, dtype in (([1.0], "float64"), (["Block"], "<U5"), (None, "object"), (np.zeros(0), "float64"), ([True], "bool")):
        with pytest.raises(TypeError, match=f"^numbers: whole numbers are needed, and these are of {dtype}"):
            block.named(wrong)
    assert block.named([]).tolist() == [] and block.named([[1], [0]]).tolist() == [["Bore"], ["Block"]]
    assert block.named(np.array([1], np.uint64)).tolist() == ["Bore"] and block.named(0) == "Block"


def test_what_travels_arrives_as_it_was(block):
    """By every protocol: what workers are sent and what they answer."""
    drawing = Drawing(block, {"Block": Box((0, 0, 0), (9, 9, 9)), "Bore": HalfSpace(0, 3.0)})
    crossed = kressedach.cross(drawing, np.array([[-1.0, 2, 2, 1, 0, 0]]))
    walls = kressedach.walls(block, crossed)
    for protocol in range(pickle.HIGHEST_PROTOCOL + 1):

        def again(one):
            return pickle.loads(pickle.dumps(one, protocol))

        for one in (block, block.formula, Operation.UNION, kressedach.judge(block, crossed, walls), lent.read(block), Refused(9, 0, 3)):
            assert again(one) == one and type(again(one)) is type(one)
        for one in (crossed, kressedach.build(block), kressedach.run(block, ["Block"])):
            assert type(again(one)) is type(one) and [np.asarray(a).tolist() for a in again(one)] == [np.asarray(a).tolist() for a in one]
        assert again(walls).tobytes() == walls.tobytes() and again(walls).dtype == kressedach.WALL
        assert [array.tolist() for array in again(drawing).lists()] == [array.tolist() for array in drawing.lists()]


def test_a_drawing_that_is_not_fit_does_not_travel():
    """Its bytes would be other numbers where they arrive."""
    for kinds, numbers in ((np.zeros(2, np.uint8), np.ones((2, 6), ">f8")), (np.zeros(2, np.int64), np.ones((2, 6)))):
        with pytest.raises((TypeError, ValueError), match="^(numbers|kinds): "):
            pickle.dumps(Drawing.of_lists(kinds, numbers))


def test_sheets_and_refusals_travel(block):
    assert pickle.loads(pickle.dumps(block)) == block and hash(block) == hash(Sheet(block.data))
    refused = Refused(11, 0, 7, 3, 2)
    again = pickle.loads(pickle.dumps(refused))
    assert again == refused and str(again) == str(refused) and (again.line, again.partition) == (3, 2)
    assert str(refused) == "refused 11 at entry 7 on line 3 in partition 2: a line number falls, or a position falls within its line"


def test_refusals_in_words():
    words = {
        (5, 2, 23): "at byte 23 of the customer's sheet",
        (5, 1, 23): "at byte 23 of the fittings sheet",
        (9, 0, 6): "for want of 6 entries",
        (10, 0, 4): "at entry 4",
        (15, 0, 4): "at entry 4",
        (13, 0, 0): "",
        (14, 0, 0): "",
        (16, 0, 3): "at shape 3",
        (16, 0, 65535): "for the line",
        (16, 0, 256): "",
        (18, 0, 3): "at ball 3",
        (19, 0, 24): "at byte 24 of the customer's sheet",
        (20, 0, 3): "at entry 3",
    }
    assert {refusal: Refused(*refusal).place_in_words for refusal in words} == words


def test_sheets_of_other_bytes(block):
    assert Sheet(bytearray(block.data)) == Sheet(memoryview(block.data)) == block
    for wrong in ("Block", None, 10**12, [1, 0], np.zeros(3, np.uint8)):
        with pytest.raises(TypeError, match="^data: a sheet, in bytes, is needed, and this is a"):
            Sheet(wrong)
    with pytest.raises(TypeError, match="^fittings: a sheet, in bytes, is needed"):
        Sheet(block.data, "Lug")
    with pytest.raises(Refused, match="^refused 1 at byte 0 of the customer's sheet"):
        Sheet(b"")


def test_drawings_by_name(block):
    bore = Box((40, 10, -1), (60, 30, 41))
    with pytest.raises(ValueError, match="^shapes: Block is missing"):
        Drawing(block, {"Bore": bore})
    with pytest.raises(ValueError, match="^shapes: block is no shape of the sheet"):
        Drawing(block, {"block": bore, "Bore": bore})
    for wrong, error, words in (
        (HalfSpace(3, 0.0), ValueError, ".axis: a number from 0 to 2 is needed, and this is 3"),
        (HalfSpace(1.0, 0.0), TypeError, ".axis: a whole number is needed, and this is a float"),
        (HalfSpace(0, "1"), TypeError, ".face: a number is needed, and this is a str"),
        (HalfSpace(0, np.zeros(2)), TypeError, ".face: a number is needed, and this is a ndarray"),
        (Box((0, 0), (1, 1, 1)), ValueError, ".lows: 3 numbers are needed, and this has 2"),
        (Box((0, 0, 0), 1), TypeError, ".highs: 3 numbers are needed, and this is an int"),
        (Box((0, None, 0), (1, 1, 1)), TypeError, ".lows: a number is needed, and this is a NoneType"),
        (Box((0, 0, 0), (1, 10**400, 1)), ValueError, ".highs: the number is more than a double holds"),
        ("box", TypeError, ": a Box or a HalfSpace is needed, and this is a str"),
    ):
        with pytest.raises(error) as refused:
            Drawing(block, {"Block": wrong, "Bore": bore})
        assert str(refused.value) == f"shapes['Block']{words}"
    with pytest.raises(TypeError, match="^shapes: a Box or a HalfSpace for each name, in a dict, is needed, and this is a list"):
        Drawing(block, [bore, bore])
    not_a_number = Drawing(block, {"Block": HalfSpace(0, float("nan")), "Bore": bore})
    with pytest.raises(Refused, match="^refused 16 at shape 0 on line 0"):
        kressedach.cross(not_a_number, np.array([[0.0, 0, 0, 1, 0, 0]]))


def test_a_refused_line_is_told(block):
    drawing = Drawing(block, {"Block": Box((0, 0, 0), (1, 1, 1)), "Bore": HalfSpace(2, 0.5)})
    lines = np.array([[0, 0, 0, 1, 0, 0], [0, 0, 0, 0, 0, 0.0]])
    with pytest.raises(Refused) as refused:
        kressedach.cross(drawing, lines)
    assert (refused.value.number, refused.value.place, refused.value.line) == (16, 65535, 1)
    assert str(refused.value).startswith("refused 16 for the line on line 1: ")
    with pytest.raises(Refused) as refused:
        kressedach.cross(Drawing.of_lists(np.zeros(257, np.uint8), np.zeros((257, 6))), lines)
    assert (refused.value.place, refused.value.line) == (256, None)


@pytest.mark.parametrize("at_once", [kressedach.drawings.MOST_ROOM, 0])
def test_a_drawing_that_lines_meet_often(monkeypatch, at_once):
    """With room that is always enough, and with more crossings than the room that is tried first."""
    monkeypatch.setattr(kressedach.drawings, "MOST_ROOM", at_once)
    kinds, numbers = np.full(64, 255, np.uint8), np.array([[k, 0, 0, k + 0.5, 1, 1] for k in range(64)], float)
    lines = np.tile([-1.0, 0.5, 0.5, 1, 0, 0], (2000, 1))
    crossed = kressedach.cross(Drawing.of_lists(kinds, numbers), lines)
    assert len(crossed.lines) == 128 * 2000 and crossed.positions[:3].tolist() == [1000, 1500, 2000]
    lines[:, 1] = 2
    lines[7, 1] = 0.5
    few = kressedach.cross(Drawing.of_lists(kinds, numbers), lines)
    assert len(few.lines) == 128 and set(few.lines) == {7}
    # no more memory is kept than some of the entries'
    for one in (crossed, few):
        pieces = {id(piece): piece.nbytes for piece in (array if array.base is None else array.base for array in one[1:])}
        assert sum(pieces.values()) <= 4 * sum(array.nbytes for array in one[1:])

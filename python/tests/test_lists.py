"""Edits of lists and vectors: by the rules of Python's lists, all of an edit or nothing, and what a part that is gone says."""

from __future__ import annotations

import time
import unittest
from array import array
from typing import Any, Callable, Iterator

import ssz

kinds = ssz.Schema({"ssz": 1, "types": [
    ["Small", {"list": ["uint8", 6]}],
    ["Bytes", {"list": [{"list": ["byte", 4]}, 6]}],
    ["Shorts", {"list": ["uint16", 6]}],
    ["Longs", {"list": ["uint64", 6]}],
    ["Wide", {"list": ["uint128", 6]}],
    ["Truths", {"list": ["boolean", 6]}],
    ["Marks", {"bitlist": 6}],
    ["Four", {"vector": ["uint64", 4]}],
    ["Bits", {"bitvector": 4}],
    ["Row", {"container": [["n", "uint64"]]}],
    ["Rows", {"list": ["Row", 6]}],
    ["Lists", {"list": [{"list": ["uint16", 4]}, 6]}],
    ["Many", {"list": ["uint64", 1 << 20]}],
    ["Choice", {"union": [None, "Row", {"container": [["a", "uint64"], ["b", "uint64"]]}]}],
    ["Nested", {"container": [["choice", "Choice"], ["rows", "Rows"]]}],
]})

#: Of each type of lists and vectors four elements, three others, and objects that are no element.
LISTS: list[tuple[str, list[Any], list[Any], list[Any]]] = [
    ("Small", [1, 2, 3, 4], [7, 8, 9], ["8x", -1, 256, True, 1.0, None]),
    ("Bytes", [b"a", b"", b"bc", b"d"], [b"x", b"yz", b""], ["0xg", bytes(5), 7, None]),
    ("Shorts", [1, 2, 3, 4], [7, 8, 9], ["8x", -1, 1 << 16, True, 1.0, None]),
    ("Longs", [1, 2, 3, 4], [7, 8, 9], ["8x", -30, 1 << 64, True, 1.0, None]),
    ("Wide", [1, 2, 3, 1 << 100], [7, 8, 9], ["8x", -1, 1 << 128, True, 1.0, None]),
    ("Truths", [True, False, True, True], [False, False, True], [2, 1.0, "true", None]),
    ("Marks", [True, False, True, True], [False, False, True], [2, 1.0, "true", None]),
    ("Four", [1, 2, 3, 4], [7, 8, 9], ["8x", -1, 1 << 64, True, 1.0, None]),
    ("Bits", [True, False, True, True], [False, False, True], [2, 1.0, "true", None]),
    ("Rows", [{"n": 1}, {"n": 2}, {"n": 3}, {"n": 4}], [{"n": 7}, {"n": 8}, {"n": 9}], [{"n": -1}, {"m": 1}, 5, None]),
    ("Lists", [[1], [], [2, 3], [4]], [[7], [8, 9], []], [[-1], [1] * 5, 5, None]),
]
FIXED = ("Four", "Bits")
SLICES = [slice(*each) for each in [
    (None,), (0,), (2,), (1, 3), (3, 1), (4, None), (-1, None), (9, None), (None, -9), (-3, -1), (0, 4, 2), (1, None, 2), (None, None, -1),
    (3, 0, -2), (0, 9, 3), (None, None, -3),
]]


def shown(value: Any) -> list[Any]:
    """The elements, as Python's own objects."""
    return [dict(each) if isinstance(each, dict) else list(each) if isinstance(each, array) else each for each in value.to_plain()]


def once(items: list[Any]) -> Iterator[Any]:
    """Items that are had once."""
    return (item for item in items)


class Lists(unittest.TestCase):
    """Each kind of lists beside a list of Python."""

    def test_slices_are_set_as_those_of_lists(self) -> None:
        for name, old, new, _ in LISTS:
            for place in SLICES:
                for items in (new[:0], new[:1], new[:2], new):
                    for given in (items, once(items), tuple(items)):
                        with self.subTest(f"{name}[{place}] = {items}"):
                            self.beside(name, old, place, items, given)

    def beside(self, name: str, old: list[Any], place: slice, items: list[Any], given: Any) -> None:
        value, model = kinds[name](old), list(old)
        root = value.hash_tree_root()
        try:
            model[place] = items
            is_right = len(model) == 4 if name in FIXED else len(model) <= 6
        except ValueError:
            is_right = False
        if is_right:
            value[place] = given
            self.assertEqual(shown(value), model)
            self.assertEqual(value, kinds[name](model))
        else:
            with self.assertRaises(ValueError):
                value[place] = given
            self.assertEqual((shown(value), value.hash_tree_root()), (old, root))

    def test_slices_are_read_as_those_of_lists(self) -> None:
        for name, old, _, _ in LISTS:
            value = kinds[name](old)
            for place in SLICES:
                found = [each.to_plain() if isinstance(each, ssz.View) else each for each in value[place]]
                self.assertEqual([list(each) if isinstance(each, array) else each for each in found], old[place], (name, place))

    def test_one_wrong_item_changes_nothing(self) -> None:
        for name, old, new, wrong in LISTS:
            for item in wrong:
                for items in ([item], [*new[:1], item], [item, *new[:1]]):
                    for what, edit in self.edits(items).items():
                        if name in FIXED and what in ("extend", "append"):
                            continue
                        with self.subTest(f"{what} of {name} by {items}"):
                            self.unchanged(kinds[name](old), edit, ssz.BadValue)

    @staticmethod
    def edits(items: list[Any]) -> dict[str, Callable[[Any], None]]:
        """Edits by these items."""
        def sliced(place: slice, given: Any) -> Callable[[Any], None]:
            return lambda value: value.__setitem__(place, given)
        wrong = items[-1] if len(items) == 1 else items[items.index(items[-1])]
        return {
            "a slice": sliced(slice(0, len(items)), items), "a slice, once": sliced(slice(None), once(items)),
            "another slice": sliced(slice(0, 2 * len(items), 2), items), "extend": lambda value: value.extend(once(items)),
            **({"append": lambda value: value.append(wrong), "an item": lambda value: value.__setitem__(1, wrong)} if len(items) == 1 else {}),
        }

    def unchanged(self, value: Any, edit: Callable[[Any], None], error: type[BaseException]) -> None:
        """An edit raises, and the value and its root are as before."""
        before, root = shown(value), value.hash_tree_root()
        self.assertRaises(error, edit, value)
        self.assertEqual((shown(value), value.hash_tree_root()), (before, root))

    def test_an_iterator_that_fails(self) -> None:
        def failing(items: list[Any]) -> Iterator[Any]:
            yield from items
            raise KeyError("it fails")
        for name, old, new, _ in LISTS:
            self.unchanged(kinds[name](old), lambda value: value.__setitem__(slice(0, 2), failing(new)), KeyError)
            if name not in FIXED:
                self.unchanged(kinds[name](old), lambda value: value.extend(failing(new[:1])), KeyError)

    def test_no_lists(self) -> None:
        for name, old, _, _ in LISTS:
            texts: list[Any] = ["78", "0x01", {7: 1}, {7, 8}, {7: 1}.keys(), 7, None]
            if name != "Small":
                texts += [b"\7\7", bytearray(16), memoryview(bytes(16))]
            for text in texts:
                with self.subTest(f"{name} by {text!r}"):
                    self.unchanged(kinds[name](old), lambda value: value.__setitem__(slice(0, 2), text), ssz.BadValue)
                    if name not in FIXED:
                        self.unchanged(kinds[name](old), lambda value: value.extend(text), ssz.BadValue)
        small = kinds.Small([1, 2])
        small[0:1] = b"\7\7"
        small.extend(bytearray(b"\x08"))
        self.assertEqual(list(small), [7, 7, 2, 8])

    def test_a_list_grows_to_its_limit(self) -> None:
        for name, old, new, _ in LISTS:
            if name in FIXED:
                continue
            value = kinds[name](old)
            value.extend(once(new[:2]))
            self.assertEqual(shown(value), old + new[:2])
            self.unchanged(value, lambda value: value.extend(new[:1]), ssz.SszError)
            self.unchanged(value, lambda value: value.append(new[0]), ssz.NoSuchPart)
            for item in reversed(old + new[:2]):
                last = value.pop()
                self.assertEqual(list(last) if isinstance(last, array) else last, item)
            self.assertRaises(ssz.NoSuchPart, value.pop)
            value.extend(())
            self.assertEqual(shown(value), [])

    def test_a_long_list_grows(self) -> None:
        many = kinds.Many(range(1000))
        part, copy = many, many.copy()
        many.extend(n for n in range(10))
        self.assertEqual((list(part)[-12:], len(copy)), ([998, 999, *range(10)], 1000))
        self.unchanged(many, lambda value: value.extend([1, 2, -1]), ssz.BadValue)
        del many
        self.assertEqual(part.hash_tree_root(), kinds.Many([*range(1000), *range(10)]).hash_tree_root())

    def test_items_are_taken_before_the_list_is_read(self) -> None:
        for name, old, _, _ in LISTS:
            if name in FIXED:
                continue
            value, model = kinds[name](old), list(old)
            value[0:2] = (value.pop() for _ in range(2))
            model[0:2] = [model.pop() for _ in range(2)]
            self.assertEqual(shown(value), model, name)

    def test_a_view_by_itself(self) -> None:
        for name, old, _, _ in LISTS:
            value = kinds[name](old)
            value[:] = value
            value[0:2] = value[2:4]
            self.assertEqual(shown(value), old[2:] + old[2:], name)

    def test_equal(self) -> None:
        for name, old, new, _ in LISTS:
            value, other = kinds[name](old), kinds[name]([*new, old[3]])
            for equal in (value[:], list(value), value.copy(), kinds[name](old)):
                self.assertTrue(value == equal and equal == value, name)
            for unequal in (other, other[:], list(other), value[:3], [], None, 5, "x"):
                self.assertFalse(value == unequal or unequal == value, (name, unequal))
        self.assertTrue(kinds.Longs([]) == [] and kinds.Rows([]) == [])
        self.assertTrue(kinds.Longs([1, 2]) == array("Q", [1, 2]) and kinds.Longs([1, 2]) == (1, 2))


class Bits(unittest.TestCase):
    """Many bits."""

    def test_eight_times_as_many_take_no_more_than_that(self) -> None:
        bits = ssz.Schema({"ssz": 1, "types": [["Marks", {"bitlist": 1 << 20}], ["Truths", {"list": ["boolean", 1 << 20]}]]})
        for kind in (bits.Marks, bits.Truths):
            few, many = ([place % 3 == 0 for place in range(1 << power)] for power in (14, 17))
            for name, call in {
                "made": lambda bits: kind(bits), "listed": lambda bits: list(kind(bits)), "shown": lambda bits: kind(bits).to_obj(),
                "set": lambda bits: kind(bits).__setitem__(slice(0, 2), [True, False]), "extended": lambda bits: kind(bits).extend(bits),
            }.items():
                with self.subTest(f"{name} {kind.__name__}"):
                    self.assertLess(least(call, many), 24 * least(call, few))


def least(call: Callable[[Any], Any], given: Any) -> float:
    """The processor time of a call, the least of some."""
    def once() -> float:
        start = time.process_time()
        call(given)
        return time.process_time() - start
    return min(once() for _ in range(7))


class Gone(unittest.TestCase):
    """Views whose place is gone."""

    def setUp(self) -> None:
        self.nested = kinds.Nested(choice=(1, {"n": 7}), rows=[{"n": 1}, {"n": 2}])
        self.gone = [self.nested.choice.value, self.nested.rows[1]]
        self.nested.choice.choose(2, {"a": 1, "b": 2})
        self.nested.rows.pop()
        self.root = self.nested.hash_tree_root()

    def test_each_call_says_so(self) -> None:
        calls: dict[str, Callable[[Any], Any]] = {
            "hash_tree_root": lambda view: view.hash_tree_root(), "prove": lambda view: view.prove(), "prove a part": lambda view: view.prove("/n"),
            "encode_bytes": lambda view: view.encode_bytes(), "to_obj": lambda view: view.to_obj(), "read": lambda view: view.n,
            "write": lambda view: setattr(view, "n", 3), "==": lambda view: view == view, "as a value": lambda view: kinds.Rows([view]),
            "get_hash_tree_root": ssz.get_hash_tree_root, "encode": ssz.encode,
        }
        for view in self.gone:
            for name, call in calls.items():
                with self.subTest(f"{name} of {view!r}"):
                    self.assertRaises(ssz.NoSuchPart, call, view)
        self.assertEqual(self.nested.hash_tree_root(), self.root)

    def test_repr(self) -> None:
        self.assertEqual([repr(view) for view in self.gone], ["<Row at /choice/#1, which is not there>", "<Row at /rows/1, which is not there>"])

    def test_a_list_in_a_list(self) -> None:
        lists = kinds.Lists([[1, 2], [3]])
        row = lists[1]
        lists.pop()
        for call in (row.hash_tree_root, row.prove, row.pop, lambda: len(row), lambda: list(row), lambda: row[0], lambda: row.append(1),
                     lambda: row.extend([1]), lambda: row.__setitem__(slice(0, 1), [2])):
            self.assertRaises(ssz.NoSuchPart, call)
        lists.append([4])
        self.assertEqual((list(row), row.hash_tree_root()), ([4], kinds.Lists([[4]])[0].hash_tree_root()))

    def test_paths_begin_here(self) -> None:
        rows = kinds.Nested(rows=[{"n": n} for n in range(6)]).rows
        for path in ("5", "", "/n /rows/3", "/n\t/rows/3", " /n", "/n\n"):
            with self.subTest(repr(path)):
                self.assertRaises(ssz.BadPath, rows[1].prove, path)
        self.assertEqual(list(rows[1].prove("/n").leaves), list(rows.prove("/1/n").leaves))

    def test_parts_have_the_roots_of_their_values(self) -> None:
        self.assertEqual(self.nested.rows.hash_tree_root(), kinds.Rows([{"n": 1}]).hash_tree_root())
        self.assertEqual(self.nested.choice.hash_tree_root(), kinds.Choice(2, {"a": 1, "b": 2}).hash_tree_root())


class Containers(unittest.TestCase):
    """Containers are had by names."""

    def test_names(self) -> None:
        row = kinds.Row(n=3)
        self.assertEqual((list(row), "n" in row, "m" in row, 0 in row), (["n"], True, False, False))
        for call in (lambda: row[0], lambda: row.__setitem__(0, 1), lambda: kinds.Row(3, 4), lambda: kinds.Row(3, n=3)):
            self.assertRaises(TypeError, call)
        self.assertEqual(kinds.Row(3), row)


if __name__ == "__main__":
    unittest.main()

"""Steps of values: each does one thing to a view and to the model, or something that is refused."""

from __future__ import annotations

import random
from typing import Any, Callable, Iterator

import ssz
from tests import draws

from . import objects
from .careless import Lying
from .drawn import is_grown, is_sized
from .objects import Broken, is_plain, own, refused as wrong, shown, spelled
from .plain import fault_of, form_of, ssz as plain
from .views import Beside, Differs, Part, Value, differ

def read(beside: Beside) -> None:
    """A part, as it is read."""
    value = beside.value()
    part = beside.part(value, lambda t, value: True, is_view=False)
    if part is None or not part.path:
        return
    found = beside.reached(value.view, part.path)
    if is_plain(part.form):
        differ("a part", found, own(part.form, part.value))
        differ("its class", type(found), type(own(part.form, part.value)))
        return
    differ("a part", found.to_obj(), shown(part.form, part.value))
    differ("a part's bytes", found.encode_bytes(), plain.encode(part.t, part.value))
    if is_sized(part.t, None):
        differ("a part's length", len(found), len(part.value))
        differ("a part's items", len(list(found)), len(part.value))
    if not found == found.copy():
        raise Differs("a part is not equal to its copy")
    differ("a part's root", found.hash_tree_root(), plain.hash_tree_root(part.t, part.value))
    if not found.prove().verify(value.view.hash_tree_root()):
        raise Differs("the proof of a part does not lead to the root")


def write(beside: Beside) -> None:
    """A part by its container, its list or its union."""
    value = beside.value()
    part = beside.part(value, lambda t, value: True, is_view=False)
    if part is None or not part.path:
        return
    new, _ = beside.round.value(part.t)
    given, holder = beside.object(part.form, part.t, new), beside.reached(value.view, part.path[:-1])
    put(beside, holder, part.path[-1], given)
    beside.edited(value, part.path, plain.set_to(new))


def put(beside: Beside, holder: Any, step: Any, given: Any) -> None:
    """Writes a part of what holds it."""
    if isinstance(step, tuple):
        holder.choose(step[1], given)
    elif isinstance(step, str) and step in vars(type(holder)) and beside.draw.random() < 0.7:
        setattr(holder, step, given)
    else:
        holder[step] = given


def write_wrong(beside: Beside) -> None:
    """An object that is no value: BadValue."""
    value = beside.value()
    part = beside.part(value, lambda t, value: True, is_view=False)
    if part is None or not part.path:
        return
    step, holder, given = part.path[-1], beside.reached(value.view, part.path[:-1]), wrong(beside.draw, part.form, part.value)
    other = beside.draw.choice(beside.round.named)
    if beside.draw.random() < 0.15 and not is_plain(beside.forms[other]) and not is_plain(part.form) and beside.round.types[other] != part.t:
        given = beside.schema[other]()
    refused(beside, f"{part.path} = {given!r:.80}", ssz.BadValue, lambda: put(beside, holder, step, given))


def refused(beside: Beside, what: str, error: Any, call: Callable[[], Any]) -> None:
    """Sees that a call raises an error."""
    beside.done.append(f"wrong: {what}")
    try:
        call()
    except error:
        return
    except Exception as other:
        raise Differs(f"{what}: {type(other).__name__} ({other}) was raised, and {error} is wanted") from other
    raise Differs(f"{what} was taken")


def element_of(part: Part) -> tuple[Any, Any]:
    """The form and the type of the elements of a list or of bits."""
    kind, of = objects.kind_of(part.form)
    return ("boolean", plain.BOOLEAN) if kind in ("bitvector", "bitlist") else (of[0], part.t[1])


def fresh(beside: Beside, part: Part, count: int) -> list[Any]:
    """So many values of the elements of a part."""
    return [beside.round.value(element_of(part)[1])[0] for _ in range(count)]


def items(beside: Beside, part: Part, new: list[Any]) -> Any:
    """An iterable of elements, as one of the objects that are taken."""
    form, t = element_of(part)
    given = [beside.object(form, t, each) for each in new]
    kinds: list[Callable[[list[Any]], Any]] = [list, tuple, iter, lambda given: (each for each in given)]
    if objects.array_code(form) or form == "uint8":
        whole = spelled(beside.draw, {"list": [form, 1 << 20]}, new)
        return bytes(new) if isinstance(whole, str) else whole
    return beside.draw.choice(kinds)(given)


def grow(beside: Beside) -> None:
    """append, extend or pop."""
    value = beside.value()
    part = beside.part(value, is_grown)
    if part is None:
        return
    view, way, length, limit = beside.reached(value.view, part.path), beside.draw.randrange(3), len(part.value), part.t[-1]
    if way == 0 and length < limit:
        (new,) = fresh(beside, part, 1)
        view.append(beside.object(*element_of(part), new))
        beside.edited(value, part.path, plain.append(new))
    elif way == 1:
        new = fresh(beside, part, beside.draw.randint(0, 4))
        extend(beside, value, part, view, new)
    elif length:
        popped = view.pop()
        form, t = element_of(part)
        differ("what was popped", popped, own_of(form, t, part.value[-1], popped))
        beside.edited(value, part.path, plain.pop)
    else:
        refused(beside, "pop of nothing", ssz.NoSuchPart, view.pop)


def own_of(form: Any, t: Any, value: Any, found: Any) -> Any:
    """What `pop` returns of an element: Python's own where it is plain, and else whatever encodes as it does."""
    if is_plain(form):
        return own(form, value)
    return found if form_of(t).encode(found) == plain.encode(t, value) else shown(form, value)


def extend(beside: Beside, value: Value, part: Part, view: Any, new: list[Any]) -> None:
    """All, or none where they are too many."""
    if len(part.value) + len(new) > part.t[-1]:
        refused(beside, "extend over the limit", ssz.BadValue, lambda: view.extend(items(beside, part, new)))
        return
    view.extend(items(beside, part, new))
    beside.edited(value, part.path, plain.set_to([*part.value, *new]))


def slice_of(draw: random.Random, length: int) -> slice:
    """A slice, by the rules of lists."""
    ends = [None, 0, 1, -1, length, length + 3, -length - 2, draw.randint(-length, length) if length else 0]
    return slice(draw.choice(ends), draw.choice(ends), draw.choice([None, None, None, 1, 2, -1, -2]))


def slices(beside: Beside) -> None:
    """A slice read, and set as lists do; what is no list of that many, or over the limit, changes nothing."""
    value = beside.value()
    part = beside.part(value, is_sized)
    if part is None:
        return
    view, place = beside.reached(value.view, part.path), slice_of(beside.draw, len(part.value))
    beside.done.append(f"{part.path} {place}")
    form, t = element_of(part)
    read = view[place]
    differ("a slice", [own_of(form, t, each, found) if is_plain(form) else shown(form, each) for each, found in zip(part.value[place], read)],
           [found if is_plain(form) else found.to_obj() for found in read])
    differ("its length", len(read), len(part.value[place]))
    count = len(part.value[place]) if beside.draw.random() < 0.5 else beside.draw.randint(0, 4)
    new, wanted = fresh(beside, part, count), list(part.value)
    given = items(beside, part, new)
    try:
        wanted[place] = new
    except ValueError:
        refused(beside, f"{count} elements to {place}", ValueError, lambda: view.__setitem__(place, given))
        return
    if len(wanted) > part.t[-1] or not is_grown(part.t, None) and len(wanted) != part.t[-1]:
        refused(beside, f"a length of {len(wanted)}", ssz.BadValue, lambda: view.__setitem__(place, given))
        return
    view[place] = given
    beside.edited(value, part.path, plain.set_to(wanted))


def broken(beside: Beside) -> None:
    """An iterator that raises in its midst: its error, and nothing has changed."""
    value = beside.value()
    part = beside.part(value, is_sized)
    if part is None:
        return
    view, form = beside.reached(value.view, part.path), element_of(part)[0]
    good = [spelled(beside.draw, form, each) for each in fresh(beside, part, 2)]

    def some() -> Iterator[Any]:
        yield from good
        raise Broken("in the midst")

    calls = [lambda: view.__setitem__(slice(None), some()), lambda: view.__setitem__(slice(0, 1), some())]
    if is_grown(part.t, None):
        calls.append(lambda: view.extend(some()))
    refused(beside, "an iterator that raises", Broken, beside.draw.choice(calls))


def wrong_items(beside: Beside) -> None:
    """An iterable with a wrong item, or none at all, in a slice or to extend."""
    value = beside.value()
    part = beside.part(value, is_sized)
    if part is None:
        return
    view, form = beside.reached(value.view, part.path), element_of(part)[0]
    good = fresh(beside, part, 2)
    bad = [spelled(beside.draw, form, good[0]), wrong(beside.draw, form, good[1])]
    given = beside.draw.choice([bad, iter(bad), tuple(bad), None, 7, {1, 2}, {1: 2}, "12", b"\1" if form not in objects.OCTETS else "x", Lying()])
    calls = [lambda: view.__setitem__(slice(None), given), lambda: view.__setitem__(slice(0, 2), given)]
    if is_grown(part.t, None):
        calls += [lambda: view.extend(given), lambda: view.append(bad[1])]
    refused(beside, f"items {given!r:.80}", ssz.BadValue, beside.draw.choice(calls))


def choose(beside: Beside) -> None:
    """Another option, or a selector that is none."""
    value = beside.value()
    part = beside.part(value, lambda t, _: t[0] == "union")
    if part is None:
        return
    view, options = beside.reached(value.view, part.path), objects.kind_of(part.form)[1]
    if beside.draw.random() < 0.4:
        bad = beside.draw.choice([True, 1.0, "01", -1, len(options), 256, None, b"\1"])
        refused(beside, f"choose({bad!r})", ssz.BadValue, lambda: view.choose(bad, None))
        return
    number = beside.draw.randrange(len(options))
    inner = None if options[number] is None else beside.round.value(part.t[1][number])[0]
    given = None if options[number] is None else beside.object(options[number], part.t[1][number], inner)
    view.choose(beside.draw.choice([number, str(number)]), given)
    differ("the selector", view.selector, number)
    beside.edited(value, part.path, plain.set_to((number, inner)))


def copied(beside: Beside) -> None:
    """A copy, which later edits of the other one do not change; and the other way."""
    value = beside.value()
    if len(beside.values) < 3:
        copy = Value(value.view.copy(), value.form, value.t, value.value)
        if not copy.view == value.view:
            raise Differs("a copy is not equal")
        beside.values.append(copy)
    else:
        beside.values.remove(value)


def of_itself(beside: Beside) -> None:
    """Elements from the list that they go to: read to the end before anything is changed."""
    value = beside.value()
    part = beside.part(value, lambda t, part: is_grown(t, part) and 0 < len(part) and 2 * len(part) <= t[-1])
    if part is None:
        return
    view, old = beside.reached(value.view, part.path), part.value
    way = beside.draw.randrange(7)
    if way == 6:
        view[:1] = (view.pop() for _ in range(1))
    elif way == 0:
        view.extend(view)
    elif way == 1:
        view.extend(each for each in view)
    elif way == 2:
        view.append(view[-1])
    elif way == 3:
        view[:] = (each for each in reversed(list(view)))
    elif way == 4:
        view[1:1] = view.copy()
    else:
        view[0] = view[len(view) - 1]
    wanted = [[*old, *old], [*old, *old], [*old, old[-1]], old[::-1], [old[0], *old, *old[1:]], [old[-1], *old[1:]], [old[-1], *old[1:-1]]][way]
    beside.done.append(f"way {way}")
    beside.edited(value, part.path, plain.set_to(wanted))


def compacted(beside: Beside) -> None:
    """Nodes given up: no value changes."""
    beside.schema.compact()


def stale(beside: Beside) -> None:
    """A view whose place is gone: each call raises NoSuchPart."""
    value = beside.value()
    part = beside.part(value, lambda t, part: t[0] == "list" and len(part) > 0)
    if part is None or is_plain(element_of(part)[0]):
        return
    view = beside.reached(value.view, part.path)
    last = view[-1]
    view.pop()
    beside.edited(value, part.path, plain.pop)
    calls = [last.encode_bytes, last.hash_tree_root, last.to_obj, last.to_plain, last.prove]
    refused(beside, "a call on a view whose place is gone", ssz.NoSuchPart, beside.draw.choice(calls))
    repr(last)


def outside(beside: Beside) -> None:
    """Names and places that are not there, and bytes at fault."""
    value = beside.value()
    part = beside.part(value, lambda t, part: t[0] in ("container", "list", "vector", "bitlist", "bitvector"))
    data = draws.changed(beside.draw, plain.encode(value.t, value.value))
    if part is None or beside.draw.random() < 0.3:
        if fault_of(value.t, data):
            refused(beside, "bytes at fault", ssz.InvalidBytes, lambda: beside.cls.decode_bytes(data))
        return
    view, count = beside.reached(value.view, part.path), len(part.value)
    if part.t[0] == "container":
        calls: list[tuple[Any, Callable[[], Any]]] = [
            (AttributeError, lambda: view["nothing"]), (AttributeError, lambda: view.nothing), (AttributeError, lambda: setattr(view, "nothing", 1)),
            (AttributeError, lambda: view.__setitem__("nothing", 1)), (TypeError, lambda: view[0]),
            (TypeError, lambda: beside.schema.C(*[0] * 20)), (AttributeError, lambda: beside.schema.C(nothing=0))]
    else:
        calls = [(IndexError, lambda: view[count]), (IndexError, lambda: view[-count - 1]), (TypeError, lambda: view["0"]),
                 (TypeError, lambda: view[1.0])]
    calls += [(TypeError, lambda: hash(view)), (TypeError, lambda: beside.cls.decode_bytes(5)), (TypeError, lambda: beside.cls.decode_bytes("0x00")),
              (ssz.BadPath, lambda: view.prove("nothing")), (ssz.BadPath, lambda: view.prove("/ 0")), (ssz.BadPath, lambda: view.prove("/nothing"))]
    refused(beside, "what is not there", *beside.draw.choice(calls))


STEP_WEIGHTS: list[tuple[Callable[[Beside], None], int]] = [
    (read, 4), (write, 5), (write_wrong, 5), (grow, 5), (slices, 5), (broken, 2), (wrong_items, 3), (choose, 3), (copied, 2), (compacted, 1), (of_itself, 2), (stale, 2), (outside, 3)]

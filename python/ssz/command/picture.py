"""A picture of a proof, as SVG: the tree on the way from the root to the parts, with leaves, helpers and the nodes between."""

from __future__ import annotations

import hashlib
import itertools
from html import escape
from typing import Iterator, NamedTuple

from ..proof import Proof

_WIDE, _HIGH, _EDGE, _ROUND = 132, 46, 70, 7
#: A longer name of a node with children is cut, so that it does not reach its neighbour.
_LONGEST = 13
_COLOURS = {"root": "#7a3db8", "leaf": "#c8372d", "helper": "#2d6fc8", "node": "#ffffff"}
_LEGEND = {"root": "root", "leaf": "leaf: what is proved", "helper": "helper: given by the proof", "node": "computed: hash of the two below"}


def nodes_of(proof: Proof) -> dict[int, bytes]:
    """All nodes of the picture with their hashes: leaves, helpers, and what follows from them."""
    nodes = {**proof.helpers, **proof.leaves}
    for index in sorted(proof.leaves, key=int.bit_length, reverse=True):
        while index > 1:
            nodes.setdefault(index, b"")
            index >>= 1
            nodes.setdefault(index, b"")
    for index in sorted(nodes, reverse=True):
        if not nodes[index]:
            nodes[index] = hashlib.sha256(nodes[2 * index] + nodes[2 * index + 1]).digest()
    return nodes


class Drawn(NamedTuple):
    """A subtree as drawn: how far each node is to the right of its top, and of each level the first and the last."""

    places: dict[int, float]
    edges: list[tuple[float, float]]


def placed(nodes: dict[int, bytes], index: int = 1) -> Drawn:
    """The subtree below a node, its two halves as near to one another as their levels let them be."""
    if 2 * index not in nodes:
        return Drawn({index: 0.0}, [(0.0, 0.0)])
    halves = placed(nodes, 2 * index), placed(nodes, 2 * index + 1)
    apart = max(one[1] - other[0] for one, other in zip(halves[0].edges, halves[1].edges)) / 2 + _WIDE / 2
    left, right = (moved(half, by) for half, by in zip(halves, (-apart, apart)))
    edges = [(one[0] if one else other[0], other[1] if other else one[1])
             for one, other in itertools.zip_longest(left.edges, right.edges)]
    return Drawn({index: 0.0, **left.places, **right.places}, [(0.0, 0.0), *edges])


def moved(half: Drawn, by: float) -> Drawn:
    """A subtree so far to the right."""
    return Drawn({index: place + by for index, place in half.places.items()}, [(one + by, other + by) for one, other in half.edges])


def kind_of(index: int, proof: Proof) -> str:
    """What a node is in the proof."""
    if index in proof.leaves:
        return "leaf"
    return "helper" if index in proof.helpers else "root" if index == 1 else "node"


def shape(kind: str, across: float, down: float, size: float = _ROUND) -> str:
    """A node's shape, by which its kind is told without colour: a leaf is a square, a helper a disk in a ring, the root a diamond."""
    look = f'fill="{_COLOURS[kind]}" stroke="#444"'
    if kind == "leaf":
        return f'<rect x="{across - size}" y="{down - size}" width="{2 * size}" height="{2 * size}" {look}/>'
    if kind == "root":
        far = size + 3
        return f'<path d="M{across} {down - far}L{across + far} {down}L{across} {down + far}L{across - far} {down}Z" {look}/>'
    ring = f'<circle cx="{across}" cy="{down}" r="{size + 3}" fill="none" stroke="{_COLOURS[kind]}"/>' if kind == "helper" else ""
    return f'{ring}<circle cx="{across}" cy="{down}" r="{size if ring else size - 3}" {look}/>'


def drawn(index: int, chunk: bytes, kind: str, name: str, at: tuple[int, int], is_last: bool) -> Iterator[str]:
    """A node: its shape, its name, its index and the first digits of its hash, and the whole of all where the pointer rests. No edge
    leads down from the last ones, whose words stand below; those of others stand beside, away from the other child of their parent.
    """
    across, down = at
    label = f"{name} {index}" if name else str(index)
    told = f"{_LEGEND[kind].partition(':')[0]} {label} 0x{chunk.hex()}"
    yield f"<g><title>{escape(told)}</title>{shape(kind, across, down)}"
    label = label if is_last or len(name) <= _LONGEST else f"{name[:_LONGEST - 2]}.. {index}"
    x, y, anchor = (across, down + 24, "middle") if is_last else _beside(index, across, down)
    halo = 'stroke="#fff" stroke-width="3" paint-order="stroke"'
    weight = ' font-weight="bold"' if name else ""
    yield f'<text x="{x}" y="{y}" text-anchor="{anchor}"{weight} {halo}>{escape(label)}</text>'
    yield f'<text x="{x}" y="{y + 12}" text-anchor="{anchor}" fill="#666" font-size="8" {halo}>{chunk.hex()[:8]}</text></g>'


def _beside(index: int, across: int, down: int) -> tuple[int, int, str]:
    """Where the words beside a node stand, and how they are set."""
    return (across + 14, down - 3, "start") if index % 2 or index == 1 else (across - 14, down - 3, "end")


def svg(proof: Proof, names: dict[int, str], title: str) -> str:
    """The picture. `names` says of some indices which part they are of."""
    nodes = nodes_of(proof)
    places, edges = placed(nodes)
    first, last = min(edge[0] for edge in edges), max(edge[1] for edge in edges)
    at = {index: (round(_EDGE + place - first), _EDGE + _HIGH * index.bit_length()) for index, place in places.items()}
    wide, high = max(1000, round(2 * _EDGE + last - first) + 180), 2 * _EDGE + _HIGH * len(edges)
    lines = [
        f'<svg xmlns="http://www.w3.org/2000/svg" width="{wide}" height="{high}" viewBox="0 0 {wide} {high}" '
        f'font-family="monospace" font-size="11">',
        f'<rect width="{wide}" height="{high}" fill="#fff"/>',
        f'<text x="20" y="26" font-size="15" font-weight="bold">{escape(title)}</text>',
        f'<text x="20" y="44">root 0x{nodes[1].hex()}</text>',
    ]
    for place, (kind, text) in enumerate(_LEGEND.items()):
        lines.append(f'{shape(kind, 28 + 225 * place, 62, 6)}<text x="{44 + 225 * place}" y="66">{text}</text>')
    for index in places:
        if index > 1:
            (x, y), (to_x, to_y) = at[index], at[index >> 1]
            lines.append(f'<line x1="{x}" y1="{y}" x2="{to_x}" y2="{to_y}" stroke="#999"/>')
    for index in places:
        lines.extend(drawn(index, nodes[index], kind_of(index, proof), names.get(index, ""), at[index], 2 * index not in places))
    return "\n".join([*lines, "</svg>", ""])

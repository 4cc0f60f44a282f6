"""Makes a failing order small: fewer turns, then fewer switches, that fail in the same way."""

from __future__ import annotations

from typing import Callable, Iterator, List, Optional, Sequence, Tuple

from ._schedule import blocks

#: So many orders, and turns of these, are tried at most to make one small.
_ORDERS, _TURNS = 300, 50_000

Turns = Sequence[int]


def switches(turns: Turns) -> int:
    """How often another one goes."""
    return max(0, len(blocks(turns)) - 1)


def cost(turns: Turns) -> Tuple[int, int]:
    return len(turns), switches(turns)


def shrink(turns: Turns, again: Callable[[Turns], Optional[Turns]]) -> Tuple[Turns, int]:
    """The smallest order that was found, and how many were tried.

    `again` runs an order, in which turns that can't be are left out and others fill what lacks. It gives the turns
    that were, if the order fails in the same way.
    """
    best, tried, spent = turns, 0, 0
    is_better = True
    while is_better:
        is_better = False
        for turns in _smaller(best):
            if tried == _ORDERS or spent > _TURNS:
                return best, tried
            found = again(turns)
            tried, spent = tried + 1, spent + len(turns)
            if found is not None and cost(found) < cost(best):
                best, is_better = found, True
                break
    return best, tried


def _smaller(turns: Turns) -> Iterator[Turns]:
    """The order without a block, with a block moved beside one of its own task, without a turn."""
    parts = blocks(turns)
    for place in range(len(parts)):
        yield _joined(parts[:place] + parts[place + 1:])
    for place in range(len(parts) - 2):
        for other in range(place + 2, len(parts)):
            if parts[other][0] == parts[place][0]:
                yield _joined(parts[:place + 1] + [parts[other]] + parts[place + 1:other] + parts[other + 1:])
                yield _joined(parts[:place] + parts[place + 1:other] + [parts[place]] + parts[other:])
    for place in range(len(turns)):
        yield [*turns[:place], *turns[place + 1:]]


def _joined(parts: List[Tuple[int, int]]) -> List[int]:
    return [who for who, count in parts for _ in range(count)]

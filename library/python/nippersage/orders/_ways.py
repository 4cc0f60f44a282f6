"""Which of those that can go on goes: the ways of choosing an order after the other.

Tasks are numbers, and the clock's is behind them all. Those that can go on, `ready`, are in their order.
"""

from __future__ import annotations

import random
from typing import Iterator, List, NamedTuple, Optional, Sequence, Tuple

#: Who went last, before the first turn.
NOBODY = -1


def goes_by_itself(ready: Sequence[int], last: int, clock: int) -> int:
    """Who goes where nothing is said: whoever went last, if that was a task, else the first; the clock is the last."""
    return last if last in ready and last != clock else ready[0]


def pre_emptions(ready: Sequence[int], last: int, clock: int) -> List[int]:
    """Whose turn would be a pre-emption: whoever went last could go on, or a task could and the clock goes."""
    if last in ready and last != clock:
        return [it for it in ready if it != last]
    return [clock] if len(ready) > 1 and ready[-1] == clock else []


class Ways:
    """Chooses turns. `begin` begins the next order, unless there is none, and `end` is told what came of it."""

    #: Whether the turns are a schedule that somebody gave, and how many of it have still to be.
    is_foreign = False
    left = 0

    def begin(self) -> bool:
        raise NotImplementedError

    def choose(self, ready: Sequence[int], last: int) -> int:
        raise NotImplementedError

    def end(self, turns: Sequence[int]) -> None:
        """The order that was begun has come to its end."""


class Every(Ways):
    """Every order once: depth first, and whoever went last goes on first."""

    def __init__(self, clock: int) -> None:
        self._clock = clock
        #: For each turn who could go, and which of them did.
        self._path: List[Tuple[Tuple[int, ...], int]] = []
        self._at = 0
        self._has_begun = False

    def begin(self) -> bool:
        self._at = 0
        if not self._has_begun:
            self._has_begun = True
            return True
        return self._next()

    def _next(self) -> bool:
        """Goes on to the next path of the tree. False behind the last one."""
        while self._path:
            ready, place = self._path.pop()
            if place + 1 < len(ready):
                self._path.append((ready, place + 1))
                return True
        return False

    def choose(self, ready: Sequence[int], last: int) -> int:
        if self._at == len(self._path):
            first = goes_by_itself(ready, last, self._clock)
            self._path.append(((first, *(it for it in ready if it != first)), 0))
        ways, place = self._path[self._at]
        self._at += 1
        return ways[place]


class _Order(NamedTuple):
    """An order that was tried: its turns, how many pre-emptions were possible at each, and from where on it is new."""

    turns: Sequence[int]
    left: Sequence[int]
    new_from: int


class Rising(Ways):
    """Every order once, those of no pre-emption first, then those of one, and so on, up to `most` if there is a bound.

    An order of n + 1 pre-emptions is one of n up to some turn, then a pre-emption, then turns without any. So each
    order of a bound is kept while those of the next one are tried: some 200 bytes.
    """

    def __init__(self, clock: int, most: Optional[int]) -> None:
        self._clock, self._most = clock, most
        #: So many pre-emptions have the orders that are tried now.
        self.bound = 0
        self._kept: List[_Order] = []
        self._starts: Iterator[Tuple[Sequence[int], int]] = iter([((), 0)])
        #: The turns up to a pre-emption, which of those it is, and the path of free choices from there on.
        self._prefix: Sequence[int] = ()
        self._which: Optional[int] = None
        self._path: List[Tuple[Tuple[int, ...], int]] = []
        self._left: List[int] = []
        self._new_from = 0
        self._has_path = False
        #: Whether no order that was tried could have had a pre-emption more.
        self.is_whole = True

    def begin(self) -> bool:
        self._left = []
        return self._next_free() or self._next_start()

    def _next_free(self) -> bool:
        """Another order with the same pre-emptions, by the last free choice that has one left."""
        while self._has_path and self._path:
            ways, place = self._path.pop()
            if place + 1 < len(ways):
                self._path.append((ways, place + 1))
                self._new_from = self._first_free() + len(self._path)
                return True
        return False

    def _first_free(self) -> int:
        return len(self._prefix) + (self._which is not None)

    def _next_start(self) -> bool:
        """Another pre-emption, of this bound or else of the next."""
        while True:
            for prefix, which in self._starts:
                self._prefix, self._which = prefix, which if self._has_path else None
                self._path, self._has_path = [], True
                self._new_from = self._first_free()
                return True
            if not self._kept or self.bound == self._most:
                return False
            kept, self._kept = self._kept, []
            self.is_whole = True
            self.bound += 1
            self._starts = self._starts_of(kept)

    def _starts_of(self, kept: List[_Order]) -> Iterator[Tuple[Sequence[int], int]]:
        for order in kept:
            for place in range(order.new_from, len(order.turns)):
                for which in range(order.left[place]):
                    yield order.turns[:place], which

    def choose(self, ready: Sequence[int], last: int) -> int:
        at = len(self._left)
        dear = pre_emptions(ready, last, self._clock)
        self._left.append(len(dear))
        if at < len(self._prefix):
            return self._prefix[at]
        if at == len(self._prefix) and self._which is not None:
            # The number is of the order that was kept. What can go on is the same, or `World` tells.
            return dear[self._which] if self._which < len(dear) else NOBODY
        at -= self._first_free()
        if at == len(self._path):
            ways = tuple(it for it in ready if it not in dear)
            self._path.append((ways, 0))
        ways, place = self._path[at]
        return ways[place]

    def end(self, turns: Sequence[int]) -> None:
        if not any(self._left[self._new_from:]):
            return
        self.is_whole = False
        if self.bound != self._most:
            pack = bytes if self._clock < 256 else tuple
            self._kept.append(_Order(pack(turns), pack(self._left), self._new_from))


class Random(Ways):
    """Orders by chance: each of those that can go on is as likely. The n-th order depends on the seed and n only."""

    def __init__(self, seed: int, first: int = 0) -> None:
        self._seed, self._run = seed, first
        self._chance = random.Random()

    def begin(self) -> bool:
        self._chance = random.Random(f"{self._seed}/{self._run}")
        self._run += 1
        return True

    def choose(self, ready: Sequence[int], last: int) -> int:
        return self._chance.choice(ready)


class Pct(Random):
    """Priorities by chance: the highest that can go on goes. At depth - 1 turns whoever would go falls below all.

    So many tasks n, turns k and a fault that takes `depth` such choices: it is found in one run of n * k**(depth - 1)
    at least (Burckhardt and others, 2010). The turns are those of the longest order so far.
    """

    def __init__(self, seed: int, depth: int, clock: int) -> None:
        super().__init__(seed)
        self._depth, self._clock, self._longest = depth, clock, 1
        self._high: List[float] = []
        self._falls: List[int] = []
        self._turn = 0

    def begin(self) -> bool:
        super().begin()
        # The clock begins below each task.
        self._high = [1 + self._chance.random() for _ in range(self._clock)] + [self._chance.random()]
        self._falls = sorted(self._chance.randrange(self._longest) for _ in range(self._depth - 1))
        self._turn = 0
        return True

    def choose(self, ready: Sequence[int], last: int) -> int:
        best = max(ready, key=self._high.__getitem__)
        while self._falls and self._falls[0] <= self._turn:
            self._falls.pop(0)
            self._high[best] = min(self._high) - 1
            best = max(ready, key=self._high.__getitem__)
        self._turn += 1
        return best

    def end(self, turns: Sequence[int]) -> None:
        self._longest = max(self._longest, len(turns))


class Given(Ways):
    """One order: these turns, and if it is open then whoever goes by itself.

    With `fills` turns that can't be are left out. `is_foreign` says that the turns are a schedule that somebody gave,
    and not those of an order that was run.
    """

    def __init__(
        self, turns: Sequence[int], clock: int, is_open: bool = True, fills: bool = False, is_foreign: bool = False,
    ) -> None:
        self._turns, self._clock, self._is_open, self._fills = turns, clock, is_open, fills
        self.is_foreign = is_foreign
        self.left = len(turns)

    def choose(self, ready: Sequence[int], last: int) -> int:
        while self.left:
            who = self._turns[-self.left]
            self.left -= 1
            if who in ready or not self._fills:
                return who
        return goes_by_itself(ready, last, self._clock) if self._is_open or self._fills else NOBODY

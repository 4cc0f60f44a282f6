"""A selector of the standard library's kind, over an instance of a kernel."""

from __future__ import annotations

from operator import index
from selectors import EVENT_READ, EVENT_WRITE, BaseSelector, SelectorKey
from typing import Any, Dict, List, Mapping, Optional, Tuple

from ._kernel import Task
from ._numbers import IN, OUT, Time


class _Map(Mapping[Any, SelectorKey]):
    """The keys of a selector by what was registered, which is a number or has one."""

    def __init__(self, keys: Dict[int, SelectorKey]) -> None:
        self._keys = keys

    def __len__(self) -> int:
        return len(self._keys)

    def __iter__(self) -> Any:
        return (key.fileobj for key in self._keys.values())

    def __getitem__(self, fileobj: Any) -> SelectorKey:
        try:
            return self._keys[_descriptor(fileobj)]
        except KeyError:
            raise KeyError(f"{fileobj!r} is not registered") from None


class Selector(BaseSelector):
    """`selectors.BaseSelector` for a task: an instance of its own, whose waits move the simulated clock.

    What is registered is a descriptor of the task's process, as a number or as an object whose `fileno` gives it. A
    registration is level-triggered, as with `selectors.EpollSelector`. It needs the library.
    """

    def __init__(self, task: Task) -> None:
        self._task = task
        self._keys: Dict[int, SelectorKey] = {}
        self._map: Optional[_Map] = _Map(self._keys)
        self._instance = task.epoll(cloexec=True)

    def fileno(self) -> int:
        """The descriptor of the instance."""
        return self._instance

    def register(self, fileobj: Any, events: int, data: Any = None) -> SelectorKey:
        """Watches a descriptor for EVENT_READ, EVENT_WRITE or both.

        ValueError for other events or what is no descriptor, KeyError if it is registered, and the refusals of
        epoll_ctl.
        """
        key = SelectorKey(fileobj, _descriptor(fileobj), events, data)
        mask = _mask(events)
        if key.fd in self._keys:
            raise KeyError(f"{fileobj!r} is registered already")
        self._task.add(self._instance, key.fd, mask, key.fd)
        self._keys[key.fd] = key
        return key

    def unregister(self, fileobj: Any) -> SelectorKey:
        """Watches it no more. KeyError if it isn't registered. A descriptor that was closed is no error."""
        key = self.get_key(fileobj)
        del self._keys[key.fd]
        try:
            self._task.delete(self._instance, key.fd)
        except OSError:
            pass  # Its last descriptor was closed, so the kernel had taken it out.
        return key

    def modify(self, fileobj: Any, events: int, data: Any = None) -> SelectorKey:
        """Watches it for other events, or gives it other data. KeyError if it isn't registered."""
        key = self.get_key(fileobj)._replace(events=events, data=data)
        mask = _mask(events)
        if events != self._keys[key.fd].events:
            self._task.mod(self._instance, key.fd, mask, key.fd)
        self._keys[key.fd] = key
        return key

    def select(self, timeout: Optional[Time] = None) -> List[Tuple[SelectorKey, int]]:
        """Waits until something is ready or the time has passed: each ready key, with its events that are ready.

        It takes no time: the clock goes on by itself, as with `Task.epoll_wait`. EDEADLK if nothing is registered that
        could become ready, and there is no timeout.
        """
        most = max(len(self._keys), 1)
        is_negative = isinstance(timeout, (int, float)) and timeout < 0
        reports = self._task.epoll_wait(self._instance, most, 0 if is_negative else timeout)
        ready = []
        for mask, number in reports:
            key = self._keys.get(number)
            # An end or a fault is told to who reads and to who writes.
            events = (EVENT_READ if mask & ~OUT else 0) | (EVENT_WRITE if mask & ~IN else 0)
            if key is not None and key.events & events:
                ready.append((key, key.events & events))
        return ready

    def close(self) -> None:
        """Closes the instance. A second time does nothing."""
        if self._map is not None:
            self._map = None
            self._keys.clear()
            self._task.close(self._instance)

    def get_map(self) -> Any:
        """The keys by what was registered; None after the end."""
        return self._map


def _descriptor(fileobj: Any) -> int:
    """The descriptor that this is, or has."""
    try:
        number = index(fileobj if isinstance(fileobj, int) else fileobj.fileno())
    except (AttributeError, TypeError, ValueError):
        raise ValueError(f"{fileobj!r} is no descriptor and has none") from None
    if number < 0:
        raise ValueError(f"{fileobj!r} is no descriptor: {number}")
    return number


def _mask(events: int) -> int:
    if not events or events & ~(EVENT_READ | EVENT_WRITE):
        raise ValueError(f"events are EVENT_READ, EVENT_WRITE or both, and not {events!r}")
    return (IN if events & EVENT_READ else 0) | (OUT if events & EVENT_WRITE else 0)

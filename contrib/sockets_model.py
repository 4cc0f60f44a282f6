"""What docs/calls.md says of sockets without a connection, told once more: an instance, and such sockets beside it, some
of which listen."""

IN, OUT, ERR, HUP, RDHUP, ONESHOT, ET = 1, 4, 8, 16, 8192, 1 << 30, 1 << 31
ALL = IN | OUT | ERR | HUP | RDHUP
NAMES = {
    2: "ENOENT",
    9: "EBADF",
    11: "EAGAIN",
    17: "EEXIST",
    22: "EINVAL",
    32: "EPIPE",
    88: "ENOTSOCK",
    97: "EAFNOSUPPORT",
    98: "EADDRINUSE",
    99: "EADDRNOTAVAIL",
    103: "ECONNABORTED",
    106: "EISCONN",
    107: "ENOTCONN",
    111: "ECONNREFUSED",
}
ENOENT, EBADF, EAGAIN, EEXIST, EINVAL, EPIPE, ENOTSOCK, EAFNOSUPPORT, *_ = NAMES
*_, EADDRINUSE, EADDRNOTAVAIL, ECONNABORTED, EISCONN, ENOTCONN, ECONNREFUSED = NAMES
#: The least number that a script's calls give out, and the numbers that a socket can be given as its name.
LEAST, GIVEN = 3, range(32768, 61000)


class Refused(Exception):
    """The call is refused with this error number."""


class Instance:
    """The one instance of a script."""


class Socket:
    """A socket without a connection."""

    def __init__(self, family):
        self.is_tcp = family == "tcp"
        self.name, self.has_failed, self.error, self.listens = None, False, 0, False

    def present(self):
        if self.listens:
            return 0
        return OUT | HUP | ((IN | RDHUP) if self.has_failed else 0) | (ERR if self.error else 0)

    def take(self, otherwise):
        """The error that waits, which is no longer there then. If none waits, it is the other answer."""
        error, self.error = self.error, 0
        return {"failed": [error, NAMES[error]]} if error else otherwise

    def bytes(self, n):
        """What a read or a peek is answered. No byte ever comes."""
        if n and not self.has_failed:
            raise Refused(ENOTCONN if self.is_tcp else EINVAL)
        return self.take({"bytes": ""}) if n else {"bytes": ""}


class Watch:
    """A registration."""

    def __init__(self, mask, data):
        self.asked, self.is_edge, self.is_once = mask & ALL | ERR | HUP, mask & ET, mask & ONESHOT
        self.data, self.is_armed, self.arrived = data, True, ALL

    def report(self, at):
        """What is reported of it, if anything is."""
        shown = at.present() & self.asked
        if not (shown and self.is_armed) or self.is_edge and not self.arrived & self.asked:
            return []
        self.arrived, self.is_armed = 0, not self.is_once
        return [[shown, self.data]]


class Model:
    """The state behind the lines so far."""

    def __init__(self):
        #: What each number names, and the registrations by their number and what it named.
        self.open, self.watches = {}, {}

    def answer(self, line):
        """What a line is answered. Reports are in any order."""
        keys = {key: it for key, it in line.items() if key != "op"}
        try:
            return getattr(self, line["op"])(**keys)
        except Refused as refusal:
            (number,) = refusal.args
            return {"err": [number, NAMES[number]]}

    def placed(self, at):
        number = next(it for it in range(LEAST, LEAST + len(self.open) + 1) if it not in self.open)
        self.open[number] = at
        return {"num": number}

    def found(self, fd):
        if fd not in self.open:
            raise Refused(EBADF)
        return self.open[fd]

    def socket_at(self, fd):
        if not isinstance(self.found(fd), Socket):
            raise Refused(ENOTSOCK)
        return self.open[fd]

    def stream_at(self, fd):
        """What can be read and written."""
        if isinstance(self.found(fd), Instance):
            raise Refused(EINVAL)
        return self.open[fd]

    def is_taken(self, name):
        return any(isinstance(it, Socket) and it.name == name for it in self.open.values())

    def is_heard(self, name):
        return any(isinstance(it, Socket) and it.listens and it.name == name for it in self.open.values())

    def lowest(self, space, otherwise):
        """The lowest name of a space that can be given. If none is free, the call is refused with the other number."""
        for number in GIVEN:
            if not self.is_taken([space, number]):
                return [space, number]
        raise Refused(otherwise)

    # The calls of a script, by the names of their operations

    def epoll(self):
        return self.placed(Instance())

    def socket(self, family):
        return self.placed(Socket(family))

    def dup(self, fd):
        return self.placed(self.found(fd))

    def close(self, fd):
        self.found(fd)
        del self.open[fd]
        named = set(self.open.values())
        self.watches = {key: it for key, it in self.watches.items() if key[1] in named}
        return {"done": True}

    def read(self, fd, n):
        return self.stream_at(fd).bytes(n)

    def peek(self, fd, n):
        return self.socket_at(fd).bytes(n)

    def write(self, fd, hex):
        at = self.stream_at(fd)
        if not hex:
            return {"num": 0}
        if not at.error:
            raise Refused(EPIPE if at.is_tcp else ENOTCONN)
        return at.take(None)

    def shutdown(self, fd, how):
        self.socket_at(fd)
        raise Refused(ENOTCONN)

    def sockerr(self, fd):
        at = self.socket_at(fd)
        error, at.error = at.error, 0
        return {"num": error}

    def sockname(self, fd):
        return {"name": self.socket_at(fd).name}

    def peername(self, fd):
        self.socket_at(fd)
        raise Refused(ENOTCONN)

    def bind(self, fd, space, name):
        at = self.socket_at(fd)
        if at.is_tcp == (space == "local"):
            raise Refused(EAFNOSUPPORT if at.is_tcp else EINVAL)
        if at.name or at.has_failed:
            raise Refused(EINVAL)
        wanted = [space, name] if name else self.lowest(space, EADDRINUSE)
        if self.is_taken(wanted):
            raise Refused(EADDRINUSE)
        at.name = wanted
        return {"done": True}

    def connect(self, fd, space, name):
        at, is_heard = self.socket_at(fd), self.is_heard([space, name])
        if not at.is_tcp:
            raise Refused(EINVAL if space != "local" or is_heard else ECONNREFUSED)
        if at.listens:
            raise Refused(EISCONN)
        if at.has_failed:
            at.has_failed = False
            return at.take({"failed": [ECONNABORTED, NAMES[ECONNABORTED]]})
        if space == "local":
            raise Refused(EAFNOSUPPORT)
        own = at.name or self.lowest(space, EADDRNOTAVAIL)
        if is_heard:
            raise Refused(EINVAL)
        at.name, at.has_failed, at.error = own, True, ECONNREFUSED
        for (_, target), watch in self.watches.items():
            if target is at:
                watch.arrived = ALL
        return {"connecting": True}

    def listen(self, fd, backlog):
        at = self.socket_at(fd)
        if at.has_failed or not (at.is_tcp or at.name):
            raise Refused(EINVAL)
        at.name, at.listens = at.name or self.lowest("v4", EADDRINUSE), True
        return {"done": True}

    def accept(self, fd):
        raise Refused(EAGAIN if self.socket_at(fd).listens else EINVAL)

    def ctl(self, ep, act, fd, mask, data):
        instance, target = self.found(ep), self.found(fd)
        if not isinstance(instance, Instance) or instance is target:
            raise Refused(EINVAL)
        if act != "add" and (fd, target) not in self.watches:
            raise Refused(ENOENT)
        if act == "add" and (fd, target) in self.watches:
            raise Refused(EEXIST)
        if act == "del":
            del self.watches[fd, target]
        else:
            self.watches[fd, target] = Watch(mask, data)
        return {"done": True}

    def wait(self, ep, max, timeout):
        if not isinstance(self.found(ep), Instance):
            raise Refused(EINVAL)
        return {"events": [it for (_, at), watch in self.watches.items() for it in watch.report(at)]}

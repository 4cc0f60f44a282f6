"""The calls of a script on the machine's kernel, which has to be Linux."""

import ctypes
import errno
import fcntl
import functools
import os
import platform
import select
import socket
import struct

#: The number that descriptor 0 of a script has on the machine's kernel, and the least that a script's calls give out.
BASE, LEAST = 200, 3
#: The bytes that are taken of a name.
NAME_BYTES = 128
HOWS = {"rd": socket.SHUT_RD, "wr": socket.SHUT_WR, "rdwr": socket.SHUT_RDWR}
ACTS = {"add": 1, "del": 2, "mod": 3}
#: The families of sockets without a connection, by the space of their names, and the hosts of the ports.
FAMILIES = {"v4": socket.AF_INET, "v6": socket.AF_INET6, "local": socket.AF_UNIX}
HOSTS = {"v4": "127.0.0.1", "v6": "::1"}
#: Where the search for free ports begins, and how many a script has. It's below the ports that Linux gives by itself.
FIRST, PORTS = 10000, 256
#: Of unshare(2), and the milliseconds in which a connect on the loopback has to have failed.
CLONE_NEWNET, FAILS = 0x40000000, 10000


def space_of(number):
    """The space of the names of a TCP socket that is made under this number. To Linux these are two families."""
    return "v4" if number % 2 == 0 else "v6"


# ---- The network, and names in it ----


def isolate():
    """Gives this process a network of its own, if it may, so that its ports are nobody else's."""
    if ctypes.CDLL(None, use_errno=True).unshare(CLONE_NEWNET):
        return
    with socket.socket(socket.AF_INET, socket.SOCK_DGRAM) as any_socket:
        get, put, is_up = 0x8913, 0x8914, 1  # SIOCGIFFLAGS, SIOCSIFFLAGS, IFF_UP
        asked = fcntl.ioctl(any_socket, get, struct.pack("16sH14x", b"lo", 0))
        _, flags = struct.unpack("16sH14x", asked)
        fcntl.ioctl(any_socket, put, struct.pack("16sH14x", b"lo", flags | is_up))


def is_free(port):
    """Whether a port is free on both loopbacks. Raises OSError if it can't be asked."""
    for space, host in HOSTS.items():
        with socket.socket(FAMILIES[space]) as tried:
            try:
                tried.bind((host, port))
            except OSError as refused:
                if refused.errno != errno.EADDRINUSE:
                    raise
                return False
    return True


@functools.lru_cache(None)
def free_ports():
    """Ports that nobody has. They are the real numbers of all names, those of Unix sockets, too."""
    isolate()
    # Where the network is shared, two oracles at once begin apart.
    found, port = [], FIRST + os.getpid() % 64 * PORTS
    while len(found) < PORTS:
        found += [port] if is_free(port) else []
        port += 1
    return found


def address(space, real):
    """The bytes of a name, as the C library has them, of more than 24: shorter ones are refused for their length."""
    family, port = struct.pack("=H", FAMILIES[space]), struct.pack("!H", real)
    if space == "local":
        return family + b"\0nippersage-sockets-oracle-%d-%05d" % (os.getpid(), real)
    host = socket.inet_pton(FAMILIES[space], HOSTS[space])
    return family + port + (host + bytes(8) if space == "v4" else bytes(4) + host + bytes(4))


def name_in(given):
    """The space and the real number of these bytes. None if they have no more than a family, or port 0."""
    (family,) = struct.unpack_from("=H", given)
    (space,) = (it for it, known in FAMILIES.items() if known == family)
    if len(given) == 2:
        return None
    real = int(given[-5:]) if space == "local" else struct.unpack_from("!H", given, 2)[0]
    return [space, real] if real else None


# ---- The calls ----


class Event(ctypes.Structure):
    """A struct epoll_event."""

    _pack_ = 1 if platform.machine() in ("x86_64", "AMD64") else 8
    _fields_ = [("bits", ctypes.c_uint32), ("data", ctypes.c_uint64)]


class Linux:
    """Makes the calls of a script on the machine's kernel. Descriptor N of the script is number BASE + N there."""

    def __init__(self):
        self.c = ctypes.CDLL(None, use_errno=True)
        #: What each open number names: the space of a socket without a connection, a pair's end, or something else.
        self.used = {}
        #: The real number of each name that a socket has, as far as it is known, and how many were taken.
        self.names, self.taken = {}, 0
        self.ports = free_ports()

    def called(self, name, *words):
        """What a function of the C library gives. Raises OSError."""
        given = getattr(self.c, name)(*words)
        if given < 0:
            raise OSError(ctypes.get_errno(), name)
        return given

    def real(self, fd):
        return fd if fd < 0 else BASE + fd

    def free(self):
        return next(it for it in range(LEAST, 99) if it not in self.used)

    def placed(self, fd, kind="other"):
        """Puts what was just opened under the lowest number that is free in the script: that number."""
        number = self.free()
        self.called("dup2", fd, BASE + number)
        os.close(fd)
        self.used[number] = kind
        return number

    def answer(self, line):
        keys = {key: it for key, it in line.items() if key != "op"}
        try:
            return getattr(self, line["op"])(**keys)
        except OSError as refused:
            if line["op"] == "connect" and refused.errno == errno.EINPROGRESS:
                self.settle(line["fd"])
            return {"err": [refused.errno, errno.errorcode[refused.errno]]}

    def settle(self, fd):
        """Waits until a connect has failed: the answer of the loopback may come a moment later."""
        poll = select.poll()
        poll.register(self.real(fd), 0)
        poll.poll(FAILS)

    def end(self):
        for it in self.used:
            os.close(BASE + it)

    # What state a socket without a connection is in

    def has_failed(self, fd):
        """Whether its connect has failed, and no further one has told so."""
        poll = select.poll()
        poll.register(self.real(fd), select.POLLRDHUP)
        return any(bits & select.POLLRDHUP for _, bits in poll.poll(0))

    def listens(self, fd):
        return self.is_apart(fd) and self.option(fd, socket.SO_ACCEPTCONN) == 1

    def is_heard(self, space, real):
        return any(self.listens(it) and self.own(it) == [space, real] for it in self.used)

    # Names: what number a socket has here is known once a line of the script has asked for its name

    def fresh(self):
        """A real number that no socket has."""
        self.taken += 1
        return self.ports[self.taken]

    def is_apart(self, fd):
        """Whether it is a socket without a connection."""
        return self.used.get(fd) in FAMILIES

    def is_tcp(self, fd):
        return self.used.get(fd) in HOSTS

    def own(self, fd):
        """The name of a socket without a connection, its number a real one. None if it has no name, or is none."""
        return self.sockname(fd)["name"] if self.is_apart(fd) else None

    def is_told(self, told, real):
        """Whether one name can be the other. From then on it is, as long as a socket has it."""
        same = [name for name, number in self.names.items() if number == real[1]]
        known = self.names.setdefault(tuple(told), real[1])
        return told[0] == real[0] and known == real[1] and same in ([], [tuple(told)])

    def with_address(self, function, fd, space, real):
        given = address(space, real)
        self.called(function, self.real(fd), given, len(given))

    # The calls of a script, by the names of their operations

    def epoll(self):
        return {"num": self.placed(self.called("epoll_create1", 0))}

    def socketpair(self):
        pair = (ctypes.c_int * 2)()
        self.called("socketpair", socket.AF_UNIX, socket.SOCK_STREAM | socket.SOCK_NONBLOCK, 0, pair)
        return {"two": [self.placed(it, "pair") for it in pair]}

    def socket(self, family):
        space = "local" if family == "unix" else space_of(self.free())
        kind = socket.SOCK_STREAM | socket.SOCK_NONBLOCK
        return {"num": self.placed(self.called("socket", FAMILIES[space], kind, 0), space)}

    def bind(self, fd, space, name):
        if self.used.get(fd) == "pair":
            # Linux gives it the name.
            raise OSError(errno.EINVAL, "bind")
        self.with_address("bind", fd, space, self.names.get((space, name)) or self.fresh())
        return {"done": True}

    def connect(self, fd, space, name):
        is_tcp, own = self.is_tcp(fd), self.own(fd)
        if self.used.get(fd) == space and self.is_heard(space, self.names.get((space, name))):
            if not self.listens(fd) and not self.has_failed(fd):
                # Linux connects it.
                raise OSError(errno.EINVAL, "connect")
        if is_tcp and space in HOSTS and not own:
            # Linux takes the name that it gives by itself away, once the connect has failed.
            self.with_address("bind", fd, space, self.fresh())
        real = self.names.get((space, name)) or self.fresh()
        if is_tcp and [space, real] == own:
            # It would be connected to itself.
            real = self.fresh()
        self.with_address("connect", fd, space, real)
        return {"done": True}

    def listen(self, fd, backlog):
        self.called("listen", self.real(fd), backlog)
        return {"done": True}

    def accept(self, fd):
        taken = self.called("accept4", self.real(fd), None, None, socket.SOCK_NONBLOCK)
        return {"num": self.placed(taken, self.used.get(fd))}

    def pipe(self):
        return {"two": [self.placed(it) for it in os.pipe2(os.O_NONBLOCK)]}

    def dup(self, fd):
        return {"num": self.placed(self.called("dup", self.real(fd)), self.used.get(fd))}

    def close(self, fd):
        self.called("close", self.real(fd))
        self.used.pop(fd, None)
        had = [self.own(it) for it in self.used]
        self.names = {name: real for name, real in self.names.items() if [name[0], real] in had}
        return {"done": True}

    def write(self, fd, hex):
        given = bytes.fromhex(hex)
        return {"num": self.called("write", self.real(fd), given, len(given))}

    def bytes(self, function, fd, n, *flags):
        room = ctypes.create_string_buffer(n + 1)
        count = self.called(function, self.real(fd), room, n, *flags)
        return {"bytes": room.raw[:count].hex()}

    def read(self, fd, n):
        return self.bytes("read", fd, n)

    def peek(self, fd, n):
        return self.bytes("recv", fd, n, socket.MSG_PEEK)

    def shutdown(self, fd, how):
        if self.is_apart(fd):
            # Linux shuts it, whatever it answers.
            raise OSError(errno.ENOTCONN, "shutdown")
        self.called("shutdown", self.real(fd), HOWS[how])
        return {"done": True}

    def option(self, fd, option):
        value, size = ctypes.c_int(), ctypes.c_uint32(4)
        place = ctypes.byref(value), ctypes.byref(size)
        self.called("getsockopt", self.real(fd), socket.SOL_SOCKET, option, *place)
        return value.value

    def sockerr(self, fd):
        return {"num": self.option(fd, socket.SO_ERROR)}

    def name(self, function, fd):
        room, size = ctypes.create_string_buffer(NAME_BYTES), ctypes.c_uint32(NAME_BYTES)
        self.called(function, self.real(fd), room, ctypes.byref(size))
        return {"name": name_in(room.raw[: size.value])}

    def sockname(self, fd):
        return self.name("getsockname", fd)

    def peername(self, fd):
        return self.name("getpeername", fd)

    def ctl(self, ep, act, fd, mask, data):
        event = Event(mask, data)
        self.called("epoll_ctl", self.real(ep), ACTS[act], self.real(fd), ctypes.byref(event))
        return {"done": True}

    def wait(self, ep, max, timeout):
        room = (Event * max)()
        count = self.called("epoll_wait", self.real(ep), room, max, timeout)
        return {"events": [[it.bits, it.data] for it in room[:count]]}

"""CPython's signals and asyncio's: alarms, pauses, handlers of a loop, and other threads' signals."""
import asyncio
import os
import select
import signal
import threading
import time

BEGAN = time.monotonic()


def trace(*words):
    print(f"[{round((time.monotonic() - BEGAN) * 1000)} ms]", *words, flush=True)


class Late(Exception):
    pass


def late(number, frame):
    raise Late


def alarms():
    """An alarm that ends a wait by an exception, and one that a wait outlives."""
    signal.signal(signal.SIGALRM, late)
    reader, writer = os.pipe()
    instance = select.epoll()
    instance.register(reader, select.EPOLLIN)
    for wait in (lambda: os.read(reader, 1), instance.poll, lambda: time.sleep(100), signal.pause,
                 lambda: select.select([reader], [], [])):
        signal.setitimer(signal.ITIMER_REAL, 0.2)
        try:
            wait()
        except Late:
            trace("late")
    heard = []
    signal.signal(signal.SIGALRM, lambda number, frame: heard.append(number))
    signal.setitimer(signal.ITIMER_REAL, 0.1, 0.1)
    trace("poll", instance.poll(0.55), len(heard))
    signal.setitimer(signal.ITIMER_REAL, 0)
    signal.alarm(2)
    trace("alarm", signal.alarm(0))
    signal.pthread_sigmask(signal.SIG_BLOCK, [signal.SIGALRM])
    signal.alarm(1)
    trace("sigwait", signal.sigwait([signal.SIGALRM]).name)
    trace("sigtimedwait", signal.sigtimedwait([signal.SIGALRM], 0.3))
    signal.pthread_sigmask(signal.SIG_UNBLOCK, [signal.SIGALRM])
    instance.close()
    os.close(reader)
    os.close(writer)


def between_threads():
    """A signal of another thread, by the file descriptor that CPython writes to in its handler."""
    reader, writer = os.pipe()
    os.set_blocking(writer, False)
    before = signal.set_wakeup_fd(writer)
    signal.signal(signal.SIGUSR1, lambda number, frame: trace("handler"))

    def send():
        time.sleep(0.2)
        os.kill(os.getpid(), signal.SIGUSR1)

    thread = threading.Thread(target=send)
    thread.start()
    got = os.read(reader, 10)
    thread.join()
    trace("wakeup", got == bytes([signal.SIGUSR1]))
    signal.set_wakeup_fd(before)
    os.close(reader)
    os.close(writer)


async def main():
    """Handlers of a loop: a timer's, and those of another thread."""
    loop = asyncio.get_running_loop()
    came = asyncio.Queue()
    loop.add_signal_handler(signal.SIGALRM, came.put_nowait, "alarm")
    loop.add_signal_handler(signal.SIGUSR1, came.put_nowait, "usr1")
    signal.setitimer(signal.ITIMER_REAL, 0.3)
    trace(await came.get())
    await loop.run_in_executor(None, lambda: signal.pthread_kill(threading.main_thread().ident, signal.SIGUSR1))
    trace(await came.get())
    signal.raise_signal(signal.SIGUSR1)
    trace(await came.get())
    loop.remove_signal_handler(signal.SIGALRM)
    loop.remove_signal_handler(signal.SIGUSR1)


alarms()
between_threads()
asyncio.run(main())

"""Children over asyncio, with each way to hear of their end: what they say, and how they end."""
import asyncio
import concurrent.futures
import multiprocessing
import os
import signal
import subprocess
import time

BEGAN = time.monotonic()


def trace(*words):
    print(f"[{round((time.monotonic() - BEGAN) * 1000)} ms]", *words, flush=True)


async def converse():
    """A child that answers each line."""
    child = await asyncio.create_subprocess_exec("cat", stdin=subprocess.PIPE, stdout=subprocess.PIPE)
    for number in range(3):
        child.stdin.write(b"line %d\n" % number)
        await child.stdin.drain()
        trace(await child.stdout.readline())
    child.stdin.close()
    trace(await child.stdout.read(), await child.wait())


async def close_reader():
    """Who closes its reader before it writes ends a child that writes."""
    child = await asyncio.create_subprocess_exec("cat", stdin=subprocess.PIPE, stdout=subprocess.PIPE,
                                                 stderr=subprocess.DEVNULL)
    child._transport.get_pipe_transport(1).close()
    await asyncio.sleep(0.01)
    child.stdin.write(b"for nobody\n")
    trace("ends", await child.wait() != 0)


async def guard():
    """A time that comes while a child sleeps, and one that doesn't."""
    child = await asyncio.create_subprocess_exec("sleep", "100")
    try:
        await asyncio.wait_for(child.wait(), 0.2)
    except asyncio.TimeoutError:
        trace("it sleeps")
    child.terminate()
    trace("terminated", await asyncio.wait_for(child.wait(), 60))


async def echo():
    child = await asyncio.create_subprocess_shell("echo to stdout; echo to stderr >&2; exit 4", stdout=subprocess.PIPE,
                                                  stderr=subprocess.PIPE)
    trace(await child.communicate(), child.returncode)


async def much():
    child = await asyncio.create_subprocess_exec("cat", stdin=subprocess.PIPE, stdout=subprocess.PIPE)
    out, _ = await child.communicate(bytes(range(256)) * 4096)
    trace(len(out), out == bytes(range(256)) * 4096, child.returncode)


async def many():
    async def one(number):
        child = await asyncio.create_subprocess_exec("echo", str(number), stdout=subprocess.PIPE)
        out, _ = await child.communicate()
        return int(out)

    trace(sum(await asyncio.gather(*(one(number) for number in range(20)))))


async def all_of_them():
    for part in echo, converse, close_reader, guard, much, many:
        await part()
    try:
        await asyncio.create_subprocess_exec("/no-such-program")
    except FileNotFoundError as error:
        trace(error)


def square(number):
    return number * number


def pools():
    """Children that run no program, and share a pipe."""
    with concurrent.futures.ProcessPoolExecutor(3, multiprocessing.get_context("fork")) as pool:
        trace(list(pool.map(square, range(20))))


def main():
    for kind in asyncio.PidfdChildWatcher, asyncio.ThreadedChildWatcher, asyncio.SafeChildWatcher:
        loop = asyncio.new_event_loop()
        asyncio.set_event_loop(loop)
        watcher = kind()
        watcher.attach_loop(loop)
        asyncio.set_child_watcher(watcher)
        trace(kind.__name__)
        loop.run_until_complete(all_of_them())
        watcher.close()
        loop.close()
    pools()
    trace(subprocess.run(["sh", "-c", "kill -9 $$"]).returncode == -signal.SIGKILL)
    trace(os.waitstatus_to_exitcode(os.system("exit 3")))
    time.sleep(0.1)
    trace("end")


main()

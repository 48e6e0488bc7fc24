"""The link of a call to a Dask cluster: a process that does nothing else. It imports Dask and connects while the call looks for its jobs, and the call
needn't wait until Dask has ended.

Usage: dask_link.py ADDRESS CALL WORD..

The words start a Python that answers jobs, and the call names it on each worker. A line of standard input is a batch of jobs, as an object of JSON. A
line of standard output says that a batch has ended, and how; the first line says that the cluster is there, or why it isn't. The end of standard input
ends the link.
"""
import asyncio
import collections
import concurrent.futures
import contextlib
import gc
import json
import logging
import os
import subprocess
import sys
import warnings
from typing import Any, Deque

# How long a cluster without a worker is waited for.
WITHOUT_WORKERS = 30.0
# What a client raises whose scheduler has gone: of batches that it waits for, and of what it asks then.
GONE = (asyncio.CancelledError, concurrent.futures.CancelledError, OSError)
# A client that connects imports these, if it can, to say their versions. That takes longer than all else, and nothing here needs them.
UNUSED = ("numpy", "pandas")
Python = subprocess.Popen


def drop_ended(pythons: dict[str, Deque[Python]]) -> None:
    """Lets go of those of former calls: a Python that has ended is still a process and two pipes, until it is asked for and forgotten."""
    for call, idle in list(pythons.items()):
        if idle and all(kept.poll() is not None for kept in list(idle)):
            pythons.pop(call, None)


def a_python(pythons: dict[str, Deque[Python]], call: str, words: list[str]) -> Python:
    """One that waits for jobs of the call, else a new one. A Python that has waited for too long has ended."""
    with contextlib.suppress(IndexError):
        while True:
            kept = pythons[call].pop()
            if kept.poll() is None:
                return kept
    drop_ended(pythons)
    return subprocess.Popen(words, stdin=subprocess.PIPE, stdout=subprocess.PIPE, text=True)


def answers(call: str, words: list[str], jobs: list[str]) -> list[str]:
    """What a worker does with a batch: the answers to the first of these jobs, as many as there was time for. It goes to workers by value, with all that
    it names here."""
    from distributed import get_worker

    pythons = vars(get_worker()).setdefault("mapf_pythons", {})
    # Each thread of a worker takes a Python of its own, and gives it back.
    idle = pythons.setdefault(call, collections.deque())
    kept, lines = a_python(pythons, call, words), []
    with contextlib.suppress(OSError):
        print(json.dumps(jobs), file=kept.stdin, flush=True)
    for line in kept.stdout:
        # Behind its last answer.
        if line == "\n":
            idle.append(kept)
            return lines
        lines.append(line)
    kept.kill()
    kept.wait()
    return lines


def in_a_line(fault: BaseException) -> str:
    return f"{type(fault).__name__}: {fault}".partition("\n")[0]


class Link:
    """A client of the cluster that hands out the batches of a call."""

    def __init__(self, call: str, words: list[str], out: asyncio.WriteTransport):
        self.call, self.words, self.out = call, words, out
        self.client: Any = None
        # Kept, since a batch that nobody waits for is dropped.
        self.first: list[Any] = []

    def tell(self, **said: object) -> None:
        self.out.write(f"{json.dumps(said)}\n".encode())

    def handed_out(self, jobs: list[str], **where: object) -> Any:
        return self.client.submit(answers, self.call, self.words, jobs, pure=False, **where)

    async def connect(self, address: str) -> None:
        """Connects, and has workers start their Pythons by batches of no jobs: jobs may come later."""
        from distributed import Client

        try:
            self.client = await Client(address, asynchronous=True, set_as_default=False)
            threads = await self.client.nthreads()
            self.first = [self.handed_out([], workers=[worker]) for worker, count in threads.items() for _ in range(count)]
            self.tell(threads=sum(threads.values()))
        # Whatever a cluster fails of, the call is told: it waits for that.
        except (Exception, asyncio.CancelledError) as fault:
            self.tell(bad=in_a_line(fault))

    async def see_to(self, line: bytes) -> None:
        """Sees a batch to its end, and tells it."""
        try:
            self.tell(**await self.ended(**json.loads(line)))
        except GONE:
            self.tell(bad="its scheduler is gone")
        except Exception as fault:
            self.tell(bad=in_a_line(fault))

    async def ended(self, batch: int, jobs: list[str]) -> dict[str, object]:
        """What there is to tell of a batch, once it has ended."""
        future = self.handed_out(jobs)
        end = asyncio.ensure_future(future.exception())
        while not (await asyncio.wait([end], timeout=WITHOUT_WORKERS))[0]:
            if not await self.client.nthreads():
                return {"bad": "it has no worker"}
        fault = in_a_line(end.result()) if future.status == "error" else ""
        lines = [] if fault else await future
        return {"batch": batch, "lines": lines, "fault": fault, "threads": sum((await self.client.nthreads()).values())}


async def serve(address: str, call: str, *words: str) -> None:
    """Takes batches until the call ends."""
    loop, reader = asyncio.get_running_loop(), asyncio.StreamReader(limit=sys.maxsize)
    await loop.connect_read_pipe(lambda: asyncio.StreamReaderProtocol(reader), sys.stdin)
    # Neither end of a pipe waits here: else this process and the call might wait for one another.
    out, _ = await loop.connect_write_pipe(asyncio.BaseProtocol, sys.stdout)
    link = Link(call, list(words), out)
    running = {asyncio.ensure_future(link.connect(address))}
    async for line in reader:
        task = asyncio.ensure_future(link.see_to(line))
        running.add(task)
        task.add_done_callback(running.discard)


def import_dask() -> None:
    """Imports Dask, and nothing that it can do without."""
    # What lies here isn't meant where Dask imports a module of the same name.
    here = os.path.dirname(os.path.realpath(__file__))
    sys.path[:] = [folder for folder in sys.path if folder != here]
    # For Python a module that is None here isn't installed.
    sys.modules.update(dict.fromkeys(UNUSED))
    # The collector looks through all modules again and again, and finds nothing.
    gc.disable()
    import distributed  # noqa: F401

    gc.enable()


def main(words: list[str]) -> None:
    logging.disable(logging.CRITICAL)
    warnings.simplefilter("ignore")
    try:
        import_dask()
    except ImportError:
        print(json.dumps({"lacks": "distributed"}), flush=True)
    except Exception as fault:
        print(json.dumps({"bad": in_a_line(fault)}), flush=True)
    else:
        asyncio.run(serve(*words))


if __name__ == "__main__":
    try:
        main(sys.argv[1:])
    finally:
        # Dask takes a while to end, and has nothing to end here.
        os._exit(0)

"""Many runs of the program at once: on all cores of this machine, or on the machines of a running Dask cluster."""
from __future__ import annotations

import os
import subprocess
import sys
import threading
import time
import uuid
from concurrent.futures import ThreadPoolExecutor, as_completed
from contextlib import contextmanager
from dataclasses import dataclass
from typing import Any, Callable, Iterator, Sequence

from rich.console import Console
from rich.progress import BarColumn, MofNCompleteColumn, Progress, TextColumn, TimeRemainingColumn

from .errors import VpokerError
from .program import Answer, Program, find_program


@dataclass(frozen=True)
class Job:
    """One run: a key that names it, the words behind `vpoker`, and its input."""

    key: int
    words: tuple[str, ...]
    data: bytes


def run_all(program: Program, jobs: Sequence[Job], cluster: str | None = None) -> Iterator[tuple[Job, Answer]]:
    """Each job with its answer, once, as they are done. `cluster` is the address of a Dask scheduler."""
    if cluster:
        yield from _on_cluster(program, jobs, cluster)
    else:
        yield from _on_cores(program, jobs)


def cores() -> int:
    """How many runs are at work at a time."""
    return len(os.sched_getaffinity(0))


def _on_cores(program: Program, jobs: Sequence[Job]) -> Iterator[tuple[Job, Answer]]:
    running: set[subprocess.Popen[bytes]] = set()
    guard, stop = threading.Lock(), threading.Event()

    def work(job: Job) -> Answer:
        with guard:
            if stop.is_set():
                return Answer(9, b"")
            process = subprocess.Popen([str(program.path), *job.words], stdin=subprocess.PIPE, stdout=subprocess.PIPE)
            running.add(process)
        output, _ = process.communicate(job.data)
        with guard:
            running.discard(process)
        return Answer(process.returncode, output)

    pool = ThreadPoolExecutor(min(cores(), max(1, len(jobs))))
    try:
        waiting = {pool.submit(work, job): job for job in jobs}
        for done in as_completed(waiting):
            yield waiting[done], done.result()
    finally:
        with guard:
            stop.set()
            for process in running:
                process.terminate()
        pool.shutdown(cancel_futures=True)


def run_on_worker(words: tuple[str, ...], data: bytes, sha256: str) -> tuple[int, bytes]:
    """One run on a machine of a cluster, by the program that is found there; it has to be the same file."""
    program = find_program()
    if program.sha256 != sha256:
        raise VpokerError(f"the program {program.path} of this worker is another than that of `vp`")
    answer = program.answer(list(words), data)
    if answer.status < 0 or answer.status in (4, 5, 6):
        raise VpokerError(f"a run on a worker ended with {answer.status}")
    return answer.status, answer.output


def _on_cluster(program: Program, jobs: Sequence[Job], address: str) -> Iterator[tuple[Job, Answer]]:
    try:
        import distributed
    except ImportError as missing:
        raise VpokerError("--cluster needs dask.distributed: Debian's python3-distributed, or pip install distributed") from missing
    try:
        client = distributed.Client(address, timeout=10)
    except (OSError, ValueError) as fault:
        raise VpokerError(f"there is no Dask scheduler at {address}: {fault}") from fault
    with client:
        shared: dict[int, Any] = {}
        waiting: dict[Any, Job] = {}
        run = uuid.uuid4().hex
        for job in jobs:
            if len(job.data) > 100000 and id(job.data) not in shared:
                shared[id(job.data)] = client.scatter(job.data, broadcast=True, hash=False)
            data = shared.get(id(job.data), job.data)
            future = client.submit(run_on_worker, job.words, data, program.sha256, key=f"vp-{run}-{job.key}", retries=3)
            waiting[future] = job
        for future in distributed.as_completed(list(waiting)):
            status, output = future.result()
            yield waiting[future], Answer(status, output)


@contextmanager
def progress(title: str, total: int, done: int = 0) -> Iterator[Callable[[int], None]]:
    """A bar on standard error with the time that is left; without a terminal, a line each half minute.

    What it yields is called with the number of units that are done besides.
    """
    console = Console(file=sys.stderr)
    if console.is_terminal:
        columns = (TextColumn("{task.description}"), BarColumn(), MofNCompleteColumn(), TimeRemainingColumn())
        with Progress(*columns, console=console, transient=True) as bar:
            task = bar.add_task(title, total=total, completed=done)
            yield lambda units: bar.advance(task, units)
        return
    counted, last = done, time.monotonic()

    def count(units: int) -> None:
        nonlocal counted, last
        counted += units
        if time.monotonic() - last > 30:
            last = time.monotonic()
            print(f"{title}: {counted} of {total}", file=sys.stderr, flush=True)

    yield count

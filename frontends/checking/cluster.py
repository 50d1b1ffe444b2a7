"""A cluster of Dask's that makes shares, and the report on a program in parts.

Its workers start a process for each share and each part, by the check-c that has the same path
there: nothing of ours is loaded into them, and nothing is left of what an earlier run read.
"""

from __future__ import annotations

import importlib
import json
import logging
import os
import subprocess
import tempfile
import time
import warnings
from collections.abc import Iterator
from contextlib import contextmanager, suppress
from queue import Empty, SimpleQueue
from typing import TYPE_CHECKING, Any

from gimple.faults import Refusal

from .compiling import BadWords, Unusable
from .facts import decoded
from .makers import ENVIRONMENT, makers, sum_told
from .part import FAILED
from .programs import HERE
from .reports import answered, part_of_report
from .shares import found_or_made
from .sums import sum_of

if TYPE_CHECKING:
    from .cache import Cache
    from .compiling import Input
    from .shares import Making, Share
    from .workers import Made

    Done = subprocess.CompletedProcess[bytes]

# The variables that bear on what is made and said, and on where Python keeps what it compiles.
SENT = (
    *("GCC", "TACVIEW", "TACLINT", *ENVIRONMENT, "LANG", "LANGUAGE", "LC_ALL", "LC_CTYPE", "LC_MESSAGES"),
    *("PYTHONPYCACHEPREFIX", "PYTHONDONTWRITEBYTECODE"),
)
# What a worker runs: it tells its machine's name, and then the share or the part.
SCRIPT = 'uname -n && cd -- "$0" && exec python3 -m "$@"'
# A program's report is made in at most so many parts.
PARTS = 64
# Seconds: until the scheduler has to answer, between two looks at one that tells nothing, and until
# a cluster without workers is given up.
ANSWERING = 15
BETWEEN = 5
ALONE = 60


class Failed(Exception):
    """What kept a worker from its work; another one, or this process, may do it."""


class Cluster:
    """The workers of a scheduler."""

    count = 1

    def __init__(self, address: str) -> None:
        self.address = address
        try:
            self.dask: Any = importlib.import_module("distributed")
            # a client that can't begin for that reason would wait at the end
            self.dask.comm.get_address_host_port(address)
        except ImportError as fault:
            raise BadWords(f"--cluster needs Dask's distributed for Python: {fault}") from None
        except ValueError as fault:
            raise BadWords(f"--cluster {address}: {fault}") from None
        # what is wrong is told in one line here
        logging.disable(logging.CRITICAL)
        self.seen = time.monotonic()  # when there were workers, or one had done something

    def made(self, making: Making, groups: list[list[Input]], cache: Cache | None) -> Made:
        """The shares of all sources."""
        jobs = jobs_of(making, groups, cache)
        with self.client() as client:
            done: SimpleQueue[Any] = SimpleQueue()
            waiting: dict[str, tuple[int, Any]] = {}
            for number, text in enumerate(jobs):
                # an impure one: what ran before, for whomever, is not taken for it
                future = client.submit(
                    *(subprocess.run, command("checking.job")),
                    input=text,
                    capture_output=True,
                    pure=False,
                )
                waiting[future.key] = (number, future)
                future.add_done_callback(done.put)
            while waiting:
                try:
                    future = done.get(timeout=1)
                except Empty:
                    self.look_after(client)
                    yield None
                    continue
                number, _ = waiting.pop(future.key)
                yield number, self.share_of(client, future, making, groups[number], cache)

    def report(self, pieces: list[str]) -> tuple[str, list[str]]:
        """The report on a text, of which each worker makes a part for each of its threads; merged
        here.
        """
        text = "".join(pieces).encode("ascii")
        head = json.dumps(sum_told("tacview")).encode("ascii") + b"\n"
        with self.client() as client:
            given = self.scattered(client, head + text)
            count = min(self.threads(client), PARTS)
            futures = [
                client.submit(
                    *(subprocess.run, command("checking.part", str(number), str(count))),
                    input=given,
                    capture_output=True,
                    pure=False,
                )
                for number in range(1, count + 1)
            ]
            parts = []
            said = []
            for number, future in enumerate(futures, 1):
                try:
                    parts.append(self.part_of(client, future))
                except Failed as failed:
                    parts.append(part_of_report(text, number, count))
                    said.append(f"part {number} failed on the cluster, and not here: {failed}")
        merged, more = merged_parts(parts)
        return merged, said + more

    def scattered(self, client: Any, data: bytes) -> Any:
        """Data that is sent to each worker once, as soon as there is one."""
        while True:
            try:
                return client.scatter(data, broadcast=True, hash=False, timeout=BETWEEN)
            except self.dask.TimeoutError:
                self.look_after(client)

    def threads(self, client: Any) -> int:
        """How many processes the workers start side by side, at least one."""
        known = client.sync(client.scheduler.identity)
        return max(1, sum(worker["nthreads"] for worker in known["workers"].values()))

    def part_of(self, client: Any, future: Any) -> str:
        """The part that a worker made."""
        try:
            done = self.result_of(client, future)
        except Unusable:
            # a text that is gone with its workers is lost, and the scheduler is still there
            self.seen = time.monotonic() - BETWEEN
            self.look_after(client)
            raise Failed("the text was lost there") from None
        if done.returncode == FAILED:
            raise Failed(f"{host_of(done)}: {last_line(done)}")
        return told_by(done).decode("ascii")

    @contextmanager
    def client(self) -> Iterator[Any]:
        """A client of the scheduler; what still runs at the end is given up."""
        try:
            with warnings.catch_warnings():
                warnings.simplefilter("ignore")  # of other versions there: what counts is compared
                client = self.dask.Client(self.address, timeout=ANSWERING, set_as_default=False)
        except (OSError, ValueError) as fault:
            raise self.unusable(str(fault)) from None
        self.seen = time.monotonic()
        try:
            yield client
        finally:
            # a scheduler that is gone keeps no client waiting
            with suppress(OSError, self.dask.TimeoutError, self.dask.CancelledError):
                client.close(timeout=1)

    def unusable(self, text: str) -> Unusable:
        """What is wrong with the scheduler."""
        return Unusable([f"--cluster {self.address}: {text}"])

    def look_after(self, client: Any) -> None:
        """Sees that the scheduler answers and has workers, where nothing was done for a while."""
        if time.monotonic() - self.seen < BETWEEN:
            return
        try:
            known = client.sync(client.scheduler.identity, callback_timeout=ANSWERING)
        except (OSError, self.dask.TimeoutError, self.dask.CancelledError):
            raise self.unusable("the scheduler answers no more") from None
        if known["workers"]:
            self.seen = time.monotonic()
        elif time.monotonic() - self.seen > ALONE:
            raise self.unusable(f"the scheduler has had no worker for {ALONE} seconds")

    def share_of(
        self, client: Any, future: Any, making: Making, given: list[Input], cache: Cache | None
    ) -> Share:
        """The share that a worker made; where it failed there, the one that is made here."""
        try:
            return read_share(self.result_of(client, future))
        except Failed as failed:
            share = found_or_made(making, given, cache, 1)
            if not share.faults:
                share.notes.append(f"{given[0].name} failed on the cluster, and not here: {failed}")
            return share

    def result_of(self, client: Any, future: Any) -> Done:
        """What a worker's process answered."""
        while True:
            try:
                result: Done = future.result(timeout=BETWEEN)
            except self.dask.CancelledError:
                raise self.unusable("the scheduler went away, or gave the work up") from None
            except Exception as fault:
                if future.status == "error":  # then it is the worker's
                    told = str(fault).partition(". ")[0]
                    raise Failed(f"{type(fault).__name__}: {told}") from None
                if not isinstance(fault, self.dask.TimeoutError):
                    raise self.unusable(str(fault)) from None
                self.look_after(client)
            else:
                self.seen = time.monotonic()
                future.release()
                return result


def command(*job: str) -> list[str]:
    """The words by which a worker does a job: a module of ours with its words."""
    gone = [part for name in SENT if name not in os.environ for part in ("-u", name)]
    there = [f"{name}={os.environ[name]}" for name in SENT if name in os.environ]
    return ["env", *gone, *there, "sh", "-c", SCRIPT, os.path.dirname(HERE), *job]


def jobs_of(making: Making, groups: list[list[Input]], cache: Cache | None) -> list[bytes]:
    """What workers have to know, for each source."""
    told: dict[str, object] = {
        "makers": makers(making),
        "folder": os.getcwd(),
        "making": vars(making) | {"kinds": sorted(making.kinds)},
        "cache": cache and cache.folder,
    }
    given = [[vars(one) for one in group] for group in groups]
    return [json.dumps(told | {"given": one}).encode("ascii") for one in given]


def merged_parts(parts: list[str]) -> tuple[str, list[str]]:
    """The report that parts make, and what tacview says of it."""
    with tempfile.TemporaryDirectory() as folder:
        paths = [os.path.join(folder, str(number)) for number in range(1, len(parts) + 1)]
        for path, part in zip(paths, parts):
            with open(path, "w", encoding="ascii") as file:
                file.write(part)
        return answered("--merge", *paths, stdin=subprocess.DEVNULL)


def host_of(done: Done) -> str:
    """The machine on which a worker's process ran."""
    return done.stdout.partition(b"\n")[0].decode("utf-8", "replace") or "a worker"


def last_line(done: Done) -> str:
    """What a worker's process said last, or its status."""
    said = done.stderr.decode("utf-8", "replace").strip().splitlines()
    return said[-1] if said else f"status {done.returncode}"


def told_by(done: Done) -> bytes:
    """What a worker's process wrote behind its machine's name, where it did its work."""
    name = host_of(done)
    if done.returncode < 0:
        raise Failed(f"{name}: its process ended by the signal {-done.returncode}")
    if done.returncode:
        raise Unusable([f"{name}: {last_line(done)}"])
    return done.stdout.partition(b"\n")[2]


def read_share(done: Done) -> Share:
    """The share that a worker's process wrote, where it was made of what is here, by what is here.

    What failed of it is tried again.
    """
    name = host_of(done)
    first, _, data = told_by(done).partition(b"\n")
    try:
        facts = decoded(data, f"what {name} sent")
        head = json.loads(first)
    except (Refusal, ValueError) as fault:
        raise Unusable([str(fault)]) from None
    other = next((path for path, known in facts.sums.items() if sum_of(path) != known), None)
    if other is not None:
        raise Unusable([f"{name} read another {other} than is here"])
    if head["faults"]:
        raise Failed(f"{name}: {head['faults'][0]}")
    facts.share.notes += head["notes"]
    return facts.share

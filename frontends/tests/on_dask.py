"""Tries check-c on a Dask cluster, with a scheduler and workers on this machine: `clusters` calls
this.

Not verified.
"""

from __future__ import annotations

import json
import os
import shutil
import signal
import subprocess
import sys
import time
from collections.abc import Iterator
from itertools import zip_longest

from farm import CHECK, HERE, WORDS, Farm, told
from on_terminal import run_on_terminal, wrong_line

# Debian's package python3-distributed is of its own Python.
PYTHONS = (sys.executable, "/usr/bin/python3")
# Counts in a file how often it is run for a C file, for each of which it takes a while.
SLOW = """#!/bin/sh
case " $* " in *" -S "*) echo >>'{}'; sleep 0.3 ;; esac
exec {} "$@"
"""
# Writes to a file with which words tacview is run. Where there is one more, it removes that and
# ends at once the next time that it makes the second part of a report.
VIEWER = """#!/bin/sh
echo "$*" >>'{0}'
case " $*" in *" 2/"*) ! rm '{0}.ends' 2>/dev/null || kill -9 $$ ;; esac
exec {1} "$@"
"""
BROKEN = "int broken(void) { return missing; }\n"
# What a worker's machine may have in the place of another program's, and what is told of that.
OTHERS = {
    "gcc": ("#!/bin/sh\necho 'gcc version 1.0' >&2\n", "its gcc is gcc version 1.0, and where"),
    "python3": ("#!/bin/sh\ncd '{copy}' && exec '{python}' \"$@\"\n", "its check-c is "),
}
Told = tuple[int, bytes, bytes]


class Site:
    """A scheduler, its workers, and a project on which check-c is run."""

    def __init__(self, python: str, farm: Farm) -> None:
        self.python = python
        self.home = farm.machines[0]
        self.folder = farm.folder
        self.address_file = os.path.join(farm.folder, "scheduler.json")
        self.count = os.path.join(farm.folder, "runs")
        self.slow = os.path.join(farm.folder, "slow")
        write(self.slow, SLOW.format(self.count, os.environ.get("GCC", "gcc")))
        self.views = os.path.join(farm.folder, "views")
        self.viewer = os.path.join(farm.folder, "viewer")
        write(self.viewer, VIEWER.format(self.views, tacview()))
        self.workers: list[subprocess.Popen[bytes]] = []
        words = ["--port", "0", "--no-dashboard", "--no-show"]
        self.scheduler = self.begun("dask_scheduler", words, {})
        self.address = ""

    def begun(
        self, name: str, words: list[str], environment: dict[str, str]
    ) -> subprocess.Popen[bytes]:
        """A process of Dask's."""
        given = [*words, "--host", "127.0.0.1", "--scheduler-file", self.address_file]
        return subprocess.Popen(
            [self.python, "-m", f"distributed.cli.{name}", *given],
            cwd=self.folder,
            env=os.environ | environment,
            stdin=subprocess.DEVNULL,
            stdout=subprocess.DEVNULL,
            stderr=subprocess.DEVNULL,
        )

    def start(self, count: int, **environment: str) -> None:
        """Starts workers."""
        words = ["--nthreads", "1", "--no-nanny", "--no-dashboard", "--death-timeout", "60"]
        words += ["--local-directory", self.folder]
        self.workers += [self.begun("dask_worker", words, environment) for _ in range(count)]
        while not self.address:
            time.sleep(0.1)
            if os.path.exists(self.address_file):
                with open(self.address_file, encoding="utf-8") as file:
                    text = file.read()
                self.address = json.loads(text)["address"] if text.endswith("}") else ""

    def stop(self) -> None:
        """Ends all workers at once."""
        for worker in self.workers:
            worker.kill()
        for worker in self.workers:
            worker.wait()
        self.workers = []

    def end(self) -> None:
        """Ends all that was started."""
        self.stop()
        self.scheduler.kill()
        self.scheduler.wait()

    def command(self, words: list[str], where: list[str]) -> list[str]:
        """The words of a run."""
        return [self.python, CHECK, *WORDS, *words, *where]

    def begin(self, words: list[str], address: str = "") -> subprocess.Popen[bytes]:
        """Begins a run on the cluster, with a slow gcc and a tacview that tells its words."""
        open(self.count, "w").close()
        open(self.views, "w").close()
        return subprocess.Popen(
            self.command(words, ["--cluster", address or self.address]),
            cwd=self.home,
            stdout=subprocess.PIPE,
            stderr=subprocess.PIPE,
            env=os.environ | {"GCC": self.slow, "TACVIEW": self.viewer},
        )

    def runs(self) -> int:
        """How often gcc was run for a C file in the last run."""
        return os.path.getsize(self.count)

    def parts(self) -> list[str]:
        """Which parts of a report were made in the last run, and how many of them were merged."""
        with open(self.views, encoding="utf-8") as file:
            lines = [line.split() for line in file]
        made = sorted(words[-1] for words in lines if "--part" in words)
        return made + [f"{len(words) - 1} merged" for words in lines if words[0] == "--merge"]

    def here(self, words: list[str]) -> Told:
        """What processes of this machine answer."""
        command = self.command(words, ["-j", "2"])
        env = os.environ | {"TACVIEW": self.viewer}
        return told(
            subprocess.run(command, cwd=self.home, capture_output=True, check=False, env=env)
        )


def tacview() -> str:
    """The program that runs take."""
    return os.environ.get("TACVIEW", os.path.join(HERE, "..", "..", "tacview"))


def write(path: str, text: str) -> None:
    """Writes a script."""
    with open(path, "w", encoding="utf-8") as file:
        file.write(text)
    os.chmod(path, 0o755)


def ended(run: subprocess.Popen[bytes]) -> Told:
    """What a run answers."""
    out, said = run.communicate(timeout=120)
    return run.returncode, out, said


def wrong_on_dask(farm: Farm) -> Iterator[str]:
    """What is wrong with runs on a cluster."""
    python = next(filter(has_dask, PYTHONS), None)
    if python is None:
        print("skipped: no Python with Dask's distributed")
        return
    site = Site(python, farm)
    sources = farm.sources[:5]
    nobody = site.begin(sources, "127.0.0.1:9")
    try:
        site.start(4)
        yield from wrong_answers(site, sources)
        yield from wrong_machines(site, sources)
        yield from wrong_schedulers(site, sources)
    finally:
        site.end()
        said = ended(nobody)
    yield from unless_refused("no scheduler", said, 3, "--cluster 127.0.0.1:9: Timed out")


def difference(found: Told, wanted: Told) -> str:
    """Where an answer differs from the one that is wanted."""
    if found[0] != wanted[0]:
        return f"status {found[0]} in place of {wanted[0]}"
    pairs = zip_longest(*((one[1] + one[2]).splitlines() for one in (found, wanted)))
    lines = next(((one, other) for one, other in pairs if one != other), ("nothing", "nothing"))
    return f"{lines[0]!r} in place of {lines[1]!r}"


def has_dask(python: str) -> bool:
    """Whether a Python has what --cluster needs."""
    done = subprocess.run([python, "-c", "import distributed"], capture_output=True, check=False)
    return not done.returncode


def wrong_answers(site: Site, sources: list[str]) -> Iterator[str]:
    """What is wrong with the answers: a file that gcc refuses and a worker that is killed among
    them, then one program, then a cache.
    """
    write(os.path.join(site.home, "broken.c"), BROKEN)
    files = [*sources, "broken.c"]
    wanted = site.here(files)
    run = site.begin(files)
    while site.runs() < 3 and run.poll() is None:
        time.sleep(0.02)
    has_begun = run.poll() is None
    site.workers[0].kill()
    found = ended(run)
    if found != wanted or not has_begun or wanted[0] != 3:
        yield f"a worker is killed: {difference(found, wanted)}"
    # the file that gcc refuses is tried here too
    every = len(files) + 1
    steps: list[tuple[list[str], int]] = [([], every), ([], 2), (["--together"], every)]
    for words, count in steps:
        wanted = site.here([*words, *files])
        time.sleep(0.1)  # what is as new as a run is not kept
        found = ended(site.begin([*words, "--cache", "cache", *files]))
        if found != wanted or site.runs() != count:
            yield f"{words}: {site.runs()} runs: {difference(found, wanted)}"
    # the last run is of one program, by the three workers that are left
    if site.parts() != ["1/3", "2/3", "3/3", "3 merged"]:
        yield f"parts of a report: {site.parts()}"
    open(site.views + ".ends", "w").close()
    found = ended(site.begin(["--together", *files]))
    note = b"part 2 failed on the cluster, and not here"
    if found[:2] != wanted[:2] or note not in found[2]:
        yield f"a part that fails: {difference(found, wanted)}"
    for words in (["--executions"], ["--executions", "--together"]):
        wanted = site.here([*words, *files])
        found = ended(site.begin([*words, *files]))
        if found != wanted or site.parts():
            yield f"{words}: {site.parts()} {difference(found, wanted)}"
    command = site.command(sources, ["--cluster", site.address])
    yield from wrong_line(run_on_terminal(command, site.home, GCC=site.slow), len(sources))


def wrong_machines(site: Site, sources: list[str]) -> Iterator[str]:
    """What is wrong where a worker's machine has not what the run has."""
    site.stop()
    copy, version = os.path.join(site.folder, "other", "frontends"), "bindings/rust/Cargo.toml"
    shutil.copytree(os.path.dirname(CHECK), copy)
    os.makedirs(os.path.join(copy, "..", os.path.dirname(version)))
    shutil.copy(os.path.join(HERE, "..", "..", version), os.path.join(copy, "..", version))
    with open(os.path.join(copy, "checking", "job.py"), "a", encoding="utf-8") as file:
        file.write("# another one\n")
    host = os.uname().nodename
    paths = {}
    for name, (script, says) in OTHERS.items():
        folder = os.path.join(site.folder, f"other_{name}")
        os.mkdir(folder)
        write(os.path.join(folder, name), script.format(copy=copy, python=site.python))
        paths[f"{folder}:{os.environ['PATH']}"] = says
    bare = os.path.join(site.folder, "bare")
    os.mkdir(bare)
    for name in ("env", "sh", "uname", "python3"):
        os.symlink(site.python if name == "python3" else str(shutil.which(name)), f"{bare}/{name}")
    paths[bare] = "gcc: No such file or directory"
    here = {name: value for name, value in os.environ.items() if name != "GCC"}
    for path, says in paths.items():
        site.start(1, PATH=path)
        command = site.command(sources[:2], ["--cluster", site.address])
        found = told(
            subprocess.run(command, cwd=site.home, capture_output=True, check=False, env=here)
        )
        yield from unless_refused(path, found, 3, f"{host}: {says}")
        site.stop()


def wrong_schedulers(site: Site, sources: list[str]) -> Iterator[str]:
    """What is wrong where a scheduler goes away, or is none."""
    found = ended(site.begin(sources, "nonsense"))
    yield from unless_refused("nonsense", found, 2, "missing port number")
    site.start(2)
    run = site.begin(sources)
    while site.runs() < 2 and run.poll() is None:
        time.sleep(0.02)
    began = time.monotonic()
    site.scheduler.send_signal(signal.SIGKILL)
    yield from unless_refused("a scheduler is killed", ended(run), 3, "the scheduler went away")
    if time.monotonic() - began > 30:
        yield f"a scheduler is killed: {time.monotonic() - began} s"


def unless_refused(case: str, found: Told, status: int, says: str) -> Iterator[str]:
    """What is wrong unless a run ends with this status and one line that has these words."""
    lines = found[2].decode("utf-8").splitlines()
    if found[:2] != (status, b"") or len(lines) != 1 or says not in lines[0]:
        yield f"{case}: {found}"

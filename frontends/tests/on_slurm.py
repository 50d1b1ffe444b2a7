"""Tries examples/clusters/by-slurm, by a Slurm with one node that is started here: `clusters` calls
this.

Not verified.
"""

from __future__ import annotations

import os
import shutil
import socket
import subprocess
import sys
import time
from collections.abc import Iterator

from farm import CHECK, EXAMPLES, WORDS, Farm, run

PROGRAMS = ("munged", "slurmctld", "slurmd", "sbatch", "sinfo")
SETTINGS = """ClusterName=tried
SlurmctldHost={host}(127.0.0.1)
SlurmctldPort={ports[0]}
SlurmdPort={ports[1]}
AuthInfo=socket={folder}/munge.socket
SlurmUser=root
StateSaveLocation={folder}/state
SlurmdSpoolDir={folder}/spool
SlurmctldPidFile={folder}/slurmctld.pid
SlurmdPidFile={folder}/slurmd.pid
ProctrackType=proctrack/pgid
TaskPlugin=task/none
SelectType=select/cons_tres
SelectTypeParameters=CR_CPU
SchedulerParameters=sched_interval=1,batch_sched_delay=0
NodeName={host} NodeAddr=127.0.0.1 CPUs=2 State=UNKNOWN
PartitionName=all Nodes=ALL Default=YES MaxTime=INFINITE State=UP
"""
# Seconds that it may take to begin.
BEGINNING = 30
BROKEN = "int broken(void) { return missing; }\n"


class Slurm:
    """A Slurm of its own, with its settings, its state and its key in a folder."""

    def __init__(self, folder: str) -> None:
        self.folder = folder
        self.processes: list[subprocess.Popen[bytes]] = []
        for name in ("state", "spool"):
            os.makedirs(os.path.join(folder, name))
        self.settings = os.path.join(folder, "slurm.conf")
        host = socket.gethostname().partition(".")[0]
        with open(self.settings, "w", encoding="utf-8") as file:
            file.write(SETTINGS.format(host=host, folder=folder, ports=free_ports(2)))
        self.environment = os.environ | {"SLURM_CONF": self.settings}

    def begin(self) -> str:
        """Begins it; answers why it can't be, '' where it runs."""
        key = os.path.join(self.folder, "munge.key")
        with open(os.open(key, os.O_CREAT | os.O_WRONLY, 0o600), "wb") as file:
            file.write(os.urandom(128))
        words = [f"--socket={self.folder}/munge.socket"]
        for word in ("key", "pid", "log", "seed"):
            words.append(f"--{word}-file={self.folder}/munge.{word}")
        for command in (["munged", "-F", "-f", *words], ["slurmctld", "-D"], ["slurmd", "-D"]):
            with open(os.path.join(self.folder, f"{command[0]}.said"), "wb") as said:
                self.processes.append(
                    subprocess.Popen(
                        command, env=self.environment, stdout=said, stderr=subprocess.STDOUT
                    )
                )
            time.sleep(0.5)
        end = time.monotonic() + BEGINNING
        while time.monotonic() < end:
            done = subprocess.run(
                ["sinfo", "-h", "-o", "%T"], env=self.environment, capture_output=True, check=False
            )
            if done.stdout.strip() == b"idle":
                return ""
            time.sleep(0.5)
        return self.said()

    def said(self) -> str:
        """What its processes said last."""
        lines = []
        for command in PROGRAMS[:3]:
            path = os.path.join(self.folder, f"{command}.said")
            with open(path, encoding="utf-8", errors="replace") as file:
                lines += [f"{command}: {line.strip()}" for line in file.readlines()[-1:]]
        return "; ".join(lines) or "it did not begin"

    def end(self) -> None:
        """Ends what was started."""
        for process in reversed(self.processes):
            process.terminate()
            try:
                process.wait(10)
            except subprocess.TimeoutExpired:
                process.kill()


def free_ports(count: int) -> list[int]:
    """Ports of this machine that nobody has."""
    sockets = [socket.socket() for _ in range(count)]
    for one in sockets:
        one.bind(("127.0.0.1", 0))
    ports = [one.getsockname()[1] for one in sockets]
    for one in sockets:
        one.close()
    return ports


def wrong_on_slurm(farm: Farm) -> Iterator[str]:
    """What is wrong with the example for Slurm."""
    missing = [name for name in PROGRAMS if not shutil.which(name)]
    if missing or os.geteuid():
        print(f"skipped: no {missing[0]}" if missing else "skipped: Slurm is started by root alone")
        return
    slurm = Slurm(os.path.join(farm.folder, "slurm"))
    try:
        why = slurm.begin()
        if why:
            print(f"skipped: Slurm does not begin: {why}")
            return
        yield from wrong_arrays(farm, slurm)
    finally:
        slurm.end()


def wrong_arrays(farm: Farm, slurm: Slurm) -> Iterator[str]:
    """What is wrong with an array of good files, and with one in which gcc refuses a file."""
    good, bad = farm.machines[:2]
    names = [*farm.sources[:4], "part 7.c"]
    for home in (good, bad):
        for source in set(farm.sources) - set(names):
            os.remove(os.path.join(home, source))
        shutil.copy(os.path.join(EXAMPLES, "by-slurm"), home)
    with open(os.path.join(bad, "broken.c"), "w", encoding="utf-8") as file:
        file.write(BROKEN)
    how = slurm.environment | {"CFLAGS": " ".join(WORDS), "CHECK_C": f"{sys.executable} {CHECK}"}
    ways = {good: "2", bad: "1"}
    runs = {
        home: subprocess.Popen(
            ["sh", "by-slurm"], cwd=home, env=how | {"PER": per}, stderr=subprocess.PIPE
        )
        for home, per in ways.items()
    }
    said = {home: run.communicate(timeout=180)[1] for home, run in runs.items()}
    path = os.path.join(good, "facts", "remarks")
    wanted = run([*WORDS, *names], good).stdout
    if runs[good].returncode or not os.path.exists(path):
        yield f"slurm: {runs[good].returncode} {said[good]!r} {slurm.said()}"
    else:
        with open(path, "rb") as file:
            found = file.read()
        if found != wanted:
            yield f"slurm: {found!r} in place of {wanted!r}"
    is_written = os.path.exists(os.path.join(bad, "facts", "remarks"))
    if runs[bad].returncode != 3 or b"broken.c: gcc failed" not in said[bad] or is_written:
        yield f"slurm, a file that gcc refuses: {runs[bad].returncode} {said[bad]!r}"
